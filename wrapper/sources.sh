# shellcheck shell=bash disable=SC2034,SC2154,SC2164 # (mpheap has the other names, and reads these)
# Part of the wrapper mpheap, read by it: of which sources a build was made. A build is of those that stand here if the record beside it
# has the sums of the same files, and its own sum.

# needed_in TREE CRATE..: the crates that these are made from, in the order of its crates.txt, the lowest first.
needed_in() (
    list=$1/crates.txt
    shift
    awk -v tops="$*" '
        function need(crate, uses, count, at) {
            if (!(crate in used) || crate in needed) return
            needed[crate] = 1
            count = split(used[crate], uses, " ")
            for (at = 1; at <= count; at++) need(uses[at])
        }
        { sub(/#.*/, ""); split($0, parts, ":") }
        split(parts[1], words, " ") { names[++total] = words[1]; used[words[1]] = parts[2] }
        END {
            count = split(tops, wanted, " ")
            for (at = 1; at <= count; at++) need(wanted[at])
            for (at = 1; at <= total; at++) if (names[at] in needed) print names[at]
        }
    ' "$list"
)

# rows_in TREE CRATE..: the rows of its crates.txt of these and of what they are made from.
rows_in() {
    awk -v names="$(needed_in "$@")" '
        BEGIN { count = split(names, all, "\n"); for (at = 1; at <= count; at++) needed[all[at]] = 1 }
        { sub(/#.*/, ""); split($0, words, /[ :]+/) }
        words[1] in needed
    ' "$1/crates.txt"
}

# source_sums TREE CRATE..: a sum of each file there that they are made from: those that rt reads, which have these names.
source_sums() (
    cd "$1"
    shift
    # shellcheck disable=SC2046 # (each name becomes three words)
    { find $(needed_in . "$@" | sed 's|.*|crates/&/src crates/&/specs crates/&/proofs|') \
        -type f \( -name '*.rt' -o -name '*.antt' \) -print0 2>/dev/null || true; } | # (not each crate has all three)
        LC_ALL=C sort -z | xargs -0 sha256sum -- HANDLES
    rows_in . "$@" | sha256sum
)

# record_of TREE CRATE FILE: what the record of this build of it has to say.
record_of() {
    source_sums "$1" "$2" && sha256sum <"$3"
}

# is_package: no sources stand here, but the program that was packed.
is_package() {
    [[ -f $here/program ]]
}

# built CRATE: where the proved build of the program lies, or of the heap for C.
built() {
    if is_package; then
        echo "$here/program"
    elif [[ $1 = mpheap_c ]]; then
        echo "$here/crates/mpheap_c/out/libmpheap_c.a"
    else
        echo "$here/crates/mpheap/out/mpheap"
    fi
}

# is_proved CRATE: its proved build was made from the sources that stand here.
is_proved() {
    ! is_package || return 0
    [[ -f $(built "$1") && -f $(built "$1").sources && $(record_of "$here" "$1" "$(built "$1")") = "$(cat "$(built "$1").sources")" ]]
}

# put FROM TO: a file comes to a place at once, whole or not at all.
put() {
    mkdir -p "${2%/*}" && cp "$1" "$2.$$" && mv "$2.$$" "$2"
}

# shellcheck shell=bash disable=SC2154 # (mpheap has the other names)
# Part of the wrapper mpheap, read by it: what it says of itself. All of it answers before anything is built.

# usage: how all commands are used.
usage() {
    local command before='usage: mpheap'
    for command in "${commands[@]}"; do
        echo "$before $(form "$command")"
        echo "           ${does[$command]}"
        before='       mpheap'
    done
    echo "Each takes --help, and --quiet. 'mpheap help COMMAND' says more of one, and 'mpheap --version' which version this is."
    echo "$here/docs/SCRIPTS.md says what a script is, and $here/docs/REPLAY.md what a run that was written down is."
}

# help_of COMMAND: its form, what it does, and its rows.
help_of() {
    local at range
    echo "usage: mpheap $(form "$1")"
    echo "${does[$1]}"
    for at in ${rows_of[$1]} ${rows_of[top]}; do
        range=$(range_of "$at")
        if [[ ${row_name[at]} != --version ]]; then printf '    %-15s %s%s\n' "$(bare "$at")" "${row_says[at]}" "${range:+: $range}"; fi
    done
}

# bare AT: a row's name and the name of its value.
bare() {
    if is_option "$1" && ! is_flag "$1"; then
        echo "${row_name[$1]} ${row_value[$1]}"
    else
        echo "${row_name[$1]}"
    fi
}

# number_of_version: as pkg-config says it of the heap for C.
number_of_version() {
    if is_package; then sed -n '1s/^mpheap //p' "$here/version"; else sed -n 's/^Version: //p' "$here/c/install"; fi
}

# commit: that of these sources, and whether they are otherwise; of a package, that of which it was made.
commit() {
    local at changed
    ! is_package || { sed -n 's/^commit: //p' "$here/version" && return; }
    { [[ -e $here/.git ]] && at=$(git -C "$here" rev-parse HEAD 2>/dev/null); } || { echo "unknown" && return; }
    changed=$(git -C "$here" status --porcelain 2>/dev/null)
    echo "$at${changed:+, and changed since}"
}

# version: of a package, what was written down when it was packed.
version() {
    if is_package; then
        cat "$here/version"
    else
        echo "mpheap $(number_of_version)"
        echo "commit: $(commit)"
        echo "rules of proof: $(rt version 2>/dev/null || echo "unknown, since there is no rt on the PATH")"
    fi
}

# nearest WORD LIST: which of the list is the nearest to an unknown word, by how many letters are to be changed, if any is near. Of a list of one
# word nothing is said: that it is the only one was.
nearest() {
    awk -v word="${1//\\/}" -v list="$2" '
        function least(a, b) { return a < b ? a : b }
        function changes(one, two, i, j, above, left, row) {
            for (j = 0; j <= length(two); j++) row[j] = j
            for (i = 1; i <= length(one); i++) {
                above = row[0]
                row[0] = i
                for (j = 1; j <= length(two); j++) {
                    left = above + (substr(one, i, 1) != substr(two, j, 1))
                    above = row[j]
                    row[j] = least(left, least(row[j], row[j - 1]) + 1)
                }
            }
            return row[length(two)]
        }
        BEGIN {
            fewest = 3
            count = split(list, known)
            for (at = 1; at <= count; at++) {
                many = length(word) > 2 && index(known[at], word) == 1 ? 1 : changes(word, known[at])
                if (many < fewest && many < length(known[at])) { fewest = many; name = known[at] }
            }
            if (fewest < 3 && count > 1) printf ": the nearest is \047%s\047", name
        }
    '
}

#!/usr/bin/env bash
# tests/debian.sh [--install] [--large] [NAME..]
#
# Programs of Debian's packages that use libgc, each on a short input of tests/debian, or with --large on a larger one of tests/debian/large,
# over libgc and over libmpgc by LD_PRELOAD: the same output, status and files, in full collections, in small steps, and with the collector's
# own thread? It prints a table:
#
#     | PROGRAM | full | steps | thread | collections, of libgc and of these | seconds of the same | longest stop, in ms | MB |
#
# where full, steps and thread are `same`, `differs` (with the first line that does, and whether libgc itself differs in its own small
# steps), or `stops` (with the sentence); the longest stop is that of a collection or a cycle's end, as libgc's and libmpgc's own figures
# tell it; and MB are the most memory that was resident, by GNU time, or `-` where that isn't here. --install
# installs with apt-get what is to be had; a program that isn't here is said. With NAMEs only those run. Its last line is `N same, M not, K
# left out`. MPHEAP_ARCHIVE and MPHEAP_INCLUDE are those of gc/build. GC_FREE_SPACE_DIVISOR is the list's, unless it is set; MODES are the
# three, and SECONDS_EACH 300, unless they are set; what was said and written goes to the folder KEEP, if it is set.
#
# The lists are the files `programs` of the two folders: NAME | PACKAGES | DIVISOR | FILES that are written, and compared | COMMAND. A row whose
# command isn't found over libgc (status 127) isn't the same.
set -uo pipefail
top=$(dirname "$(dirname "$(readlink -f "${BASH_SOURCE[0]}")")")
room=$(mktemp -d)
trap 'rm -rf "$room"' EXIT
trap 'exit 143' INT TERM HUP
export LC_ALL=C.UTF-8 HOME=$room/home
read -ra modes <<<"${MODES:-full steps thread}"

# field N LINE: without the blanks round it.
field() { cut -d '|' -f "$1" <<<"$2" | sed 's/^ *//; s/ *$//'; }

# Of one package, and of all of them.
is_installed() { dpkg-query -W -f '${Status}' "$1" 2>/dev/null | grep -q 'ok installed'; }
are_installed() {
    local one
    for one in "$@"; do is_installed "$one" || return; done
}

# compile NAME: what has to be compiled before, into $room/made. Sources are those of the folder of inputs.
compile() {
    local made flags
    case $1 in
        ats) (cd "$room/made" && PATSHOME=/usr/lib/ats2-postiats-0.4.2 patscc -DATS_MEMALLOC_GCBDW "$inputs/lists.dats" -o lists.ats -lgc) ;;
        crystal-threads) (cd "$room/made" && crystal build --no-color -Dpreview_mt "$inputs/fibers.cr" -o fibers.threads) ;;
        crystal-program) (cd "$room/made" && crystal build --no-color "$inputs"/*.cr -o "$(basename "$inputs"/*.cr .cr).crystal") ;;
        homfly) cc "$inputs/knot.c" -o "$room/made/knot" -lhomfly ;;
        neko*)
            for made in "$room"/inputs/*.neko; do
                cp "$made" "$room/made/made-$(basename "$made")"
                nekoc "$room/made/made-$(basename "$made")"
            done
            ;;
        within-ecl) cc "$inputs/with_ecl.c" -o "$room/made/with_ecl" -lecl -lgc ;;
        within-guile)
            read -ra flags <<<"$(pkg-config --cflags --libs guile-3.0)"
            cc "$inputs/with_guile.c" -o "$room/made/with_guile" "${flags[@]}"
            ;;
        within-neko) (cd "$room/made" && cc "$inputs/with_neko.c" -o with_neko -lneko -lgc && cp "$inputs/within.neko" . && nekoc within.neko) ;;
        mdk) (cd "$room/made" && cp "$inputs/count.mixal" . && mixasm count.mixal) ;;
        objective-c) gcc -std=gnu11 "$inputs/list.m" -o "$room/made/list" -lobjc_gc ;;
        stalin-program)
            (cd "$room/made" && cp "$inputs/list.sch" . && stalin -d -On -Ob -Om -Or -Ot -c list.sch &&
                gcc -w -O1 -fno-strict-aliasing -I/usr/include/gc -I/usr/lib/stalin list.c -o list.stalin -lgc -lm)
            ;;
    esac >"$room/said" 2>&1
}

# The inputs, those that are long among them.
make_inputs() {
    local k
    cp -r "$inputs" "$room/inputs"
    if $is_large; then
        "$inputs/make" "$room/inputs"
        return
    fi
    mkdir "$room/inputs/files"
    touch "$room"/inputs/files/{one,two,three,four}.c
    ln -s page.html "$room/inputs/first"
    ln -s first "$room/inputs/second"
    for k in $(seq 1 120); do
        printf '<p>Paragraph %d with <i>some</i> words that are broken into lines of a page.</p>\n' "$k"
    done >>"$room/inputs/page.html"
}

# The folder of a run, with the inputs, and what is compiled of them.
fresh_folder() {
    rm -rf "$room/run" "$HOME"
    cp -r "$room/inputs" "$room/run"
    mkdir -p "$HOME"
    cp -r "$room/made/." "$room/run"
}

# What differs by nature: numbers of processes, and times.
masked() { sed 's/\([(:]\)[0-9]\{2,\}\([):]\)/\1PID\2/; s/[0-9][0-9]:[0-9][0-9]:[0-9][0-9][.0-9]*/TIME/'; }

# once TO PRELOAD MODE COMMAND FILES..: runs it, and leaves what it said and wrote in TO, what the library counted in TO.counts, and in
# TO.seconds and TO.memory what it took.
once() {
    local to=$1 preload=$2 mode=$3 command=$4 start file timed=()
    shift 4
    fresh_folder
    [ ! -x /usr/bin/time ] || timed=(/usr/bin/time -q -f %M -o "$to.memory")
    echo - >"$to.memory"
    rm -f "$to.log"
    start=$EPOCHREALTIME
    (
        cd "$room/run" || exit 1
        export GC_PRINT_STATS=1 "GC_LOG_FILE=$to.log"
        [ -z "$preload" ] || export "LD_PRELOAD=$preload"
        [ "$mode" != steps ] || export GC_ENABLE_INCREMENTAL=1
        [ "$mode" != thread ] || export GC_COLLECTOR_THREAD=1
        timeout -s KILL "${SECONDS_EACH:-300}" "${timed[@]}" bash -c "$command" <"$top/tests/debian/page.html"
    ) >"$to.out" 2>"$to.err"
    echo "status $?" >>"$to.out"
    awk -v a="$start" -v b="$EPOCHREALTIME" 'BEGIN { printf "%.1f", b - a }' >"$to.seconds"
    { grep -a '^mpgc: ' "$to.err"; grep -a '^World-stopped marking took' "$to.log"; } >"$to.counts" 2>"$room/said"
    { cat "$to.out"; grep -av '^mpgc: ' "$to.err" | masked; } >"$to"
    # shellcheck disable=SC2068 # (a name may be a pattern)
    (cd "$room/run" && for file in ${@}; do echo "file $file"; cat "$file"; done) >>"$to" 2>&1
}

# said WANTED SEEN: what the run over libmpgc came to.
said() {
    local sentence
    if grep -q '^status 127$' "$1.out"; then
        echo "not found"
    elif cmp -s "$1" "$2"; then
        echo same
    elif sentence=$(grep -a -m 1 '^libmpgc: ' "$2.err"); then
        echo "stops: ${sentence#libmpgc: }"
    elif sentence=$(grep -a -m 1 'Out of Memory' "$2.err"); then
        echo "out of memory"
    else
        echo "differs: $(diff -a "$1" "$2" | grep -a '^[<>]' | head -n 1 | tr -d '|' | cut -c 1-80)"
    fi
}

# libgc tells each collection in a line, libmpgc all of a process in one.
collections() { awk -F '[ :]+' '/ collections: / { sum += $2 } /^World/ { sum++ } END { print sum + 0 }' "$1.counts"; }
longest() {
    awk '/^World/ { look($4 * 1000 + $6 / 1000) }
        match($0, /the longest [0-9]+/) { look(substr($0, RSTART + 12) + 0) }
        match($0, /longest end [0-9]+/) { look(substr($0, RSTART + 12) + 0) }
        function look(us) { if (us > most) most = us }
        END { printf "%.1f", most / 1000 }' "$1.counts"
}
megabytes() { awk '/^[0-9]/ { most = sprintf("%.0f", $1 / 1024) } END { print most == "" ? "-" : most }' "$1.memory"; }

# of_each WHAT NAMES..: what it says of each, with commas between.
of_each() {
    local name answers=()
    for name in "${@:2}"; do answers+=("$("$1" "$room/$name")"); done
    printf '%s, ' "${answers[@]}" | sed 's/, $//'
}
seconds() { cat "$1.seconds"; }

# compare NAME COMMAND FILES..: over libgc, and in each mode over libmpgc; a row of the table.
compare() {
    local name=$1 mode what row="" is_same=true
    shift
    once "$room/wanted" "" full "$@"
    rm -f "$room"/other*
    for mode in "${modes[@]}"; do
        once "$room/$mode" "$preload" "$mode" "$@"
        what=$(said "$room/wanted" "$room/$mode")
        if [ "$what" != same ]; then
            is_same=false
            [ "$mode" = full ] || [ -e "$room/other" ] || once "$room/other" "" steps "$@"
            [ "$mode" = full ] || cmp -s "$room/wanted" "$room/other" || what="$what; so does libgc in steps"
        fi
        row="$row $what |"
    done
    echo "| $name |$row $(of_each collections wanted "${modes[@]}") | $(of_each seconds wanted "${modes[@]}") |" \
        "$(of_each longest wanted "${modes[@]}") | $(of_each megabytes wanted "${modes[@]}") |"
    [ -z "${KEEP:-}" ] || for what in wanted "${modes[@]}"; do
        cp "$room/$what" "$KEEP/$name.$what"
        cp "$room/$what.err" "$KEEP/$name.$what.err"
    done
    $is_same
}

install=false
is_large=false
while [[ ${1:-} = --* ]]; do
    case $1 in
        --install) install=true ;;
        --large) is_large=true ;;
        *) echo "debian.sh: no such option: $1" >&2; exit 2 ;;
    esac
    shift
done
inputs=$top/tests/debian
$is_large && inputs=$inputs/large
wanted=" $* "
"$top/gc/build" "$room/lib" || exit 1
mkdir -p "$room/made"
make_inputs
preload=$room/lib/libmpgc.so
same=0
not=0
left=()
echo "| Program | $(printf '%s | ' "${modes[@]}")collections | seconds | longest stop, ms | MB |"
echo "|---|$(printf -- '---|%.0s' "${modes[@]}")---|---|---|---|"
while read -r line; do
    name=$(field 1 "$line")
    read -ra packages <<<"$(field 2 "$line")"
    [[ $wanted = "  " || $wanted = *" $name "* ]] || continue
    if $install && ! are_installed "${packages[@]}"; then
        DEBIAN_FRONTEND=noninteractive apt-get install -y -q --no-install-recommends "${packages[@]}" </dev/null >"$room/apt" 2>&1
    fi
    if ! are_installed "${packages[@]}"; then
        left+=("$name (${packages[*]}: not all here)")
        continue
    fi
    compile "$name"
    read -ra files <<<"$(field 4 "$line")"
    command="export GC_FREE_SPACE_DIVISOR=${GC_FREE_SPACE_DIVISOR:-$(field 3 "$line")}; $(cut -d '|' -f 5- <<<"$line")"
    if compare "$name" "$command" "${files[@]}"; then same=$((same + 1)); else not=$((not + 1)); fi
done <"$inputs/programs"
for one in "${left[@]}"; do echo "left out: $one"; done
echo "$same same, $not not, ${#left[@]} left out"
[ "$not" = 0 ]

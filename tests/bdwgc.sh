#!/usr/bin/env bash
# tests/bdwgc.sh [FOLDER [NAME..]]
#
# bdwgc's own test programs, or those with these NAMEs, of its source in FOLDER (without one, of Debian's package libgc, by apt-get source,
# which needs a deb-src line), compiled with the headers of include/mpgc and linked with libmpgc: each in full collections and in small steps.
# What a program says of bdwgc's private headers is bdwgc's. It prints a table
#
#     | PROGRAM | full | steps |
#
# of `right` (the status is 0, and no line tells of a failure), `stops` with the sentence, or the status. It needs cc, g++ and the headers of
# libatomic_ops. MPHEAP_ARCHIVE and MPHEAP_INCLUDE are those of gc/build; SECONDS_EACH the most that a program may take, 300 if it isn't set.
set -uo pipefail
top=$(dirname "$(dirname "$(readlink -f "${BASH_SOURCE[0]}")")")
room=$(mktemp -d)
trap 'rm -rf "$room"' EXIT
trap 'exit 143' INT TERM HUP
source=${1:-}
if [ -z "$source" ]; then
    (cd "$room" && apt-get source -q --download-only libgc && tar xf libgc_*.orig.tar.*) >"$room/said" 2>&1
    source=$(find "$room" -maxdepth 1 -type d -name 'gc-*' | head -n 1)
fi
if [ ! -e "$source/tests/test.c" ]; then
    echo "bdwgc's source isn't here: $(tail -n 1 "$room/said")"
    exit 2
fi
source=$(readlink -f "$source")
"$top/gc/build" "$room" || exit 1
flags=(-O1 -w -DGC_THREADS -DGC_PTHREADS "-I$top/include/mpgc" "-I$top/include/mpgc/gc" -idirafter "$source/include" -idirafter "$source")
links=("-L$room" -lmpgc "-Wl,-rpath,$room" -pthread)

# made NAME: the program is compiled.
made() {
    case $1 in
        test_cpp) g++ "${flags[@]}" "$source/tests/test_cpp.cc" -o "$room/$1" "-L$room" -lmpgccpp "${links[@]}" ;;
        staticrootstest)
            cc "${flags[@]}" -shared -fPIC "$source/tests/staticrootslib.c" -o "$room/libstaticroots.so" "${links[@]}" &&
                cc "${flags[@]}" "$source/tests/$1.c" -o "$room/$1" "-L$room" -lstaticroots "${links[@]}"
            ;;
        *) cc "${flags[@]}" "$source/tests/$1.c" -o "$room/$1" "${links[@]}" ;;
    esac >"$room/said" 2>&1
}

# ran NAME MODE: what came of it.
ran() {
    local status words=() sentence
    [ "$1" != test_cpp ] || words=(100)
    (
        cd "$room" || exit 1
        [ "$2" = full ] || export GC_ENABLE_INCREMENTAL=1
        timeout -s KILL "${SECONDS_EACH:-300}" "./$1" "${words[@]}"
    ) >"$room/said" 2>&1
    status=$?
    if sentence=$(grep -a -m 1 '^libmpgc: ' "$room/said"); then
        echo "stops: ${sentence#libmpgc: }"
    elif [ $status = 0 ] && ! grep -qai 'fail\|lost\|assertion' "$room/said"; then
        echo right
    else
        echo "status $status: $(grep -ai 'fail\|lost\|assertion' "$room/said" | head -n 1 | cut -c 1-80)"
    fi
}

right=0
not=0
echo "| Program | full | steps |"
echo "|---|---|---|"
names=("${@:2}")
[ ${#names[@]} -gt 0 ] || names=(test middle smash_test huge_test realloc_test staticrootstest disclaim_test disclaim_bench
    disclaim_weakmap_test initsecondarythread subthread_create threadkey_test test_atomic_ops test_cpp leak_test thread_leak_test)
for name in "${names[@]}"; do
    if made "$name"; then
        full=$(ran "$name" full)
        steps=$(ran "$name" steps)
    else
        full="isn't built: $(head -n 1 "$room/said")"
        steps=$full
    fi
    if [ "$full$steps" = rightright ]; then right=$((right + 1)); else not=$((not + 1)); fi
    echo "| $name | $full | $steps |"
done
echo "$right right, $not not"
[ "$not" = 0 ]

#!/usr/bin/env bash
# tests/gc.sh [--quick]
# Tests of libmpgc, C programs' gc.h over the proved library for C. It builds what it needs, needs cc, and takes half an hour;
# --quick leaves out the faults that are planted in the layer and what runs under sanitizers, and takes some minutes.
# What needs a package that isn't here is said and skipped. It ends with `N passed, M failed`.
# MPHEAP_ARCHIVE and MPHEAP_INCLUDE are those of gc/build.
set -uo pipefail
case "$#:${1-}" in
    0:) quick='' ;;
    1:--quick) quick=yes ;;
    *) echo "gc: usage: tests/gc.sh [--quick]" >&2 && exit 2 ;;
esac
top=$(dirname "$(dirname "$(readlink -f "${BASH_SOURCE[0]}")")")
room=$(mktemp -d)
processors=$(nproc)
running=() judges=() awaited=() statuses=() queue=()
trap close EXIT
trap 'exit 143' INT TERM HUP
include=${MPHEAP_INCLUDE:-$top/include}
kind=gc
# shellcheck source=tests/counts.sh
. "$top/tests/counts.sh"
warnings=(-Wall -Wextra -Werror -pedantic)
c=(cc -std=c11 -O2 "${warnings[@]}" "-I$top/include/mpgc")

close() {
    local k
    for k in "${!running[@]}"; do [ -n "${statuses[k]-}" ] || kill "${running[k]}"; done
    rm -rf "$room"
}

skip() { printf 'gc: skipped, for want of %s: %s\n' "$1" "$2"; }

# each SAYING COMMAND ITEMS..: the command with each of these, as many at once as there are processors. It says nothing if all is well.
each() {
    local saying=$1 command=$2 item pids=() k
    shift 2
    for item in "$@"; do
        k=${#pids[@]}
        [ "$k" -lt "$processors" ] || wait "${pids[k - processors]}"
        "$command" "$item" >"$room/each_$k" 2>&1 &
        pids+=($!)
    done
    k=$((${#pids[@]} - processors))
    wait "${pids[@]:$((k > 0 ? k : 0))}"
    k=0
    for item in "$@"; do
        is "$item $saying" "" "$(head -n 5 "$room/each_$k")"
        k=$((k + 1))
    done
}

# counts WHAT STATUS SAID: of a program that ends with its counts, or says nothing but a line, and answers 0.
counts() {
    if [ "$2" = 0 ] && [[ $3 =~ ([0-9]+)\ passed,\ 0\ failed$ ]]; then
        passed=$((passed + BASH_REMATCH[1]))
    else
        is "$1" 0 "$2: $(printf '%s\n' "$3" | tail -n 5)"
    fi
}

# answers WHAT STATUS SAID: of one that answers 0.
answers() {
    local status=$2
    [ "$2" = 0 ] || status="$2: $(printf '%s\n' "$3" | tail -n 3)"
    is "$1" 0 "$status"
}

# run JUDGE WHAT WORDS..: such a program.
run() {
    local judge=$1 what=$2 said
    shift 2
    said=$(timeout -k 10 1500 "$@" 2>&1)
    "$judge" "$what" $? "$said"
}
counted() { run counts "$@"; }
shadow() { run answers "$@"; }

# beside JUDGE WHAT WORDS..: such a program, beside what comes next, until `gather`: one that waits for most of its time.
beside() {
    judges+=("$1")
    awaited+=("$2")
    local k=${#running[@]} status=0
    {
        timeout -k 10 1500 "${@:3}" || status=$?
        echo "$status" >"$room/status_$k"
    } >"$room/said_by_$k" 2>&1 &
    running+=($!)
}

# ended NUMBERS..: of programs that were begun so: they have ended, and their statuses are known. The shell forgets one that has ended once its
# number is another process's, so their statuses stand in files.
ended() {
    local k
    for k in "$@"; do
        [ -z "${statuses[k]-}" ] || continue
        wait "${running[k]}" 2>"$room/said" || true
        statuses[k]=$(cat "$room/status_$k")
    done
}

# queued JUDGE WHAT WORDS..: the same of one that works on one thread, or on few. As many of these run at once as there are processors.
working() {
    local k count=0
    for k in "${queue[@]}"; do ! kill -0 "${running[k]}" 2>"$room/said" || count=$((count + 1)); done
    echo "$count"
}
queued() {
    while [ "$(working)" -ge "$processors" ]; do sleep 0.05; done
    queue+=("${#running[@]}")
    beside "$@"
}

gather() {
    local k
    for k in "${!running[@]}"; do
        ended "$k"
        "${judges[k]}" "${awaited[k]}" "${statuses[k]}" "$(cat "$room/said_by_$k")"
    done
    running=() judges=() awaited=() statuses=() queue=()
}

build() { "$top/gc/build" "$@" >"$room/said" 2>&1 || is "gc/build $*" built "$(tail -n 5 "$room/said")"; }

# The library, without warnings, and its headers.
build "$room"
if [ ! -e "$room/libmpgc.so" ]; then
    echo "$passed passed, $failed failed"
    exit 1
fi
if command -v clang >"$room/said"; then CC=clang build "$room/clang"; else skip clang "the library built by it"; fi

. "$top/tests/gc/parts/names.sh"
. "$top/tests/gc/parts/headers.sh"

# Each function, each place of roots, and what stands round the barrier.
tests=(functions settings macros inline limits links frees uncollectable pacing wide leaks unmapped finalizers typed kinds asking
    without_memory roots neighbours barrier crowded mapped kernel copies direct aio lookups submitted notices within sleeping sorting signals handlers moments interrupted process shadow threads world loading
    registering stopping turns goodbyes suspending faulting waiting walking lending starting locks leaving joining behind together collector marking stacks)
build_test() { "${c[@]}" "$top/tests/gc/$1.c" "-L$room" -lmpgc "-Wl,-rpath,$room" -pthread -o "$room/$1"; }
each "is built" build_test "${tests[@]}"

# The layer over a core that checks what is owed.
MPHEAP_INCLUDE=$include "$top/tests/gc/checking_archive.sh" "$room/core" >"$room/said" 2>&1
is "a core that checks what is owed is built" "" "$(cat "$room/said")"
MPHEAP_ARCHIVE=$room/core/libmpheap.a build "$room/checking"

# What waits for most of its time.
beside counts stopping "$room/stopping"
beside counts "stopping, over that core" env "LD_LIBRARY_PATH=$room/checking" "$room/stopping"
queued counts "interrupted, over that core" env "LD_LIBRARY_PATH=$room/checking" "$room/interrupted"
for setting in FULL GC_ENABLE_INCREMENTAL GC_COLLECTOR_THREAD; do
    beside counts "locks, $setting" env $setting=1 "$room/locks"
done
beside counts starting "$room/starting"

# What works on one thread, or on few: the longest first.
for test in moments interrupted mapped; do queued counts "$test" "$room/$test"; done
for test in functions settings links frees pacing wide; do
    queued counts "$test" "$room/$test"
    queued counts "$test, in small steps" env GC_ENABLE_INCREMENTAL=1 "$room/$test"
done
for test in frees wide; do queued counts "$test, beside the collector's thread" env GC_COLLECTOR_THREAD=1 "$room/$test"; done
for test in inline unmapped uncollectable finalizers typed kinds asking registering leaving waiting roots; do
    queued counts "$test" "$room/$test"
    queued counts "$test, in small steps" env INCREMENTAL=1 "$room/$test"
done
for test in macros limits leaks neighbours barrier crowded without_memory kernel copies direct aio lookups submitted notices within sleeping signals joining; do
    queued counts "$test" "$room/$test"
done
for setting in FULL GC_ENABLE_INCREMENTAL GC_COLLECTOR_THREAD; do
    queued counts "handlers, $setting" env $setting=1 "$room/handlers"
done
for test in functions settings links uncollectable finalizers typed kinds asking registering roots barrier kernel; do
    queued counts "$test, beside the collector's thread" env GC_COLLECTOR_THREAD=1 "$room/$test"
done
"${c[@]}" -shared -fPIC "$top/tests/gc/loaded.c" -o "$room/loaded.so" 2>"$room/said"
is "an object to be loaded is built" "" "$(cat "$room/said")"
queued counts "process" "$room/process" "$room/loaded.so"
"${c[@]}" -no-pie "$top/tests/gc/process.c" "-L$room" -lmpgc "-Wl,-rpath,$room" -o "$room/fixed" 2>"$room/said"
queued counts "process, at fixed addresses" "$room/fixed" "$room/loaded.so"
# The archive, and in a program that is linked statically.
build_archived() { "${c[@]}" -DWITHOUT_SYSCALLS "$top/tests/gc/$1.c" "$room/libmpgc.a" -pthread -o "$room/archived_$1"; }
tests=(barrier kernel signals walking sorting)
each "is built, of the archive" build_archived "${tests[@]}"
for test in "${tests[@]}"; do queued counts "$test, of the archive" "$room/archived_$test"; done
if echo 'int main(void) { return 0; }' | cc -static -x c - -o "$room/static" 2>"$room/said"; then
    build_static() { "${c[@]}" -static "$top/tests/gc/$1.c" "$room/libmpgc.a" -pthread -o "$room/static_$1"; }
    tests=(functions roots finalizers typed kinds asking joining sorting)
    each "is built, linked statically" build_static "${tests[@]}" threads
    for test in "${tests[@]}"; do queued counts "$test, linked statically" "$room/static_$test"; done
    "${c[@]}" -static -Wl,-u,__qsort_r "$top/tests/gc/sorting.c" "$room/libmpgc.a" -pthread -o "$room/twice" 2>"$room/said"
    is "a program that has the C library's sorting too is built" "" "$(cat "$room/said")"
    queued answers "threads, linked statically" env INCREMENTAL=1 "$room/static_threads" 4 2
else
    skip libc.a "programs that are linked statically"
fi
if [ -e /usr/include/gc/gc_mark.h ]; then
    build_bdw() { cc -std=c11 -O1 -w -DOTHER "$top/tests/gc/$1.c" -lgc -o "$room/$1_bdw"; }
    tests=(functions settings macros inline links uncollectable pacing leaks unmapped finalizers typed kinds asking registering leaving
        stacks)
    each "is built, over bdwgc" build_bdw "${tests[@]}"
    for test in "${tests[@]}"; do queued counts "$test, over bdwgc" "$room/${test}_bdw"; done
    cc -std=c11 -O1 -w -DOTHER -shared -fPIC "$top/tests/gc/plugged.c" -lgc -o "$room/plugged_bdw.so"
else
    skip libgc-dev "the functions, settings, links, finalizers, kinds and threads over bdwgc"
fi
# A million random operations, with a shadow of all.
queued answers shadow env FULL=1 "$room/shadow" 1 1000000
queued answers "shadow, in small steps" env INCREMENTAL=1 "$room/shadow" 2 1000000
queued answers "shadow, beside the collector's thread" env GC_COLLECTOR_THREAD=1 "$room/shadow" 3 300000
ended "${queue[@]}"

# Threads that are stopped, load objects, end and move.
counted sorting "$room/sorting"
"${c[@]}" -shared -fPIC "$top/tests/gc/loaded_local.c" -o "$room/loaded_local.so" 2>"$room/said"
is "an object with thread-local data is built" "" "$(cat "$room/said")"
"${c[@]}" -DROOM=9000000 -shared -fPIC "$top/tests/gc/loaded_local.c" -o "$room/loaded_larger.so" 2>"$room/said"
is "an object with much thread-local data is built" "" "$(cat "$room/said")"
"${c[@]}" -DROOM=1 -ftls-model=initial-exec -shared -fPIC "$top/tests/gc/loaded_local.c" -o "$room/loaded_initial.so" 2>"$room/said"
is "an object with thread-local data in the room for it is built" "" "$(cat "$room/said")"
for setting in FULL INCREMENTAL GC_COLLECTOR_THREAD; do
    counted "stacks, $setting" env $setting=1 "$room/stacks"
    counted "stacks of one thread, $setting" env $setting=1 ALONE=1 "$room/stacks"
    counted "stacks of one thread that says so by a call, $setting" env $setting=1 TOLD=1 "$room/stacks"
done
locals=("$room/loaded_local.so" "$room/loaded_larger.so" "$room/loaded_initial.so")
counted "world" "$room/world" "${locals[@]}"
counted "world, in small steps" env INCREMENTAL=1 "$room/world" "${locals[@]}"
"${c[@]}" -shared -fPIC "$top/tests/gc/loaded_calling.c" -o "$room/loaded_calling.so" 2>"$room/said"
is "an object that calls while it is loaded is built" "" "$(cat "$room/said")"
for setting in GC_MARKERS=4 GC_COLLECTOR_THREAD=1; do
    counted "loading, $setting" env "$setting" "$room/loading" "$room/loaded_calling.so"
done
"${c[@]}" "$top/tests/gc/plugging.c" -pthread -o "$room/plugging" 2>"$room/said" &&
    "${c[@]}" -shared -fPIC "$top/tests/gc/plugged.c" "-L$room" -lmpgc "-Wl,-rpath,$room" -o "$room/plugged.so" 2>"$room/said"
is "a part that is linked with the library is built, and a program that isn't" "" "$(cat "$room/said")"
counted "plugging" "$room/plugging" "$room/plugged.so"
[ ! -e "$room/plugged_bdw.so" ] || counted "plugging, over bdwgc" "$room/plugging" "$room/plugged_bdw.so"
for test in turns goodbyes suspending faulting walking lending; do counted "$test" "$room/$test"; done
for setting in FULL GC_ENABLE_INCREMENTAL GC_COLLECTOR_THREAD; do
    counted "behind, $setting" env $setting=1 "$room/behind"
done

# Programs in C++.
if command -v c++ >"$room/said"; then
    c++ -std=c++17 -O2 "${warnings[@]}" "-I$top/include/mpgc" "$top/tests/gc/cplusplus.cc" "-L$room" -lmpgccpp -lmpgc "-Wl,-rpath,$room" -pthread \
        -o "$room/cplusplus" 2>"$room/said"
    is "cplusplus is built" "" "$(cat "$room/said")"
    for setting in FULL INCREMENTAL GC_COLLECTOR_THREAD; do
        counted "cplusplus, $setting" env $setting=1 "$room/cplusplus"
    done
    if [ -e /usr/include/gc/gc_cpp.h ]; then
        c++ -std=c++17 -O1 -w -DOTHER "$top/tests/gc/cplusplus.cc" -lgccpp -lgc -o "$room/cplusplus_bdw"
        counted "cplusplus, over bdwgc" "$room/cplusplus_bdw"
    fi
else
    skip c++ "programs in it"
fi

# The collector's own thread: what it has to stand, and the tests above that have something to do for it.
counted collector "$room/collector" 1
counted "collector, over a core that checks what is owed" env "LD_LIBRARY_PATH=$room/checking" "$room/collector" 1
for test in turns goodbyes suspending faulting walking lending; do
    counted "$test, over that core" env "LD_LIBRARY_PATH=$room/checking" "$room/$test"
done
counted "world, beside the collector's thread" env GC_COLLECTOR_THREAD=1 "$room/world" "${locals[@]}"
if command -v objdump >"$room/said"; then
    "$top/tests/gc/loads.sh" "${MPHEAP_ARCHIVE:-$room/libmpheap.a}" >"$room/said" 2>&1
    is "each word of the heap is read by one load" 0 "$?"
else
    skip objdump "how the library's code reads words of the heap"
fi

# Full collections by several threads that mark, over the library and over that core, which refuses each so manieth request for memory too.
# What is seen is the same by each number of them.
for core in "$room" "$room/checking"; do
    for markers in 1 2 4 8; do
        counted "marking by $markers, $(basename "$core")" env "LD_LIBRARY_PATH=$core" "SAYS=$core/seen_by_$markers" GC_MARKERS=$markers "$room/marking"
        is "what is seen by $markers, $(basename "$core")" "$(cat "$core/seen_by_1")" "$(cat "$core/seen_by_$markers")"
    done
done
for refused in 1 2 3 5 7 29; do
    counted "marking, each ${refused}th request refused" env "LD_LIBRARY_PATH=$room/checking" CORE_REFUSES=$refused GC_MARKERS=4 "$room/marking"
done

# Threads, each with lists and a shadow of them; some seconds, or as many as GC_SECONDS says.
for setting in FULL INCREMENTAL GC_COLLECTOR_THREAD; do
    shadow "threads, $setting" env $setting=1 "$room/threads" 6 "${GC_SECONDS:-5}"
done

# And with links, finalizers, kinds, roots and figures of their own.
for setting in FULL INCREMENTAL GC_COLLECTOR_THREAD; do
    counted "together, $setting" env $setting=1 "$room/together" 4 3
done

gather
if [ -z "$quick" ]; then
    for part in races planted sanitized; do
        # shellcheck source=/dev/null
        . "$top/tests/gc/parts/$part.sh"
    done
fi
. "$top/tests/gc/parts/distribution.sh"

echo "$passed passed, $failed failed"
[ "$failed" = 0 ]

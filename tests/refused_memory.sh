#!/usr/bin/env bash
# What holds where memory is refused, in the program and the tests that 'rt ci' left: each request of a run is refused alone, the
# first, the second and on until a run asks for no more. Calls on an open heap ask for none. And each command runs on a small
# stack, as docs/SCRIPTS.md says. It needs cc.
set -uo pipefail
kind="refused memory"
# shellcheck source=tests/refused/parts.sh
. "$(dirname "$(readlink -f "${BASH_SOURCE[0]}")")/refused/parts.sh"

program=$crates/mpheap/out/mpheap
stored=$top/tests/stored

# each_alone WHAT WANTED ENDS WORDS..: the words, with each request refused alone, up to one that never comes. ENDS prints how a run
# ended, WANTED if it ended well, and so has the last one, with status 0.
each_alone() {
    local what=$1 wanted=$2 ends=$3 at
    shift 3
    is_there "$1" || return
    for at in $(seq 9999); do
        refuse 60 "REFUSE_AT=$at" "$@"
        is "$what, request $at" "$wanted" "$("$ends")"
        [ "$refused" = 1 ] || break
    done
    is "$what, with none refused" 0 "$status"
    # A test of a name that isn't there asks for nothing.
    [ "$at" -gt 1 ] || is "$what: requests" some none
    echo "$kind: $what: $((at - 1)) requests, each refused alone"
}

# What a test says of it is in the test: only the usual answer, or that memory is out and then the usual one from the same call.
passes() { echo "$status"; }

# all_or_none: either all lines are there, or `no memory` is said, and nothing is there.
all_or_none() {
    if { [ "$status" = 0 ] && [ -z "$said" ] && cmp -s "$room/out" "$lines"; } ||
        { [ "$status" = 1 ] && [ "$said" = "no memory" ] && [ ! -s "$room/out" ]; }; then
        echo well
    else
        echo "status $status, $said"
    fi
}

# The same, but all lines may be there where a file that is written behind them has no memory.
all_or_file() {
    if [ "$status" = 1 ] && cmp -s "$room/out" "$lines"; then
        : >"$room/out"
    fi
    all_or_none
}

# The same, but for whole lines that are there before `no memory` is said.
all_or_first() {
    if [ "$status" = 1 ] && head -n "$(wc -l <"$room/out")" "$lines" | cmp -s - "$room/out"; then
        : >"$room/out"
    fi
    all_or_none
}

tests() { each_alone "$1 $2" 0 passes "$crates/$1/out/$1_tests" "$2"; }

# does ENDS LINES WORDS..: the program with these words, which is to print these lines.
does() {
    lines=$2
    each_alone "mpheap $3" well "$1" "$program" "${@:3}"
}

# While a request of `open` is refused there is no heap, and the test of the hidden pointer fails for want of it. The first run that
# passes, with every request from there on refused, made none.
after_open() {
    local from tests=$crates/test_shared/out/test_shared_tests
    is_there "$tests" || return
    for from in $(seq 999); do
        refuse 60 "REFUSE_FROM=$from" "$tests" rows::the_hidden_pointer_stays
        [ "$status" != 0 ] || break
        is "request $from is one of open" yes "$(grep -q 'a heap' "$room/out" "$room/err" && echo yes)"
    done
    is "a heap that is open: status, requests" "0 0" "$status $refused"
    [ "$from" -gt 1 ] || is "requests of open" some none
    echo "$kind: $((from - 1)) requests of open, and none of a row's calls behind it"
}

# rows_ask_for_none: a row's calls on an open heap ask for no memory, whichever they are: its script is answered as ever where every request is
# refused from the first one on that a script without lines doesn't make.
rows_ask_for_none() {
    local name pages asked
    is_there "$program" || return
    mkdir "$room/rows"
    "$top/tests/rows/split" -v "room=$room/rows" "$top"/tests/rows/*.rows >"$room/names"
    : >"$room/no_lines"
    for asked in $(seq 0 999); do
        refuse 60 "REFUSE_FROM=$((asked + 1))" "$program" run --pages 1 "$room/no_lines"
        [ "$refused" != 0 ] || break
    done
    [ "$asked" -gt 0 ] || is "requests of a script without lines" some none
    while read -r name pages; do
        refuse 60 "REFUSE_FROM=$((asked + 1))" "$program" run --pages "$pages" "$room/rows/$name"
        is "$name, on a heap that is open: status, requests" "0 0" "$status $refused"
        is "$name, on a heap that is open: replies" "" "$(cmp "$room/out" "$room/rows/$name.stdout" 2>&1)"
    done <"$room/names"
    echo "$kind: $(wc -l <"$room/names") rows ask for nothing behind the $asked requests of a script without lines"
}

# on_small_stack LINES WORDS..: the program prints these lines on a stack of 128 KB.
on_small_stack() {
    local lines=$1
    shift
    is_there "$program" || return
    { (ulimit -c 0 && ulimit -s 128 && exec "$program" "$@") >"$room/out" 2>"$room/err" </dev/null; status=$?; } 2>>"$room/err"
    is "mpheap $* on a small stack" "status 0, all lines" "status $status, $(cmp -s "$room/out" "$lines" && echo all lines)"
}

tests test_core opening::a_refused_heap_can_be_opened_again
tests test_shared scenes::a_refused_open_can_be_made_again
tests test_shared register::a_refused_open_can_be_made_again
tests test_shared helped::refused_memory
tests test_workloads script_faults::refused_memory
tests test_workloads failures::refused_memory
tests test_workloads pause::refused_memory
tests test_workloads refused_helpers::refused_thread
does all_or_none "$top/examples/hidden_pointer.replies" run --pages 4 "$top/examples/hidden_pointer.script"
does all_or_none "$top/examples/two_threads.replies" threads --pages 4 --helpers 2 "$top/examples/two_threads.workload"
does all_or_file "$top/examples/two_threads.replies" threads --pages 4 --helpers 2 --record "$room/record" \
    "$top/examples/two_threads.workload"
# What a random script is to be is told by tests/random.sh; here it is the one that is written where none is refused.
"$program" stress --seed 1 --mutators 2 --steps 100 >"$room/stress"
does all_or_none "$room/stress" stress --seed 1 --mutators 2 --steps 100
does all_or_first "$stored/first.verdict" replay --pages 1 "$stored/first.replay"
does all_or_first "$stored/first.run" record --pages 1 "$stored/first.script"
does all_or_first "$stored/lazy_sweep.trace" draw --pages 4 "$stored/lazy_sweep.script"
on_small_stack "$top/examples/hidden_pointer.replies" run --pages 4 "$top/examples/hidden_pointer.script"
on_small_stack "$top/examples/two_threads.replies" threads --pages 4 --helpers 8 "$top/examples/two_threads.workload"
on_small_stack "$top/examples/two_threads.replies" threads --pages 4 --record "$room/record" "$top/examples/two_threads.workload"
on_small_stack "$room/stress" stress --seed 1 --mutators 2 --steps 100
on_small_stack "$stored/first.verdict" replay --pages 1 "$stored/first.replay"
on_small_stack "$stored/first.run" record --pages 1 "$stored/first.script"
on_small_stack "$stored/lazy_sweep.trace" draw --pages 4 "$stored/lazy_sweep.script"
after_open
rows_ask_for_none
close

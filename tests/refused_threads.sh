#!/usr/bin/env bash
# What holds where the start of a thread is refused, each start in turn, in the program and the tests that 'rt ci' left. It needs
# cc, and takes some seconds. The first thread starts the mutators and then the collector, and this one starts the helpers of a pause.
set -uo pipefail
kind="refused threads"
# shellcheck source=tests/refused/parts.sh
. "$(dirname "$(readlink -f "${BASH_SOURCE[0]}")")/refused/parts.sh"
program=$crates/mpheap/out/mpheap

# actors MUTATORS: the start of each actor is refused in turn, then that of each of seven helpers, without whom the collector marks alone (the
# eighth is the collector's own thread), and at last none. Each run ends within two seconds.
actors() {
    local start starts replies helpers=7
    starts=$(($1 + 1))
    seq "$1" | sed 's/.*/attach/' >"$room/workload"
    seq 0 $(($1 - 1)) | sed 's/$/ alloc 1 2 normal/' >>"$room/workload"
    printf 'gc begin\ngc finish\ngc no\n' >>"$room/workload"
    replies=$(seq 0 $(($1 - 1)) | sed 's/.*/mutator &\nok/' && printf 'collector\nok\n0\n1\n')
    for start in $(seq $((starts + helpers + 1))); do
        refuse 2 "REFUSE_START=$start" "$program" threads --pages 4 --helpers 8 "$room/workload"
        if [ "$start" -le "$starts" ]; then
            is "$1 mutators, start $start" "1 1 |no memory" "$refused $status $(cat "$room/out")|$said"
        elif [ "$start" -le $((starts + helpers)) ]; then
            is "$1 mutators, start $start" "1 0 $replies|" "$refused $status $(cat "$room/out")|$said"
        else
            is "$1 mutators, start $start" "0 0 $replies|" "$refused $status $(cat "$room/out")|$said"
        fi
    done
}

# holds CRATE TEST: the test passes, whichever start is refused, up to one that never comes.
holds() {
    local start tests=$crates/$1/out/$1_tests
    is_there "$tests" || return
    for start in $(seq 99); do
        refuse 60 "REFUSE_START=$start" "$tests" "$2"
        is "$1 $2, start $start" 0 "$status"
        [ "$refused" = 1 ] || break
    done
    # A test of this name that isn't there starts no thread.
    [ "$start" -gt 1 ] || is "$1 $2: starts" some none
    echo "$kind: $1 $2: $((start - 1)) starts, each refused alone"
}

if is_there "$program"; then
    for mutators in 0 1 16; do actors "$mutators"; done
fi
holds test_shared threads::refused_thread
holds test_workloads refused::refused_thread
holds test_workloads refused_helpers::refused_thread
close

# shellcheck shell=bash disable=SC2154 # (whoever reads this has the other names)
# Part of tests/wrapper.sh, read by it: runs of the real rt, over a copy of the tree, which go on meanwhile, so that the stand-in's
# answers are known to be rt's.

start_real_runs() {
    copy_tree "$room/real"
    copy_tree "$room/stopped"
    mkdir -p "$room/alone"
    local TMPDIR=$room/alone
    two_real_runs &
    lanes=($!)
    a_stopped_run &
    lanes+=($!)
}

# A script that ends in a bad line, under a name that stands in the crate too; and then one with more than 1 MiB of replies.
two_real_runs() {
    mkdir "$room/alone/line" && cd "$room/alone/line" || exit 1
    lines attach "0 alloc 1 3 normal" "0 get 1" "0 load 1" >args
    status=0
    "$room/real/mpheap" run --pages 4 args >out 2>err || status=$?
    echo "$status" >status
    local began=$SECONDS
    "$room/real/mpheap" run --pages 4 args >again 2>second
    echo $((SECONDS - began)) >took
    (echo attach; echo 0 set 1 18446744073709551615; yes 0 get 1 | head -n 60000) | "$room/real/mpheap" run --pages 4 >long 2>third
}

a_stopped_run() {
    mkdir "$room/alone/stopped" && cd "$room/alone/stopped" || exit 1
    mkdir temporary
    TMPDIR=$PWD/temporary "$room/stopped/mpheap" run --pages 4 </dev/null >/dev/null 2>&1 &
    sleep 4
    local began=$SECONDS
    kill -TERM $!
    wait $!
    echo $((SECONDS - began)) >took
    sleep 1
    grep -lsz "^TMPDIR=$PWD/temporary" /proc/[0-9]*/environ >left
}

real_runs() {
    wait "${lanes[@]}"
    cd "$room/alone/line" || exit 1
    is "the real rt, a bad line: status" 2 "$(cat status)"
    is "the real rt, a bad line: replies" "$(lines "mutator 0" ok ptr)" "$(cat out)"
    is "the real rt, a bad line: all that is said" \
        "$(lines "mpheap: an unproved build, made now, in about a minute, and kept for later runs: for a first look" "bad line 4")" "$(cat err)"
    is "the real rt, a kept build: what is said" \
        "$(lines "mpheap: an unproved build, which an earlier run made of these sources: for a first look" "bad line 4")" "$(cat second)"
    is "the real rt, a kept build: the same replies" "$(cat out)" "$(cat again)"
    is "the real rt, a kept build: more than 1 MiB of replies" "$(lines "mutator 0" ok; yes 18446744073709551615 | head -n 60000)" "$(cat long)"
    is "the real rt, a kept build: it begins at once" yes "$(within 30 "$(cat took)")"
    cd "$room/alone/stopped" || exit 1
    is "the real rt, stopped: at once" yes "$(within 30 "$(cat took)")"
    is "the real rt, stopped: nothing is left" "" "$(ls -A temporary)$(cat left)"
}

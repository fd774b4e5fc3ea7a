#!/usr/bin/env bash
# Random scripts and workloads, which the program writes and runs, and runs of them for `record` and `replay`; and workloads whose
# calls come in whatever order:
# - three texts are those of the published rule (tests/random/texts);
# - 200 workloads of 1, 4 and 16 mutators on 1, 2, 8 and 64 pages: each reply is one that its call may have in some order of the calls,
#   as tests/random/possible.py works it out;
# - 200 mutators alone are answered in a thread of their own as by a script;
# - of 20 scripts of 2,003 lines each line is answered, and each is a workload of three mutators;
# - 200 runs of two mutators and the collector at one link (tests/random/links.py);
# - four mutators beside a hundred cycles, ended by one helper and by four: each load answers what was stored;
# - 50 scripts of 3,004 lines, and 1,000 orders of calls round one object (tests/random/orders.py), are legal as they are recorded.
# Over a proved build (tests/builds.sh) it takes some seconds. It needs Python 3.
set -uo pipefail
kind=random
# shellcheck source=tests/cases.sh
. "$(dirname "$(readlink -f "${BASH_SOURCE[0]}")")/cases.sh"

# works WHAT COMMAND..: the command ends with 0.
works() {
    local status=0
    "${@:2}" >"$room/said" 2>&1 || status=$?
    is "$1" "status 0" "status $status$([ $status = 0 ] || tail -n 5 "$room/said")"
}

# script_is NAME WORDS..: a case of the program, with the script or workload NAME of `cases`, if there is one.
script_is() {
    [ -e "$cases/$1" ] || : >"$cases/$1"
    printf '%s\n' "${@:2}" >"$cases/$1.args"
}

# stress NAME SEED MUTATORS STEPS
stress() { script_is "$1" stress --seed "$2" --mutators "$3" --steps "$4"; }

# The pages, mutators and helpers of a seed; twelve seeds on end have all pairs of the first two.
numbers_of() {
    local pages=(1 2 8 64) mutators=(1 4 16)
    echo "${pages[$1 % 4]} ${mutators[$1 % 3]} $(($1 % 2 + 1))"
}

# The texts of the rule, by their places in their file.
write_texts() {
    local seed mutators steps text number=0
    while read -r seed mutators steps text; do
        number=$((number + 1))
        stress "text_$number" "$seed" "$mutators" "$steps"
        printf '%b' "$(sed 's/^"//; s/"$//' <<<"$text")X" >"$room/wanted_$number"
    done < <(grep -v '^#' "$top/tests/random/texts")
    texts=$number
}

write_all() {
    local seed mutators
    cases=$room/stress
    mkdir "$cases"
    write_texts
    for seed in $(seq 200); do
        read -r _ mutators _ < <(numbers_of "$seed")
        stress "workload_$seed" "$seed" "$mutators" 300
        stress "alone_$seed" "$seed" 1 300
    done
    for seed in $(seq 20); do stress "long_$seed" "$seed" 3 2000; done
    for seed in $(seq 50); do stress "run_$seed" "$seed" 4 3000; done
    works "scripts are written" "$top/tests/outputs.sh" "$cases" "$room/drawn"
}

# Each of four mutators stores and loads its own numbers. Mutator 0 first makes an object that points to 160 others, each of a page.
beside_cycles() {
    local helpers
    awk 'BEGIN {
        for (slot = 0; slot < 4; slot++) print "attach"
        print "0 alloc 4 512 normal"
        for (n = 0; n < 160; n++) print "0 alloc 5 512 normal\n0 store 4 " n " 5"
        for (slot = 0; slot < 4; slot++) {
            print slot " alloc 1 2 normal"
            for (n = 1; n <= 1000; n++) print slot " set 2 " n "\n" slot " store 1 0 2\n" slot " load 3 1 0"
        }
        for (n = 0; n < 100; n++) print "gc begin\ngc roots\ngc mark 8\ngc retrace\ngc finish"
    }' >"$room/beside"
    awk 'BEGIN {
        for (slot = 0; slot < 4; slot++) {
            print "mutator " slot
            for (n = 0; n < (slot ? 1 : 322); n++) print "ok"
            for (n = 1; n <= 1000; n++) print "ok\nok\n" n
        }
        print "collector"
    }' >"$room/loads"
    for helpers in 1 4; do
        cp "$room/beside" "$cases/beside_$helpers"
        script_is "beside_$helpers" threads --pages 256 --helpers $helpers {}
    done
}

run_all() {
    local seed pages helpers
    cases=$room/run
    mkdir "$cases"
    for seed in $(seq 200); do
        read -r pages _ helpers < <(numbers_of "$seed")
        awk '{ print } /^gc/ { print "gc no" }' "$room/drawn/workload_$seed" >"$cases/workload_$seed"
        script_is "workload_$seed" threads --pages "$pages" --helpers "$helpers" {}
        grep -v '^gc' "$room/drawn/alone_$seed" | tee "$cases/alone_$seed" >"$cases/thread_$seed"
        script_is "alone_$seed" run --pages "$pages" {}
        script_is "thread_$seed" threads --pages "$pages" {}
    done
    for seed in $(seq 20); do
        tee "$cases/long_$seed" <"$room/drawn/long_$seed" >"$cases/three_$seed"
        script_is "long_$seed" run --pages 8 {}
        script_is "three_$seed" threads --pages 8 {}
    done
    python3 "$top/tests/random/links.py" write "$room/link"
    for seed in $(seq 200); do
        cp "$room/link" "$cases/link_$seed"
        script_is "link_$seed" threads --pages 4 --helpers 2 {}
    done
    beside_cycles
    works "they run" "$top/tests/outputs.sh" "$cases" "$room/printed"
}

# The scripts that are recorded, and their runs as they are replayed.
record_all() {
    local script name pages
    cases=$room/record
    mkdir "$cases"
    python3 "$top/tests/random/orders.py" write "$cases"
    cp "$room"/drawn/run_* "$cases"
    for script in "$cases"/*; do
        name=${script##*/}
        pages=1
        [[ $name == order_* ]] || pages=8
        script_is "$name" --pages $pages {}
    done
    works "scripts are recorded" "$top/tests/outputs.sh" "$cases" "$room/recorded" record
    for script in "$cases"/*.args; do cp "$script" "$room/recorded"; done
    works "their runs are replayed" "$top/tests/outputs.sh" "$room/recorded" "$room/said_of" replay
}

texts_are_those_of_the_rule() {
    local number
    for number in $(seq "$texts"); do
        is "text $number" "$(cat "$room/wanted_$number")" "$(cat "$room/drawn/text_$number" && echo X)"
    done
}

replies_are_possible() {
    local seed pages
    for seed in $(seq 200); do
        read -r pages _ < <(numbers_of "$seed")
        echo "workload_$seed $pages"
    done >"$room/workloads"
    works "replies of 200 workloads" python3 "$top/tests/random/possible.py" "$room/run" "$room/printed" <"$room/workloads"
}

one_mutator_is_answered_as_a_script() {
    local seed differ=0
    for seed in $(seq 200); do
        cat "$room/printed/alone_$seed" <(echo collector) | cmp -s - "$room/printed/thread_$seed" ||
            { differ=$((differ + 1)) && echo "random: seed $seed has other replies in a thread"; }
    done
    is "mutators alone with other replies" 0 $differ
}

lines_are_answered() {
    local seed
    for seed in $(seq 20); do
        is "lines, replies and mutators of seed $seed" "2003 2003 3" \
            "$(wc -l <"$room/drawn/long_$seed") $(wc -l <"$room/printed/long_$seed") $(grep -c '^mutator' "$room/printed/three_$seed")"
    done
}

links_and_loads_are_right() {
    local helpers
    works "replies of 200 runs at one link" python3 "$top/tests/random/links.py" check "$room"/printed/link_*
    for helpers in 1 4; do
        is "loads beside cycles that $helpers helpers end" "" \
            "$(head -n "$(wc -l <"$room/loads")" "$room/printed/beside_$helpers" | cmp - "$room/loads" 2>&1)"
    done
}

runs_are_legal() {
    local run name differ=0
    works "replies of 1,000 orders" python3 "$top/tests/random/orders.py" check "$room/recorded"
    for run in "$room"/said_of/*; do
        name=${run##*/}
        [ "$(cat "$run")" = "legal, $(wc -l <"$room/record/$name") lines" ] ||
            { differ=$((differ + 1)) && echo "random: $name: $(head -n 1 "$run")"; }
    done
    is "runs, and those that aren't legal" "1050 0" "$(find "$room/said_of" -type f | wc -l) $differ"
}

write_all
run_all
record_all
texts_are_those_of_the_rule
replies_are_possible
one_mutator_is_answered_as_a_script
lines_are_answered
links_and_loads_are_right
runs_are_legal
tell_counts

#!/usr/bin/env bash
# Tests of the program `mpheap` as it is called: which words it takes, which file or input it reads, what it prints and says, and with
# which status it ends (docs/SCRIPTS.md); and of the words that the wrapper refuses, which the program refuses too. Over a proved build
# (tests/builds.sh) it takes some seconds.
set -uo pipefail
kind="command line"
# shellcheck source=tests/cases.sh
. "$(dirname "$(readlink -f "${BASH_SOURCE[0]}")")/cases.sh"
cd "$room" || exit 1

lines() { printf '%s\n' "$@"; }

# ends WHAT STATUS SAID PRINTED WORDS..: with these words, and the input of this call, the program ends so.
ends() {
    local status=0
    "$build" "${@:5}" >out 2>err || status=$?
    is "$1" "$2|$3|$4" "$status|$(cat err)|$(cat out)"
}

# It fills four pages: one with cells, and three with a large object.
script=$(lines attach "0 alloc 1 3 normal" "0 set 2 77" "0 store 1 0 2" "0 load 3 1 0" "0 alloc 4 1025 normal" "0 alloc 5 257 normal")
replies=$(lines "mutator 0" ok ok ok 77 ok "refused 6 Full")

# Its first mutator fills four pages.
workload=$(lines attach attach "0 set 1 5" "1 get 1" "gc no" "gc begin" "gc finish" "0 get 1" "0 alloc 2 1537 normal" "0 alloc 3 1 normal")
answers=$(lines "mutator 0" ok 5 ok "refused 6 Full" "mutator 1" 0 collector 0 ok 0)

scripts_are_answered() {
    ends "a script" 0 "" "$replies" run --pages 4 <<<"$script"
    ends "a bad line" 2 "bad line 2" "mutator 0" run --pages 4 <<<"attach"$'\n?'
    ends "no line" 0 "" "" run --pages 1 </dev/null
    ends "the largest heap" 0 "" "" run --pages 4096 </dev/null
    ends "an input that can't be read" 1 "read fault" "" run --pages 4 <.
    lines "$script" >a.script
    ends "a script in a file" 0 "" "$replies" run --pages 4 a.script <.
    ends "a file that isn't there" 1 "read fault" "" run --pages 4 no.script <.
    # shellcheck disable=SC2094 # (nothing is written)
    ends "a folder" 1 "read fault" "" run --pages 4 . <.
}

faults_of_writing_are_told() {
    local status=0
    "$build" run --pages 4 a.script >/dev/full 2>err || status=$?
    is "an output that can't be written" "1|write fault" "$status|$(cat err)"
    status=0
    printf 'attach\n?\n' | "$build" run --pages 4 2>/dev/full >out || status=$?
    is "a fault that can't be told" "2|mutator 0" "$status|$(cat out)"
}

workloads_run_on_threads() {
    lines "$workload" >a.workload
    lines attach "gc no" attach >bad.workload
    ends "a workload" 0 "" "$answers" threads --pages 4 a.workload <.
    ends "with helpers" 0 "" "$answers" threads --pages 4 --helpers 8 a.workload <.
    ends "a bad line of a workload" 2 "bad line 3" "" threads --pages 4 --helpers 1 bad.workload <.
    ends "a workload that isn't there" 1 "read fault" "" threads --pages 4 --helpers 1 no.workload <.
    ends "a history of no name" 1 "write fault" "$answers" threads --pages 4 --record '' a.workload <.
}

# bad WORDS..: neither the input nor a file is read.
bad() { ends "the words: $*" 2 "bad command" "" "$@" <.; }

other_words_are_no_command() {
    bad
    bad run
    bad walk --pages 4
    bad run --pages
    local number
    for number in four "" 0 04 +4 4097 18446744073709551616; do bad run --pages "$number"; done
    bad run --pages 4 --pages 4
    bad run --pages 4 a b
    bad run --page 4
    bad --help
    bad help
    bad run --help
    bad --version
    bad threads
    bad threads --pages 4
    bad threads file
    bad threads --pages 0 file
    bad threads --pages 4 --helpers 0 a.workload
    bad threads --pages 4 --helpers 9 a.workload
    bad stress --seed 1 --mutators 2
    bad stress --seed 18446744073709551616 --mutators 1 --steps 0
    bad stress --seed 1 --mutators 17 --steps 0
    bad stress --seed 1 --mutators 1 --steps 100001
}

random_scripts_are_written() {
    ends "the greatest seed, all mutators, no further line" 0 "" "$(yes attach | head -n 16)" stress --seed 18446744073709551615 --mutators 16 --steps 0 <.
    "$build" stress --seed 1 --mutators 1 --steps 100000 >out 2>err
    is "all steps" "0 100001" "$? $(wc -l <out)"
}

# refuses WHAT WORDS..: the wrapper says WHAT of these words, how they are used, and last what the program says, with its status; it reads
# nothing, and calls no rt. The program, where it does the command, doesn't take them either.
refuses() {
    local status=0 last="bad command" takes=$build
    PATH=$room/no_rt:$PATH "$top/mpheap" "${@:2}" >out 2>err <. || status=$?
    case ${2-} in
        record) last="record --pages N FILE" ;;
        replay) last="replay (--pages N | --bytes N) [--places any [--from ADDRESS]] [--why] FILE" ;;
        draw) last="draw --pages N [--run] FILE" ;;
        build | test | package | install | completion | manual | help) last="'mpheap help $2' says more" takes=false ;;
    esac
    is "the words: ${*:2}" "2|mpheap: $1|$last|" "$status|$(head -n 1 err)|$(tail -n 1 err)|$(cat out)"
    "$takes" "${@:2}" >out 2>err <. && is "the program refuses the words: ${*:2}" yes no
}

wrong_words_are_told() {
    local number range="1 to 4096, in decimal" seeds="0 to 18446744073709551615, in decimal"
    refuses "'rum' is no command: the nearest is 'run'" rum --pages 4
    refuses "'walk' is no command" walk --pages 4
    refuses "'--hlep' is no command: the nearest is '--help'" --hlep
    refuses "'run --pages' is no command" "run --pages"
    refuses "'run' lacks '--pages'" run
    refuses "'--pages' lacks its number" run --pages
    refuses "'--pages' lacks its number" run --pages --pages 4
    for number in four "" 0 04 +4 4097 18446744073709551616; do
        refuses "'$number' is no number for '--pages': $range" run --pages "$number"
        refuses "'$number' is no number for '--pages': $range" draw --pages="$number" no.script
        refuses "'$number' is no number for '--pages': $range" record --pages "$number" no.script
        refuses "'$number' is no number for '--pages': $range" replay no.script --pages "$number"
    done
    refuses "'--pages' is given twice" run --pages 4 --pages 4
    refuses "'b' is a second FILE, behind 'a'" run --pages 4 a b
    refuses "'b' is a second FILE, behind 'a'" run a b --pages 4
    refuses "'run' has no option '--page': the nearest is '--pages'" run --page 4
    refuses "'run' has no option '-p'" run -p 4
    refuses "'run' has no option '--helpers'" run --pages 4 --helpers 1
    refuses "'--quiet' takes no value" run --quiet=yes --pages 4
    refuses "'threads' lacks its FILE" threads --pages 4
    refuses "'threads' lacks '--pages'" threads file
    refuses "'9' is no number for '--helpers': 1 to 8, in decimal" threads --pages 4 --helpers 9 a.workload
    refuses "'0' is no number for '--helpers': 1 to 8, in decimal" threads a.workload --pages 4 --helpers=0
    refuses "'--record' lacks its file" threads --pages 4 a.workload --record
    refuses "'--record' lacks its file" threads --record --pages 4 a.workload
    refuses "'stress' lacks '--steps'" stress --seed 1 --mutators 2
    refuses "'stress' takes no word 'x'" stress --seed 1 --mutators 2 --steps 4 x
    refuses "'18446744073709551616' is no number for '--seed': $seeds" stress --seed 18446744073709551616 --mutators 1 --steps 0
    refuses "'17' is no number for '--mutators': 1 to 16, in decimal" stress --seed 1 --mutators 17 --steps 0
    refuses "'100001' is no number for '--steps': 0 to 100000, in decimal" stress --seed 1 --mutators 1 --steps 100001
}

# is_no_file WORDS..: their FILE isn't there, to the wrapper, which calls no rt, and to the program.
is_no_file() {
    local status=0
    PATH=$room/no_rt:$PATH "$top/mpheap" "$@" >out 2>err <. || status=$?
    is "no file: $*" "1|mpheap: there is no file ''|read fault|" "$status|$(head -n 1 err)|$(tail -n 1 err)|$(cat out)"
    ends "the program finds no file: $*" 1 "read fault" "" "$@" <.
}

files_of_no_name_are_not_there() {
    is_no_file run --pages 4 ''
    is_no_file threads '' --pages 4
    is_no_file record --pages 4 ''
    is_no_file replay --pages 4 ''
    is_no_file draw --pages 4 ''
    is_no_file draw --pages 4 --run ''
    refuses "'0' is no number for '--pages': 1 to 4096, in decimal" run --pages 0 ''
    refuses "'PREFIX' lacks its folder: '' is none" install ''
}

words_of_commands_on_files_are_told() {
    refuses "'record' lacks '--pages'" record no.script
    refuses "'record' lacks its FILE" record --pages 4
    refuses "'record' has no option '--why'" record --pages 4 --why no.script
    refuses "'b' is a second FILE, behind 'a'" record --pages 4 a b
    refuses "'draw' lacks '--pages'" draw no.script
    refuses "'--run' lacks its file" draw --pages 4 --run
    refuses "'--run' lacks its file" draw --run --pages 4
    refuses "'b' is a second FILE, behind 'a'" draw --pages 4 a b
    refuses "'b' is a second FILE, behind 'a'" draw --pages 4 --run a b
    refuses "'draw' has no option '--runs': the nearest is '--run'" draw --pages 4 --runs a
    refuses "'replay' lacks '--pages', or '--places any' for a run that says its range itself" replay
    refuses "'replay' lacks '--pages', or '--places any' for a run that says its range itself" replay --why no.run
    refuses "'replay' lacks its FILE" replay --pages 4
    refuses "'replay' lacks its FILE" replay --pages 4 --why
    refuses "'replay' lacks its FILE" replay --pages 4 --places any
    refuses "'--places' lacks a word: classes, any" replay --pages 4 --places
    refuses "'all' is no word for '--places', only classes, any: the nearest is 'any'" replay --places all --pages 4 no.run
    refuses "'--why' is given twice" replay --why --pages 4 --why no.run
    refuses "'--why' takes no value" replay --why=yes --pages 4 no.run
    refuses "'replay' has no option '--run'" replay --pages 4 --run no.run
}

ranges_are_told() {
    local from="8 to 18446744073709551608, in decimal, a multiple of 8" bytes="4096 to 16777216, in decimal, a multiple of 4096"
    refuses "'replay' lacks '--pages' or '--bytes': '--from' says only where the heap begins" replay --places any --from 8 no.run
    refuses "'--pages' and '--bytes' say the same of a heap" replay --places any --pages 1 --bytes 4096 no.run
    refuses "'--from' is for '--places any' alone" replay --pages 1 --from 8 no.run
    refuses "'--bytes' is for '--places any' alone" replay --places classes --bytes 4096 no.run
    refuses "'--from' is given twice" replay --places any --from 8 --from 8 --pages 1 no.run
    refuses "'no.run' is no number for '--bytes': $bytes" replay --places any --bytes no.run
    refuses "'0' is no number for '--from': $from" replay --places any --from 0 --pages 1 no.run
    refuses "'140737488289796' is no number for '--from': it is no multiple of 8" replay --places any --from 140737488289796 --pages 1 no.run
    refuses "'18446744073709551604' is no number for '--from': it is no multiple of 8" replay --places any --from 18446744073709551604 --pages 1 no.run
    refuses "'18446744073709551616' is no number for '--from': $from" replay --places any --from 18446744073709551616 --pages 1 no.run
    refuses "'4095' is no number for '--bytes': $bytes" replay --places any --bytes 4095 no.run
    refuses "'4104' is no number for '--bytes': it is no multiple of 4096" replay --places any --bytes 4104 no.run
    refuses "'16781312' is no number for '--bytes': $bytes" replay --places any --bytes 16781312 no.run
    refuses "a heap from '18446744073692774400' on has its end past 2^64 - 1" \
        replay --places any --from 18446744073692774400 --bytes 16777216 no.run
    refuses "a heap from '18446744073709547520' on has its end past 2^64 - 1" replay --places any --from 18446744073709547520 --pages 1 no.run
}

words_of_the_wrapper_are_told() {
    local whats="run, threads, stress, record, replay, draw, c, gc"
    refuses "'now' is no word for 'WHAT', only $whats" build run now
    refuses "'reply' is no word for 'WHAT', only $whats: the nearest is 'replay'" build reply
    refuses "'test' takes no word 'all'" test all
    refuses "'package' lacks its DIR" package
    refuses "'install' lacks its PREFIX" install
    refuses "'b' is a second PREFIX, behind 'a'" install a b
    refuses "'zsh' is no word for 'SHELL', only bash" completion zsh
    refuses "'bash' is a second SHELL, behind 'bash'" completion bash bash
    refuses "'build' has no option '--pages'" build --pages 4
    refuses "'rnu' is no word for 'COMMAND', only run, threads, stress, record, replay, draw, build, test, package, install, completion, manual, help: the nearest is 'run'" help rnu
}

mkdir no_rt
# shellcheck disable=SC2016 # (the stand-in for rt expands it)
printf '#!/bin/sh\necho "rt is called: $*" >&2\nexit 1\n' >no_rt/rt
chmod +x no_rt/rt
if is_built; then
    wrong_words_are_told
    files_of_no_name_are_not_there
    words_of_commands_on_files_are_told
    ranges_are_told
    words_of_the_wrapper_are_told
    scripts_are_answered
    faults_of_writing_are_told
    workloads_run_on_threads
    other_words_are_no_command
    random_scripts_are_written
fi
tell_counts

#!/usr/bin/env bash
# Tests of include/mpheap_record.h: it compiles without a warning in each standard; programs that are written with it, under sanitizers,
# write the lines that stand beside them, and end their runs as it says, in files and rings; and `replay` judges these, those of
# examples/c/recorded_collector.c as it stands and with each of its bugs. Over a proved `replay` (tests/builds.sh) it takes some seconds. It
# needs cc; what needs g++ is left out without it.
set -uo pipefail
kind=recording_header
# shellcheck source=tests/cases.sh
. "$(dirname "$(readlink -f "${BASH_SOURCE[0]}")")/cases.sh"
here=$top/tests/recording_header
warnings=(-Wall -Wextra -Werror -pedantic -Wconversion -Wshadow -I"$top/include")
sanitizers=(-g -O1 "-fsanitize=address,undefined" -fno-sanitize-recover=all)

# compiles WHAT COMMAND..
compiles() {
    local said
    said=$("${@:2}" 2>&1)
    is "$1 compiles" "0 " "$? $said"
}

# compile NAME FILE FLAGS..: a program of room, as C11.
compile() { compiles "$1" cc -std=c11 "${warnings[@]}" "${@:3}" "$2" -o "$room/$1"; }

standards_agree() {
    local standard file
    for file in mpheap_record mpheap_record_run; do echo "#include \"$file.h\"" >"$room/$file.c"; done
    for file in "$room"/mpheap_record*.c "$here"/*.c "$top/examples/c/recorded_collector.c"; do
        for standard in c99 c11 c17; do
            compiles "$(basename "$file") as $standard" cc -std=$standard -O2 "${warnings[@]}" -c "$file" -o "$room/part.o"
        done
        command -v g++ >/dev/null || { echo "$kind: $(basename "$file") isn't compiled as C++: left out, for want of g++" && continue; }
        for standard in c++11 c++17; do
            compiles "$(basename "$file") as $standard" g++ -x c++ -std=$standard -O2 "${warnings[@]}" -c "$file" -o "$room/part.o"
        done
    done
}

# No function asks for memory: of the C library all of them call these alone.
no_memory_is_asked_for() {
    cc -std=c11 -O0 -fno-builtin -fkeep-inline-functions -I"$top/include" -c "$room/mpheap_record.c" -o "$room/alone.o"
    is "what is called" "__errno_location memchr memcpy memset raise signal strlen write" \
        "$(nm -u "$room/alone.o" | awk '$2 != "_GLOBAL_OFFSET_TABLE_" { sub("__sysv_", ""); print $2 }' | sort | xargs)"
}

# judged NAME STATUS SAID: what replay says of the run in room/NAME, whose range stands in its last line.
judged() {
    local range
    read -ra range < <(sed -n 's/^# in //p' "$room/$1")
    [ ${#range[@]} -gt 0 ] || range=(--pages 1)
    cp "$room/$1" "$cases/$1"
    printf '%s\n' "$3" >"$cases/$1.stdout"
    case_is "$1" "$2" "" --places any "${range[@]}" {}
}

commands_have_their_lines() {
    compile commands "$here/commands.c" "${sanitizers[@]}"
    compile refusals "$here/refusals.c" "${sanitizers[@]}"
    "$room/commands" >"$room/commands.run"
    is "commands: status" 0 $?
    is "commands: lines" "" "$(diff "$here/commands.expected" "$room/commands.run")"
    judged commands.run 0 "legal, 89 lines"
    # shellcheck disable=SC2016 # (the backquotes are the table's)
    is "refusals" "$(sed -n '/^| Refusal |/,/^$/s/^| `\([0-9]* [A-Za-z]*\)` .*/\1/p' "$top/docs/SCRIPTS.md")" "$("$room/refusals")"
}

# ends NAME STATUS SAID WORDS..: how the program of runs ends with these words; what it wrote is in room/NAME.
ends() {
    { "$room/endings" "${@:4}" >"$room/$1" 2>"$room/said"; } 2>/dev/null
    is "$1: status, what is said" "$2 $3" "$? $(cat "$room/said")"
}

# A file, a ring that is long enough, and a process that aborts leave the same run; and a ring that is told its heap anew one that begins there.
whole_runs_are_left() {
    ends file 0 "602 lines, fault 0" file
    ends small_memory 0 "602 lines, fault 0" file 2048
    ends ring 0 "602 lines, fault 0" ring
    ends aborted 134 "" abort
    ends aborted_ring 134 "" ring_abort
    for name in small_memory ring aborted aborted_ring; do is "$name: its run" "" "$(cmp "$room/file" "$room/$name" 2>&1)"; done
    judged file 0 "legal, 602 lines"
    ends flushed 0 "" flushed
    is "flushed: its run, without the range" "" "$(grep -v "^# in" "$room/file" | cmp - "$room/flushed" 2>&1)"
    ends anew 0 "8 lines, fault 0" ring_anew
    judged anew 0 "legal, 8 lines"
    ends anew_that_lost 0 "8 lines, fault 0" ring_anew 4096
    is "anew_that_lost: its run" "" "$(cmp "$room/anew" "$room/anew_that_lost" 2>&1)"
}

# A ring that lost lines says of each that is left which line of the file it is, up to the last one.
last_lines_are_kept() {
    local bytes
    for bytes in 2048 2050 2052 4096 9000; do
        ends "last_$bytes" 0 "602 lines, fault 0" ring $bytes
        is "last_$bytes: lines" "" "$(sed -n 's/^# \([0-9]*\): /\1:/p' "$room/last_$bytes" | diff - <(grep -v '^# in' "$room/file" | grep -n . | tail -n "$(wc -l <"$room/last_$bytes")"))"
        is "last_$bytes: comments alone" "" "$(grep -v '^# ' "$room/last_$bytes")"
        is "last_$bytes: as many as there is room for" yes "$([ "$(sed 's/^# [0-9]*: //' "$room/last_$bytes" | wc -c)" -ge $((bytes / 2 - 60)) ] && echo yes)"
        judged "last_$bytes" 2 "no lines"
    done
    ends aborted_last 134 "" ring_abort 2048
    is "aborted_last: its lines" "" "$(cmp "$room/last_2048" "$room/aborted_last" 2>&1)"
}

faults_end_runs() {
    ends too_many 0 "2602 lines, fault -1" too_many 2048
    judged too_many 0 "legal, 2602 lines"
    ends too_small 0 "0 lines, fault 22" small 1023
    is "too_small: lines" "" "$(cat "$room/too_small")"
    [ ! -w /dev/full ] || is "a full disk" "602 lines, fault 28" "$("$room/endings" full 2>&1 >/dev/full)"
}

threads_write_one_history() {
    local flags
    for flags in address,undefined thread; do
        compile threads "$here/threads.c" -g -O1 "-fsanitize=$flags" -fno-sanitize-recover=all -pthread
        "$room/threads" >"$room/threads_$flags"
        is "threads with $flags: status" 0 $?
        judged "threads_$flags" 0 "legal, 4805 lines"
    done
}

# The collector in examples/c: its .expected has what is said of each bug behind its number, where {N} is the address of the Nth alloc.
collectors_are_judged() {
    local bug status source=$top/examples/c/recorded_collector
    for bug in 0 1 2 3 4; do
        compile "collector_$bug" "$source.c" "${sanitizers[@]}" "-DBUG=$bug"
        status=0
        { "$room/collector_$bug" >"$room/bug_$bug" || status=$?; } 2>/dev/null
        is "bug $bug: status" "$(sed -n "s/^status $bug: //p" "$source.expected")" $status
        judged "bug_$bug" $((bug > 0)) "$(sed -n "s/^$bug: //p" "$source.expected" | named_places "$room/bug_$bug")"
    done
}

open_cases replay
standards_agree
no_memory_is_asked_for
commands_have_their_lines
compile endings "$here/endings.c" "${sanitizers[@]}"
whole_runs_are_left
last_lines_are_kept
faults_end_runs
threads_write_one_history
collectors_are_judged
run_cases 16
tell_counts

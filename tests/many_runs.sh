#!/usr/bin/env bash
# Tests of `./mpheap replay` on many runs, as data, and on runs that are still being written: what it prints and its status. It takes the build
# of `replay` that `./mpheap` takes itself, a proved one where there is one, and seconds then. It needs Python 3.
set -uo pipefail
kind=many_runs
# shellcheck source=tests/cases.sh
. "$(dirname "$(readlink -f "${BASH_SOURCE[0]}")")/cases.sh"

# call WORDS..: what `./mpheap replay` prints with these words, and its status, in $out and $status.
call() {
    out=$(cd "$room" && "$top/mpheap" replay "$@" 2>"$room/err" </dev/null)
    status=$?
}

# ends WHAT STATUS PRINTED: how the last call ended.
ends() { is "$1" "$2 $3" "$status $out"; }

write_runs() {
    printf '%s\n' "attach => mutator 0" "0 alloc 1 2 normal => ok @ 4096 2" "# in --from 4096 --bytes 4096" >"$room/good"
    printf '%s\n' "attach => mutator 0" "0 alloc 1 2 normal => ok @ 8192 2" "0 load 2 1 0 => 5" "# in --from 8192 --bytes 4096" >"$room/wrong"
    printf '%s\n' "attach => mutator 0" "0 alloc 1 2 normal => ok @ 4096 2" "0 alloc 2 2 normal => ok @ 4112 2" "0 store 1 0 2 => ok" "0 set 2 0 => ok" \
        "gc collect => 1 - 4112" "# in --from 4096 --bytes 4096" >"$room/taken"
    printf '%s\n' "attach" >"$room/none"
    : >"$room/empty"
    printf '%s\n' "# 8123: 0 load 3 1 0 => 24" >"$room/comments"
    printf '%s\n' "attach => mutator 0" "# in --from 4096 --bytes 33554432" >"$room/large"
    loaded="line 3: word 0 of object 8192 (0x2000, allocated at line 2, 2 words) was loaded as 5, but it is 0, since nothing was stored there yet"
}

many_files_have_a_line_each() {
    call --places any good
    ends "one" 0 "legal, 2 lines"
    call --places any good wrong good
    ends "three, each in its own range" 1 "good: legal, 2 lines
wrong: $loaded
good: legal, 2 lines"
    call --pages 1 good none empty not.there
    ends "the worst status" 2 "good: line 2: not a line of a run
none: line 1: not a line of a run
empty: no lines
not.there: read fault"
    call --places any --from 4096 --bytes 4096 good wrong
    ends "a range for all" 1 "good: legal, 2 lines
wrong: line 2: the new object at 8192 (0x2000) of 2 words lies outside of the heap, which has 4096 bytes from 4096 on"
    call --places any comments empty none
    ends "files without a range" 2 "comments: no lines
empty: no lines
none: the run doesn't say the range of its heap, as '# in --from ADDRESS --bytes N': '--pages' or '--bytes' has to"
    call --places any large
    ends "a range that is too large" 2 ""
    is "a range that is too large: what is said" "mpheap: '33554432' is no number for '--bytes': 4096 to 16777216, in decimal, a multiple of 4096" "$(tail -n 1 "$room/err")"
    call --places none good
    is "words that the program doesn't take" "2 " "$status $out"
}

# data_is WHAT STATUS DATA: a value of Python that the last call has printed, as JSON.
data_is() {
    is "$1" "$2 yes" "$status $(python3 -c 'import ast, json, sys; print("yes" if [json.loads(line) for line in sys.argv[1].splitlines()] == ast.literal_eval(sys.argv[2]) else sys.argv[1])' "$out" "$3")"
}

the_same_is_told_as_data() {
    cp "$room/good" "$room/a \"name\" \\"
    call --json --places any good "a \"name\" \\"
    data_is "legal" 0 '[{"file": "good", "status": 0, "verdict": "legal", "lines": 2}, {"file": "a \"name\" \\", "status": 0, "verdict": "legal", "lines": 2}]'
    call --places any --json wrong
    data_is "a load" 1 '[{"file": "wrong", "status": 1, "verdict": "breaks", "line": 3, "first": "'"${loaded#line 3: }"'",
        "rule": "a load answers the word that was stored last, or why there is none", "answer": "0"}]'
    call --places any --json taken
    data_is "an object that is in use" 1 '[{"file": "taken", "status": 1, "verdict": "breaks", "line": 6,
        "first": "object 4112 (0x1010, allocated at line 3, 2 words) was taken, but word 0 of object 4096 points into it",
        "path": ["register 1 of mutator 0 points into object 4096 (0x1000, allocated at line 2, 2 words) since line 2",
            "word 0 of object 4096 points into object 4112 (0x1010, allocated at line 3, 2 words) since line 4"],
        "rule": "a collection forgets so many distinct objects that nothing reaches, by their bases: the end of a cycle at least all that the cycle did not touch, a full collection all of them, whether they are named or not",
        "answer": "0", "wrong": "the object at 4112 has to stay: word 0 of the object at 4096 points into it"}]'
    out=$("$top/mpheap" replay --json --places any --from 4096 --pages 1 /dev/stdin <"$room/good" 2>"$room/err")
    status=$?
    data_is "standard input" 0 '[{"file": "/dev/stdin", "status": 0, "verdict": "legal", "lines": 2}]'
    call --json --pages 1 none empty not.there
    data_is "no run" 2 '[{"file": "none", "status": 2, "verdict": "bad", "line": 1, "first": "not a line of a run"},
        {"file": "empty", "status": 2, "verdict": "no lines"}, {"file": "not.there", "status": 1, "verdict": "fault", "fault": "read fault"}]'
}

# A pipe is judged while it is open, at its first wrong line; and to its end where none is wrong. A line that isn't whole yet isn't judged.
runs_are_followed() {
    mkfifo "$room/pipe"
    (head -n 3 "$room/wrong" && exec sleep 100) >"$room/pipe" &
    call --follow --places any --from 8192 --bytes 4096 pipe
    ends "a pipe that stays open" 1 "$loaded
line 3: a load answers the word that was stored last, or why there is none
line 3: a sequential heap answers 0"
    kill $!
    wait
    (printf 'attach => mut' && sleep 1 && printf 'ator 0\n0 alloc 1 2 normal => ok @ 4096 2') >"$room/pipe" &
    call --follow --pages 1 --places any --from 4096 pipe
    ends "a pipe to its end" 0 "legal, 2 lines"
    cp "$room/good" "$room/grows"
    (sleep 1 && echo "0 get 1 => 7" >>"$room/grows") &
    call --follow --json --places any grows
    # shellcheck disable=SC2016 # (the backquotes are the sentence's)
    data_is "a file that grows" 1 '[{"file": "grows", "status": 1, "verdict": "breaks", "line": 4, "first": "`0 get 1` was answered `7`, and only `4096` is right",
        "rule": "registers, stacks and globals have what was put there last", "answer": "4096"}]'
    wait
    call --follow --places any good wrong
    is "two files" 2 "$status"
    call --follow --pages 1 not.there
    ends "no file" 1 ""
}

write_runs
many_files_have_a_line_each
the_same_is_told_as_data
runs_are_followed
tell_counts

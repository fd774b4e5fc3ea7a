# shellcheck shell=bash disable=SC2154 # (whoever reads this has the other names)
# Part of tests/wrapper.sh, read by it: unproved runs where no build can be kept, since rt's temporary folder is laid out otherwise than
# the wrapper knows: then rt is given the program's words, with FILE as /dev/stdin, and all of its input.

# The first run finds it out and does it in the other way; later ones know it.
the_other_way_is_found() {
    rm -rf "$tree"/crates/*/out
    touch "$room/says/elsewhere"
    echo attach >first.script
    try_ends 0 $'mutator 0\n'
    call run --pages 4 first.script
    is "another layout: rt's calls" "$(lines "mpheap try -- run --pages 1 pipe" "mpheap try -- run --pages 4 /dev/stdin")" \
        "$(calls | sed 's| /[^ ]*/pipe$| pipe|')"
    is "another layout: replies and status" "mutator 0 0" "$out $status"
    has "another layout: why" "made for this one run, since this rt lets none be kept" "$err"
    call run --pages 4 first.script
    is "another layout, again: rt's calls" "mpheap try -- run --pages 4 /dev/stdin" "$(calls)"
}

# What rt's own run of an unproved program can't do is said before it builds, where that is known.
limits_are_told_first() {
    call threads --pages 4 --record run first.script
    is "a history that is to be written: status, rt's calls" "3 " "$status $(calls)"
    has "a history that is to be written: why" "can't write a file: 'mpheap build threads' makes" "$err"
}

words_stay_as_they_are() {
    touch run 4 ./--pages
    echo attach >first.script
    try_ends 0 $'mutator 0\n'
    call run --pages 4 first.script
    is "words that name files" "$(lines run --pages 4 /dev/stdin)" "$(words)"
    is "the replies" "mutator 0" "$out"
    is "the status" 0 "$status"
    has "an unproved build says so" "an unproved build" "$err"
    lacks "rt's own lines are left out" "run=ended" "$err"
    call stress --seed 1 --mutators 2 --steps 4
    is "a random script has no FILE" "$(lines stress --seed 1 --mutators 2 --steps 4)" "$(words)"
    call stress --seed 18446744073709551615 --mutators 16 --steps 80000
    is "great numbers" "$(lines stress --seed 18446744073709551615 --mutators 16 --steps 80000)" "$(words)"
    call run --pages 4096 first.script
    is "the greatest heap" "$(lines run --pages 4096 /dev/stdin)" "$(words)"
    rm run 4 ./--pages
}

each_command_is_called_by_its_name() {
    local word
    for word in record replay; do
        try_ends 0 $'legal\n'
        call "$word" --pages 4 first.script
        is "$word: its words" "mpheap try -- $word --pages 4 /dev/stdin" "$(calls)"
        is "$word: its text" attach "$(input)"
        is "$word: what it prints" legal "$out"
    done
}

# A drawn run is the page with the trace that the program printed: joined wherever there is any line, with its status.
a_drawn_run_is_a_page() {
    try_ends 0 $'{"title":"a script"}\n{"c":"attach","r":"<"}\n'
    call draw --pages 4 first.script
    is "draw: its words" "mpheap try -- draw --pages 4 /dev/stdin" "$(calls)"
    is "draw: the page" "<!doctype html>" "$(printf '%s' "${out%%$'\n'*}" | tr '[:upper:]' '[:lower:]')"
    has "draw: the trace is in it" '{"c":"attach","r":"\u003c"}' "$out"
    has "draw: its title is FILE's name, and from what it comes" \
        '{"title":"first","source":"the script first.script on 4 pages, by an unproved build, commit unknown"}' "$out"
    try_ends 2 $'{"c":"attach"}\n' "bad line 2"
    call draw --pages 4 first.script
    is "draw: the status of a bad line" 2 "$status"
    has "draw: the lines before it are drawn" '{"c":"attach"}' "$out"
    try_ends 1 "" "no memory"
    call draw --pages 4 first.script
    is "draw: no line, no page" "" "$out"
    echo "0 get 1" >"$room/script"
    call draw --pages 4 <"$room/script"
    is "draw: a script from standard input" "mpheap try -- draw --pages 4 /dev/stdin|0 get 1" "$(calls)|$(input)"
    try_ends 1 $'{"title":"a run"}\n{"c":"attach","r":"mutator 1","no":1}\n' "line 1: a mutator gets the lowest free slot"
    mv first.script first.replay
    call draw --pages 4 --run first.replay
    mv first.replay first.script
    is "draw --run: its words" "mpheap try -- draw --pages 4 --run /dev/stdin" "$(calls)"
    is "draw --run: the status of a line that is refused" 1 "$status"
    has "draw --run: what is said of it" "line 1: a mutator gets the lowest free slot" "$err"
    has "draw --run: the page" '{"c":"attach","r":"mutator 1","no":1}' "$out"
    has "draw --run: its title is FILE's name, and from what it comes" \
        '{"title":"first","source":"the run first.replay on 4 pages, by an unproved build, commit unknown"}' "$out"
    try_ends 2 "" "no lines"
    call draw --pages 4 --run first.script
    is "draw --run: no run, no page" "2 " "$status $out"
    no_file "there is no file 'not.there'" draw --pages 4 --run not.there
}

file_is_the_callers() {
    echo "0 get 1" >args
    call run --pages 4 args
    is "a name that stands in the crate too" "0 get 1" "$(input)"
    rm args
    no_file "there is no file 'args'" run --pages 4 args
    no_file "there is no file 'args'" replay --pages 4 --why args
    no_file "'$room' is a folder" run --pages 4 "$room"
    mkdir "with space"
    echo attach >"with space/a b"
    call run --pages 4 "with space/a b"
    is "a name with spaces" attach "$(input)"
}

input_is_read_to_its_end() {
    status=0
    (echo attach; sleep 2.5; echo "0 get 1") | "$wrapper" run --pages 4 >"$room/out" 2>"$room/err" || status=$?
    is "a pipe with a pause" "$(lines attach "0 get 1")" "$(input)"
    is "rt is given a plain file" "regular file" "$(cat "$room/seen/kind")"
    rm -f "$room"/seen/*
    typed=0
    python3 - "$wrapper" <<'TYPED' >"$room/out" 2>&1 || typed=$?
import os, pty, sys, time
try:
    child, end = pty.fork()
except OSError:
    sys.exit(77)
if child == 0:
    os.execv(sys.argv[1], [sys.argv[1], "run", "--pages", "4"])
for line in (b"attach\n", b"0 get 1\n", b"\x04"):
    time.sleep(0.5)
    os.write(end, line)
try:
    while os.read(end, 4096):
        pass
except OSError:
    pass
os.waitpid(child, 0)
TYPED
    if [ "$typed" = 77 ]; then
        echo "wrapper: no terminal can be made here: a typed script isn't tested"
    else
        is "a script typed on a terminal" "$(lines attach "0 get 1")" "$(input)"
    fi
    rm -f "$room"/seen/*
    status=0
    "$wrapper" run --pages 4 <&- >"$room/out" 2>"$room/err" || status=$?
    is "a closed input: status" 1 "$status"
    is "a closed input" "$(lines "mpheap: standard input is closed" "read fault")" "$(cat "$room/err")"
}

a_signal_ends_a_run() {
    touch "$room/says/waits"
    rm -f "$room"/seen/*
    "$wrapper" run --pages 4 first.script >"$room/out" 2>&1 &
    until_true test -s "$room/seen/waiting"
    ends_at_once "a signal while rt works" $!
    is "a signal while rt works: rt is ended" no "$(kill -0 "$(cat "$room/seen/waiting")" 2>/dev/null && echo yes || echo no)"
    rm "$room/says/waits"
    mkfifo "$room/slow"
    sleep 60 >"$room/slow" &
    local writer=$!
    "$wrapper" run --pages 4 <"$room/slow" >"$room/out" 2>&1 &
    until_true has_left_something
    ends_at_once "a signal while the script is read" $!
    kill "$writer"
    rm "$room/slow"
}

# A shell that runs the wrapper in the background ignores Ctrl-C for it, and rt would end by that: the run goes on to its answer.
an_ignored_signal_ends_nothing() {
    cat >"$room/says/first" <<'FIRST'
#!/usr/bin/env python3
import os, signal, sys, time
signal.signal(signal.SIGINT, lambda *_: os.kill(os.getppid(), signal.SIGKILL))
with open(os.environ["ROOM"] + "/seen/waiting", "w") as file:
    print("waits", file=file)
time.sleep(1.5)
FIRST
    chmod +x "$room/says/first"
    try_ends 0 $'mutator 0\n'
    rm -f "$room"/seen/*
    # shellcheck disable=SC2016 # (the inner shell expands it)
    setsid bash -c 'trap "" INT; "$1" run --pages 4 first.script; echo "status $?"' - "$wrapper" >"$room/out" 2>"$room/err" &
    local group=$!
    until_true test -s "$room/seen/waiting"
    kill -INT -- "-$group"
    wait "$group"
    rm "$room/says/first"
    is "Ctrl-C that the caller ignores: the run gives its answer" "$(lines "mutator 0" "status 0")" "$(cat "$room/out")"
    # shellcheck disable=SC2016 # (the stand-in expands it)
    printf '#!/bin/sh\nkill -9 $PPID\n' >"$room/says/first"
    chmod +x "$room/says/first"
    rm -rf "$tree/crates/mpheap/out"
    call run --pages 4 first.script
    rm "$room/says/first"
    is "rt that ends without a word: status" 3 "$status"
    has "rt that ends without a word: that is said" "rt made no unproved build, ended with status 137 and said nothing" "$err"
    mkdir -p "$tree/crates/mpheap/out/unproved"
    cp "$room/says/version" "$tree/crates/mpheap/out/unproved/mpheap.once"
}

answers_are_handed_on() {
    try_ends 2 $'mutator 0\n' "bad line 2"
    call run --pages 4 first.script
    is "a bad line: status" 2 "$status"
    is "a bad line: replies" "mutator 0" "$out"
    is "a bad line: its line comes last" "bad line 2" "$(tail -n 1 "$room/err")"
    try_ends 1 "" "read fault"
    call run --pages 4 first.script
    is "a fault: status" 1 "$status"
    is "a fault: its line comes last" "read fault" "$(tail -n 1 "$room/err")"
}

no_answer_is_status_three() {
    try_answers 6 "" "" "checked: no-answer: the program wrote more than 1048576 bytes" "run=no-answer proved=no"
    call run --pages 4 first.script
    is "no answer: status" 3 "$status"
    is "no answer: nothing is replied" "" "$out"
    is "no answer: one line tells it" 2 "$(wc -l <"$room/err")"
    has "no answer: what to do" "mpheap build" "$err"
    echo "error: a semicolon is missing" >"$room/says/error"
    call run --pages 4 first.script
    rm "$room/says/error"
    is "sources that don't build: status" 3 "$status"
    has "sources that don't build: why" "a semicolon is missing" "$err"
    try_ends 0 $'mutator 0\n'
    status=0
    "$wrapper" run --pages 4 first.script >&- 2>"$room/err" || status=$?
    is "a closed output: status" 3 "$status"
    has "a closed output is told" "output" "$(cat "$room/err")"
    if [ -w /dev/full ]; then
        status=0
        "$wrapper" run --pages 4 first.script >/dev/full 2>"$room/err" || status=$?
        is "a full output: status" 3 "$status"
    fi
}

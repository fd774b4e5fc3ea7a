#!/usr/bin/env bash
# Tests of the wrapper `mpheap` at the top of the repository, over a copy of the tree. What the wrapper alone decides is tested
# with a stand-in for rt (tests/wrapper/rt), which notes how it was called and answers as it is told. Meanwhile some runs of the real rt
# go on, over other copies, so that the stand-in's answers are known to be rt's. It needs a C compiler, and leaves nothing behind.
# shellcheck disable=SC2034 # (the parts in tests/wrapper use what is here)
set -uo pipefail
top=$(dirname "$(dirname "$(readlink -f "${BASH_SOURCE[0]}")")")
room=$(mktemp -d)
trap 'kill "${lanes[@]}" 2>/dev/null; wait; rm -rf "$room"' EXIT
trap 'exit 143' INT TERM HUP
lanes=()
kind=wrapper
# shellcheck source=tests/counts.sh
. "$top/tests/counts.sh"
export ROOM=$room
export TMPDIR=$room/temporary
tree=$room/tree
real_path=$PATH
stand_in=$room/bin:$PATH
for part in words unproved once building packing real; do
    # shellcheck source=/dev/null
    . "$top/tests/wrapper/$part.sh"
done

# has WHAT WORDS TEXT
has() {
    case $3 in
        *"$2"*) is "$1" yes yes ;;
        *) is "$1" "a text with: $2" "$3" ;;
    esac
}

lacks() {
    case $3 in
        *"$2"*) is "$1" "a text without: $2" "$3" ;;
        *) is "$1" yes yes ;;
    esac
}

# call WORDS..: runs the wrapper in the current folder, and keeps its status, output and errors.
call() {
    rm -f "$room"/seen/*
    status=0
    "$wrapper" "$@" >"$room/out" 2>"$room/err" || status=$?
    out=$(cat "$room/out")
    err=$(cat "$room/err")
}

# What the stand-in, or its program, was given: its words, one a line, and its input; and rt's calls.
words() { cat "$room/seen/words" 2>/dev/null; }
input() { cat "$room/seen/input" 2>/dev/null; }
calls() { cat "$room/seen/calls" 2>/dev/null; }
lines() { printf '%s\n' "$@"; }

# try_answers STATUS REPLIES SAID ENDS..: what the stand-in's next unproved runs answer, and rt's lines behind that.
try_answers() {
    echo "$1" >"$room/says/status"
    printf '%s' "$2" >"$room/says/replies"
    printf '%s' "${3:+$3$'\n'}" >"$room/says/said"
    lines "${@:4}" >"$room/says/ends"
}

try_ends() {
    try_answers "$1" "$2" "${3-}" "checked: ended status=$1" "run=ended status=$1 runners=1 proved=no"
}

# no_file WHAT WORDS..: a FILE that can't be read is told before anything is built, with the program's own text and status.
no_file() {
    call "${@:2}"
    is "${*:2}: status, the program's own text" "1 read fault" "$status $(tail -n 1 "$room/err")"
    is "${*:2}: which file" "mpheap: $1" "$(head -n 1 "$room/err")"
    is "${*:2}: nothing is built or replied" "" "$(calls)$out"
}

# answers WHAT WORDS..: what these words print to standard output, with status 0, and nothing else; nothing is built.
answers() {
    call "${@:2}"
    is "$1: status, what is said, rt's calls" "0  " "$status $err $(calls)"
}

# within MOST SECONDS: yes, or how many it were.
within() { if [ "$2" -le "$1" ]; then echo yes; else echo "$2 s"; fi; }

# ends_at_once WHAT PROCESS: a signal ends the wrapper that is this process within thirty seconds, and nothing is left of its run.
ends_at_once() {
    local began=$SECONDS
    kill -TERM "$2"
    status=0
    wait "$2" 2>/dev/null || status=$?
    is "$1: status" 143 "$status"
    is "$1: at once" yes "$(within 30 $((SECONDS - began)))"
    is "$1: no folder is left" "" "$(ls -A "$TMPDIR")"
}

# until_true COMMAND..: waits until it says yes, two minutes at most.
until_true() {
    local look
    for look in {1..1200}; do
        "$@" && return
        sleep 0.1
    done
    is "waited for: $* ($look looks)" yes no
}

has_left_something() { [ -n "$(ls -A "$TMPDIR")" ]; }

# copy_tree FOLDER: what the wrapper reads of the repository.
copy_tree() {
    mkdir -p "$1"
    (cd "$top" && tar cf - --exclude=out --exclude=must-fail mpheap wrapper viewer README.md HANDLES crates.txt c gc include crates) |
        tar xf - -C "$1"
}

open_room() {
    mkdir -p "$room/bin" "$room/seen" "$room/says" "$room/temporary" "$room/caller" "$room/home" "$room/kit/bin"
    copy_tree "$tree"
    mkdir -p "$tree/crates/elsewhere/src"
    echo "elsewhere: words" >>"$tree/crates.txt"
    echo "kit-1 logic 1" >"$room/says/version"
    cp "$top/tests/wrapper/rt" "$room/bin/rt"
    cp "$top/tests/wrapper/program" "$room/program"
    cp "$top/tests/wrapper/rattle" "$room/kit/bin/rattle"
    wrapper=$tree/mpheap
    PATH=$stand_in
    cd "$room/caller" || exit 1
}

PATH=$real_path start_real_runs
open_room
it_says_how_it_is_used
versions_are_told
words_are_completed
a_manual_is_there
nothing_is_made_before_a_build
a_build_is_kept_by_its_sources
a_kept_build_is_called_as_it_is
builds_that_fail_keep_nothing
nothing_goes_without_rt
the_other_way_is_found
words_stay_as_they_are
words_come_in_any_order
each_command_is_called_by_its_name
a_drawn_run_is_a_page
limits_are_the_programs
limits_are_told_first
file_is_the_callers
input_is_read_to_its_end
a_signal_ends_a_run
an_ignored_signal_ends_nothing
answers_are_handed_on
no_answer_is_status_three
build_shows_its_way
parts_are_built_alone
call build
proved_is_said_where_it_is_true
the_heap_for_c_is_copied
a_package_is_made
failed_builds_prove_nothing
a_programs_answer_is_no_failed_proof
a_stopped_build_leaves_nothing
long_work_shows_progress
found_from_everywhere
is "no folder is left behind" "" "$(ls -A "$TMPDIR")"
real_runs
tell_counts

#!/usr/bin/env bash
# Tests of the command `draw`: the trace of each worked example is compared, line by line, with the run that `record` writes of the
# same script, from which tests/draw/run.py works out what is true, and its replies with those beside the script. The trace of that run,
# by `draw --run`, is compared with both, and those of the written runs of tests/rows with what `replay` says of them. Of the examples
# and of random scripts it is looked at which words each `gc mark` is said to have read (tests/draw/looked.py).
# Which build runs is said in tests/builds.sh. Over a proved one it takes seconds. It needs Python 3, and leaves nothing behind.
set -uo pipefail
top=$(dirname "$(dirname "$(readlink -f "${BASH_SOURCE[0]}")")")
# shellcheck source=tests/builds.sh
. "$top/tests/builds.sh"
room=$(mktemp -d)
trap 'rm -rf "$room"' EXIT
trap 'exit 143' INT TERM HUP
kind=draw
# shellcheck source=tests/counts.sh
. "$top/tests/counts.sh"

# agrees WHAT COMMAND..: the command ends with 0, and otherwise what it said last is shown.
agrees() {
    if "${@:2}" >"$room/said" 2>&1; then
        passed=$((passed + 1))
    else
        failed=$((failed + 1))
        printf 'draw: %s\n%s\n' "$1" "$(tail -n 3 "$room/said")"
    fi
}

# says STATUS TEXT COMMAND..: the command ends with the status, and says this alone on standard error.
says() {
    local status=0
    "${@:3}" >"$room/shown" 2>"$room/err" || status=$?
    [ "$status: $(cat "$room/err")" = "$1: $2" ] || { echo "status $status: $(cat "$room/err")" && false; }
}

replies() {
    python3 -c 'import json, sys; [print(json.loads(line)["r"]) for line in list(open(sys.argv[1]))[1:]]' "$1"
}

replies_are_those() {
    replies "$1" | diff - "$2"
}

# case_is CASES FILE NAME WORDS..: the file with the words to call a command with.
case_is() {
    mkdir -p "$room/$1"
    [ "$2" = "$room/$1/$3" ] || cp "$2" "$room/$1/$3"
    printf '%s\n' "${@:4}" >"$room/$1/$3.args"
}

# run_cases COMMAND CASES FOLDER: what the command prints of the cases is in the folder.
run_cases() {
    agrees "$1 runs over $2" "$top/tests/draw/runs.sh" "$1" "$room/$2" "$room/$3"
}

scripts_are_drawn() {
    local script
    for script in "$top"/examples/*.script; do case_is scripts "$script" "$(basename "$script" .script)" --pages 4 {}; done
    run_cases draw scripts draw
    run_cases record scripts record
}

# The runs that `record` wrote, and those of tests/rows that need no option of `replay`; what `replay` says of each is in the folder
# `replied`.
runs_are_drawn() {
    local run name pages options text said number=0
    mkdir "$room/replied" "$room/runs"
    for run in "$room"/scripts/*.args; do
        name=$(basename "$run" .args)
        case_is runs "$room/record/$name" "$name" --pages 4 --run {}
        printf 'legal, %s lines\n' "$(grep -c . "$room/record/$name")" >"$room/replied/$name"
    done
    while read -r name pages _ options; do
        [ -z "$options" ] || continue
        mv "$room/runs/$name.stdout" "$room/replied/$name"
        case_is runs "$room/runs/$name" "$name" --pages "$pages" --run {}
    done < <("$top/tests/rows/split_runs" -v "room=$room/runs" "$top"/tests/rows/*.runs)
    while IFS='|' read -r text said; do
        name=text_$((number += 1))
        printf '%b' "$text" >"$room/runs/$name"
        printf '%b\n' "$said" >"$room/replied/$name"
        case_is runs "$room/runs/$name" "$name" --pages 1 --run {}
    done < <(sed -nE 's/^"(.*)" => "?([^"]*)"?$/\1|\2/p' "$top/tests/rows/run_texts")
    run_cases draw runs traces
}

# Random scripts, and one whose objects find no room on the mark stack.
random_scripts_are_drawn() {
    local script
    mkdir "$room/random"
    python3 "$top/tests/draw/looked.py" write "$room/random"
    for script in "$room"/random/*; do case_is random "$script" "$(basename "$script")" --pages 4 {}; done
    run_cases draw random told
}

# Standard error has what `replay` prints of a run that isn't legal, and else nothing.
is_said() {
    local said
    for said in "$room"/replied/*; do
        sed '/^legal, /d' "$said" | cmp - "$room/traces/$(basename "$said").err" || return
    done
}

scripts_are_drawn
runs_are_drawn
random_scripts_are_drawn
for script in "$top"/examples/*.script; do
    name=$(basename "$script" .script)
    agrees "$name: the trace and the run" python3 "$top/tests/draw/compare.py" "$room/draw/$name" "$room/record/$name"
    agrees "$name: the replies" replies_are_those "$room/draw/$name" "${script%.script}.replies"
    agrees "$name: the traces of the script and of the run" python3 "$top/tests/draw/both.py" "$room/draw/$name" "$room/traces/$name"
done
agrees "the words that steps of marking read" python3 "$top/tests/draw/looked.py" check "$room/draw" "$room/told"
agrees "the traces of runs" python3 "$top/tests/draw/judged.py" "$room/runs" "$room/replied" "$room/traces"
agrees "what is said of runs" is_said
printf 'attach\n0 get 16\n' >"$room/bad"
printf 'attach => mutator 0\nnonsense\n' >"$room/bad_run"
agrees "which line of a script is bad" says 2 "bad line 2" "$build" draw --pages 4 "$room/bad"
agrees "which line of a run is none" says 2 "line 2: not a line of a run" "$build" draw --pages 4 --run "$room/bad_run"
tell_counts && [ "$passed" -gt 2 ]

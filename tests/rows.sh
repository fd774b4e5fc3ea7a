#!/usr/bin/env bash
# Runs the rows of tests/rows, all worked by hand: scripts beside their replies, workloads beside what is printed, lines that are none, and
# written runs beside what is said of them. `replay`, which has a plain heap without pages, finds what `record` writes of each script
# legal. Over a proved build (tests/cases.sh) it takes some seconds. Scripts, lines and workloads stand in tests of test_rows and
# test_workloads too, and it looks whether these still say what the rows say.
set -uo pipefail
kind=rows
# shellcheck source=tests/cases.sh
. "$(dirname "$(readlink -f "${BASH_SOURCE[0]}")")/cases.sh"
rows=$top/tests/rows

good_scripts() {
    local name pages
    scripts=$cases
    "$rows/split" -v "room=$scripts" "$rows"/*.rows >"$room/scripts"
    while read -r name pages; do
        case_is "$name" 0 "" run --pages "$pages" {}
    done <"$room/scripts"
}

# bad_script NAME NUMBER REPLIES TEXT: a script whose line of this number is bad; both texts with the escapes of printf.
bad_script() {
    printf '%b' "$4" >"$cases/$1"
    printf '%b' "$3" >"$cases/$1.stdout"
    case_is "$1" 2 "bad line $2" run --pages 4 {}
}

# Each as the first line of its script and as the second.
bad_lines() {
    local name line
    while read -r name line; do
        line=${line#\"}
        line=${line%\"}
        bad_script "${name}_first" 1 "" "$line\nattach\n"
        bad_script "${name}_second" 2 "mutator 0\n" "attach\n$line\nattach\n"
    done < <(grep -v '^#' "$rows/bad_lines")
    # A byte above 127 makes its line bad.
    bad_script byte_255 2 "mutator 0\n" 'attach\n\0377'
}

# texts FILE: the texts of a file and what it has behind each, with a | between.
texts() { sed -nE 's/^"(.*)" => "?([^"]*)"?$/\1|\2/p' "$rows/$1"; }

workloads() {
    local text wanted name number=0
    while IFS='|' read -r text wanted; do
        number=$((number + 1))
        name=workload_$number
        printf '%b' "$text" >"$cases/$name"
        case $wanted in
            bad*) : >"$cases/$name.stdout" && case_is "$name" 2 "$wanted" threads --pages 4 {} ;;
            *) printf '%b' "$wanted" >"$cases/$name.stdout" && case_is "$name" 0 "" threads --pages 4 {} ;;
        esac
    done < <(texts workloads)
}

# rules_alone NAME STATUS: of a no only what is said from the rule on is compared. What is said first stands in tests/programs.sh.
rules_alone() {
    [ "$2" != 1 ] || : >"$cases/$1.rule"
}

written_runs() {
    local name pages status options
    while read -r name pages status options; do
        rules_alone "$name" "$status"
        # shellcheck disable=SC2086 # (the options are words of their own)
        case_is "$name" "$status" "" --pages "$pages" $options {}
    done < <("$rows/split_runs" -v "room=$cases" "$rows"/*.runs)
}

run_texts() {
    local text said name status number=0
    while IFS='|' read -r text said; do
        number=$((number + 1))
        name=text_$number
        printf '%b' "$text" >"$cases/$name"
        printf '%b\n' "$said" >"$cases/$name.stdout"
        case $said in
            legal*) status=0 ;;
            *"not a line of a run" | "no lines") status=2 ;;
            *) status=1 ;;
        esac
        rules_alone "$name" $status
        case_is "$name" $status "" --pages 1 {}
    done < <(texts run_texts)
}

# The run of each script that has lines, as `record` writes it: the plain heap gives the same replies.
recorded_runs() {
    local name pages count
    mkdir "$room/record"
    while read -r name pages; do
        cp "$scripts/$name" "$room/record/$name"
        printf '%s\n' --pages "$pages" {} >"$room/record/$name.args"
    done <"$room/scripts"
    is "scripts are recorded" "" "$("$top/tests/outputs.sh" "$room/record" "$room/recorded" record 2>&1)"
    while read -r name pages; do
        count=$(wc -l <"$scripts/$name.stdout")
        [ "$count" -gt 0 ] || continue
        cp "$room/recorded/$name" "$cases/recorded_$name"
        echo "legal, $count lines" >"$cases/recorded_$name.stdout"
        case_is "recorded_$name" 0 "" --pages "$pages" {}
    done <"$room/scripts"
}

# The files of tests that tests/rows/as_tests writes say what the rows say, and there is no other one.
tests_in_the_language() {
    local file
    "$rows/as_tests" "$room/crates"
    while read -r file; do
        is "$file is as tests/rows/as_tests writes it" "" "$(cmp "$room/crates/$file" "$top/crates/$file" 2>&1)"
    done < <(cd "$room/crates" && find . -name '*.rt')
    is "files that tests/rows/as_tests writes" "$(find "$room/crates" -name '*.rt' | wc -l)" \
        "$(find "$top/crates" -path '*/src/*.rt' -exec grep -l '^//! .* as .tests/rows/as_tests. writes it' {} + | wc -l)"
}

tests_in_the_language
open_cases mpheap
good_scripts
bad_lines
workloads
run_cases 366
open_cases replay
written_runs
run_texts
recorded_runs
run_cases 331
tell_counts

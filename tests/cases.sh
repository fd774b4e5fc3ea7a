# shellcheck shell=bash disable=SC2034,SC2154 # (whoever reads this has `kind`, and uses what is here)
# Cases of the program: files on which it is run, and how it has to end. Read by tests/rows.sh, tests/programs.sh and
# tests/recording_header.sh, whose name for themselves is `kind`. Which build runs is said in tests/builds.sh.
top=$(dirname "$(dirname "$(readlink -f "${BASH_SOURCE[0]}")")")
# shellcheck source=tests/builds.sh
. "$top/tests/builds.sh"
# shellcheck source=tests/counts.sh
. "$top/tests/counts.sh"
room=$(mktemp -d)
trap 'rm -rf "$room"' EXIT
trap 'exit 143' INT TERM HUP

# open_cases COMMAND: the cases of a command, or of `mpheap`, of which each case has its own.
open_cases() {
    of=$1
    command=("$1")
    [ "$1" != mpheap ] || command=()
    cases=$room/$1
    mkdir "$cases"
}

# case_is NAME STATUS SAID WORDS..: how the command is to end with these words, where {} is the file NAME of `cases`, and what it is
# to say on standard error. What it is to print lies beside that file.
case_is() {
    printf '%s\n' "${@:4}" >"$cases/$1.args"
    printf '%s|%s|%s\n' "$1" "$2" "$3" >>"$cases.wanted"
}

# from_the_rule FILE: of what is printed only what stands from the first line of the file on, which is a rule; before it has to stand
# what the line did.
from_the_rule() {
    awk 'NR == FNR { if (FNR == 1) rule = $0; next } $0 == rule && FNR > 1 { is_said = 1 } is_said' "$1" "$room/out" >"$room/rule"
    mv "$room/rule" "$room/out"
}

run_all_cases() {
    local name status said words
    while IFS='|' read -r name status said; do
        mapfile -t words <"$cases/$name.args"
        "$build" "${command[@]}" "${words[@]/#\{\}/"$cases/$name"}" >"$room/out" 2>"$room/err" </dev/null
        is "$name: status, what is said" "$status $said" "$? $(cat "$room/err")"
        [ ! -e "$cases/$name.rule" ] || from_the_rule "$cases/$name.stdout"
        is "$name: what is printed" "" "$(cmp "$cases/$name.stdout" "$room/out" 2>&1)"
    done <"$cases.wanted"
}

# run_cases LEAST: the cases of the command, of which there are so many at least.
run_cases() {
    is "cases of $of" yes "$([ "$(wc -l <"$cases.wanted")" -ge "$1" ] && echo yes)"
    if is_built; then run_all_cases; fi
}

# named_places RUN: standard input, with the address of the Nth alloc of the run in the place of each {N}, and in hexadecimal of each {0xN}.
named_places() {
    local number=0 place
    while read -r place; do
        printf 's/{%d}/%s/g; s/{0x%d}/0x%x/g\n' $((number += 1)) "$place" $number "$place"
    done < <(sed -n 's/.* alloc .* => ok @ \([0-9]*\).*/\1/p' "$1") >"$room/places"
    sed -f "$room/places"
}


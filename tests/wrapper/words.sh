# shellcheck shell=bash disable=SC2154 # (whoever reads this has the other names)
# Part of tests/wrapper.sh, read by it: what the wrapper says of itself, and the order in which words stand. Which words are refused is
# in tests/command_line.sh.

it_says_how_it_is_used() {
    local form
    call
    is "no words: status, output, rt's calls" "2  " "$status $out $(calls)"
    for form in "run --pages N [FILE]" "threads --pages N [--helpers H] [--record RUN] FILE" "stress --seed S --mutators M --steps K" \
        "record --pages N FILE" "replay [--pages N | --bytes N] [--places any [--from ADDRESS]] [--why] [--json] [--follow] FILE .." \
        "draw --pages N [--run RUN | FILE]" "build [WHAT ..]" "test" "package DIR" "install PREFIX" "completion [SHELL]" "manual" "help [COMMAND]"; do
        has "no words: $form" "mpheap $form"$'\n' "$err"
    done
    has "no words: which page says more" "$tree/docs/SCRIPTS.md" "$err"
    local usage=$err
    for form in --help -h help "--quiet --help"; do
        # shellcheck disable=SC2086 # (each is a word)
        answers "$form" $form
        is "$form: the same" "$usage" "$out"
    done
    answers "help replay" help replay
    has "help replay: its form" "usage: mpheap replay [--pages N | --bytes N] [--places any [--from ADDRESS]] [--why] [--json] [--follow] FILE .." "$out"
    has "help replay: an option with its range" "--bytes N       with --places any: how many bytes it has: 4096 to 16777216, in decimal, a multiple of 4096" "$out"
    local told=$out
    for form in "replay --help" "replay -h" "replay --pages 4 --help" "replay missing --help"; do
        # shellcheck disable=SC2086 # (each is a word)
        answers "$form" $form
        is "$form: the same" "$told" "$out"
    done
    answers "a command that only the wrapper has" build --help
    has "build --help" "what is built: run, threads, stress, record, replay, draw, c, gc" "$out"
    answers "behind a faulty word" run --help --page
}

versions_are_told() {
    answers "--version" --version
    is "--version" "$(lines "mpheap $(sed -n 's/^Version: //p' "$top/c/install")" "commit: unknown" "rules of proof: kit-1 logic 1")" "$out"
    git -C "$tree" init -q && git -C "$tree" -c user.name=t -c user.email=t@localhost commit -q --allow-empty -m one
    echo "*" >"$tree/.git/info/exclude"
    answers "--version of a commit" --version
    has "--version of a commit" "commit: $(git -C "$tree" rev-parse HEAD)"$'\n' "$out"
    rm "$tree/.git/info/exclude"
    answers "--version of a changed tree" run --version
    has "--version of a changed tree" "commit: $(git -C "$tree" rev-parse HEAD), and changed since"$'\n' "$out"
    rm -rf "$tree/.git"
}

# completes LINE WORD..: what bash completes of a line, at its end.
completes() {
    # shellcheck disable=SC2016 # (the inner shell expands it)
    is "completion of: $1" "${*:2}" "$(bash -c '. "$1"; read -ra COMP_WORDS <<<"$2"; [[ $2 != *" " ]] || COMP_WORDS+=("")
        COMP_CWORD=$((${#COMP_WORDS[@]} - 1)); _mpheap; echo "${COMPREPLY[*]}"' - "$room/completion" "$1")"
}

words_are_completed() {
    answers "completion" completion
    answers "completion bash" completion bash
    cp "$room/out" "$room/completion"
    completes "mpheap re" record replay
    completes "mpheap --v" --version
    completes "mpheap replay --p" --pages --places
    completes "mpheap replay --places " classes any
    completes "mpheap replay --pages "
    touch some.script
    completes "mpheap run some" some.script
    completes "mpheap threads --record some" some.script
    completes "mpheap build re" record replay
    completes "mpheap help thr" threads
    completes "mpheap --quiet build re" record replay
    rm some.script
}

a_manual_is_there() {
    answers "manual" manual
    has "manual: its head" ".TH MPHEAP 1" "$out"
    has "manual: a form" '.SS "mpheap threads \-\-pages N [\-\-helpers H] [\-\-record RUN] FILE"' "$out"
    has "manual: an option" "1 to 8, in decimal" "$out"
    if command -v man >/dev/null; then
        is "manual: man reads it" "" "$({ man --warnings -l "$room/out"; man --warnings -l "$tree/wrapper/libmpgc.3"; } 2>&1 >/dev/null)"
    else
        echo "wrapper: left out: man's reading of the manual: there is no man"
    fi
}

nothing_is_made_before_a_build() {
    call package "$room/packed"
    is "package before a build: status" 3 "$status"
    has "package before a build: what to do" "not built of the sources that stand here: mpheap mpheap_c; 'mpheap build'" "$err"
    is "package before a build: nothing is made" no "$(test -e "$room/packed" && echo yes || echo no)"
    call install "$room/prefix"
    is "install before a build: status" 3 "$status"
    has "install before a build: what to do" "mpheap build" "$err"
    is "install before a build: nothing is copied" no "$(test -e "$room/prefix" && echo yes || echo no)"
}

# given WANTED WORDS..: what the stand-in's program is given, with FILE as /dev/stdin.
given() {
    call "${@:2}"
    is "${*:2}: the program's words" "$1" "$(calls)"
    is "${*:2}: the text of FILE" attach "$(input)"
}

# Options and FILE stand in any order, and the program is given them in its own.
words_come_in_any_order() {
    local word file
    echo attach >first.script
    try_ends 0 $'legal\n'
    given "mpheap try -- run --pages 4 /dev/stdin" run first.script --pages 4
    given "mpheap try -- run --pages 4 /dev/stdin" run --pages=4 first.script
    given "mpheap try -- run --pages 4 /dev/stdin" run --pages 4 -- first.script
    given "mpheap try -- run --pages 4 /dev/stdin" --quiet run first.script --quiet --pages 4
    given "mpheap try -- threads --pages 4 --helpers 2 /dev/stdin" threads first.script --helpers=2 --pages 4
    for word in record draw; do
        given "mpheap try -- $word --pages 4 /dev/stdin" "$word" first.script --pages 4
        given "mpheap try -- $word --pages 4 /dev/stdin" "$word" --pages=4 first.script
    done
    given "mpheap try -- draw --pages 4 --run /dev/stdin" draw --run first.script --pages 4
    given "mpheap try -- draw --pages 4 --run /dev/stdin" draw --run=first.script --pages=4
    given "mpheap try -- replay --pages 4 --places any --why /dev/stdin" replay --why first.script --places any --pages 4
    given "mpheap try -- replay --pages 4 --places classes /dev/stdin" replay --places=classes --pages 4 first.script
    given "mpheap try -- replay --bytes 8192 --places any --from 140737488289792 /dev/stdin" \
        replay first.script --bytes 8192 --from 140737488289792 --places any
    given "mpheap try -- replay --bytes 16777216 --places any --from 18446744073692774392 /dev/stdin" \
        replay --places any --from 18446744073692774392 --bytes 16777216 first.script
    given "mpheap try -- replay --pages 4096 --places any --from 8 /dev/stdin" replay --places any --from 8 --pages 4096 first.script
    given "mpheap try -- replay --bytes 4096 --places any /dev/stdin" replay --places any --bytes 4096 first.script
    for file in --why -x --; do
        cp first.script "./$file"
        given "mpheap try -- replay --pages 4 /dev/stdin" replay --pages 4 -- "$file"
        rm "./$file"
    done
}

# The limits of the table are those of the program, as crates/words/src/limits.rt and crates/workloads/src/limits.rt have them.
limits_are_the_programs() {
    local name limit
    for name in --pages:MAX_PAGES --helpers:MAX_HELPERS --mutators:SLOTS --steps:MAX_STEPS; do
        limit=$(sed -n "s/^pub const ${name#*:}: [a-z0-9]* = \([0-9_]*\);/\1/p" "$top"/crates/{words,workloads}/src/limits.rt | tr -d _)
        is "the limit of ${name%:*}" "$limit" "$(sed -n "s/^ *[[(]*${name%:*} .*; [01] \([0-9]*\) 1; .*/\1/p" "$top/wrapper/table" | sort -u)"
    done
}

# shellcheck shell=bash disable=SC2154 # (whoever reads this has the other names)
# Part of tests/wrapper.sh, read by it: unproved builds, which are made once and kept as long as no source changes.

# runs_kept WHAT, runs_new WHAT: a run by the build that an earlier one made, and by one that is made now.
runs_kept() {
    call run --pages 4 first.script
    is "$1: the kept build" "mpheap: an unproved build, which an earlier run made of these sources: for a first look" "$(head -n 1 "$room/err")"
    is "$1: rt builds nothing" "" "$(calls)"
}

runs_new() {
    call run --pages 4 first.script
    has "$1: a new build" "made now" "$(head -n 1 "$room/err")"
    is "$1: rt builds one" "mpheap try -- run --pages 1 pipe" "$(calls | sed 's| /[^ ]*/pipe$| pipe|')"
    is "$1: it runs" "mutator 0 0" "$out $status"
}

a_build_is_kept_by_its_sources() {
    echo attach >first.script
    try_ends 0 $'mutator 0\n'
    runs_new "the first run"
    is "the first run: its words" "$(lines run --pages 4 first.script)" "$(words)"
    is "the first run: the caller's folder" "$PWD" "$(cat "$room/seen/folder")"
    runs_kept "the second run"
    is "the second run: its words" "$(lines run --pages 4 first.script)" "$(words)"
    is "the second run: replies and status" "mutator 0 0" "$out $status"
    echo "// more" >>"$tree/crates/elsewhere/src/lib.rt"
    runs_kept "an edit of a crate that isn't below"
    echo "// more" >>"$tree/crates/words/src/lib.rt"
    runs_new "an edit of a crate below"
    runs_kept "behind the edit"
    sed -i '$d' "$tree/crates/words/src/lib.rt"
    runs_new "the edit taken back"
    sed -i 's/^words:/words may_wait=1:/' "$tree/crates.txt"
    runs_new "an edit of a row below"
    sed -i 's/^words may_wait=1:/words:/' "$tree/crates.txt"
    runs_new "the row taken back"
    echo "kit-2 logic 1" >"$room/says/version"
    runs_new "another release of rt"
    echo "# more" >>"$tree/crates/mpheap/out/unproved/mpheap"
    runs_new "another program in its place"
}

a_kept_build_is_called_as_it_is() {
    call stress --seed 18446744073709551615 --mutators 16 --steps 100000
    is "the greatest numbers" "$(lines stress --seed 18446744073709551615 --mutators 16 --steps 100000)" "$(words)"
    call threads --pages 4 --record run first.script
    is "a history that is to be written" "$(lines threads --pages 4 --record run first.script)" "$(words)"
    echo "0 get 1" | "$wrapper" run --pages 4 >"$room/out" 2>"$room/err"
    is "a script from standard input" "0 get 1" "$(input)"
    status=0
    "$wrapper" run --pages 4 <&- >"$room/out" 2>"$room/err" || status=$?
    is "a closed input" "1 read fault" "$status $(tail -n 1 "$room/err")"
    try_ends 2 $'mutator 0\n' "bad line 2"
    call run --pages 4 first.script
    is "a bad line: status, replies, what is said" "2 mutator 0 bad line 2" "$status $out $(tail -n 1 "$room/err")"
    try_ends 2 $'{"c":"attach"}\n' "bad line 2"
    echo "0 get 1" | "$wrapper" draw --pages 4 >"$room/out" 2>"$room/err"
    is "draw: a script from standard input" "0 get 1" "$(input)"
    has "draw: the page" '{"c":"attach"}' "$(cat "$room/out")"
    call draw --pages 4 first.script
    is "draw: the kept build, with its status" "2 " "$status $(calls)"
    is "draw: its words" "$(lines draw --pages 4 first.script)" "$(words)"
    try_ends 0 $'legal\n'
    cp first.script ./--why
    call replay --pages 4 -- --why
    is "a FILE that looks like an option: the program's words" "$(lines replay --pages 4 ./--why)" "$(words)"
    rm ./--why
    try_ends 0 $'mutator 0\n'
    rm -f "$room"/seen/*
    a_signal_ends_a_kept_build
    a_refused_run_is_told
    try_ends 0 $'mutator 0\n'
}

# of_replay STATUS REPLIES: what the kept build answers as `replay`, beside what it does as other commands.
of_replay() {
    mkdir -p "$room/says/replay"
    echo "$1" >"$room/says/replay/status"
    lines "${@:2}" >"$room/says/replay/replies"
    : >"$room/says/replay/said"
}

# The page of a run that is refused, and standard error, begin with what `replay` says first of it, also where FILE is read only once.
a_refused_run_is_told() {
    local told
    told=$(lines "line 3: object 8 was taken, but \\\"x\" points into it" "line 3: register 1 points into it" "line 3: a rule" "line 3: it has to stay")
    try_ends 1 $'{"title":"a run"}\n{"c":"attach","r":"mutator 0"}\n{"c":"gc collect","r":"1 - 8","no":3,"says":["a rule","it has to stay"],"about":0}\n' \
        "$(tail -n 2 <<<"$told")"
    of_replay 1 "$told"
    echo "attach => mutator 0" >first.run
    call draw --pages 1 --run first.run
    call draw --pages 1 --run first.run
    is "a refused run: status, what is said" "1 $(lines "mpheap: an unproved build, which an earlier run made of these sources: for a first look" "$told")" "$status $err"
    is "a refused run: what replay is given" "$(lines replay --pages 1 first.run)" "$(words)"
    has "a refused run: the page" '"no":3,"says":["object 8 was taken, but \\\"x\" points into it","register 1 points into it","a rule","it has to stay"],"about":0}' "$out"
    has "a refused run: from what the page comes" '"source":"the run first.run on 1 page, by an unproved build, commit unknown"' "$out"
    has "a refused run: the lines before" '{"c":"attach","r":"mutator 0"}' "$out"
    "$wrapper" draw --pages 1 --run /dev/stdin <first.run >"$room/out" 2>"$room/err"
    is "a refused run that is read once: what replay reads" "attach => mutator 0" "$(input)"
    is "a refused run that is read once: what is said" "$told" "$(tail -n 4 "$room/err")"
    of_replay 1 "line 2: another rule"
    call draw --pages 1 --run first.run
    is "another answer of replay isn't taken" "$(tail -n 2 <<<"$told")" "$(tail -n 2 "$room/err")"
    has "another answer of replay: the page" '"no":3,"says":["a rule",' "$out"
    rm -r "$room/says/replay" first.run
}

# The program takes the place of the wrapper, and a signal ends it.
a_signal_ends_a_kept_build() {
    mkfifo "$room/slow"
    sleep 60 >"$room/slow" &
    local writer=$!
    "$wrapper" run --pages 4 <"$room/slow" >"$room/out" 2>"$room/err" &
    until_true test -s "$room/seen/folder"
    ends_at_once "a signal while a kept build runs" $!
    kill "$writer"
    rm "$room/slow"
}

# A build that fails, or is stopped, keeps nothing and leaves nothing.
builds_that_fail_keep_nothing() {
    rm -rf "$tree"/crates/*/out
    echo "error: a semicolon is missing" >"$room/says/error"
    call run --pages 4 first.script
    is "sources that don't build: status" 3 "$status"
    has "sources that don't build: why" "a semicolon is missing" "$err"
    has "sources that don't build: where" "again by 'cd $tree/crates/mpheap && rt try'" "$err"
    rm "$room/says/error"
    touch "$room/says/waits"
    rm -f "$room"/seen/*
    "$wrapper" run --pages 4 first.script >"$room/out" 2>&1 &
    until_true test -s "$room/seen/waiting"
    ends_at_once "a signal while rt builds" $!
    is "a signal while rt builds: rt is ended" no "$(kill -0 "$(cat "$room/seen/waiting")" 2>/dev/null && echo yes || echo no)"
    rm "$room/says/waits"
    printf '#!/bin/sh\necho "// more" >>%s/crates/pages/src/lib.rt\n' "$tree" >"$room/says/first"
    chmod +x "$room/says/first"
    call run --pages 4 first.script
    is "a source that changes meanwhile: status" 3 "$status"
    rm "$room/says/first"
    sed -i '$d' "$tree/crates/pages/src/lib.rt"
    is "nothing is kept" "" "$(find "$tree/crates" -path '*unproved*' -type f)"
}

nothing_goes_without_rt() {
    mkdir -p "$room/plain"
    for tool in bash sh dirname readlink cat awk sed find sort xargs sha256sum mkdir mktemp rm tail wc cp mv mkfifo ls sleep tr basename; do
        ln -sf "$(PATH=$real_path type -P "$tool")" "$room/plain/$tool"
    done
    status=0
    PATH=$room/plain "$wrapper" run --pages 4 first.script >"$room/out" 2>"$room/err" || status=$?
    is "no rt: status" 3 "$status"
    is "no rt: one line tells it" 1 "$(wc -l <"$room/err")"
    has "no rt: what is missing" "needs rt" "$(cat "$room/err")"
}

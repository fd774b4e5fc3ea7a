# shellcheck shell=bash disable=SC2154 # (whoever reads this has the other names)
# Part of tests/wrapper.sh, read by it: what `build` makes and says, when a build is called proved, and `install`.

made_by_build() {
    echo "mpheap: the proved build is $tree/crates/mpheap/out/mpheap"
    echo "mpheap: a program in C: cc -I$tree/include program.c $tree/crates/mpheap_c/out/libmpheap.a"
    echo "mpheap: a program that was written for bdwgc: LD_PRELOAD=$tree/out/libmpgc.so PROGRAM"
}

build_shows_its_way() {
    call build
    is "a build: status" 0 "$status"
    is "a build: a line of output for the program, for C and for libmpgc" "$(made_by_build)" "$out"
    is "a build: the archive and libmpgc" "yes yes" \
        "$(test -f "$tree/crates/mpheap_c/out/libmpheap.a" && echo yes) $(test -f "$tree/out/libmpgc.so" && echo yes)"
    has "a build: how long, beforehand" "minutes" "$(head -n 1 "$room/err")"
    is "a build: rt's two calls, the second of them for the library" "$(lines "tree ci" "library ci")" "$(calls)"
    is "a build: that the library's crates are proved elsewhere too, what was made, and no progress where there is no terminal" \
        "$(lines "mpheap: the heap for C begins at an address of its own: what it is made from is proved there too, where that isn't kept" \
            "mpheap: made: mpheap c gc")" "$(tail -n +2 "$room/err")"
    has "a build: how long each crate took is kept" "words " "$(cat "$tree/out/took")"
    lacks "a build: no crate that isn't below" "elsewhere " "$(cat "$tree/out/took")"
    call build
    is "a second build: nothing is proved" "0 " "$status $(calls)"
    is "a second build: the same output" "$(made_by_build)" "$out"
}

# Only what is wanted, and what that is made from.
parts_are_built_alone() {
    rm -rf "$tree"/crates/*/out "$tree/out"
    call build replay
    is "build replay: status and what is made" "0 mpheap: the proved build is $tree/crates/mpheap/out/mpheap" "$status $out"
    lacks "build replay: not the heap for C" "mpheap_c " "$(cat "$tree/out/took")"
    rm -rf "$tree"/crates/*/out "$tree/out"
    call build c --quiet
    is "build c: status, and --quiet" "0 " "$status $err"
    lacks "build c: no program" "command_line " "$(cat "$tree/out/took")"
    is "build c: no libmpgc" no "$(test -e "$tree/out/libmpgc.so" && echo yes || echo no)"
    call build gc
    is "build gc: over what is proved" "0 " "$status $(calls)"
    is "build gc: libmpgc" yes "$(test -f "$tree/out/libmpgc.so" && echo yes || echo no)"
    call build run stress threads record replay draw
    is "build run stress threads record replay draw: one program" "mpheap: the proved build is $tree/crates/mpheap/out/mpheap" "$(sort -u <<<"$out")"
    CC=no-compiler call build record
    is "no compiler: a program" 0 "$status"
    CC=no-compiler call build c
    is "no compiler: the heap for C" 3 "$status"
    has "no compiler: how it is tried again" "again by '$tree/c/archive" "$err"
    CC=no-compiler call build
    is "no compiler: the program alone" 0 "$status"
    has "no compiler: what isn't built" "c and gc aren't built" "$err"
}

# runs_proved WHAT: the proved build runs, and nothing else does. runs_unproved WHAT: it doesn't run, and isn't called proved.
runs_proved() {
    call run --pages 4 first.script
    is "$1: the proved build" "mpheap: the proved build" "$(head -n 1 "$room/err")"
    is "$1: rt isn't called" "" "$(calls)"
}

runs_unproved() {
    call run --pages 4 first.script
    has "$1: out of date" "out of date" "$(head -n 1 "$room/err")"
    has "$1: what to run" "mpheap build" "$(head -n 1 "$room/err")"
    is "$1: the old program doesn't run" "" "$(cat "$room/seen/program" 2>/dev/null)"
}

proved_is_said_where_it_is_true() {
    runs_proved "after a build"
    is "the program's words and folder" "mpheap|$PWD|run --pages 4 first.script" "$(cat "$room/seen/program")"
    is "the program's replies" replied "$out"
    is "the program's errors" complained "$(tail -n 1 "$room/err")"
    is "the program's status" 2 "$status"
    call replay --pages 4 first.script
    is "a command on a file: its words" "mpheap|$PWD|replay --pages 4 first.script" "$(cat "$room/seen/program")"
    echo "0 get 1" | "$wrapper" draw --pages 4 >"$room/out" 2>"$room/err"
    is "draw: a script from standard input" "0 get 1" "$(input)"
    no_file "there is no file 'missing'" run --pages 4 missing
    call --quiet run --pages 4 first.script
    is "--quiet: the program's errors alone" complained "$err"
    touch "$tree/crates/words/src/lib.rt" "$tree/crates.txt"
    runs_proved "times that changed"
    echo "// more" >>"$tree/crates/elsewhere/src/lib.rt"
    runs_proved "an edit of a crate that isn't below"
    touch "$tree/crates/words/src/"{lib.rt~,.lib.rt.swp,notes} "$tree/crates/words/specs/Lib.antt.orig"
    runs_proved "files that rt doesn't read"
    proof=$(cd "$tree" && find crates/words/proofs -type f | head -n 1)
    sed -i 's/^elsewhere: words/elsewhere: words pages/' "$tree/crates.txt"
    runs_proved "a row of a crate that isn't below"
    sed -i 's/^words:/words may_wait=1:/' "$tree/crates.txt"
    runs_unproved "an edit of a row below"
    sed -i 's/^words may_wait=1:/words:/' "$tree/crates.txt"
    for file in crates/words/src/lib.rt crates/heap_spec/specs/Lib.antt crates/mpheap/src/main.rt "$proof"; do
        cp -p "$tree/$file" "$room/kept"
        echo "# more" >>"$tree/$file"
        touch -r "$room/kept" "$tree/$file"
        runs_unproved "an edit of $file"
        cp -p "$room/kept" "$tree/$file"
    done
    runs_proved "all edits taken back"
    touch "$tree/crates/mpheap/src/new.rt"
    runs_unproved "a new source"
    rm "$tree/crates/mpheap/src/new.rt"
    cp -p "$tree/crates/mpheap/out/mpheap" "$room/kept"
    echo "# more" >>"$tree/crates/mpheap/out/mpheap"
    runs_unproved "another program in its place"
    mv "$room/kept" "$tree/crates/mpheap/out/mpheap"
    runs_proved "the program put back"
    echo "// more" >>"$tree/crates/replay/src/lib.rt"
    call replay --pages 4 first.script
    has "an edit of a command's library: out of date" "out of date" "$(head -n 1 "$room/err")"
}

the_heap_for_c_is_copied() {
    call install "$room/prefix"
    is "install: status" 0 "$status"
    for file in include/mpheap.h include/mpheap_record.h include/mpheap_record_run.h lib/libmpheap.a lib/pkgconfig/mpheap.pc \
        lib/cmake/mpheap/mpheap-config.cmake include/mpgc/gc.h include/mpgc/gc/gc.h lib/libmpgc.so lib/libmpgc.a lib/pkgconfig/mpgc.pc \
        share/bash-completion/completions/mpheap share/man/man1/mpheap.1 share/man/man3/libmpgc.3; do
        is "install: $file" yes "$(test -f "$room/prefix/$file" && echo yes || echo no)"
    done
    has "install: how C is compiled" "$room/prefix/lib/pkgconfig" "$out"
    echo "// more" >>"$tree/crates/words/src/lib.rt"
    call install "$room/other"
    is "install after an edit: status" 3 "$status"
    is "install after an edit: nothing is copied" no "$(test -e "$room/other" && echo yes || echo no)"
    sed -i '$d' "$tree/crates/words/src/lib.rt"
}

# A crate that is refused ends neither the build of the others nor what they stand on, and what it was is said.
failed_builds_prove_nothing() {
    rm -rf "$tree"/crates/*/out
    echo tracing >"$room/says/refused"
    call build draw gc
    is "a refused crate: status" 3 "$status"
    has "a refused crate: which" "tracing is refused by rt" "$err"
    has "a refused crate: why" "a goal is open" "$err"
    lacks "a refused crate: no more than why" "first: proved" "$err"
    has "a refused crate: where, and how again" "its folder is $tree/crates/tracing; again by 'cd $tree/crates/tracing && rt check'" "$err"
    has "a refused crate: what stands on it" "draw: not tried, as tracing failed" "$err"
    has "a refused crate: what was made" "mpheap: made: gc"$'\n' "$err"
    is "a refused crate: what wasn't" "mpheap: not made: draw" "$(tail -n 1 "$room/err")"
    rm "$room/says/refused"
    echo "rt: cannot read crates.txt" >"$room/says/stops"
    rm -rf "$tree"/crates/*/out
    call build replay
    is "rt itself stops: status" 3 "$status"
    has "rt itself stops: why" "cannot read crates.txt" "$err"
    has "rt itself stops: how again" "mpheap: rt judged nothing: again by 'cd $tree && rt ci mpheap'" "$err"
    rm "$room/says/stops"
    printf '#!/bin/sh\necho "// more" >>%s/crates/pages/src/lib.rt\n' "$tree" >"$room/says/first"
    chmod +x "$room/says/first"
    call build
    is "a source that changes meanwhile: status" 3 "$status"
    has "a source that changes meanwhile: what to do" "changed meanwhile: build it again" "$err"
    rm "$room/says/first"
    runs_unproved "after failed builds"
    call build
    is "built again: status" 0 "$status"
}

# A program that answers 2 where rt runs it is proved and built: it isn't told as a failed proof.
a_programs_answer_is_no_failed_proof() {
    rm -rf "$tree"/crates/*/out
    echo "rt: mpheap: the program ended with status 2, and not 0; it said: no lines" >"$room/says/ran"
    call build replay
    rm "$room/says/ran"
    is "a program that answers otherwise: status" 3 "$status"
    lacks "a program that answers otherwise: its proof stands" "not proved" "$err"
    has "a program that answers otherwise: which of the two it was" "mpheap is proved and built, but runs otherwise" "$err"
    has "a program that answers otherwise: its answer" "ended with status 2, and not 0; it said: no lines" "$err"
    has "a program that answers otherwise: where, and how again" \
        "its folder is $tree/crates/mpheap; again by 'cd $tree && rt ci mpheap'" "$err"
    has "a program that answers otherwise: it is built" "the proved build is $tree/crates/mpheap/out/mpheap" "$out"
}

a_stopped_build_leaves_nothing() {
    rm -rf "$tree"/crates/*/out
    touch "$room/says/waits"
    rm -f "$room"/seen/*
    "$wrapper" build >"$room/out" 2>"$room/err" &
    until_true test -s "$room/seen/waiting"
    ends_at_once "a signal while rt proves" $!
    is "a signal while rt proves: rt is ended" no "$(kill -0 "$(cat "$room/seen/waiting")" 2>/dev/null && echo yes || echo no)"
    is "a signal while rt proves: what is kept" "mpheap: stopped: the next build goes on with what rt has kept of this one" "$(tail -n 1 "$room/err")"
    rm "$room/says/waits"
    call build
    is "behind a stopped build: status" 0 "$status"
}

# On a terminal long work has a line that says how far it is, and how much is left by what earlier builds took.
long_work_shows_progress() {
    rm -rf "$tree"/crates/*/out
    sed -i 's/ [0-9]*$/ 120/' "$tree/out/took"
    printf '%s\n' words >"$room/says/kept"
    script -qec "'$wrapper' build replay" /dev/null </dev/null >"$room/out" 2>&1
    local crates
    crates=$(sed -n 's/.*proves \([0-9]*\) crates and builds mpheap.*/\1/p' "$room/out")
    has "a terminal: how far a build is, of how many crates, and what is left" \
        "mpheap: 1 of $crates, words, about $((2 * crates - 2)) min left by what earlier builds took" "$(cat "$room/out")"
    rm -rf "$tree"/crates/*/out
    script -qec "'$wrapper' build replay --quiet" /dev/null </dev/null >"$room/out" 2>&1
    lacks "a terminal and --quiet: no progress" " of " "$(cat "$room/out")"
    rm "$room/says/kept"
    rm -f "$room/says/elsewhere"
    rm -rf "$tree"/crates/*/out
    echo "unproved 43" >>"$tree/out/took"
    printf '#!/bin/sh\nsleep 2.5\n' >"$room/says/first"
    chmod +x "$room/says/first"
    script -qec "'$wrapper' run --pages 4 first.script" /dev/null </dev/null >"$room/out" 2>&1
    shows "a terminal: how far an unproved build is" "mpheap: makes an unproved build: [1-9] s, of about 43" "$(cat "$room/out")"
    rm "$room/says/first"
    long_runs_show_progress
    call build
}

# shows WHAT PATTERN TEXT: which second a busy machine shows isn't asked.
shows() {
    if [[ $3 =~ $2 ]]; then is "$1" yes yes; else is "$1" "a text that matches: $2" "$3"; fi
}

# on_terminal NAME WORDS..: all that the wrapper writes, with standard error a terminal and standard output the file NAME.
on_terminal() {
    script -qec "'$wrapper' ${*:2} >'$1'" /dev/null </dev/null 2>&1
}

# Of `replay` and `draw` a terminal is told how far they are; nothing else is.
long_runs_show_progress() {
    local out
    lines attach "0 get 1" attach >three.run
    try_ends 0 $'{"title":"a script"}\n{"c":"attach","r":"mutator 0"}\n{"c":"0 get 1","r":"0"}\n'
    call draw --pages 4 three.run
    echo "lines:crates/mpheap/out/unproved/mpheap 9000000" >>"$tree/out/took"
    call replay --pages 4 three.run
    touch "$room/says/slow"
    shows "a terminal: how far draw is" "draws three.run: 2 of 3 lines, [1-9] s" "$(on_terminal page draw three.run --pages 4)"
    has "a terminal: the page is there" "</html>" "$(cat page)"
    out=$(on_terminal verdict replay three.run --pages 4)
    shows "a terminal: how far replay is" "judges three.run, 3 lines: [1-9] s, of about 28" "$out"
    is "a terminal: replay's answer" '{"title":"a script"}' "$(head -n 1 verdict)"
    shows "a terminal: how far replay of many is" "judges three.run, 3 lines: [1-9] s" "$(on_terminal verdict replay --json three.run three.run --pages 4)"
    lacks "a terminal and --quiet" judges "$(on_terminal verdict replay --quiet three.run --pages 4)"
    call replay --pages 4 three.run
    is "no terminal: what is said" "mpheap: an unproved build, which an earlier run made of these sources: for a first look" "$err"
    is "a signal ends progress" "143 yes" "$(python3 "$top/tests/wrapper/stopped.py" "$wrapper" replay --pages 4 three.run)"
    rm "$room/says/slow" page verdict three.run
}

found_from_everywhere() {
    mkdir -p "$room/home/crates/mpheap"
    cp first.script "$room/home"
    ln -s "$tree/mpheap" "$room/home/mpheap"
    cd "$room/home" || exit 1
    wrapper=./mpheap
    runs_proved "through a link"
    cp first.script "$tree"
    cd "$tree" || exit 1
    export CDPATH=$room/home
    runs_proved "with CDPATH"
    unset CDPATH
    cd "$room/caller" || exit 1
    wrapper=mpheap
    PATH=$tree:$stand_in
    runs_proved "by PATH"
    wrapper=$tree/mpheap
    # shellcheck disable=SC2123 # (it is what is meant)
    PATH=$room/plain
    call run --pages 4 first.script
    PATH=$stand_in
    is "the proved build needs no rt" "mpheap: the proved build" "$(head -n 1 "$room/err")"
}

#!/usr/bin/env bash
# Tests of the heap for C: builds the proved library, and compiles and runs header, examples and tests/c over it, with the
# sanitizers too. Expected output stands beside the examples; scripts are run through the calls of C and by the program, and
# have to have the same replies. It takes one to two minutes beside the proof of the library, and leaves nothing behind.
set -uo pipefail
top=$(dirname "$(dirname "$(readlink -f "${BASH_SOURCE[0]}")")")
# shellcheck source=tests/builds.sh
. "$top/tests/builds.sh"
kind=c
# shellcheck source=tests/counts.sh
. "$top/tests/counts.sh"
crate=$top/crates/mpheap_c
room=$(mktemp -d)
trap 'rm -rf "$room"' EXIT
trap 'exit 143' INT TERM HUP
warnings=(-Wall -Wextra -Werror -pedantic -I"$top/include")
sanitizers=(-g -O1 "-fsanitize=address,undefined" -fno-sanitize-recover=all)

# works WHAT COMMAND..: the command ends with 0.
works() {
    if "${@:2}" >"$room/said" 2>&1; then
        passed=$((passed + 1))
    else
        failed=$((failed + 1))
        printf 'c: %s: status %s\n%s\n' "$1" $? "$(tail -n 20 "$room/said")"
    fi
}

# has COMMAND: whether it is there; else says what is left out.
has() {
    command -v "$1" >/dev/null 2>&1 || { echo "c: no $1 here: $2 left out" && false; }
}

# The proved library. Where rt ci was the last to prove the crates below, they lie there without rt's stamps, and aren't proved again.
build_library() {
    local below=$top/crates/heap_core/out/rlib
    if [ -d "$below/heap_core.rlib" ] && [ ! -f "$below/stamp" ]; then
        "$top/c/library" "$top"
    else
        "$top/mpheap" build c
    fi >"$room/built" 2>&1
}

# compile PROGRAM STANDARD FILE FLAGS..: a program of room, over the archive.
compile() {
    cc -std="$2" "${warnings[@]}" "${@:4}" "$top/$3" "$room/libmpheap.a" -o "$room/$1"
}

# Header, examples and tests say the same in each standard.
standards_agree() {
    local file standard
    for standard in c99 c11; do
        for file in "$top"/examples/c/*.c "$top"/tests/c/*.c; do
            works "${file#"$top"/} as $standard" cc -std=$standard -O2 "${warnings[@]}" -c "$file" -o "$room/part.o"
        done
    done
    has g++ "C++" || return
    for file in "$top"/examples/c/*.c; do
        works "${file#"$top"/} as c++17" g++ -x c++ -std=c++17 -O2 "${warnings[@]}" -c "$file" -o "$room/part.o"
    done
}

# The header's numbers are those of the library's sources.
constants_are_the_sources() {
    local name value
    works "constants" compile constants c99 tests/c/constants.c
    while read -r name value; do
        case $name in
            FIRST_ADDRESS) is "$name" "$value" "$(sed -n 's/^first=\([0-9]*\) .*/\1/p' "$top/c/library")" ;;
            Refusal::*) is "$name" "$value" "$(sed -n "s/^ *$name => \([0-9]*\),.*/\1/p" "$top/crates/words/src/refusal.rt" | head -n 1)" ;;
            *) is "$name" "$value" "$(cat "$top/crates/words/src/limits.rt" "$crate/src/status.rt" | sed -n "s/^pub const $name: u[0-9]* = \([0-9_]*\);/\1/p" | tr -d _)" ;;
        esac
    done < <("$room/constants")
}

# prints FILE PROGRAM WORDS..: the program ends with 0 and prints what the file has.
prints() {
    local out
    out=$("${@:2}" 2>"$room/err"; echo "status $?")
    is "$1" "$(cat "$top/$1"; echo "status 0")" "$out"
    [ ! -s "$room/err" ] || sed 's/^/c: /' "$room/err"
}

# counts_well PROGRAM WORDS..: a test in C, whose last line counts; each of its counts is one here.
counts_well() {
    local status=0 line
    "$@" >"$room/out" 2>&1 || status=$?
    line=$(tail -n 1 "$room/out")
    if [ $status = 0 ] && [[ $line =~ :\ ([0-9]+)\ passed,\ 0\ failed$ ]]; then
        passed=$((passed + BASH_REMATCH[1]))
        return
    fi
    is "$(basename "$1") ${*:2}" "no failure" "status $status: $(tail -n 20 "$room/out")"
}

programs_run() {
    local flags=("$@")
    works "hello" compile hello c99 examples/c/hello.c "${flags[@]}"
    works "lisp" compile lisp c99 examples/c/lisp.c "${flags[@]}"
    works "intern" compile intern c99 examples/c/intern.c "${flags[@]}"
    works "exports" compile exports c99 tests/c/exports.c "${flags[@]}"
    works "links" compile links c99 tests/c/links.c "${flags[@]}"
    works "mapped" compile mapped gnu99 tests/c/mapped.c "${flags[@]}"
    works "limits" compile limits gnu99 tests/c/limits.c "${flags[@]}"
    works "lent" compile lent c99 tests/c/lent.c "${flags[@]}"
    works "partial" compile partial c99 tests/c/partial.c "${flags[@]}"
    works "shares" compile shares c99 tests/c/shares.c -pthread "${flags[@]}"
    works "writes" compile writes c99 tests/c/writes.c "${flags[@]}"
    works "script" compile script c99 tests/c/script.c "${flags[@]}"
    prints examples/c/hello.expected "$room/hello"
    prints examples/c/lisp.expected "$room/lisp" <"$top/examples/c/lisp.lisp"
    prints examples/c/lisp.expected "$room/lisp" 1024 <"$top/examples/c/lisp.lisp"
    prints examples/c/intern.expected "$room/intern" <"$top/LICENSE-APACHE"
    counts_well "$room/exports"
    counts_well "$room/links"
    counts_well "$room/mapped"
    counts_well "$room/limits"
    counts_well "$room/lent"
    counts_well "$room/partial"
    counts_well "$room/shares"
}

# Each request of an open is refused in turn: c/memory.c with its requests renamed, under the sanitizers.
memory_is_refused() {
    works "refused" cc -std=c11 "${warnings[@]}" "${sanitizers[@]}" -include "$top/tests/c/refused.h" -c "$top/c/memory.c" -o "$room/refused.o"
    works "refused" cc -std=c11 "${warnings[@]}" "${sanitizers[@]}" "$top/tests/c/refused.c" "$room/refused.o" "$top/c/lent.c" "$crate/out/libmpheap_c.a" \
        -o "$room/refused"
    counts_well "$room/refused"
}

# Told, no reached object is lost; untold, one has to be.
words_are_written_by_pointers() {
    counts_well "$room/writes" 4
    sed -n 's/^writes: \(.* nodes\)/c: \1/p' "$room/out"
    counts_well "$room/writes" 4 untold
}

# A collector's thread marks beside two that write: told, no object is lost; untold, some have to be.
words_are_written_beside_the_marker() {
    works "beside" compile beside gnu11 tests/c/beside.c -O2 -pthread
    counts_well "$room/beside" 4
    sed -n 's/^beside: \(.* writes.*\)/c: \1/p' "$room/out"
    counts_well "$room/beside" 4 untold
}

misuse_is_stopped() {
    local which status
    works "misuse" compile misuse c99 tests/c/misuse.c
    for which in 1 2 3 4; do
        status=0
        { (ulimit -c 0; exec "$room/misuse" $which) || status=$?; } >/dev/null 2>&1
        is "misuse $which is stopped by the system" 139 $status
    done
}

valgrind_sees_nothing() {
    has valgrind "its runs are" || return
    for name in hello exports links; do
        works "$name under valgrind" valgrind --quiet --leak-check=full --show-leak-kinds=all --error-exitcode=9 "$room/$name"
    done
}

gcbench_is_right() {
    works "gcbench" compile gcbench c99 examples/c/gcbench.c -O2
    prints examples/c/gcbench.expected "$room/gcbench"
    if echo '#include <gc.h>' | cc -E - >/dev/null 2>&1; then
        works "gcbench over libgc" cc -std=c99 -DBDWGC -O2 "$top/examples/c/gcbench.c" -lgc -o "$room/gcbench_bdw"
        prints examples/c/gcbench.expected "$room/gcbench_bdw"
    else
        echo "c: no libgc here: GCBench over it is left out"
    fi
}

rust_is_safe() {
    has rustc "the example in Rust is" || return
    works "examples/rust" rustc --edition 2021 -D warnings -O "$top/examples/rust/main.rs" -L "native=$room" -l static=mpheap -o "$room/rust"
    prints examples/rust/main.expected "$room/rust"
}

# The scripts of examples/, and random ones, through the calls of C.
examples_have_their_replies() {
    local file
    for file in "$top"/examples/*.script; do
        is "$(basename "$file") through C" "$(cat "${file%.script}.replies")" "$("$room/script" 4 <"$file" 2>&1)"
    done
    is "a bad line through C" "bad line 2" "$(printf 'attach\n0 get 16\n' | "$room/script" 4 2>&1 >/dev/null)"
}

seeds() {
    local seed
    for seed in $(seq 200); do echo "$seed $((seed % 5 + 1)) $((seed % 7 * 60 + 40)) $((seed % 9 + 1))"; done
}

# The replies of each row of tests/rows through the calls of C. Nobody but its writer has made them.
rows_have_their_replies() {
    local name pages count=0
    mkdir "$room/rows"
    while read -r name pages; do
        is "row $name through C" "$(cat "$room/rows/$name.stdout")" "$("$room/script" "$pages" <"$room/rows/$name" 2>&1)"
        count=$((count + 1))
    done < <("$top/tests/rows/split" -v "room=$room/rows" "$top"/tests/rows/*.rows)
    is "rows enough" yes "$([ $count -ge 137 ] && echo yes)"
}

# The program's replies to random scripts, which it writes too, and those through C. Which build it is, is said in tests/builds.sh.
random_scripts_have_the_same_replies() {
    local seed mutators steps pages differ=0
    if [ ! -x "$build" ]; then
        echo "c: no build of mpheap here: 200 random scripts are left out"
        return
    fi
    while read -r seed mutators steps pages; do
        "$build" stress --seed "$seed" --mutators "$mutators" --steps "$steps" >"$room/random"
        "$build" run --pages "$pages" "$room/random" >"$room/wanted" 2>&1
        "$room/script" "$pages" <"$room/random" >"$room/out" 2>&1
        cmp -s "$room/wanted" "$room/out" || { differ=$((differ + 1)) && echo "c: seed $seed has other replies"; }
    done < <(seeds)
    is "random scripts with other replies" 0 $differ
}

# Header, archive, pkg-config and CMake, in a folder far away.
installed_far_away() {
    local far="$room/a folder/far away"
    mkdir "$room/a folder"
    works "install" "$top/c/install" "$room/near"
    mv "$room/near" "$far"
    cp "$top/examples/c/hello.c" "$room"
    # shellcheck disable=SC2016 # (make expands these)
    printf 'all:\n\tcc $(shell pkg-config --cflags mpheap) hello.c $(shell pkg-config --libs mpheap) -o far\n' >"$room/Makefile"
    if has pkg-config "mpheap.pc is" && has make "a Makefile is"; then
        works "two lines of a Makefile" env PKG_CONFIG_PATH="$far/lib/pkgconfig" make -C "$room" -s
        prints examples/c/hello.expected "$room/far"
    fi
    has cmake "the CMake config is" || return
    mkdir "$room/cmake"
    printf '%s\n' 'cmake_minimum_required(VERSION 3.10)' 'project(far C)' 'find_package(mpheap REQUIRED)' 'add_executable(far ../hello.c)' \
        'target_link_libraries(far mpheap::mpheap)' >"$room/cmake/CMakeLists.txt"
    works "cmake" cmake -S "$room/cmake" -B "$room/cmake/out" -DCMAKE_PREFIX_PATH="$far"
    works "cmake --build" cmake --build "$room/cmake/out"
    prints examples/c/hello.expected "$room/cmake/out/far"
}

has cc "all of it is" || exit 1
build_library || { cat "$room/built" && echo "c: the library isn't proved" && echo "c: 0 passed, 1 failed" && exit 1; }
works "the archive" "$top/c/archive" "$room"
standards_agree
constants_are_the_sources
programs_run -O2
misuse_is_stopped
valgrind_sees_nothing
words_are_written_by_pointers
words_are_written_beside_the_marker
examples_have_their_replies
rows_have_their_replies
random_scripts_have_the_same_replies
programs_run "${sanitizers[@]}"
words_are_written_by_pointers
memory_is_refused
gcbench_is_right
rust_is_safe
installed_far_away
tell_counts

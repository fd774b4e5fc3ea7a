# shellcheck shell=bash disable=SC2034,SC2154 # (mpheap has the other names, and reads these)
# Part of the wrapper mpheap, read by it: `test`, which runs what needs no proof, over a proved build where there is one of the sources
# that stand here, and else over an unproved one. The last line counts what passed and failed, and before it stands what was left out.

# Parts that want more than the program: what they need, besides tools that they miss themselves.
needs_python="many_runs random judged_runs record draw"
needs_compiler="programs recording_header c gc"

# run_tests: its status is 0 if nothing failed, and 1 if something did.
run_tests() {
    local part why build left_out=() started=() running=() lanes
    lanes=$(nproc)
    make_room
    find_tested
    for part in gc c judged_runs programs viewer record random draw command_line rows recording_header many_runs entries; do
        why=$(why_not "$part")
        if [[ -z $why ]]; then start_part "$part"; else left_out+=("$part: $why"); fi
    done
    left_out+=("gc's planted faults, and its runs under sanitizers: tests/gc.sh")
    left_out+=("wrapper: of ./mpheap itself, and by a build of its own: tests/wrapper.sh")
    left_out+=("package: of what 'build' and 'package' make: tests/package.sh")
    left_out+=("refused_threads, refused_memory: of what only 'rt ci' builds")
    end_parts
}

# find_tested: puts the build that is tested into `build`: the proved one, and else an unproved one.
find_tested() {
    build=$(built mpheap)
    if is_proved mpheap; then
        note "tests, of the proved build"
        return
    fi
    build=$unproved
    if ! is_kept; then
        need_rt "a test of what isn't proved"
        note "makes an unproved build, which later runs and tests take"
        keep_unproved || no_answer "no unproved build can be kept: 'mpheap build' makes a proved one, which can be tested"
    fi
    note "tests, of an unproved build"
}

# why_not PART: why it can't run here, if it can't.
why_not() {
    case $1 in
        c | gc) is_proved mpheap_c || { echo "the heap for C isn't built: 'mpheap build c' builds it" && return; } ;;
        judged_runs) is_proved mpheap || { echo "it takes minutes over an unproved build: 'mpheap build replay' makes a proved one" && return; } ;;
    esac
    if is_in "$1" "$needs_python" && ! command -v python3 >/dev/null; then
        echo "there is no python3"
    elif is_in "$1" "$needs_compiler" && ! command -v cc >/dev/null; then
        echo "there is no cc"
    fi
}

# start_part PART: once fewer run than there are processors; those that take longest come first.
start_part() {
    local test words=()
    [[ $1 != gc ]] || words=(--quick)
    while (($(jobs -rp | wc -l) >= lanes)); do
        progress "${#started[@]} tests have begun; $1 comes next"
        wait -n || true
    done
    for test in "$here/tests/$1.sh" "$here/tests/$1.py"; do
        [[ -x $test ]] || continue
        MPHEAP_PROGRAM=$build TMPDIR=$room "$test" "${words[@]}" >"$room/said.$1" 2>&1 </dev/null &
        running+=($!)
        started+=("$1")
        child=${running[*]}
    done
}

# end_parts: what each says, once it has ended, what was left out, and the counts of all.
end_parts() {
    local at status passed=0 failed=0
    for at in "${!started[@]}"; do
        progress "$at of ${#started[@]} tests have ended; ${started[at]}"
        status=0
        wait "${running[at]}" || status=$?
        end_progress
        count "${started[at]}" $status
    done
    child=''
    mapfile -O ${#left_out[@]} -t left_out < <(sed '/: skipped\|left out\|skipped, for want of\|isn.t compiled/!d' "$room"/said.*)
    printf 'left out: %s\n' "${left_out[@]}"
    echo "$passed passed, $failed failed"
    [[ $failed = 0 ]] || exit 1
}

# count PART STATUS: adds what its last line counts; without such a line, or with a status that doesn't fit it, it failed as a whole.
count() {
    local counts
    cat "$room/said.$1"
    counts=$(tail -n 1 "$room/said.$1")
    if [[ $counts =~ ^(.*:\ )?([0-9]+)\ passed,\ ([0-9]+)\ failed$ && ($2 = 0 || ${BASH_REMATCH[3]} != 0) ]]; then
        passed=$((passed + BASH_REMATCH[2])) failed=$((failed + BASH_REMATCH[3]))
    else
        echo "$1 ended with status $2, and no count of what failed"
        failed=$((failed + 1))
    fi
}

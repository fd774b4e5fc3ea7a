# shellcheck shell=bash disable=SC2034,SC2154 # (whoever reads this has the other names, and reads these)
# Which build the tests run: the program MPHEAP_PROGRAM, as `./mpheap test` gives it, or else the proved one that `rt ci` or `./mpheap build`
# left.
build=${MPHEAP_PROGRAM:-$top/crates/mpheap/out/mpheap}

# is_built: else it is a failure.
is_built() {
    [ -x "$build" ] || is "a build" there "not there: './mpheap build' makes a proved one, './mpheap test' an unproved one"
    [ -x "$build" ]
}

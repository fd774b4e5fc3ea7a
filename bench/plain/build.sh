# shellcheck shell=bash disable=SC2034 # (who reads this has the other names)
# What `run` and `instructions` share: they build the proved program, or take the one that BENCH names, and this lends a folder that goes when
# the script ends. `build_plain NAME` builds a program in plain Rust there, for the processor that the proved one is built for.
set -eu
top="$(cd "$(dirname "$0")/.." && pwd)"
proved="${BENCH:-$top/crates/bench/out/bench}"
work="$(mktemp -d)"
trap 'rm -rf "$work"' EXIT
[ -n "${BENCH:-}" ] || (cd "$top/crates/bench" && rt run > "$work/log" 2>&1) || { cat "$work/log" >&2; exit 1; }

build_plain() {
    rustc --edition 2021 -O -C target-cpu=x86-64-v2 -o "$work/$1" "$top/bench/plain/$1_plain.rs"
}

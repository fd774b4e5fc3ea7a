# shellcheck shell=bash
# What the tests of refused memory and threads need, read by them: the preloaded file, the counts, and
# where programs and tests lie. These are built by 'rt ci', or one by one by './mpheap build' and by 'rt run' and 'rt test' in
# their crates. MPHEAP_CRATES names another folder of crates than this repository's.
top=$(dirname "$(dirname "$(readlink -f "${BASH_SOURCE[0]}")")")
top=$(dirname "$top")
crates=${MPHEAP_CRATES:-$top/crates}
room=$(mktemp -d)
trap 'rm -rf "$room"' EXIT
trap 'exit 143' INT TERM HUP
# shellcheck source=tests/counts.sh
. "$top/tests/counts.sh"

close() {
    echo "$kind: $passed passed, $failed failed"
    [ "$passed" -gt 0 ] && [ "$failed" = 0 ]
    exit
}

# is_there PROGRAM
is_there() {
    [ -x "$1" ] || is "${1#"$crates/"} is built" yes no
    [ -x "$1" ]
}

# refuse SECONDS SETTING WORDS..: the words, where what the setting says is refused; how they end, what they write, and how
# much was refused.
refuse() {
    timeout "$1" env LD_PRELOAD="$room/refuse.so" "${@:2}" >"$room/out" 2>"$room/err" 3>"$room/refused" </dev/null
    status=$?
    said=$(cat "$room/err")
    refused=$(wc -c <"$room/refused")
}

if ! cc -std=c11 -Wall -Wextra -Werror -pedantic -shared -fPIC -O1 -o "$room/refuse.so" "$top/tests/refused/refuse.c" -ldl; then
    is "a C compiler" yes no
    close
fi

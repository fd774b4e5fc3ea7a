#!/bin/sh
# Makes one page of two traces, as of the same script in two heaps, that are beside each other and go line by line together:
#     viewer/beside.sh ONE.jsonl OTHER.jsonl > heaps.html
set -eu
here=$(dirname "$0")
[ $# -eq 2 ] || { echo "usage: beside.sh ONE.jsonl OTHER.jsonl > heaps.html" >&2; exit 2; }
for trace; do [ -r "$trace" ] || { echo "beside.sh: '$trace' can't be read" >&2; exit 1; }; done

# frame NAME TRACE: the page of this trace, as a text that an attribute can hold.
frame() {
    printf '<iframe title="%s" srcdoc="' "$1"
    "$here/join.sh" "$2" | sed 's/&/\&amp;/g; s/"/\&quot;/g'
    echo '"></iframe>'
}

sed '/^<!-- beside.sh/,$d' "$here/beside.html"
frame "The first run" "$1"
frame "The second run" "$2"
sed '1,/^<!-- beside.sh/d' "$here/beside.html"

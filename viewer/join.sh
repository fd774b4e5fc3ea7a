#!/bin/sh
# Joins the page with a trace (docs/TRACE.md) into one file that needs no other:
#     viewer/join.sh RUN.jsonl > heap.html        or        .. | viewer/join.sh - > heap.html
# `<` can stand in a trace only inside a JSON string, where \u003c means the same: so no trace can end its element.
set -eu
here=$(dirname "$0")
[ $# -eq 1 ] || { echo "usage: join.sh RUN.jsonl > heap.html" >&2; exit 2; }
[ "$1" = - ] || [ -r "$1" ] || { echo "join.sh: '$1' can't be read" >&2; exit 1; }

# The scripts in the order in which they stand on each other. They share one scope.
scripts="text pen heap snapshot records ever writes run view layout legend cells map roots arrows rings scene plot script_list sentence
    inspector picking export beside moving keys pointer start"

styles() {
    echo '<style>'
    cat "$here/style.css" "$here/frame.css" "$here/picture.css"
    echo '</style>'
}

script() {
    echo '<script>'
    cat "$here/src/$1.js"
    echo '</script>'
}

trace() {
    echo '<script type="application/x-ndjson" id="trace">'
    cat -- "$1" | sed 's/</\\u003c/g'
    echo '</script>'
}

sed '/^<!-- join.sh/,$d' "$here/page.html"
styles
for name in $scripts; do script "$name"; done
trace "$1"
sed '1,/^<!-- join.sh/d' "$here/page.html"

# shellcheck shell=bash disable=SC2154 # (tests/gc.sh has the other names, and reads this)
# Part of tests/gc.sh: programs of the distribution that are linked with libgc: the same output and status as with it.

# program NAME WORDS..
program() {
    local name=$1 setting
    shift
    if ! command -v "$1" >"$room/said"; then
        skip "$name" "its run"
        return
    fi
    "$@" >"$room/wanted" 2>&1 <"$room/input"
    echo "status $?" >>"$room/wanted"
    for setting in FULL=1 GC_ENABLE_INCREMENTAL=1; do
        # Runs so short would end before the first collection: so these come a hundred times as often.
        env $setting GC_FREE_SPACE_DIVISOR=300 "LD_PRELOAD=$room/libmpgc.so" "$@" >"$room/seen" 2>&1 <"$room/input"
        echo "status $?" >>"$room/seen"
        is "$name, $setting" "" "$(diff "$room/wanted" "$room/seen" | head -n 4 | cut -c 1-200)"
    done
}
cat >"$room/page.html" <<'HTML'
<html><head><title>A page</title></head><body><h1>A page</h1><table border=1><tr><td>one<td>two<tr><td>three<td>four &amp; five</table>
<ul><li>first<li>second</ul><p>Some text, <b>bold</b> and <a href="page.html">a link</a>.</p><form><input name=a value=b></form></body></html>
HTML
for k in $(seq 1 120); do printf '<p>Paragraph %d with <i>some</i> words that are broken into lines of a page.</p>\n' "$k"; done >>"$room/page.html"
seq 1 100 >"$room/input"
mkdir "$room/files"
touch "$room"/files/{one,two,three,four}.c
ln -s page.html "$room/first"
ln -s first "$room/second"
cat >"$room/page.p" <<'PARSER'
@main[]
$h[^hash::create[]]
^for[i](1;2000){$h.[k$i][v^eval($i*$i)]}
^h.foreach[k;v]{$k=$v }
PARSER
program w3m w3m -dump "$room/page.html"
program mmv mmv -n "$room/files/*.c" "$room/files/#1.h"
program chase chase "$room/second"
program parser3 parser3 "$room/page.p"

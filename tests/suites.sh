#!/usr/bin/env bash
# tests/suites.sh [NAME..]
#
# Test-suites of programs of Debian that use libgc, of their sources, by the programs as they are installed, twice over libgc, and over
# libmpgc by LD_PRELOAD in full collections, in small steps, with the collector's own thread, and with four markers. tests/suites/judged.sh
# has those whose tests say themselves whether they fail (and crystal.sh those of crystal, standalone.sh those of guile that are programs),
# tests/suites/compared.sh and letters.sh those whose tests say or write something, which has to be what they do over libgc.
# It prints a table:
#
#     | SUITE | VERSION of the source | tests | fail over libgc | full | steps | thread | markers | collections, of libgc and of these |
#
# where full and its kin say which tests fail that don't in either run over libgc, or `none`. What two runs over libgc say otherwise counts as
# failing there. Its last line is `N same, M not, K left out`. The sources are kept in the folder SOURCES, if it is set, each in a folder of its
# package's name; what isn't there comes by apt-get source, which needs a deb-src line: of the first version that is to be had. MPHEAP_ARCHIVE
# and MPHEAP_INCLUDE are those of gc/build; MODES are the four, and SECONDS_EACH, for one command, 900, unless they are set; KEEP is a folder
# for what was said. FILES is a pattern of the tests that are tried, of suites that have one; DIVISOR is in place of a suite's own.
set -uo pipefail
top=$(dirname "$(dirname "$(readlink -f "${BASH_SOURCE[0]}")")")
room=$(mktemp -d)
trap 'rm -rf "$room"' EXIT
trap 'exit 143' INT TERM HUP
export LC_ALL=C.UTF-8 HOME=$room/home
read -ra modes <<<"${MODES:-full steps thread markers}"
shopt -s extglob
preload=$room/lib/libmpgc.so

# over MODE DIVISOR COMMAND..: the command over libgc, if MODE is none or again, or over libmpgc.
over() {
    local settings=("GC_FREE_SPACE_DIVISOR=${DIVISOR:-$2}" GC_PRINT_STATS=1)
    case $1 in
        none | again) settings+=("GC_LOG_FILE=$room/log") ;;
        steps) settings+=("LD_PRELOAD=$preload" GC_ENABLE_INCREMENTAL=1) ;;
        thread) settings+=("LD_PRELOAD=$preload" GC_COLLECTOR_THREAD=1) ;;
        markers) settings+=("LD_PRELOAD=$preload" GC_MARKERS=4) ;;
        *) settings+=("LD_PRELOAD=$preload") ;;
    esac
    timeout -s KILL "${SECONDS_EACH:-900}" env "${settings[@]}" "${@:3}"
}

for part in "$top"/tests/suites/*.sh; do
    # shellcheck source=/dev/null
    . "$part"
done

# source_of PACKAGE: the folder of its source, if it is to be had.
source_of() {
    local folder=${SOURCES:-$room/sources}/$1 version
    if [ ! -d "$folder" ]; then
        mkdir -p "$room/got"
        for version in $(apt-cache showsrc "$1" 2>"$room/said" | sed -n 's/^Version: //p'); do
            (cd "$room/got" && apt-get source -q --download-only "$1=$version") >"$room/said" 2>&1
            [ -z "$(tarball "$1")" ] || break
        done
        [ -n "$(tarball "$1")" ] || return
        mkdir -p "$folder"
        tar xf "$(tarball "$1")" -C "$folder"
        basename "$(tarball "$1")" | sed 's/^[^_]*_//; s/[.]orig[.]tar.*//' >"$folder/version"
    fi
    if [ "$(find "$folder" -mindepth 1 -maxdepth 1 -type d | wc -l)" = 1 ]; then find "$folder" -mindepth 1 -maxdepth 1 -type d; else echo "$folder"; fi
}
tarball() { find "$room/got" -name "$1_*.orig.tar.*" ! -name '*.asc'; }

# run_suite NAME SOURCE MODE: in a folder of its own.
run_suite() {
    rm -rf "$room/run" "$HOME" "$room/log"
    mkdir -p "$room/run" "$HOME"
    : >"$room/log"
    (cd "$room/run" && "${1//[-.]/_}_suite" "$room/$1.$3" "$2" "$3")
    { grep -a '^World-stopped marking' "$room/log"; grep -a 'mpgc: [0-9]* collections: ' "$room/$1.$3.said"; } |
        awk '/^World/ { sum++ } match($0, /[0-9]+ collections/) { sum += substr($0, RSTART) } END { print sum + 0 }' >"$room/$1.$3.collections"
    [ -z "${KEEP:-}" ] || cp -r "$room/$1.$3".* "$KEEP"
}

# failing NAME: the tests that fail in either run over libgc.
failing() { sort -u "$room/$1.none.failing" "$room/$1.again.failing"; }

# others NAME MODE: the tests that fail, and don't over libgc.
others() {
    local more
    more=$(sort -u "$room/$1.$2.failing" | comm -23 - <(failing "$1") | paste -sd ' ')
    cmp -s "$room/$1.$2.count" "$room/$1.none.count" || more="$(cat "$room/$1.$2.count") tests ran. $more"
    echo "${more:-none}"
}

# row NAME SOURCE: of the table.
row() {
    local mode row collections
    run_suite "$1" "$2" none
    run_suite "$1" "$2" again
    row="| $1 | $(cat "$2/version" "$2/../version" 2>"$room/said" | head -n 1) | $(cat "$room/$1.none.count") | $(failing "$1" | wc -l) |"
    collections=$(cat "$room/$1.none.collections")
    for mode in "${modes[@]}"; do
        run_suite "$1" "$2" "$mode"
        row="$row $(others "$1" "$mode") |"
        collections="$collections, $(cat "$room/$1.$mode.collections")"
    done
    echo "$row $collections |"
}

# NAME:PACKAGE of the source:what has to be here.
suites=(
    nix:nix:nix-instantiate w3m:w3m:w3m ecl:ecl:ecl
    guile-3.0:guile-3.0:/usr/lib/x86_64-linux-gnu/guile/3.0/bin/guile guile-2.2:guile-3.0:/usr/lib/x86_64-linux-gnu/guile/2.2/bin/guile
    goo:goo:goo crystal:crystal:crystal crystal-threads:crystal:crystal poke:poke:poke neko:neko:neko asymptote:asymptote:asy
    lilypond:lilypond:lilypond inkscape:inkscape:inkscape macaulay2:macaulay2:M2 macaulay2-packages:macaulay2:M2
    guile-standalone:guile-3.0:/usr/lib/x86_64-linux-gnu/guile/3.0/bin/guile lepton:lepton-eda:lepton-netlist mailutils:mailutils:lmtpd
    maxima:ecl:maxima-sage
)
"$top/gc/build" "$room/lib" || exit 1
same=0
not=0
left=()
wanted=" $* "
echo "| Suite | source | tests | fail over libgc |$(printf ' %s |' "${modes[@]}") collections |"
echo "|---|---|---|---|$(printf -- '---|%.0s' "${modes[@]}")---|"
for suite in "${suites[@]}"; do
    IFS=: read -r name package program <<<"$suite"
    [[ $wanted = "  " || $wanted = *" $name "* ]] || continue
    source=$(source_of "$package")
    if [ -z "$source" ] || ! command -v "$program" >"$room/said"; then
        left+=("$name")
        continue
    fi
    row=$(row "$name" "$source")
    echo "$row"
    if [[ $row =~ (\|\ none\ ){${#modes[@]}}\|[^|]*\|$ ]]; then same=$((same + 1)); else not=$((not + 1)); fi
done
for one in "${left[@]}"; do echo "left out: $one, whose source or program isn't here"; done
echo "$same same, $not not, ${#left[@]} left out"
[ "$not" = 0 ]

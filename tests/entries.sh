#!/usr/bin/env bash
# Finds the libraries that a line of crates.txt names and no path in a source, specification or proof of its crate begins
# with: each of them costs a start in every check of the crate, and in that of every edit. It takes a few seconds.
set -euo pipefail
cd "$(dirname "${BASH_SOURCE[0]}")/.."
kind=entries
# shellcheck source=tests/counts.sh
. tests/counts.sh

# The first names of all paths in the crate outside comments, each once: `NAME::..` of code, `Rattle.NAME..` of definitions.
cited() {
    find "crates/$1" -name out -prune -o -name "*.rt" -exec sed 's,//.*,,' {} + -o -name "*.antt" -exec sed 's,--.*,,' {} + |
        grep -oE '(^|[^[:alnum:]_:.])[[:alnum:]_]+::|Rattle\.[[:alnum:]_]+' | sed -E 's/^Rattle\.//; s/[^[:alnum:]_]//g' | sort -u
}

while IFS=: read -r name libraries; do
    [ -n "$libraries" ] || continue
    crate=${name%% *}
    names=$(cited "$crate")
    for library in $libraries; do
        if grep -qx "$library" <<<"$names"; then
            passed=$((passed + 1))
        else
            failed=$((failed + 1))
            echo "entries: crates.txt names $library for $crate, and no path of $crate begins with it"
        fi
    done
done < <(sed 's,#.*,,' crates.txt)
tell_counts

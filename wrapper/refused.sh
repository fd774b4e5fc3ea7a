# shellcheck shell=bash disable=SC2154 # (mpheap has the other names)
# Part of the wrapper mpheap, read by it and by the full test: which wrong bodies the prover refused. rt tells it while `rt ci` runs, and of no
# earlier run; so the full test writes it down in out/refused, each with a sum of the edit and of all that its crate was made from.

# The sums of the crates that were looked at, each of all that it was made from.
declare -A crate_sums=()

# sum_of EDIT: puts a line of its name, with a sum of its file and of the sources of its crate, into `told`.
sum_of() {
    local crate=${1#crates/}
    crate=${crate%%/*}
    [[ -v crate_sums[$crate] ]] || crate_sums[$crate]=$(source_sums "$here" "$crate" | sha256sum)
    told="$({ echo "${crate_sums[$crate]}" && cat "$here/$1"; } | sha256sum) $1"
}

# keep_refused TOLD: of what `rt ci` told.
keep_refused() {
    local edit told
    mkdir -p "$here/out"
    sed -n 's|^rt: must-fail \([^/]*\)/\([^:]*\): refused, as it must be.*|crates/\1/must-fail/\2|p' "$1" | LC_ALL=C sort -u |
        while read -r edit; do
            [[ -f $here/$edit ]] || continue
            sum_of "$edit"
            echo "$told"
        done >"$here/out/refused"
}

# tell_refused CRATE..: which of the wrong bodies of these and of what they are made from were refused, and of which nothing is known.
tell_refused() {
    local crate edit told known=() unknown=()
    for crate in $(needed_in "$here" "$@"); do
        for edit in "$here/crates/$crate/must-fail"/*.edit; do
            [[ -f $edit ]] || continue
            edit=${edit#"$here/"}
            sum_of "$edit"
            if grep -qsxF "$told" "$here/out/refused"; then known+=("$edit"); else unknown+=("$edit"); fi
        done
    done
    echo "Wrong bodies that the prover refused in a full test over these sources, ${#known[@]}:"
    [[ ${#known[@]} = 0 ]] || printf '  %s\n' "${known[@]}"
    echo "Wrong bodies of which no full test here tells that they were refused, ${#unknown[@]}:"
    [[ ${#unknown[@]} = 0 ]] || printf '  %s\n' "${unknown[@]}"
}

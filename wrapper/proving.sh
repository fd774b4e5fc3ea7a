# shellcheck shell=bash disable=SC2034,SC2154 # (mpheap has the other names, and reads these)
# Part of the wrapper mpheap, read by it: how crates are proved and built: by rt ci, over a copy of what is wanted and no more.
# rt proves as many crates at once as there are processors and memory, goes on with those that don't stand on one that failed, and
# keeps on its machine what it proved, by sums, so that a later build goes on from there. It runs a program only once that is proved
# and built, and says apart what came of each: so no answer of a program is taken for a failed proof.

# prove_and_build CRATE..: proves these crates and those below them, and puts what is built of them in its place.
prove_and_build() {
    local crate all at=0 began tree=$room/tree
    need_rt "a build"
    plant_tree "$@" || no_answer "the crates can't be copied to $tree"
    mapfile -t all < <(needed_in "$here" "$@")
    note "proves ${#all[@]} crates and builds $*; what was proved before isn't proved again; from nothing all take tens of minutes"
    work="the next build goes on with what rt has kept of this one"
    run_ci
    work=''
    for crate in "$@"; do bring "$crate"; done
    [[ $at != 0 ]] || { tail -n 15 "$room/told" >&2 && say "rt judged nothing: again by 'cd $here && rt ci $*'"; }
}

# plant_tree CRATE..: a copy of the files from which these are made. rt takes a folder with .git for the top of a repository.
plant_tree() {
    local crate part
    mkdir -p "$tree/.git" "$tree/crates" && cp "$here/HANDLES" "$tree" && rows_in "$here" "$@" >"$tree/crates.txt" || return
    for crate in $(needed_in "$here" "$@"); do
        mkdir "$tree/crates/$crate" || return
        for part in "$here/crates/$crate"/*; do
            case ${part##*/} in
                out | must-fail) ;;
                *) cp -R "$part" "$tree/crates/$crate" || return ;;
            esac
        done
    done
}

# run_ci: with the crates of the tree in `all`, tells how far it is.
run_ci() {
    local line crate last=0
    mkdir -p "$room/rt"
    mkfifo "$room/telling" || no_answer "no pipe can be made in $room"
    (cd "$tree" && TMPDIR=$room/rt exec setsid rt ci) </dev/null >"$room/telling" 2>&1 &
    child=$!
    began=$SECONDS
    : >"$room/told"
    tell_progress
    while IFS= read -r line; do
        printf '%s\n' "$line" >>"$room/told"
        crate=${line#rt: }
        crate=${crate%% *}
        tell "${crate%:}" "$line"
    done <"$room/telling"
    end_progress
    wait_for_child "$child" || true
}

# tell CRATE LINE: what a line of rt's says of a crate.
tell() {
    case $2 in
        *": proved") ;;
        "rt: $1 is kept: "*) tell_end "$1" ;;
        "rt: $1 proved")
            keep_took "$1" $((SECONDS - began - last))
            last=$((SECONDS - began))
            tell_end "$1"
            ;;
        "rt: $1 NOT PROVED: its library "*)
            say "$1: not tried, as ${2#*: its library }"
            tell_end "$1"
            ;;
        "rt: $1 NOT PROVED")
            show_failed "$1"
            tell_end "$1"
            ;;
        "rt: $1: the program "* | "rt: $1: what the program "* | "rt: $1 was not run: "*) show_run "$1" "${2#rt: }" ;;
        "rt: note: "*) say "${2#rt: note: }" ;;
    esac
}

# tell_end CRATE: no more is to be done of it.
tell_end() {
    local one left=()
    at=$((at + 1))
    for one in "${all[@]}"; do [[ $one = "$1" ]] || left+=("$one"); done
    all=("${left[@]}")
    tell_progress "$1"
}

# tell_progress CRATE: which crate was the last, of how many, and how long the others took in earlier builds.
tell_progress() {
    local seconds
    shows_progress || return 0
    seconds=$(took "${all[@]}")
    progress "$at of $((at + ${#all[@]}))${1:+, $1}${seconds:+, about $(((seconds + 59) / 60)) min left by what earlier builds took}"
}

# show_failed CRATE: the last lines of what rt said of its proof, where its sources are, and how its proof is tried again.
show_failed() {
    end_progress
    awk -v crate="$1" '/^== / { here = $2 == crate; next } /: proved$|^statements |^logic / { next } here' "$room/told" | tail -n 15 >&2
    say "$1 is refused by rt, as it says above: its folder is $here/crates/$1; again by 'cd $here/crates/$1 && rt check'"
}

# show_run CRATE WHAT: the program is proved and built, and rt says WHAT of its run on the files beside it.
show_run() {
    say "$1 is proved and built, but runs otherwise than the files beside it say: $2"
    say "its folder is $here/crates/$1; again by 'cd $here && rt ci $1'"
    runs_otherwise+=("$1")
}

# bring CRATE: puts its build from the tree in its place, with a record of what it was made from.
bring() {
    local place from
    grep -q "^rt: $1 \(proved$\|is kept: \)" "$room/told" || return 0
    if [[ $1 = mpheap_c ]]; then
        note "the heap for C begins at an address of its own: what it is made from is proved there too, where that isn't kept"
        by_tools "$here/mpheap build c" "$here/c/library" "$tree" || return 0
    fi
    place=$(built "$1")
    from=$tree${place#"$here"}
    [[ -f $from ]] || return 0
    put "$from" "$place" || no_answer "$place can't be written"
    rt version >"$place.rules"
    record_of "$tree" "$1" "$place" >"$place.sources"
    is_proved "$1" || say "a source of $1 changed meanwhile: build it again"
}

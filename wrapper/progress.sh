# shellcheck shell=bash disable=SC2154 # (mpheap has the other names)
# Part of the wrapper mpheap, read by it: how far long work is, on one line of a terminal, with the time that is left by what earlier work took. Where
# standard error is no terminal, and with --quiet, it is silent.

is_shown=''
ticker=''

shows_progress() { [[ -z $quiet && -t 2 ]]; }

# progress TEXT: a line in the place of the last one.
progress() {
    if shows_progress; then
        printf '\r\033[K%s' "mpheap: $*" >&2
        is_shown=yes
    fi
}

end_progress() {
    if [[ -n $ticker ]]; then
        kill "$ticker" 2>/dev/null || true
        wait "$ticker" 2>/dev/null || true
    fi
    if [[ -n $is_shown ]]; then printf '\r\033[K' >&2; fi
    ticker='' is_shown=''
}

# ticks WHAT SECONDS [TRACE ALL]: a line each second, to the end of this progress, of work that earlier took so many seconds, if that is known; of
# a trace that is being written also how many records it has, of how many.
ticks() {
    shows_progress || return 0
    tick "$@" &
    ticker=$!
    is_shown=yes
}

tick() {
    local began=$SECONDS records=''
    trap - EXIT
    while sleep 1; do
        [[ -z ${3-} ]] || records="$(grep -c '^{"c"' "$3" || true)${4:+ of $4} lines, "
        progress "$1: $records$((SECONDS - began)) s${2:+, of about $2}"
    done
}

# ticks_of FILE: how far the program is in it. `replay` writes nothing before its end, so of that the time is told which it takes, by what earlier
# ones by this build took for a million lines.
ticks_of() {
    local all='' rate name=${1##*/}
    shows_progress || return 0
    [[ ! -f $1 ]] || all=$(wc -l <"$1")
    if [[ $command = draw ]]; then
        ticks "draws ${name:-standard input}" "" "$room/answer" "$all"
    else
        rate=$(took "lines:${build#"$here/"}")
        ticks "judges $name${all:+, $all lines}" "${all:+${rate:+$((rate * all / 1000000 + 1))}}"
    fi
}

# keep_pace FILE SECONDS: what a million of its lines took `replay`.
keep_pace() {
    local lines=0
    ! shows_progress || [[ ! -f $1 ]] || lines=$(wc -l <"$1")
    ((lines == 0 || $2 < 3)) || keep_took "lines:${build#"$here/"}" $(($2 * 1000000 / lines))
}

# took NAME..: the seconds that earlier work of these names took, in all; nothing if there was none.
took() {
    [[ -f $here/out/took ]] || return 0
    awk -v names="$*" '
        BEGIN { count = split(names, all, " "); for (at = 1; at <= count; at++) wanted[all[at]] = 1 }
        $1 in wanted { sum += $2; found = 1 }
        END { if (found) print sum }
    ' "$here/out/took"
}

# keep_took NAME SECONDS: for later work. It is a hint, so that it can't be written is no fault.
keep_took() {
    ! is_package || return 0
    { mkdir -p "$here/out" && touch "$here/out/took" && grep -v "^$1 " "$here/out/took" >"$room/took"; echo "$1 $2" >>"$room/took"; put "$room/took" "$here/out/took"; } 2>/dev/null || true
}

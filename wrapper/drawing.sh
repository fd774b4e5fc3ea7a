# shellcheck shell=bash disable=SC2034,SC2154 # (mpheap has the other names)
# Part of the wrapper mpheap, read by it: the page of `draw`, which is its trace joined with the page in viewer/. Its first line says from what it
# comes, and of a run that is refused its last one says first what `replay` does: what the line did.

# give FILE: what the program printed; of `draw` the page that shows it, if there is any line to show.
give() {
    if [[ $command != draw ]]; then
        cat "$1"
    elif [[ -s $1 ]]; then
        titled "$1" | "$here/viewer/join.sh" -
    fi
}

# titled TRACE: the trace, which the program calls a script or a run, by the name of FILE, and with its source.
titled() {
    local title
    title=$(plain "$(basename -- "${file:-a script}" .script | sed 's/\.\(replay\|run\)$//')")
    sed "1s/\"title\":\"a \(script\|run\)\"/\"title\":\"$title\",\"source\":\"$(plain "$(origin)")\"/" "$1"
}

# plain TEXT: the characters that JSON and sed read as they are.
plain() {
    LC_ALL=C tr -cd 'A-Za-z0-9_., -' <<<"$1"
}

# origin: which script or run the page shows, on how many pages, by which build, and of which commit.
origin() {
    local what=script pages=${given[--pages]} by="an unproved build" at
    [[ ! -v given[--run] ]] || what=run
    [[ $build != "$(built mpheap)" ]] || by="the proved build"
    at=$(commit)
    if [[ $at =~ ^[0-9a-f]{40} ]]; then at=${at:0:12}${at:40}; fi
    echo "the $what ${file:+$(basename -- "$file") }on $pages page$([[ $pages = 1 ]] || echo s), by $by, commit $at"
}

# retell_run: where the run is refused, what `replay` says of it takes the place of what `draw` says, which is its end, and its first sentences
# come first in the trace.
retell_run() {
    local run=${words[-1]} first
    tail -n 1 "$room/answer" | grep -q '"no":[0-9]*,"says":\[' || return 0
    mv "$room/answer" "$room/trace"
    mv "$room/said" "$room/rule"
    if judge_drawn "$run" && cmp -s "$room/rule" <(tail -n "$(wc -l <"$room/rule")" "$room/answer"); then
        first=$(head -n "-$(wc -l <"$room/rule")" "$room/answer" | sed 's/^line [0-9]*: //; s/[\\"]/\\&/g; s/.*/"&",/' | tr -d '[:cntrl:]')
        mv "$room/answer" "$room/rule"
        FIRST=$first awk '{ if (at = match($0, /"no":[0-9]*,"says":\[/)) $0 = substr($0, 1, at + RLENGTH - 1) ENVIRON["FIRST"] substr($0, at + RLENGTH) } 1' \
            "$room/trace" >"$room/answer"
    else
        mv "$room/trace" "$room/answer"
    fi
    mv "$room/rule" "$room/said"
}

# judge_drawn RUN: by `replay`.
judge_drawn() {
    local command=replay
    run_beside "$1" "$build" replay --pages "${given[--pages]}" "$1" || true
}

# shellcheck shell=bash disable=SC2154 # (mpheap has the other names)
# Part of the wrapper mpheap, read by it: an unproved run where no unproved build can be kept, since rt has its temporary files elsewhere
# than wrapper/unproved.sh looks for them. Then rt makes a build for each run, which it gives its whole input, for at most 1 MiB of
# replies and 60 seconds.

# The file says of which rt it is known that no build can be kept.
is_only_once() {
    [[ -f $unproved.once && $(cat "$unproved.once") = "$(rt version)" ]]
}

# read_script WHAT: puts all that descriptor 3 has into the file `script` of this run's folder, or says that WHAT can't be read.
read_script() {
    cat <&3 3<&- >"$room/script" 2>"$room/said" &
    wait_for_child $! || bad_file "$1 can't be read: $(cat "$room/said")"
}

# The program runs in a folder of rt's: so the script is read to its end here, in the caller's folder, and FILE, the last word, is its input.
gather_input() {
    if [[ -n $file ]]; then
        read_script "'$file'" 3<"$file"
        words[-1]=/dev/stdin
    elif reads_input "$command"; then
        [[ ! -t 0 ]] || say "reads the script from the terminal, to its end (Ctrl-D)"
        read_script "standard input" 3<&0
    else
        : >"$room/script"
    fi
}

run_once() {
    local status=0 way="'mpheap build $command' makes one that can"
    mkdir -p "${unproved%/*}"
    rt version >"$unproved.once"
    [[ ! -v given[--record] ]] || no_answer "an unproved run can't write a file: $way"
    (: 3>&1) 2>/dev/null || no_answer "standard output is closed, which an unproved run can't tell the program"
    gather_input
    say "an unproved build, made for this one run, since this rt lets none be kept"
    try_program "${words[@]}" 3<"$room/script" >"$room/replies" 2>"$room/said"
    wait_for_child $! || status=$?
    case $(tail -n 1 "$room/said") in
        "run=ended status=$status "*) ;;
        "run=no-answer "*) no_answer "past what an unproved run can do (1 MiB of replies, 60 seconds): $way" ;;
        *) cat "$room/said" >&2 && no_answer "the unproved build failed with status $status, as rt says above: again by 'cd $here/crates/mpheap && rt try'" ;;
    esac
    give "$room/replies" 2>/dev/null || no_answer "the replies can't be written to standard output"
    sed '/^checked: ended status=/d; /^races: not looked for/d; /^run=ended status=/d' "$room/said" >&2
    answers $status
}

# shellcheck shell=bash disable=SC2154 # (mpheap has the other names)
# Part of the wrapper mpheap, read by it: which build of the program is run, and how it is run.

# find_build: puts the build that runs into `build`, and says which it is: the proved one of what stands here, and else an unproved one.
find_build() {
    build=$(built mpheap)
    if is_proved mpheap; then
        note "the proved build"
        return
    fi
    [[ ! -e $build ]] ||
        say "the proved build is out of date, its sources have changed: 'mpheap build $command' makes it anew"
    find_unproved
}

# run_beside FILE COMMAND..: runs it, with what it prints and says in this run's folder, and shows how far it is in FILE. The shell gives a
# command in the background no input but by a descriptor of its own.
run_beside() {
    local status=0 began=$SECONDS
    { exec 3<&0; } 2>/dev/null || exec 3</dev/null
    "${@:2}" >"$room/answer" 2>"$room/said" <&3 3<&- &
    child=$!
    [[ -v given[--follow] ]] || ticks_of "$1"
    wait_for_child "$child" || status=$?
    end_progress
    [[ $command != replay || -z $build ]] || keep_pace "$1" $((SECONDS - began))
    return "$status"
}

# run_build: runs it, and ends with its status; in the place of this wrapper, where nothing is left to do beside it.
run_build() {
    local status=0
    if [[ $command != draw ]] && { [[ $command != replay ]] || ! shows_progress; }; then
        leave
        trap - HUP INT TERM
        exec "$build" "${words[@]}"
    fi
    make_room
    if [[ -v given[--run] && ! -f $file ]]; then
        read_script "'$file'" 3<"$file"
        words[-1]=$room/script
    fi
    run_beside "$file" "$build" "${words[@]}" || status=$?
    [[ ! -v given[--run] ]] || retell_run
    cat "$room/said" >&2 || true
    give "$room/answer" || no_answer "the answer can't be written to standard output"
    answers $status
}

# run_program: what the words ask for, by the program and its FILE.
run_program() {
    local words build
    [[ ${#operands[@]} = 0 ]] || look_at_file "$file"
    [[ -n $file ]] || ! reads_input "$command" || (: 3<&0) 2>/dev/null || bad_file "standard input is closed"
    program_words
    find_build
    if [[ -n $build ]]; then run_build; else run_once; fi
}

# shellcheck shell=bash disable=SC2034,SC2154 # (mpheap and wrapper/words.sh have the other names)
# Part of the wrapper mpheap, read by it: `replay` of many runs, as data, or of a run that is still being written. Each verdict is that of the
# program on a file, or on the lines that a file has so far: when these have a wrong line, no line behind them makes it right.

# is_many: the words ask for what the program doesn't do: many files, data, a run that is being written, or the range that a run says itself.
is_many() {
    [[ $command = replay ]] || return 1
    [[ -v given[--json] || -v given[--follow] || ${#operands[@]} -gt 1 || -z ${given[--pages]-}${given[--bytes]-} ]]
}

judge_many() {
    local one worst=0 status build words runner=()
    make_room
    if [[ -v given[--follow] ]]; then
        [[ ${#operands[@]} = 1 ]] || bad_words "'--follow' takes one FILE"
        look_at_file "$file"
        find_runner
        follow_run "$file"
    fi
    for one in "${operands[@]}"; do
        judge_run "$one"
        tell_run "$one"
        [[ $status -le $worst ]] || worst=$status
    done
    answers "$worst"
}

# range_in FILE: the range that a recorder says in its last comment, as words for `replay`; of a file of comments alone any is right.
range_in() {
    [[ -f $1 && -r $1 ]] || return 0
    if grep -qv '^#' "$1"; then
        sed -n 's/^# in --from \([0-9]*\) --bytes \([0-9]*\)$/--from \1 --bytes \2/p' "$1" | tail -n 1
    else
        echo "--pages 1"
    fi
}

# words_for FILE: puts the words of its replay into `words`, with the range that the file says where the words say none.
words_for() {
    local name range=()
    [[ -n ${given[--pages]-}${given[--bytes]-} ]] || read -ra range <<<"$(range_in "$1")"
    words=()
    for name in --pages --bytes --places --from --why; do
        if [[ -v given[$name] ]]; then words+=("$name" ${given[$name]:+"${given[$name]}"}); fi
    done
    words+=("${range[@]}" "$(as_path "$1")")
}

# look_at_run FILE: it can be read, and says a range that the program takes, where the words say none. What is wrong is said last.
look_at_run() {
    local -A given=()
    local operands=() file said
    look_at_file "$1"
    if ! is_in "--pages" "${words[*]}" && ! is_in "--bytes" "${words[*]}"; then
        say "the run doesn't say the range of its heap, as '# in --from ADDRESS --bytes N': '--pages' or '--bytes' has to"
        exit 2
    fi
    said=$( (read_words replay "${words[@]}") 2>&1) || { head -n 1 <<<"$said" >&2 && exit 2; }
}

# find_runner: what judges each run: a build, or where none can be kept this wrapper.
find_runner() {
    find_build
    runner=("${build:-$here/mpheap}" replay)
}

# judge_run FILE: what the program prints and says is in the room, and its status in $status.
judge_run() {
    status=0
    : >"$room/answer"
    words_for "$1"
    if (look_at_run "$1") 2>"$room/said"; then
        [[ ${#runner[@]} != 0 ]] || find_runner
        run_beside "$1" "${runner[@]}" "${words[@]}" || status=$?
    else
        status=$?
    fi
    cat "$room/said" >&2
}

# fault: why the program answers nothing.
fault() { tail -n 1 "$room/said" | sed 's/^mpheap: //'; }

# tell_run FILE: what was said of it, all of it where it is the only one.
tell_run() {
    local first
    if [[ -v given[--json] ]]; then
        tell_run_data "$1"
    elif [[ ${#operands[@]} = 1 ]]; then
        cat "$room/answer"
    else
        first=$(head -n 1 "$room/answer")
        echo "$1: ${first:-$(fault)}"
    fi
}

# tell_run_data FILE: the same as an object of JSON, in a line.
tell_run_data() {
    [[ -s $room/answer ]] || fault >"$room/answer"
    FILE=$1 awk -v status="$status" '
        function text(of,    at, byte, out) {
            for (at = 1; at <= length(of); at++) {
                byte = substr(of, at, 1)
                out = out (byte == "\\" || byte == "\"" ? "\\" byte : byte < " " ? "?" : byte)
            }
            return "\"" out "\""
        }
        function key(name, value) { printf ", \"%s\": %s", name, value }
        { said[NR] = $0; sub(/^line [0-9]+: /, "", said[NR]) }
        NR == 1 { first = $0 }
        END {
            printf "{\"file\": %s, \"status\": %d", text(ENVIRON["FILE"]), status
            if (first ~ /^legal, /) { split(first, part, " "); key("verdict", "\"legal\""); key("lines", part[2]) }
            else if (first == "no lines") key("verdict", "\"no lines\"")
            else if (first !~ /^line [0-9]+: /) { key("verdict", "\"fault\""); key("fault", text(first)) }
            else {
                split(first, part, /[ :]/)
                key("verdict", NR == 1 ? "\"bad\"" : "\"breaks\"")
                key("line", part[2])
                key("first", text(said[1]))
                for (at = 2; at <= NR && said[at] ~ /( points into object .* since line [0-9]+$|^and so on: )/; at++) path = path (path == "" ? "" : ", ") text(said[at])
                if (path != "") key("path", "[" path "]")
                if (at <= NR) key("rule", text(said[at++]))
                if (at <= NR && sub(/^a sequential heap answers /, "", said[at])) key("answer", text(said[at++]))
                if (at <= NR) key("wrong", text(said[at]))
            }
            print "}"
        }' "$room/answer"
}

# is_right: nothing is wrong so far.
is_right() {
    case $(head -n 1 "$room/answer") in
        "legal, "* | "no lines") true ;;
        *) false ;;
    esac
}

# follow_run FILE: copies what comes, to the end of a pipe, and judges its whole lines whenever they have grown by a tenth, or grow no more.
follow_run() {
    local judged=0 seen=0 lines
    : >"$room/copy"
    if [[ -f $1 ]]; then tail -c +1 -f "$1" >"$room/copy" & else cat <"$1" >"$room/copy" & fi
    helper=$!
    while kill -0 "$helper" 2>/dev/null; do
        lines=$(wc -l <"$room/copy")
        if [[ $lines -gt $((judged + judged / 10)) || ($lines -gt $judged && $lines = "$seen") ]]; then
            head -n "$lines" "$room/copy" >"$room/whole"
            judged=$lines
            judge_run "$room/whole"
            is_right || end_following "$1"
        fi
        seen=$lines
        sleep 0.2
    done
    helper=''
    judge_run "$room/copy"
    end_following "$1"
}

end_following() {
    tell_run "$1"
    answers "$status"
}

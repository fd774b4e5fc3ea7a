# shellcheck shell=bash disable=SC2154 # (tests/gc.sh has the other names, and reads this)
# Part of tests/gc.sh: faults of the layer, each of which a test has to notice.

# planted EDIT RUNS: one file of the layer with a fault, under the test that has to notice it in one of so many runs, since what threads
# do hangs on chance: prints `noticed`, or the status. `test:` names the test, and settings; `file:` the file; `old:` a text that stands
# once there, and `new:` what stands in its place; `over: checking` that the layer stands over the core that checks what is owed, and
# `over: races` that it is built to look for races.
planted() {
    local name file over test status runs=$2 words=() setting=() parts=$room flags=() others=() one
    name=$(basename "$1" .edit)
    file=$(sed -n 's/^file: //p' "$1")
    over=$(sed -n 's/^over: //p' "$1")
    read -ra setting <<<"$(sed -n 's/^test: //p' "$1")"
    test=${setting[0]}
    case $test in
        shadow) words=(3 300000) ;;
        threads) words=(3 2) ;;
        world) words=("${locals[@]}") ;;
        loading) words=("$room/loaded_calling.so") ;;
        collector) words=(2) ;;
        together) words=(4 2) ;;
    esac
    if [ "$over" = races ]; then
        parts=$room/races
        flags=("${races[@]}")
    fi
    for one in "$parts"/syscalls*.o; do [ "$(basename "$one" .o)" = "$(basename "$file" .c)" ] || others+=("$one"); done
    if ! awk -v "old=$(sed -n 's/^old: //p' "$1" | sed 's/\\/\\\\/g')" -v "new=$(sed -n 's/^new: //p' "$1" | sed 's/\\/\\\\/g')" '
        { at = index($0, old) }
        at { count++; $0 = substr($0, 1, at - 1) new substr($0, at + length(old)) }
        { print }
        END { exit count != 1 }' "$top/gc/$file" >"$room/$name.c"; then
        echo "its text doesn't stand once"
        return
    fi
    cc -std=c11 -O1 -w -fexceptions "${flags[@]}" -fvisibility=hidden "-I$top/include/mpgc" "-I$include" "-I$top/gc" "-I$top/gc/names" "-I$top/gc/kernel" \
        "$room/$name.c" "$top/tests/gc/$test.c" "${others[@]}" "$room/$over/libmpgc.a" -pthread -o "$room/planted_$name" 2>&1 || return
    while
        { timeout -k 10 1500 env "TSAN_OPTIONS=die_after_fork=0 halt_on_error=1" "${setting[@]:1}" "$room/planted_$name" "${words[@]}" >"$room/said_$name" 2>&1; } 2>>"$room/said_$name"
        status=$?
        runs=$((runs - 1))
        [ $status = 0 ] && [ $runs -gt 0 ]
    do :; done
    case $status in
        0 | 124) echo "status $status" ;;
        *) echo noticed ;;
    esac
}

# All faults, four at a time; and none, under each of their tests, which then has nothing to notice; and those of the names, by which no
# object may be lost (harmless).
faults_are_noticed() {
    local edit name test wanted runs edits=("$top"/tests/gc/harmless/*.edit)
    for edit in "$top"/tests/gc/planted/*.edit; do
        if grep -q '^over: races$' "$edit" && [ ! -e "$room/races/libmpgc.a" ]; then continue; fi
        edits+=("$edit")
    done
    while read -r test; do
        edit=$room/none_under_${test//[ =]/_}.edit
        printf '%s\n' "test: $test" "file: spare.c" "old: enum { SPARE = 2 };" "new: enum { SPARE = 2 };" >"$edit"
        edits+=("$edit")
    done < <(sed -n 's/^test: //p' "${edits[@]}" | sort -u)
    for edit in "${edits[@]}"; do
        runs=24
        [[ $(basename "$edit") != none_* && $edit != */harmless/* ]] || runs=1
        planted "$edit" "$runs" >"$room/seen_$(basename "$edit")" &
        while [ "$(jobs -rp | wc -l)" -ge 4 ]; do wait -n; done
    done
    wait
    for edit in "${edits[@]}"; do
        name=$(basename "$edit" .edit)
        wanted=noticed
        [[ $name != none_* && $edit != */harmless/* ]] || wanted="status 0"
        is "planted fault $name" "$wanted" "$(cat "$room/seen_$name.edit")"
    done
}

for file in "$top"/gc/kernel/syscalls*.c; do
    cc -std=c11 -O1 -fvisibility=hidden -c "$file" -o "$room/$(basename "$file" .c).o"
done
faults_are_noticed

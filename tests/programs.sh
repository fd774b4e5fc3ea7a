#!/usr/bin/env bash
# Tests of the program on whole files: each of examples/ prints the replies that stand beside it, and each of tests/stored what stands there;
# and what `replay` and `record` print and say, and with which status they end, on files that are legal, broken or bad or can't be read, and
# with words that they don't take.
# Expected replies and statuses are worked by hand, from docs/REPLAY.md. Over a proved build (tests/cases.sh) it takes some seconds.
# It needs cc.
set -uo pipefail
kind=programs
# shellcheck source=tests/cases.sh
. "$(dirname "$(readlink -f "${BASH_SOURCE[0]}")")/cases.sh"

lines() { printf '%s\n' "$@"; }

# file_is NAME STATUS SAID PRINTED WORDS..: standard input is the file {}, and with these words the program is to end so.
file_is() {
    cat >"$cases/$1"
    printf '%s' "${4:+$4$'\n'}" >"$cases/$1.stdout"
    case_is "$1" "$2" "$3" "${@:5}"
}

# The scripts and workloads of examples, each on four pages.
examples_print_their_replies() {
    local file name
    for file in "$top"/examples/*.script "$top"/examples/*.workload; do
        name=$(basename "${file%.*}")
        cp "$file" "$cases/$name"
        cp "${file%.*}.replies" "$cases/$name.stdout"
        case $file in
            *.script) case_is "$name" 0 "" run --pages 4 {} ;;
            *) case_is "$name" 0 "" threads --pages 4 {} ;;
        esac
    done
}

# stored NAME ANSWER WORDS..: of the file NAME of tests/stored this command prints the file ANSWER.
stored() {
    cp "$top/tests/stored/$1" "$cases/stored_$3"
    cp "$top/tests/stored/$2" "$cases/stored_$3.stdout"
    case_is "stored_$3" 0 "" "${@:3}" {}
}

stored_files_have_their_answers() {
    stored first.script first.run record --pages 1
    stored first.replay first.verdict replay --pages 1
    stored lazy_sweep.script lazy_sweep.trace draw --pages 4
}

# What is said of a request that was granted where no object may lie, and of words that `replay` doesn't take.
not_placed="no object of so many words may be placed there, it has fewer words than were asked for, or the slot has no mutator"
replay_usage="replay (--pages N | --bytes N) [--places any [--from ADDRESS]] [--why] FILE"

# Words that neither of `replay` and `record` takes, and files that neither can read.
faults_are_told() {
    local usage="record --pages N FILE"
    [ "$of" = record ] || usage=$replay_usage
    printf 'attach\n\377\n' | file_is no_text 1 "read fault" "" --pages 1 {}
    file_is no_file 1 "read fault" "" --pages 1 not.there </dev/null
    file_is no_page 2 "$usage" "" --pages 0 {} </dev/null
    file_is many_pages 2 "$usage" "" --pages 4097 {} </dev/null
    file_is few_words 2 "$usage" "" --pages 1 </dev/null
}

# example_block N: the lines of the Nth block of the example in docs/REPLAY.md.
example_block() {
    awk -v wanted="$1" '/^## An example/ { here = 1 } here && /^```/ { fence++; next } fence == 2 * wanted - 1' "$top/docs/REPLAY.md"
}

written_runs_are_judged() {
    example_block 1 | file_is legal 0 "" "legal, 9 lines" --pages 1 {}
    example_block 1 | sed '7s/ - .*//' | file_is unnamed 0 "" "legal, 9 lines" --pages 1 {}
    example_block 1 | sed '3s/^/# a comment\n/' | file_is comment 0 "" "legal, 9 lines" --pages 1 {}
    example_block 1 | sed '3s/^/#\n/; 7s/=>.*//' | file_is broken_behind 2 "" "line 8: not a line of a run" --pages 1 {}
    file_is empty 2 "" "no lines" --pages 1 {} </dev/null
    lines "# a recorder that died" | file_is comments_alone 2 "" "no lines" --pages 1 {}
    example_block 1 | sed '7s/=>.*/=> 0 -/' | file_is breaks 1 "" "$(example_block 2)" --pages 1 {}
    example_block 1 | sed '7s/=>.*//' | file_is broken 2 "" "line 7: not a line of a run" --pages 1 {}
}

# Options of `replay` in any order, each at most once, with a word that they take; and what it doesn't take.
options_are_read() {
    local usage=$replay_usage
    lines "attach => mutator 0" "0 alloc 1 2 normal => ok @ 268435464 2" | tee "$room/sized" |
        file_is sized 0 "" "legal, 2 lines" --places any --pages 1 {}
    file_is sized_why 0 "" "legal, 2 lines" --why --pages 1 --places any {} <"$room/sized"
    file_is sized_in_classes 2 "" "line 2: not a line of a run" --pages 1 --places classes {} <"$room/sized"
    example_block 1 | file_is classes 0 "" "legal, 9 lines" --places classes --why --pages 1 {}
    file_is no_flag 2 "$usage" "" --pages 1 --what {} </dev/null
    file_is no_places 2 "$usage" "" --pages 1 --places none {} </dev/null
    file_is places_twice 2 "$usage" "" --places any --pages 1 --places any {} </dev/null
    file_is pages_twice 2 "$usage" "" --pages 1 --pages 1 {} </dev/null
    file_is why_twice 2 "$usage" "" --pages 1 --why --why {} </dev/null
    file_is no_pages 2 "$usage" "" --places any {} </dev/null
    file_is no_value 2 "$usage" "" --pages 1 --places {} </dev/null
    file_is no_words 2 "$usage" "" </dev/null
}

# outside ADDRESS HEX BYTES FROM: what is said of a word that was placed outside of a heap.
outside() {
    lines "line 2: the new object at $1 ($2) of 1 words lies outside of the heap, which has $3 bytes from $4 on" "line 2: $not_placed"
}

# The range of a heap that places objects anywhere: in whole pages of bytes, from a multiple of 8 on, and with its end below 2 ^ 64.
ranges_are_read() {
    local from=140737488289792 bad=0 words ranged="--places any --from 140737488289792"
    lines "attach => mutator 0" "0 alloc 1 1 normal => ok @ 140737488297976 1" | tee "$room/ranged" |
        file_is ranged 0 "" "legal, 2 lines" --places any --from $from --bytes 8192 {}
    file_is ranged_in_another_order 0 "" "legal, 2 lines" --why --bytes 8192 --from $from --places any {} <"$room/ranged"
    file_is ranged_by_pages 0 "" "legal, 2 lines" --from $from --places any --pages 2 {} <"$room/ranged"
    file_is ranged_below 1 "" "$(outside 140737488297976 0x7fffffff1ff8 4096 $from)" --places any --from $from --bytes 4096 {} <"$room/ranged"
    file_is ranged_elsewhere 1 "" "$(outside 140737488297976 0x7fffffff1ff8 8192 268435456)" --places any --bytes 8192 {} <"$room/ranged"
    file_is ranged_from_the_first 0 "" "legal, 2 lines" --places any --bytes 4096 {} <"$room/sized"
    file_is ranged_from_it 0 "" "legal, 2 lines" --places any --from 268435456 --bytes 4096 {} <"$room/sized"
    file_is ranged_largest 0 "" "legal, 2 lines" --places any --from 268435456 --bytes 16777216 {} <"$room/sized"
    file_is ranged_highest 1 "" "$(outside 140737488297976 0x7fffffff1ff8 16777216 18446744073692774392)" --places any --from 18446744073692774392 --bytes 16777216 {} <"$room/ranged"
    while IFS= read -r words; do
        bad=$((bad + 1))
        # shellcheck disable=SC2086 # (each is a word of its own)
        file_is "range_$bad" 2 "$replay_usage" "" $words {} </dev/null
    done <<BAD
$ranged
$ranged --bytes 4096 --pages 1
$ranged --bytes 4096 --bytes 4096
$ranged --from 140737488289792 --bytes 4096
$ranged --bytes 0
$ranged --bytes 4095
$ranged --bytes 4104
$ranged --bytes 04096
$ranged --bytes 16781312
$ranged --bytes
--places any --from --bytes 4096
--places any --from 140737488289793 --bytes 4096
--places any --from 140737488289788 --bytes 4096
--places any --from 0 --bytes 4096
--places any --from 08 --bytes 4096
--places any --from 0x8 --bytes 4096
--places any --from -8 --bytes 4096
--places any --from 18446744073709547520 --bytes 4096
--places any --from 18446744073692774400 --bytes 16777216
--places any --from 18446744073709551608 --pages 1
--places any --from 18446744073709551616 --bytes 4096
--bytes 4096
--from 140737488289792 --pages 1
--from 140737488289792 --bytes 4096
--places classes --bytes 4096
--places classes --from 268435456 --pages 1
BAD
}

# list_run N: a list of N pairs, each pointing into the one before, of which the first is taken.
list_run() {
    local at
    echo "attach => mutator 0"
    for ((at = 1; at <= $1; at++)); do
        lines "0 alloc 2 2 normal => ok @ $((268435440 + 16 * at))" "0 store 2 0 1 => ok" "0 copy 1 2 => ok"
    done
    lines "0 set 2 0 => ok" "gc collect => 1 - 268435456"
}

# list_object AT: how a pair of it is named.
list_object() { printf 'object %d (0x%x, allocated at line %d, 2 words)' $((268435440 + 16 * $1)) $((268435440 + 16 * $1)) $((3 * $1 - 1)); }

# list_path N FROM TO: the steps to the pairs from one to another, which stands before it in the list of N.
list_path() {
    local at
    for ((at = $2; at >= $3; at--)); do
        if [ "$at" = "$1" ]; then
            echo "line $((3 * $1 + 3)): register 1 of mutator 0 points into $(list_object "$at") since line $((3 * at + 1))"
        else
            echo "line $((3 * $1 + 3)): word 0 of object $((268435456 + 16 * at)) points into $(list_object "$at") since line $((3 * at + 3))"
        fi
    done
}

# list_said N PATH: all that is said of such a run.
list_said() {
    local line="line $((3 * $1 + 3)):"
    lines "$line $(list_object 1) was taken, but word 0 of object 268435472 points into it" "$2" \
        "$(example_block 5 | sed -n "s/^line 9: a collection/$line a collection/p")" "$line a sequential heap answers 0" \
        "$line the object at 268435456 has to stay: word 0 of the object at 268435472 points into it"
}

# A path from a root leads to an object that has to stay: through two objects, and straight from a register. `--why` says nothing more of
# it, nor of other lines; but of a path of more than twelve steps it shows all.
paths_are_shown() {
    example_block 1 | file_is why_legal 0 "" "legal, 9 lines" --pages 1 --why {}
    example_block 1 | sed '7s/=>.*/=> 0 -/' | file_is why_to_go 1 "" "$(example_block 2)" --pages 1 --why {}
    example_block 4 | file_is why_by_words 1 "" "$(example_block 5)" --pages 1 --why {}
    example_block 4 | file_is by_words 1 "" "$(example_block 5)" --pages 1 {}
    example_block 4 | sed '8d' | file_is by_root 1 "" "$(example_block 5 | sed '2,3d; s/^line 9/line 8/; s/word 1 of object 268435472/register 3 of mutator 0/
        s/word 1 of the object at 268435472/register 3 of mutator 0/; s/since line 6/since line 4/')" --pages 1 {}
    list_run 12 | file_is twelve_steps 1 "" "$(list_said 12 "$(list_path 12 12 1)")" --pages 1 {}
    list_run 13 | file_is why_thirteen_steps 1 "" "$(list_said 13 "$(list_path 13 13 1)")" --pages 1 --why {}
    list_run 13 | file_is thirteen_steps 1 "" "$(list_said 13 "$(list_path 13 13 8)
line 42: and so on: --why shows all steps
$(list_path 13 6 1)")" --pages 1 {}
}

# What is said first of each form of a wrong line, with all that follows; a rule is named there by a word.
first_lines_are_told() {
    local name pages status options
    while read -r name pages status options; do
        # shellcheck disable=SC2086 # (the options are words of their own)
        case_is "$name" "$status" "" --pages "$pages" $options {}
    done < <(sed "s/^: RULE COLLECT/: $(example_block 2 | sed -n 's/^line 7: \(a collection.*\)/\1/p')/; s/^: RULE PLACE/: $not_placed/
        s/^: RULE LOAD/: a load answers the word that was stored last, or why there is none/
        s/^: RULE STORE/: a store is refused exactly if its address is no word of an object/
        s/^: RULE NUMBER/: the number is that of the collections so far/
        s/^: RULE REFUSAL/: a request is refused for its slot or its size, or at any time with Full/" "$top/tests/first_lines.runs" |
        "$top/tests/rows/split_runs" -v "room=$cases" -)
}

# Runs of the hobby collector in examples/c, as it stands and with each of its bugs: its .expected has what is said of each,
# behind the number of the bug.
foreign_runs_are_judged() {
    local bug said source=$top/examples/c/foreign_heap
    for bug in 0 1 2 3 4 5 6 7 8; do
        cc -std=c99 -Wall -Wextra -Werror -pedantic -g -fsanitize=address,undefined -fno-sanitize-recover=all "-DBUG=$bug" \
            "$source.c" -o "$room/foreign_heap"
        is "foreign_heap with -DBUG=$bug compiles" 0 $?
        said=$(sed -n "s/^$bug: //p" "$source.expected")
        "$room/foreign_heap" | file_is "foreign_$bug" "$((bug > 0))" "" "$said" --pages 4 {}
    done
}

# Runs of bdwgc, as it stands and with each fault of the recorder: its .expected has what is said of each, where {N} is the address of
# the Nth alloc, which depends on bdwgc's release. Where libgc isn't installed they are left out.
bdwgc_runs_are_judged() {
    local bug said range source=$top/examples/c/record_bdwgc
    if ! echo "int main(void) { return 0; }" | cc -include gc.h -x c - -lgc -o "$room/has_libgc" 2>/dev/null; then
        echo "$kind: no libgc here: examples/c/record_bdwgc.c isn't compiled, and no run of it is judged"
        return
    fi
    for bug in 0 1 2 3 4 5; do
        cc -std=c99 -Wall -Wextra -Werror -pedantic "-DBUG=$bug" "$source.c" -lgc -o "$room/record_bdwgc"
        is "record_bdwgc with -DBUG=$bug compiles" 0 $?
        "$room/record_bdwgc" >"$room/bdwgc_$bug"
        said=$(sed -n "s/^$bug: //p" "$source.expected" | named_places "$room/bdwgc_$bug")
        read -ra range < <(sed -n 's/^# in //p' "$room/bdwgc_$bug")
        file_is "bdwgc_$bug" "$((bug > 0))" "" "$said" --places any "${range[@]}" {} <"$room/bdwgc_$bug"
    done
}

runs_are_written() {
    lines attach "0 alloc 1 2 normal" | file_is written 0 "" "$(lines "attach => mutator 0" "0 alloc 1 2 normal => ok @ 268435456")" --pages 1 {}
    lines attach "0 get 16" attach | file_is bad_line 2 "bad line 2" "attach => mutator 0" --pages 1 {}
    printf '\n' | file_is empty_line 2 "bad line 1" "" --pages 1 {}
}

open_cases mpheap
examples_print_their_replies
stored_files_have_their_answers
run_cases 15
open_cases replay
written_runs_are_judged
paths_are_shown
first_lines_are_told
options_are_read
ranges_are_read
foreign_runs_are_judged
bdwgc_runs_are_judged
faults_are_told
run_cases 105
open_cases record
runs_are_written
faults_are_told
run_cases 8
tell_counts

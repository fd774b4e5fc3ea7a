#!/usr/bin/env bash
# tests/gc/loads.sh ARCHIVE: that the library's code reads a word of the heap by one load of 8 bytes, and once. A word beside writers may be
# another one a moment later, and a wider load may see parts of two; no proof speaks of the machine's code.
#
# The marker tells by one subtraction whether a word lies in the heap's range of addresses: so in its functions each addition of the negated
# first address to a register W where W was loaded last stands behind the load of a word of the heap. That has to be a plain mov into all of W,
# and no way leads from it to another use of the same operand, to itself, or from another use to it, on which none of the operand's registers
# is written: by that the word would be looked at twice. What registers have behind a jump that is always taken is what they had at the first
# jump to there. A load whose address is computed from the negated first address, or that of the word behind it, is one of the heap too: the
# first two words of an object, which are looked at later. And no function of the marker may load a vector, but from its stack, or of 8 bytes from a
# field, as entries are copied. What lies on the stack, or far behind a pointer, is a field of the marker's own. It ends with how many places
# there are, of which it has to find some.
# (0xffffab0000000000 is that address negated.)
set -euo pipefail
least=8
room=$(mktemp -d)
trap 'rm -rf "$room"' EXIT
cp "$1" "$room/archive"
(cd "$room" && ar x archive)
for part in "$room"/*.o; do objdump -d -C --no-show-raw-insn "$part"; done >"$room/code"

awk -v least=$least '
    # The text of an operand in memory, or nothing.
    function memory(text) { return match(text, /-?(0x[0-9a-f]+)?\(%[a-z0-9,%]*\)/) ? substr(text, RSTART, RLENGTH) : "" }
    # All of a register that is named by a part of it.
    function whole(name) {
        if (name ~ /^%r[0-9]+[dwb]$/) return substr(name, 1, length(name) - 1)
        if (name ~ /^%e/) return "%r" substr(name, 3)
        if (name ~ /^%[abcd][lhx]$/) return "%r" substr(name, 2, 1) "x"
        return name ~ /^%(si|di|bp|sp)l?$/ ? "%r" substr(name, 2, 2) : name
    }
    function wrong(what) { print name ": " what ": " $0; failed = 1 }
    /^[0-9a-f]+ <.*>:$/ { ends(); name = $2; is_of_marker = name ~ /marker::/ }
    function ends(at) {
        for (at in loads) look_back(at)
        split("", uses); split("", loads); split("", is_load); split("", is_left); split("", left)
        split("", code); split("", place_of); split("", jumps); split("", is_end); split("", writes)
        goes_on = 0
        forget()
    }
    # A load of the operand, in this line: a word that is tested in several copies is loaded by one.
    function load(at, number) {
        if ((at, number) in is_load) return
        is_load[at, number]
        loads[at] = loads[at] " " number
        count++
    }
    function look_back(at,    here, others, registers, many, others_many, j, k) {
        split("", operand)
        many = split(at, registers, /[^%a-z0-9]+/)
        for (k = 1; k <= many; k++) if (registers[k] ~ /^%/) operand[registers[k]]
        many = split(loads[at], here, " ")
        others_many = split(uses[at], others, " ")
        for (j = 1; j <= many; j++) for (k = 1; k <= others_many; k++) if (leads(here[j], others[k]) || leads(others[k], here[j])) {
            print name ": the word is looked at once more: " code[here[j]] ", " code[others[k]]
            failed = 1
        }
    }
    # Whether a way leads from behind one line to another on which no register of the operand is written.
    function leads(from_line, to_line,    todo, seen, many, k) {
        if (writes[from_line] in operand) return 0
        many = follow(from_line, todo, 0)
        while (many > 0) {
            k = todo[many--]
            if (k in seen) continue
            seen[k]
            if (k == to_line) return 1
            if (!(writes[k] in operand)) many = follow(k, todo, many)
        }
        return 0
    }
    function follow(k, todo, many) {
        if (!(k in is_end) && (k + 1) in code) todo[++many] = k + 1
        if (k in jumps && jumps[k] in place_of) todo[++many] = place_of[jumps[k]]
        return many
    }
    function forget() { split("", from); split("", first); split("", begins); split("", line); split("", of_stack) }
    # What registers have where a jump goes to, if it is the first one there: what is written behind a jump that is always taken goes on with it.
    function leave(to,    register) {
        if (to in is_left) return
        is_left[to]
        for (register in line) left[to, register] = from[register] SUBSEP line[register] SUBSEP (register in first) SUBSEP (register in begins) SUBSEP (register in of_stack)
    }
    function enter(at,    both, had, has) {
        forget()
        for (both in left) {
            split(both, had, SUBSEP)
            if (had[1] != at) continue
            split(left[both], has, SUBSEP)
            from[had[2]] = has[1]
            line[had[2]] = has[2]
            if (has[3]) first[had[2]] = 1
            if (has[4]) begins[had[2]] = 1
            if (has[5]) of_stack[had[2]] = 1
        }
    }
    !is_of_marker || !/^ +[0-9a-f]+:/ { next }
    {
        text = $0
        address = $1
        sub(/:.*/, "", address)
        sub(/^ +[0-9a-f]+:[ \t]*/, "", text)
        if (!goes_on && address in is_left) enter(address)
        goes_on = text !~ /^(jmp|ret|ud2)/
        code[NR] = text
        place_of[address] = NR
        if (!goes_on) is_end[NR]
        if (text ~ /^j[a-z]+[ \t]+[0-9a-f]+ </) {
            jumps[NR] = substr(text, match(text, /[0-9a-f]+ </), RLENGTH - 2)
            leave(jumps[NR])
        }
        sub(/ *#.*/, "", text)
        operation = text
        sub(/[ \t].*/, "", operation)
        place = operation ~ /^(lea|nop|cs$|data16)/ ? "" : memory(text)
        if (place != "") uses[place] = uses[place] " " NR
        into = text ~ /,%[a-z0-9]+$/ ? substr(text, match(text, /%[a-z0-9]+$/)) : ""
        pointer = place
        gsub(/.*\(|[,)].*/, "", pointer)
        is_field = place ~ /%rsp/ || place ~ /^0x([4-9a-f][0-9a-f]|[0-9a-f][0-9a-f][0-9a-f]+)\(/
        copies_field = is_field && operation == "movsd"
        if (into ~ /%[xyz]mm/ && place != "" && place !~ /%rsp/ && !(pointer in of_stack) && !copies_field) wrong("a vector is loaded")
    }
    # The word that is looked at: the number stands in another register.
    { word = ""; split(text, part, /[(),]+/) }
    operation == "lea" && text ~ /\(%r[a-z0-9]+,%r[a-z0-9]+,1\),/ { word = part[2] in first ? part[3] : part[3] in first ? part[2] : "" }
    operation == "add" && text ~ /[ \t]%r[a-z0-9]+,%r[a-z0-9]+$/ {
        sub(/.*[ \t]/, "", part[1])
        word = part[1] in first ? part[2] : part[2] in first ? part[1] : ""
    }
    word != "" {
        if (from[word] == "part") wrong("the load before it was none of a whole word")
        else if (from[word] != "") load(from[word], line[word])
    }
    # A load from an address that is counted from the first one.
    place != "" && operation !~ /^lea/ {
        split(place, part, /[(),]+/)
        if (part[2] in begins || part[3] in begins) {
            if (operation != "mov" || into !~ /^%r/ || into ~ /^%r[0-9]+[dwb]$/) wrong("no whole word is loaded")
            load(place, NR)
        }
    }
    operation ~ /^(inc|dec|neg|not|pop)/ && text ~ /[ \t]%[a-z0-9]+$/ { writes[NR] = whole(substr(text, match(text, /%[a-z0-9]+$/))) }
    # What each register has: of a load that is where it was loaded from.
    into != "" && operation !~ /^(cmp|test|bt)/ {
        is_whole = operation == "mov" && into ~ /^%r/ && into !~ /^%r[0-9]+[dwb]$/
        into = whole(into)
        writes[NR] = into
        copied = operation == "mov" && text ~ /[ \t]%r[a-z0-9]+,%r[a-z0-9]+$/ ? text : ""
        sub(/^mov[ \t]+/, "", copied)
        sub(/,.*/, "", copied)
        from[into] = copied != "" ? from[copied] : place == "" || is_field || operation !~ /^mov/ ? "" : is_whole ? place : "part"
        delete first[into]
        delete begins[into]
        delete of_stack[into]
        if (text ~ /^lea[ \t]+-?(0x[0-9a-f]+)?\(%rsp\),/) of_stack[into] = 1
        line[into] = copied != "" ? line[copied] : NR
        if (text ~ /^movabs[ \t]+\$0xffffab0000000000,/) first[into] = 1
        if (text ~ /^movabs[ \t]+\$0xffffab000000000[08],/) begins[into] = 1
    }
    END {
        ends()
        print count + 0 " places where words are loaded"
        exit failed || count < least
    }' "$room/code"

# shellcheck shell=bash disable=SC2154 # (mpheap has the other names)
# Part of the wrapper mpheap, read by it: the page mpheap(1), made of the table.

# escaped TEXT: as man reads it.
escaped() {
    sed 's/\\/\\e/g; s/-/\\-/g; s/^[.'"'"']/\\\&&/' <<<"$1"
}

# page_of COMMAND: its form, what it does, and its rows.
page_of() {
    local at
    printf '.SS "%s"\n%s.\n' "$(escaped "mpheap $(form "$1")")" "$(escaped "${does[$1]}")"
    for at in ${rows_of[$1]}; do tell_row "$at"; done
}

tell_row() {
    local range
    range=$(range_of "$1")
    printf '.TP\n.B "%s"\n%s.\n' "$(escaped "$(bare "$1")")" "$(escaped "${row_says[$1]}${range:+: $range}")"
}

manual() {
    local command at
    printf '.TH MPHEAP 1 "" "mpheap %s"\n' "$(number_of_version)"
    printf '.SH NAME\nmpheap \\- %s\n' "$(escaped "${does[top]}")"
    printf '.SH SYNOPSIS\n.B mpheap\n.I command\n.RI [ words ]\n'
    printf '.SH DESCRIPTION\n%s\n' "Options and FILE stand in any order, and behind \\-\\- stands no option. Standard error says first which build runs: \
one that was proved, of the very sources that stand there, or one that isn't proved."
    printf '.SH COMMANDS\n'
    for command in "${commands[@]}"; do page_of "$command"; done
    printf '.SH "WHAT EACH COMMAND TAKES"\n'
    for at in ${rows_of[top]}; do tell_row "$at"; done
    cat <<'PAGE'
.SH "EXIT STATUS"
.TP
.B 0
All was done.
.TP
.B 1
FILE can't be opened, a read or a write failed, memory or a thread was refused, a line of a run isn't legal, or a test failed.
.TP
.B 2
A line of FILE is bad, or the words are.
.TP
.B 3
The program gave no answer, or what was to be made isn't made.
.TP
.B "129, 130, 143"
A signal ended it.
.SH FILES
The pages docs/SCRIPTS.md and docs/REPLAY.md beside the command say what a script, a workload and a run are.
.SH "SEE ALSO"
.BR libmpgc (3)
PAGE
}

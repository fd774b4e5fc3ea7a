# Writes the script of each row to ROOM/NAME and its replies to ROOM/NAME.stdout, and prints its name and pages. It is used with rows.awk.

function open_row(name, pages) {
    script = replies = ""
    print name, pages
}

function put(line, number) {
    gsub(/#/, number, line)
    script = script script_of(line)
    replies = replies reply_of(line)
}

function take_piece(times, count,    number, k) {
    for (number = 0; number < times; number++)
        for (k = 0; k < count; k++) put(piece[k], number)
}

function close_row() {
    if (is_cut) sub(/\n$/, "", script)
    printf "%s", script >(room "/" name)
    printf "%s", replies >(room "/" name ".stdout")
    close(room "/" name)
    close(room "/" name ".stdout")
}

# Writes the rows of a file as tests in the language. It is used with rows.awk and literals.awk.

# Lines that come more than once are written out where that is at most so many.
BEGIN { MOST = 16 }

function open_row(name, pages) {
    printf "    Row {\n        name: \"%s\",\n        pages: %d,\n", name, pages
    pieces = 0
    is_open = 0
}

function put(line) {
    scripts[pieces - 1] = scripts[pieces - 1] script_of(line)
    replies[pieces - 1] = replies[pieces - 1] reply_of(line)
}

function open_piece(times) {
    times_of[pieces] = times
    scripts[pieces] = replies[pieces] = ""
    pieces++
}

function take_piece(times, count,    number, k, line) {
    is_many = times * count > MOST && times > 1
    if (is_many || !is_open) open_piece(is_many ? times : 1)
    for (number = 0; number < (is_many ? 1 : times); number++) {
        for (k = 0; k < count; k++) {
            line = piece[k]
            if (!is_many) gsub(/#/, number, line)
            put(line)
        }
    }
    is_open = !is_many
}

function print_piece(k, indent,    blank) {
    blank = sprintf("%" indent "s", "")
    print blank "times: " times_of[k] ","
    print blank "script: " literal(scripts[k], indent + 4) ","
    print blank "replies: " literal(replies[k], indent + 4) ","
}

function close_row(    k) {
    if (is_cut) sub(/\n$/, "", scripts[pieces - 1])
    if (pieces == 0) {
        print "        pieces: &[],"
    } else if (pieces == 1) {
        print "        pieces: &[Piece {"
        print_piece(0, 12)
        print "        }],"
    } else {
        print "        pieces: &["
        for (k = 0; k < pieces; k++) {
            print "            Piece {"
            print_piece(k, 16)
            print "            },"
        }
        print "        ],"
    }
    print "    },"
}

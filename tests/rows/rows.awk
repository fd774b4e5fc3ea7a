# What files of rows say. For each row it calls open_row(name, pages), then take_piece(times, count) for each of its pieces, and close_row():
# piece[0] to piece[count - 1] are lines, each with its reply, that come so many times. Whoever uses this has these three functions.
#
# A row begins with its name and pages, and has a line of the script with its reply in each line. Between `repeat N` and `end` stand
# lines that come N times; there `#` stands for the number of the time, from 0 on. Elsewhere a line that begins with `#` is a comment.
# Between `part NAME` and an empty line stand lines that come for each later line `as NAME WORD ..`, where `$1` is its first word, and so on.
# Where the last newline is left out, the row is told as `is_cut`.

# Lines outside of `repeat` come once, and are numbered 0.
function end_piece() {
    if (count && times) take_piece(times, count)
    count = 0
    times = 1
}

function end_row() {
    if (name == "") return
    end_piece()
    close_row()
}

function take(line) {
    if (line ~ /^as /) {
        take_part(line)
    } else if (line ~ /^repeat /) {
        end_piece()
        times = substr(line, 8) + 0
    } else if (line == "end") {
        end_piece()
    } else if (line ~ / => / && line !~ /^#/) {
        piece[count++] = line
    }
}

# take_part LINE: the lines of the part that the line names, with its other words in them.
function take_part(line,    words, number, k, word, text) {
    number = split(line, words, " ")
    for (k = 0; k < length_of[words[2]]; k++) {
        text = part[words[2], k]
        for (word = 3; word <= number; word++) gsub("[$]" (word - 2), words[word], text)
        take(text)
    }
}

# The sides of a line of a piece.
function script_of(line) { return substr(line, 1, index(line, " => ") - 1) "\n" }
function reply_of(line) { return substr(line, index(line, " => ") + 4) "\n" }

/^row / {
    end_row()
    name = $2
    sub(/,$/, "", name)
    is_cut = /, last newline left out$/
    times = 1
    open_row(name, $3)
    next
}
/^part / { part_name = $2; next }
/^$/ { part_name = "" }
part_name { part[part_name, length_of[part_name]++] = $0; next }
{ take($0) }
END { end_row() }

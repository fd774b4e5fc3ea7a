# Puts rows that are written as tests into files STEM.rt, STEM_2.rt and so on, each of at most `most` bytes and `long` lines, between the texts of the
# variables OPENING and CLOSING. A row begins and ends at four columns; one that stands alone in its file at none, but for what its
# literals go on with.

function open_file() {
    file = stem (files ? "_" files + 1 : "") ".rt"
    files++
    rows = 0
    bytes = length(ENVIRON["OPENING"]) + length(ENVIRON["CLOSING"]) + 2
    lines = 0
}

function take_row() {
    kept[rows++] = row
    bytes += length(row)
    lines += row_lines
}

# alone TEXT: a row without its last comma, four columns further out.
function alone(text,    lines, count, k, goes_on, out) {
    sub(/,\n$/, "", text)
    count = split(text, lines, "\n")
    for (k = 1; k <= count; k++) {
        if (!goes_on) sub(/^    /, "", lines[k])
        goes_on = lines[k] ~ /\\$/
        out = out (k > 1 ? "\n" : "") lines[k]
    }
    return out
}

function close_file(    k) {
    if (rows == 1) {
        printf "%s%s%s\n", ENVIRON["OPENING"], alone(kept[0]), ENVIRON["CLOSING"] >file
    } else {
        print ENVIRON["OPENING"] >file
        for (k = 0; k < rows; k++) printf "%s", kept[k] >file
        print ENVIRON["CLOSING"] >file
    }
    close(file)
}

function is_full() { return bytes + length(row) > most || lines + row_lines > long }

{
    row = row $0 "\n"
    row_lines++
}
/^    },$/ {
    if (files && is_full()) close_file()
    if (!files || is_full()) open_file()
    take_row()
    row = ""
    row_lines = 0
}
END { close_file() }

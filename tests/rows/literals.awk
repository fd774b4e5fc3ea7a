# Texts as literals of the language, laid out as `rt fmt` leaves them.

# How many columns a line of a literal may take.
BEGIN { WIDTH = 140 }

# literal(text, indent): lines of a text, of which each that ends has a `\n` behind it, on as many lines as it takes; all but the first
# stand that many columns in.
function literal(text, indent,    lines, count, k, line, row, out) {
    count = split(text, lines, "\n")
    for (k = 1; k <= count; k++) {
        line = lines[k] (k < count ? "\\n" : "")
        if (row != "" && indent + length(row) + length(line) > WIDTH) {
            out = out row "\\\n" sprintf("%" indent "s", "")
            row = ""
        }
        row = row line
    }
    return "\"" out row "\""
}

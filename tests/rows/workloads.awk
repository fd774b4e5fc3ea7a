# Writes workloads, each with what is printed for it or with its bad line. It is used with literals.awk.

# A text as it stands there, with the escapes of printf, is one line: each `\n` in it ends a line.
function unescaped(text) {
    gsub(/\\n/, "\n", text)
    return text
}

/^"/ {
    at = index($0, " => ")
    text = substr($0, 2, at - 3)
    wanted = substr($0, at + 4)
    answer = "Ok(())"
    if (wanted ~ /^bad line /) {
        answer = "Err(ScriptError::BadLine(" substr(wanted, 10) "))"
        wanted = "\"\""
    }
    wanted = substr(wanted, 2, length(wanted) - 2)
    print "    Workload {"
    print "        text: " literal(unescaped(text), 12) ","
    print "        printed: " literal(unescaped(wanted), 12) ","
    print "        answer: " answer ","
    print "    },"
}

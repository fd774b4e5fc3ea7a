"""The words of `./mpheap` in the documents are those of wrapper/table: each form that a block of text shows, all forms in docs/SCRIPTS.md, and
each row of a table that begins with an option, with the range of its number."""
import os
import re

from blocks import blocks_of


def table_of(top):
    """The form of each command, and of each option its value's name with the ranges that it has."""
    forms, options, command = {}, {}, ""
    with open(os.path.join(top, "wrapper/table"), encoding="utf-8") as file:
        lines = [line.rstrip("\n") for line in file if line.strip() and not line.startswith("#")]
    for line in lines:
        first, takes, _ = (part.strip() for part in line.split(";", 2))
        if not line.startswith(" "):
            command = first
            forms[command] = f"./mpheap {command}"
            continue
        forms[command] += f" {first}"
        words = re.sub(r"[][()|]", "", first).split()
        if words[0].startswith("--"):
            options.setdefault(" ".join(words), set()).add(tuple(takes.split()) if re.match(r"\d", takes) else ())
    del forms[""]
    return set(forms.values()), options


def faults_of_row(row, options):
    """What is wrong in a row of a document's table that begins with an option."""
    option = re.match(r"\| `(--[^`]*)`", row)[1]
    if option not in options:
        return [f"no command has '{option}'"]
    text = re.sub(r"(?<=\d),(?=\d{3})", "", row)
    ranges = [f"{takes[0]} to {takes[1]}" for takes in options[option] if takes]
    return [f"'{option}' takes {wanted}" for wanted in ranges if wanted not in text]


def faults_of(top, documents):
    """What the documents say otherwise than the table."""
    forms, options = table_of(top)
    faults, shown, told = [], set(), set()
    for document in documents:
        with open(os.path.join(top, document), encoding="utf-8") as file:
            text = file.read()
        lines = [line.split(" > ")[0].strip() for block in blocks_of(document, text) if block.kind() == "text" for line in block.lines]
        used = {line for line in lines if line.startswith("./mpheap ") and re.search(r" [A-Z]|\[", line) or line in forms}
        rows = [line for line in text.splitlines() if re.match(r"\| `--[a-z]", line)]
        faults += [f"{document}: '{line}' is no form of wrapper/table" for line in sorted(used - forms)]
        faults += [f"{document}: {fault}" for row in rows for fault in faults_of_row(row, options)]
        if document == "docs/SCRIPTS.md":
            shown, told = shown | used, told | {re.match(r"\| `(--[^`]*)`", row)[1] for row in rows}
    faults += [f"docs/SCRIPTS.md: lacks '{form}'" for form in sorted(forms - shown)]
    return faults + [f"docs/SCRIPTS.md: its table lacks '{option}'" for option in sorted(set(options) - told)]

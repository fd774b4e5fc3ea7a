"""What a document shows in its blocks. A block says behind its first fence what it is:
    sh             commands, which the full test runs, a line for each, with what stands beside them
    sh needs WHAT ..   the same, where the machine has each WHAT: a program, or a library as -lNAME
    sh measures    commands that measure for long, which the full test doesn't run
    text, rust     no commands
Beside a command, as its comment, may stand `status N`, with which it ends if not with 0, and in backquotes the beginning of a line that it
prints. A table behind a block whose head is `| Line of the script | Reply |` has all that the block's last command prints."""
import re


class Block:
    def __init__(self, document, line, info):
        self.document, self.line, self.info, self.lines, self.table = document, line, info, [], []

    def kind(self):
        return self.info[0] if self.info else ""

    def is_run(self):
        return self.info[:1] == ["sh"] and "measures" not in self.info

    def needs(self):
        return self.info[self.info.index("needs") + 1 :] if "needs" in self.info else []

    def commands(self):
        """Each command with the number of its line."""
        return [(self.line + at, text) for at, text in enumerate(self.lines, 1) if text.strip() and not text.startswith("#")]


def blocks_of(document, text):
    found, block, table = [], None, None
    for number, line in enumerate(text.splitlines(), 1):
        if line.startswith("```"):
            if block is None:
                block = Block(document, number, line[3:].split())
                found.append(block)
            else:
                block = None
        elif block is not None:
            block.lines.append(line)
        elif line.startswith("| Line of the script | Reply |") and found:
            table = found[-1].table
        elif table is not None and re.match(r"\| `", line):
            table.append(re.findall(r"`([^`]*)`", line.split("|")[2])[0])
        elif not line.startswith("|"):
            table = None
    return found


def beside(command):
    """The status that stands beside a command, and the beginning of a line that it prints, or None."""
    comment = re.search(r"\s# (.*)$", command)
    said = comment[1] if comment else ""
    status, reply = re.search(r"\bstatus (\d+)", said), re.search(r"`([^`]+)`", said)
    return int(status[1]) if status else 0, reply[1] if reply else None

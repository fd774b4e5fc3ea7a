#!/usr/bin/env python3
"""What random workloads may print, in whatever order their actors' calls come: by the heap's rules alone, without a heap.

    possible.py WORKLOADS PRINTED

Standard input has a name and the heap's pages in each line; WORKLOADS/NAME is a workload of drawn lines, with the collector's number asked
for anywhere, and PRINTED/NAME what was printed for it. Prints the first line of each that may not be, and ends with 1 if there is any.

Drawn lines put nothing but 0 and addresses of objects into registers, so each word that is told is one of these, and no address is
misaligned.
"""
import sys

STACK_WORDS = 256
OBJECTS_OF_A_PAGE = 256
NO_OBJECT = "refused 3 NoObject"


class Told:
    """What lines told so far: the depth of a mutator's stack, which nobody else changes, how many objects came and went, and the phase
    and the number of the collector, which nobody else changes either."""

    def __init__(self):
        self.stack = self.made = self.gone = self.collections = 0
        self.is_marking = False

    def push(self, line):
        if self.stack == STACK_WORDS:
            return line == "refused 7 StackFull"
        self.stack += 1
        return line == "ok"

    def pop(self, line):
        if self.stack == 0:
            return line == "refused 8 StackEmpty"
        self.stack -= 1
        return line in ("0", "ptr")

    def alloc(self, line):
        if line == "refused 6 Full":
            return True
        self.made += 1
        return line == "ok"

    def free(self, line):
        """A register may keep the address of a freed object, where another one may have come since."""
        if line in (NO_OBJECT, "refused 4 NotBase"):
            return True
        self.gone += 1
        return line == "ok"

    def may_answer(self, verb, line):
        """Whether a mutator's call may be answered this line."""
        if verb in ("copy", "set", "gput"):
            return line == "ok"
        if verb == "load":
            return line in ("0", "ptr", NO_OBJECT)
        if verb == "store":
            return line in ("ok", NO_OBJECT)
        known = {"push": self.push, "pop": self.pop, "alloc": self.alloc, "free": self.free}
        return verb in known and known[verb](line)

    def begin(self, line):
        self.is_marking = True
        return line == "ok"

    def collect(self, line):
        """The end of a cycle, which forgets objects that were made."""
        self.is_marking = False
        self.collections += 1
        if not line.isdigit():
            return False
        self.gone += int(line)
        return True

    def is_refused(self, verb):
        """Whether a command is refused in this phase."""
        if verb in ("begin", "partial"):
            return self.is_marking
        return verb in ("roots", "mark", "retrace", "finish") and not self.is_marking

    def may_be_told(self, words, line):
        """Whether the collector's command may be answered this line."""
        verb = words[1]
        if self.is_refused(verb):
            return line == "refused 9 WrongPhase"
        if verb == "partial" and line == "refused 12 NeedsFull":
            return True
        if verb in ("begin", "partial"):
            return self.begin(line)
        if verb in ("finish", "collect"):
            return self.collect(line)
        if verb == "no":
            return line == str(self.collections)
        if verb == "roots":
            return line == "ok"
        most = int(words[2]) if verb == "mark" else 1
        return verb in ("mark", "retrace", "sweep") and line.isdigit() and int(line) <= most

    def has_room(self, pages):
        """Whether no object went twice, and there was room for those that stayed."""
        return 0 <= self.made - self.gone <= pages * OBJECTS_OF_A_PAGE


def first_wrong(lines, pages, printed):
    """The first line that may not be printed, or what else is wrong, or nothing."""
    told, at = Told(), 0
    mutators = sum(1 for line in lines if line == "attach")
    for slot in list(range(mutators)) + ["gc"]:
        head = "collector" if slot == "gc" else f"mutator {slot}"
        told.stack = 0
        calls = [line.split(" ") for line in lines if line.startswith(f"{slot} ")]
        for call in [None] + calls:
            line = printed[at] if at < len(printed) else ""
            at += 1
            if call is None:
                is_right = line == head
            elif slot == "gc":
                is_right = told.may_be_told(call, line)
            else:
                is_right = told.may_answer(call[1], line)
            if not is_right:
                return f"printed line {at}, {line!r}, for {call and ' '.join(call) or head}"
    if at != len(printed):
        return "more lines than replies"
    return None if told.has_room(pages) else f"{told.made} objects came, and {told.gone} went"


def read(folder, name):
    with open(f"{folder}/{name}", encoding="ascii") as file:
        return file.read().splitlines()


def main():
    status = 0
    for row in sys.stdin:
        name, pages = row.split()
        wrong = first_wrong(read(sys.argv[1], name), int(pages), read(sys.argv[2], name))
        if wrong:
            print(f"{name}: {wrong}")
            status = 1
    return status


sys.exit(main())

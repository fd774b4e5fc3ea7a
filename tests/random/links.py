#!/usr/bin/env python3
"""Two mutators and the collector at one link, whose calls come in whatever order.

    links.py write FILE         writes the workload
    links.py check FILE..       looks at what was printed for it

A mutator that loads the link's word has the object from then on, or the word is 0: it is never the address of an object that left. The
check prints each run with other replies, and ends with 1 if there is any.
"""
import re
import sys

CYCLES = 8

# Mutator 0 makes a link, shows its holder, and lets the object go; then each mutator loads the word and asks for the object's size.
MUTATORS = """attach
attach
0 alloc 1 2 atomic
0 alloc 2 2 normal
0 store 1 0 2
0 link 1 0 2
0 gput 0 1
0 set 2 0
0 load 3 1 0
0 size 3
1 gget 1 0
1 load 2 1 0
1 size 2
"""
CYCLE = "gc begin\ngc finish\n"

FIRST = "mutator 0\nok\nok\nok\nok\nok\nok\n"
NO_OBJECT = "refused 3 NoObject\n"

# The last replies of mutator 0, and those of mutator 1, which may come before the holder is shown; and how many objects go.
ANSWERS = [
    ("ptr\n2\n", "ptr\nptr\n2\n", 0),
    ("ptr\n2\n", "0\n" + NO_OBJECT * 2, 0),
    ("0\n" + NO_OBJECT, "ptr\n0\n" + NO_OBJECT, 1),
    ("0\n" + NO_OBJECT, "0\n" + NO_OBJECT * 2, 1),
]


def is_right(printed):
    for first, second, gone in ANSWERS:
        head = f"{FIRST}{first}mutator 1\n{second}collector\n"
        if printed.startswith(head):
            rest = printed[len(head):]
            if re.fullmatch(f"(ok\n[01]\n){{{CYCLES}}}", rest) and rest.count("1") == gone:
                return True
    return False


def main():
    verb, *files = sys.argv[1:]
    if verb == "write":
        with open(files[0], "w", encoding="ascii") as file:
            file.write(MUTATORS + CYCLE * CYCLES)
        return 0
    status = 0
    for name in files:
        with open(name, encoding="ascii") as file:
            printed = file.read()
        if not is_right(printed):
            print(f"{name}: {' '.join(printed.splitlines())}")
            status = 1
    return status


sys.exit(main())

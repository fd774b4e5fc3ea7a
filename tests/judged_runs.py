#!/usr/bin/env python3
"""Random runs of the heap beside a heap without pages: scripts are written down by `record`, and `replay`, whose heap is a plain map of
objects, has to find the runs legal: each reply, and what each collection took and left. Then lines of them are changed, and it has to say
no at each of these. Over a proved build it takes half a minute."""
import os
import sys
import tempfile

sys.dont_write_bytecode = True
sys.path.insert(0, os.path.join(os.path.dirname(os.path.abspath(__file__)), "random"))
from changes import changed_runs
from programs import run_all
from scripts import Script

# Pages, mutators, lines, about how many lines for each event of the collector, the weight of frees among the calls (after a free a partial
# cycle is refused), and how many requests are to find the heap full, how many objects are to be taken, how many partial cycles and how
# many links are to be granted at least.
PLANS = [
    (1, 1, 20000, 4, 6, 10, 50, 20, 0),
    (2, 2, 20000, 4, 6, 10, 200, 20, 0),
    (8, 4, 20000, 6, 2, 10, 700, 20, 20),
    (24, 16, 20000, 400, 6, 100, 100, 0, 20),
    (64, 16, 20000, 30, 0.1, 10, 700, 5, 20),
]
SEEDS = range(1, 5)

# Short runs whose lines are changed: pages, mutators, lines, about how many lines for each event of the collector, the weight of frees.
SHORT = (2, 3, 400, 5, 3)

passed, failed = 0, 0


def judge(what, is_right, seen=""):
    global passed, failed
    passed, failed = passed + bool(is_right), failed + (not is_right)
    if not is_right:
        print(f"judged: {what}: {seen}", flush=True)


def scripts():
    """All scripts, with the pages of their heaps, by name."""
    made = {}
    for pages, mutators, lines, often, frees, *_ in PLANS:
        for seed in SEEDS:
            made[f"random_{pages}_{seed}"] = pages, Script(seed, pages, mutators, often, frees).lines(lines)
    pages, mutators, lines, often, frees = SHORT
    for seed in SEEDS:
        made[f"short_{seed}"] = pages, ["attach"] * mutators + Script(seed, pages, mutators, often, frees).lines(lines)
    return made


def is_of_all_kinds(name, run, full, taken, partial, links):
    """A run has so much of each at least, so that it isn't one in which nothing happens."""
    replies = [line.split(" => ") for line in run]
    gone = sum(int(reply.split()[0]) for call, reply in replies if call in ("gc finish", "gc collect") and reply[0].isdigit())
    counts = [sum(reply == "refused 6 Full" for _, reply in replies), gone, sum(call == "gc partial" and reply == "ok" for call, reply in replies),
              sum(" link " in call and reply == "ok" for call, reply in replies)]
    for what, least, seen in zip(("requests that found the heap full", "objects taken", "partial cycles", "links"), (full, taken, partial, links), counts):
        judge(f"{name}: {what}: {least} at least", seen >= least, seen)


def written(lines):
    return "".join(line + "\n" for line in lines)


def main():
    with tempfile.TemporaryDirectory() as room:
        made = scripts()
        recorded = run_all("record", {name: (pages, written(lines)) for name, (pages, lines) in made.items()}, f"{room}/record")
        runs = {name: recorded.get(name, ([], None))[0] for name in made}
        for name in made:
            judge(f"{name}: lines that are written down", len(runs[name]) == len(made[name][1]), len(runs[name]))
        for pages, _, _, _, _, *least in PLANS:
            for seed in SEEDS:
                is_of_all_kinds(f"random_{pages}_{seed}", runs[f"random_{pages}_{seed}"], *least)
        judged = {name: (pages, written(runs[name])) for name, (pages, _) in made.items()}
        ends = {name: (f"legal, {len(runs[name])} lines", 0) for name in made}
        for seed in SEEDS:
            for number, lines in enumerate(changed_runs(runs[f"short_{seed}"], SHORT[0], 2)):
                name = f"changed_{seed}_{number}"
                judged[name], ends[name] = (SHORT[0], written(lines)), (f"line {len(lines)}: ", 1)
        answers = run_all("replay", judged, f"{room}/replay")
        for name, (said, status) in ends.items():
            lines, seen = answers.get(name, ([], None))
            is_right = lines and lines[0].startswith(said) and seen == status
            judge(f"{name}: {said}", is_right, f"{lines[:1]}, status {seen}, behind {judged[name][1].splitlines()[-1:]}" if not is_right else "")
    print(f"judged: {passed} passed, {failed} failed")
    return failed != 0


sys.exit(main())

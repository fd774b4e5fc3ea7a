"""Compares what `draw --run` prints with what `replay` says of the same runs: judged.py RUNS REPLIED TRACES.

RUNS has each run as NAME, REPLIED what `replay` prints of it, and TRACES what `draw --run` prints, with its status as NAME.status.
Of a text that is no run there is no trace; of any other there is one, which agrees with the run up to the line that `replay`
refuses, if it refuses one, and ends with that line and with what `replay` says of it.
"""
import json
import os
import re
import sys

import compare
from run import FIRST, WORD


def objection(said):
    """The number of a refused line, and what is said of it."""
    parts = [line.split(": ", 1) for line in said]
    assert len({front for front, _ in parts}) == 1, said
    return int(parts[0][0].split()[1]), [sentence for _, sentence in parts]


def about(sentence):
    """The place that a sentence on what was forgotten names first."""
    found = re.search(r"^(\d+) is named twice|\bat (\d+)", sentence)
    return (int(found[1] or found[2]) - FIRST) // WORD if found else None


def look_at(run_path, said, trace_path, status):
    lines = [json.loads(line) for line in open(trace_path)]
    if said[0] == "no lines" or said[0].endswith("not a line of a run"):
        assert (lines, status) == ([], 2), "a trace of what is no run"
        return
    compare.main(trace_path, run_path)
    if said[0].startswith("legal, "):
        assert (f"legal, {len(lines) - 1} lines", status) == (said[0], 0), status
        return
    last = lines[-1]
    assert ((last["no"], last["says"]), status) == (objection(said), 1), last
    assert last.get("about") == about(last["says"][-1]), last


def main(runs, replied, traces):
    names = sorted(os.listdir(replied))
    assert len(names) > 130, len(names)
    for name in names:
        run, said, trace = (os.path.join(folder, name) for folder in (runs, replied, traces))
        try:
            look_at(run, open(said).read().splitlines(), trace, int(open(trace + ".status").read()))
        except (AssertionError, SystemExit) as error:
            sys.exit(f"{name}: {error}")


main(*sys.argv[1:])

"""Looks at which words a trace says that each `gc mark` read.

    looked.py write FOLDER      writes random scripts, FOLDER/random_N, and FOLDER/full, whose objects find no room on the mark stack
    looked.py check FOLDER..    looks at the traces of these and of other scripts in the folders

Where it is said, the words are as many as the reply counts, each once, and those of marked normal objects, and what they point into is
marked. It is said of most steps that read any, but not of one that marks an object which finds no room.
"""
import json
import os
import sys

here = os.path.dirname(os.path.abspath(__file__))
sys.path += [here, os.path.join(here, "..", "random")]
from compare import Trace
from run import FIRST, WORD
from scripts import Script

SEEDS = range(1, 11)
FULL = 300


def full():
    """One object points to so many others that the mark stack has no room for their entries."""
    lines = ["attach", "0 alloc 1 512 normal"]
    for n in range(FULL):
        lines += ["0 alloc 2 2 normal", f"0 store 1 {n} 2"]
    return lines + ["0 set 2 0", "gc begin", "gc roots", "gc mark 100", f"gc mark {FULL}", "gc finish"]


def write(folder):
    scripts = {f"random_{seed}": ["attach"] * 3 + Script(seed, 4, 3, 2, 1).lines(1000) for seed in SEEDS}
    for name, lines in {**scripts, "full": full()}.items():
        with open(os.path.join(folder, name), "w", encoding="ascii") as file:
            file.write("".join(line + "\n" for line in lines))


def over(trace, place):
    """The object that has the word at a place."""
    return next((base for base, (_, n, _) in trace.objects.items() if base <= place < base + n), None)


def is_read(trace, place):
    """Whether the word may have been read, and what it points into was marked."""
    base = over(trace, place)
    word = trace.words.get(place, 0)
    target = over(trace, (word - FIRST) // WORD) if word >= FIRST else None
    return base in trace.marked and trace.objects[base][2] == 0 and (target is None or target in trace.marked)


def look_at(trace, record):
    places = [place + n for place, words in record["looked"] for n in range(words)]
    assert len(places) == int(record["r"]) == record["read"][1], "as many as the reply counts"
    assert len(set(places)) == len(places), "each once"
    assert all(is_read(trace, place) for place in places), "words of marked objects, and what they point into is marked"


def count(path):
    """How many steps of a trace read words, and of how many it is said which."""
    steps, told, trace = 0, 0, Trace()
    for line in list(open(path))[1:]:
        record = json.loads(line)
        trace.fold(record)
        if "looked" in record:
            assert record["c"].startswith("gc mark "), record["c"]
            look_at(trace, record)
        if record.get("read", [0, 0, 0])[1]:
            steps, told = steps + 1, told + ("looked" in record)
    return steps, told


def check(folders):
    counts = {}
    for folder, name in ((folder, name) for folder in folders for name in os.listdir(folder) if "." not in name):
        try:
            counts[name] = count(os.path.join(folder, name))
        except AssertionError as error:
            sys.exit(f"{name}: {error}")
    assert counts.pop("full") == (2, 1), "an object finds no room in the second step of 'full'"
    steps, told = (sum(numbers) for numbers in zip(*counts.values()))
    assert steps >= 50 and told >= 0.9 * steps, f"it is said of {told} of {steps} steps"


if __name__ == "__main__":
    verb, *words = sys.argv[1:]
    write(*words) if verb == "write" else check(words)

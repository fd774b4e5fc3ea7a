"""Compares a trace (docs/TRACE.md) with a run: compare.py TRACE RUN. The trace is that of the run itself, or of the script
of which `record` wrote the run down.

After each line both have to agree on objects, their words, roots, links, the phase, the count, and on what is reached and
touched; and a trace of a run ends with the line that the checker refuses, if it refuses one. Of what a collector knows, where
the trace is of a script: after each collection the objects that are left are those that are marked, no page is dirty
and no entry is left; a cycle that begins has no dirty or carried page and, if it is full, no mark; a store's page is dirty; and
the pages of forgotten objects are the pending ones.
"""
import json
import sys

from run import PAGE, Run

SETS = ["marked", "reached", "touched", "dirty", "carried", "pending"]
KNOWN = {"marked", "dirty", "carried", "pending", "entries", "current", "forget", "looked"}


class Trace:
    """The state of the page, by the format alone."""

    def __init__(self):
        self.mutators, self.globals, self.words, self.objects, self.links = {}, {}, {}, {}, {}
        self.forgotten, self.phase, self.count, self.entries = set(), 0, 0, []
        for name in SETS:
            setattr(self, name, set())

    def fold_objects(self, record):
        for slot in record.get("attach", []):
            self.mutators[slot] = ([0] * 16, [])
        for slot in record.get("detach", []):
            del self.mutators[slot]
        for name in SETS:
            change = record.get(name, {})
            getattr(self, name).difference_update(change.get("-", []))
        for place in record.get("forget", []):
            del self.objects[place]
            self.forgotten.add(place)
        for place in record.get("free", []):
            if place in self.forgotten:
                self.forgotten.remove(place)
            else:
                del self.objects[place]
        for place, birth, n, kind in record.get("new", []):
            assert place not in self.objects and place not in self.forgotten, place
            self.objects[place] = (birth, n, kind)
            for at in range(place, place + n):
                self.words.pop(at, None)

    def fold(self, record):
        self.fold_objects(record)
        for name in SETS:
            change = record.get(name, {})
            if "=" in change:
                setattr(self, name, set(change["="]))
            getattr(self, name).update(change.get("+", []))
        for at, word in record.get("wrote", []):
            self.words[at] = int(word)
        for slot, number, word in record.get("regs", []):
            self.mutators[slot][0][number] = int(word)
        for slot, keep, *pushed in record.get("stacks", []):
            self.mutators[slot][1][keep:] = [int(word) for word in pushed]
        for number, word in record.get("globals", []):
            self.globals[number] = int(word)
        for at, base in record.get("links", []):
            if base is None:
                del self.links[at]
            else:
                self.links[at] = base
        if "entries" in record:
            keep, *pushed = record["entries"]
            self.entries[keep:] = [place for place, _ in pushed]
        self.phase, self.count = record.get("phase", self.phase), record.get("count", self.count)


def nonzero(words):
    return {at: word for at, word in words.items() if word}


def words_of(objects, words):
    return {at: word for place, (_, n, _) in objects.items() for at in range(place, place + n) if (word := words.get(at, 0))}


def known(trace, record):
    """What a collector has to know after a line, and what the trace says that it knows."""
    if "refused" in record["r"]:
        return {}
    if record["c"] == "gc begin":
        return {"dirty": (trace.dirty, set()), "carried": (trace.carried, set()), "marked": (trace.marked, set())}
    if record["c"] in ("gc finish", "gc collect"):
        return {"dirty": (trace.dirty, set()), "entries": (trace.entries, []), "marked": (trace.marked, set(trace.objects))}
    if record["c"] == "gc partial":
        return {"carried": (trace.carried, set())}
    stored = {place // PAGE for place, _ in record.get("wrote", [])} if " store " in record["c"] else set()
    unmarked = [place for place in trace.entries if place not in trace.marked and place in trace.objects]
    return {"stored": (stored - trace.dirty, set()), "entries": (unmarked, [])}


def compare(trace, run, record, has_collector):
    pairs = {
        "objects": (trace.objects, run.objects),
        "words": (words_of(trace.objects, trace.words), words_of(run.objects, run.words)),
        "mutators": (trace.mutators, run.mutators),
        "globals": (nonzero(trace.globals), nonzero(run.globals)),
        "links": (trace.links, run.links),
        "phase": (trace.phase, int(run.marking)),
        "count": (trace.count, run.count),
        "reached": (trace.reached, run.reached()),
        "touched": (trace.touched, run.touched),
    }
    pairs.update(known(trace, record) if has_collector else {"known": (KNOWN & record.keys(), set())})
    pairs["forgotten"] = ({place // PAGE for place in trace.forgotten}, trace.pending)
    return [f"{what}: trace {left}, run {right}" for what, (left, right) in pairs.items() if left != right]


def told_lines(run_path):
    """The lines of a run that are no comments, with their numbers. Newlines alone end lines."""
    lines = open(run_path, newline="\n").read().split("\n")
    if not lines[-1]:
        lines.pop()
    return [(number, line) for number, line in enumerate(lines, 1) if not line.startswith("#")]


def main(trace_path, run_path):
    lines = open(trace_path).read().splitlines()
    head = json.loads(lines[0])
    has_collector = head.get("collector", 1) == 1
    assert head["mpheap"] == "trace" and head["version"] == 1 and head["lines"] == len(lines) - 1, head
    told = told_lines(run_path)
    is_refused = '"no":' in lines[-1]
    assert len(lines) - 1 == len(told) or is_refused and len(lines) - 1 <= len(told), len(told)
    trace, run = Trace(), Run()
    for line, (number, said) in zip(lines[1:], told):
        record = json.loads(line)
        if "no" in record:
            assert record["no"] == number and record["c"] + " => " + record["r"] == said and line == lines[-1], line
            return
        command = run.step(said)
        trace.fold(record)
        differs = compare(trace, run, record, has_collector)
        if not has_collector and record["r"] != said.split(" => ")[1].partition(" @")[0].partition(" -")[0]:
            differs.append(f"the reply {record['r']}")
        if record["c"] != command or differs:
            sys.exit(f"line {number}, {command}: " + "; ".join(differs))


if __name__ == "__main__":
    main(*sys.argv[1:])

"""Compares the trace of a script with that of the run that `record` wrote down of it: both.py TRACE_OF_SCRIPT TRACE_OF_RUN.

Line by line both say the same, but for what only a collector knows. Of a run a reply that is an address is its number, and what
goes is free at once.
"""
import json
import sys

KNOWN = ["marked", "dirty", "carried", "pending", "entries", "current", "looked"]


def records(path):
    return [json.loads(line) for line in open(path)]


def of_run(record, waiting):
    """What the trace of a run has to say where that of a script says this; `waiting` are the cells that wait to be swept."""
    record = {key: value for key, value in record.items() if key not in KNOWN}
    forgotten, freed = record.pop("forget", []), record.pop("free", [])
    gone = set(forgotten) | (set(freed) - waiting)
    waiting |= set(forgotten)
    waiting -= set(freed)
    return {**record, **({"free": sorted(gone)} if gone else {})}


def main(script_path, run_path):
    (script_head, *script), (run_head, *run) = records(script_path), records(run_path)
    assert {**script_head, "title": "a run", "collector": 0} == run_head, run_head
    assert len(script) == len(run), len(run)
    waiting = set()
    for number, (of_script, said) in enumerate(zip(script, run), 1):
        wanted = of_run(of_script, waiting)
        if wanted["r"] == "ptr":
            wanted["r"] = said["r"] if said["r"].isdigit() else "a number"
        if "free" in said:
            said["free"] = sorted(said["free"])
        if wanted != said:
            sys.exit(f"line {number}: of the script {wanted}, of the run {said}")


main(*sys.argv[1:])

#!/usr/bin/env python3
"""Histories that threads made: the workloads of tests/rows and random ones are run by `threads --record`, each run is replayed, and it has
to be legal, to have as many lines as the history must have, and to hold each actor's lines in their order with the replies that were
printed. What is printed has to be what stands in the rows, or laid out as without `--record`. Which build runs is said in
tests/builds.sh."""
import os
import re
import subprocess
import sys
import tempfile

sys.dont_write_bytecode = True
sys.path.insert(0, os.path.join(os.path.dirname(os.path.abspath(__file__)), "random"))
from programs import BUILD

TOP = os.path.dirname(os.path.dirname(os.path.abspath(__file__)))

# Where the heap's addresses begin, and how many bytes a page has: a word that is an address is printed as `ptr`.
BASE, PAGE = 268435456, 4096
EVENTS = ("gc begin", "gc partial", "gc finish", "gc collect")
SEEDS = range(1, 41)

passed, failed = 0, 0


def judge(what, is_right, seen=""):
    global passed, failed
    passed, failed = passed + bool(is_right), failed + (not is_right)
    if not is_right:
        print(f"record: {what}: {seen}", flush=True)


def run(*words, status=0):
    done = subprocess.run([BUILD, *words], stdin=subprocess.DEVNULL,
                          capture_output=True, text=True, check=False, timeout=120)
    judge(' '.join(words), done.returncode == status, f"status {done.returncode}, {done.stderr}")
    return done


def printed_replies(text):
    """The replies of each actor, by the line that stands above them."""
    actors = {}
    for line in text.splitlines():
        if line == "collector" or line.startswith("mutator "):
            actor = actors.setdefault(line, [])
        else:
            actor.append(line)
    return actors


def wanted_lines(workload, actors):
    """The lines that each actor has in the history, with the replies that were printed."""
    wanted = {name: [("attach", name)] for name in actors if name != "collector"}
    wanted["collector"] = []
    left = {name: iter(replies) for name, replies in actors.items()}
    for line in workload.splitlines():
        if line == "attach":
            continue
        name = "collector" if line.startswith("gc") else "mutator " + line.split()[0]
        reply = next(left[name])
        if name != "collector" or line in EVENTS and not reply.startswith("refused"):
            wanted[name].append((line, reply))
    judge("each reply is a line's", all(next(rest, None) is None for rest in left.values()))
    return wanted


def recorded_lines(text, pages):
    """The lines of each actor in a history, with their replies as `threads` prints them."""
    seen = {"collector": []}
    for line in text.splitlines():
        command, _, answer = line.partition(" => ")
        reply = answer.split(" @ ")[0].split(" -")[0]
        if reply.isdigit() and BASE <= int(reply) < BASE + PAGE * pages:
            reply = "ptr"
        if command == "attach":
            name = reply
        else:
            name = "collector" if command.startswith("gc") else "mutator " + command.split()[0]
        seen.setdefault(name, []).append((command, reply))
    return seen


def recorded(folder, what, workload, pages, *words):
    """What is printed of a workload that is written down, after its history was judged."""
    script, record = os.path.join(folder, "workload"), os.path.join(folder, "record")
    with open(script, "w", encoding="ascii") as out:
        out.write(workload)
    printed = run("threads", "--pages", str(pages), *words, "--record", record, script).stdout
    with open(record, encoding="ascii") as text:
        history = text.read()
    wanted = wanted_lines(workload, printed_replies(printed))
    count = sum(map(len, wanted.values()))
    judge(f"{what}: each actor's lines are its part", recorded_lines(history, pages) == wanted)
    # A history with no events is no run.
    said = run("replay", "--pages", str(pages), record, status=0 if count else 2).stdout
    judge(f"{what}: the run is legal", said == (f"legal, {count} lines\n" if count else "no lines\n"), said)
    return printed, script


def row(folder, text, wanted):
    """A workload of tests/rows, and what stands beside it: all have one reply whatever the order."""
    text, wanted = (part.replace("\\n", "\n") for part in (text, wanted))
    printed, _ = recorded(folder, repr(text), text, 4)
    judge(f"{text!r}: what is printed", printed == wanted, printed)


def rows(folder):
    with open(os.path.join(TOP, "tests", "rows", "workloads"), encoding="ascii") as file:
        found = re.findall(r'^"(.*)" => "(.*)"$', file.read(), re.M)
    judge("workloads of tests/rows", len(found) >= 14, len(found))
    for text, wanted in found:
        row(folder, text, wanted)


def one(folder, seed):
    mutators, pages, helpers = (1, 4, 16)[seed % 3], (1, 2, 8, 64)[seed % 4], seed % 2 + 1
    workload = run("stress", "--seed", str(seed), "--mutators", str(mutators), "--steps", "600").stdout
    words = ["--helpers", str(helpers)]
    printed, script = recorded(folder, f"seed {seed}", workload, pages, *words)
    plain = printed_replies(run("threads", "--pages", str(pages), *words, script).stdout)
    actors = printed_replies(printed)
    judge(f"seed {seed}: the same lines are answered", [(k, len(v)) for k, v in actors.items()] == [(k, len(v)) for k, v in plain.items()])
    return script


def main():
    with tempfile.TemporaryDirectory() as folder:
        rows(folder)
        for seed in SEEDS:
            script = one(folder, seed)
        for path in ("/dev/full", os.path.join(folder, "none", "record")):
            done = run("threads", "--pages", "8", "--record", path, script, status=1)
            judge(f"a history that can't be written to {path}", done.stderr == "write fault\n" and done.stdout, done.stderr)
    print(f"record: {passed} passed, {failed} failed")
    return failed != 0


sys.exit(main())

#!/usr/bin/env python3
"""Does what the documents say: in a fresh clone of the tree, in a new folder with no `out`, each command that a document shows in a block is
run, in their order, from the documents themselves, and has to end as stands beside it; each file that they name has to be there; and
what the commands write lies outside of the tree or is ignored by git. What a block has to say of itself stands in tests/documents/blocks.py.
Then faults are planted in such a clone, each of which has to be noticed.

It needs rt, cc and git. Where `rt ci` passed before on this machine, the proofs are kept, and it takes some minutes. `--plants` only compares
the words of ./mpheap with its table, and plants the faults that need no proof, in seconds."""
import glob
import os
import subprocess
import sys
import tempfile

sys.dont_write_bytecode = True
TOP = os.path.dirname(os.path.dirname(os.path.abspath(__file__)))
sys.path.insert(0, os.path.join(TOP, "tests", "documents"))
from checker import Checker
from plants import plant_all, plant_answer, plant_words
from words import faults_of

DOCUMENTS = ("README.md", "docs/EMBEDDING.md", "docs/PROGRAMS.md", "docs/USING.md", "docs/REPLAY.md", "docs/SCRIPTS.md", "docs/TOUR.md",
             "docs/SPEED.md")


def clone(to):
    """The files of the tree as they stand, but for those that git ignores, as a repository of their own."""
    os.makedirs(to)
    names = subprocess.run(["git", "ls-files", "-z", "--cached", "--others", "--exclude-standard"], cwd=TOP, capture_output=True, check=True).stdout
    there = b"\0".join(name for name in names.split(b"\0") if name and os.path.lexists(os.path.join(os.fsencode(TOP), name)))
    packed = subprocess.run(["tar", "cf", "-", "--null", "-T", "-"], cwd=TOP, input=there, capture_output=True, check=True).stdout
    subprocess.run(["tar", "xf", "-"], cwd=to, input=packed, check=True)
    who = ["-c", "user.name=gate", "-c", "user.email=gate@localhost"]
    for words in (["init", "-q"], ["add", "-A"], [*who, "commit", "-q", "-m", "the tree as it stands"]):
        subprocess.run(["git", *words], cwd=to, check=True)


def others(tree):
    """The other documents, of which only the names are looked at; the history of changes names what went."""
    forms = ("*.md", "*/*.md", "docs/*/*.md")
    found = {os.path.relpath(path, tree) for form in forms for path in glob.glob(f"{tree}/{form}")}
    return sorted(found - {*DOCUMENTS, "CHANGELOG.md"})


def main():
    with tempfile.TemporaryDirectory() as room:
        tree, home = os.path.join(room, "tree"), os.path.join(room, "home")
        os.mkdir(home)
        checker = Checker(tree, home)
        plant_all(checker, os.path.join(room, "planted"))
        checker.judge("the words of ./mpheap", "; ".join(faults_of(TOP, DOCUMENTS)))
        plant_words(checker, TOP, os.path.join(room, "words"), DOCUMENTS)
        if sys.argv[1:] != ["--plants"]:
            clone(tree)
            for document in others(tree):
                checker.look_at_names(document)
            for document in DOCUMENTS:
                checker.look_at(document)
            checker.look_at_tree()
            plant_answer(checker)
        print(f"documents: not run, as they measure for long: {checker.measures} commands; left out, as said above: {checker.left_out}")
        print(f"documents: {checker.counts()}")
        return checker.failed != 0


sys.exit(main())

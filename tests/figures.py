#!/usr/bin/env python3
"""What bench/ makes of figures: medians of pairs, and the page docs/SPEED.md, of figures that are worked by hand. It measures nothing."""
import shutil
import subprocess
import sys
import tempfile
from pathlib import Path

TOP = Path(__file__).resolve().parent.parent
counts = {"passed": 0, "failed": 0}

# Ratios 2, 1, 4 beside one side and 0.5, 1 beside the other; the second row has one side alone, and the third did two things.
PAIRS = """alloc_2 independent 1 20000 10000 7 7
alloc_2 bdwgc 1 20000 40000 7 7
alloc_2 independent 2 30000 30000 7 7
alloc_2 bdwgc 2 10000 10000 7 7
alloc_2 independent 3 40000 10000 7 7
counted plain 1 - 5000
refill before 1 11000 10000 7 8
"""
MEDIANS = """alloc_2: 30.00, independent 10.00, ratio 2.00 (1.00 to 4.00) of 3
alloc_2: 15.00, bdwgc 25.00, ratio 0.75 (0.50 to 1.00) of 2
counted: plain 5.00
refill: 11.00, before 10.00, ratio 1.10 (1.10 to 1.10) of 1, answers differ
"""
BESIDE = """alloc_2 independent 1 20000 10000 7 7
alloc_2 bdwgc 1 20000 40000 7 7
full bdwgc 1 3000000 2000000 0 0
full before 1 3000000 1600000 0 0
alloc_on_64 bdwgc 1 123000 61500 1 1
"""
TABLE = """| Work | Proved | bdwgc | Before |
|---|---|---|---|
| an allocation of 2 words | 20.0 ns | 40.0 ns, 0.50 (0.50 to 0.50) |  |
| a request that finds no room beside 1,024 pages that are still to be swept | 3.0 us | 2.0 us, 1.50 (1.50 to 1.50) | 1.6 us, 1.88 (1.88 to 1.88) |
| 1 to 40 words on 64 pages, a third of them taken by a tree that stays | 123 ns | 61.5 ns, 2.00 (2.00 to 2.00) |  |
"""
SAID = """Rows that take longer than bdwgc: `full` (1.50); `alloc_on_64` (2.00).
Of these before took no longer than bdwgc: `full` (0.80).
Rows that take more than 1.1 times what they took before: `full` (1.88).
"""


def judge(what, is_right, said=""):
    counts["passed" if is_right else "failed"] += 1
    if not is_right:
        print(f"figures: {what}: {said}")


def medians():
    ended = subprocess.run([TOP / "bench/medians.py", "--per", "1000"], input=PAIRS, capture_output=True, text=True)
    judge("medians of pairs", ended.stdout == MEDIANS, ended.stdout + ended.stderr)
    refused = subprocess.run([TOP / "bench/medians.py", "--per", "x"], input="", capture_output=True, text=True)
    judge("a word that is no number", refused.returncode == 1, refused.stdout)


def block(page, name):
    return page.split(f"<!-- figures: {name} -->\n")[1].split("<!-- end -->")[0]


def copied(room, change=lambda text: text):
    """A tree of its own, with the page as `change` makes it, and what `--write` ends with there."""
    shutil.copytree(TOP / "bench", room / "bench", ignore=shutil.ignore_patterns("__pycache__"))
    (room / "docs/speed").mkdir(parents=True)
    (room / "docs/SPEED.md").write_text(change((TOP / "docs/SPEED.md").read_text()))
    folder = room / "figures"
    folder.mkdir()
    (folder / "about").write_text("Measured by hand.\n")
    (folder / "beside").write_text(BESIDE.replace("alloc_2 independent 1 20000 10000 7 7\n", ""))
    (folder / "walks").write_text("begin 1 2 3000 4\n")
    return subprocess.run([room / "bench/figures", "--write", folder], capture_output=True, text=True)


def written(room):
    ended = copied(room)
    judge("the page is written", ended.returncode == 0, ended.stderr)
    page = (room / "docs/SPEED.md").read_text()
    judge("about", block(page, "about") == "Measured by hand.\n", block(page, "about"))
    judge("the table beside other heaps", block(page, "beside") == TABLE, block(page, "beside"))
    judge("what it says of rows", block(page, "beside_said") == SAID, block(page, "beside_said"))
    judge("what walks pages", "| the beginning of a cycle, with one object and nothing to sweep | 1 | 2 | 3,000 | 4 |" in block(page, "walks"), block(page, "walks"))
    judge("a part that wasn't measured", block(page, "lines") == "(not measured in this run)\n", block(page, "lines"))
    outside = [text.split("<!-- figures: ")[0] for text in page.split("<!-- end -->")]
    before = [text.split("<!-- figures: ")[0] for text in (TOP / "docs/SPEED.md").read_text().split("<!-- end -->")]
    judge("the rest of the page stays", outside == before)
    sizes, stores = ((room / "docs/speed" / name).read_text() for name in ("heap_size.svg", "pause.svg"))
    judge("the plot of sizes", ">123<" in sizes and ">61.5<" in sizes and "not measured" not in sizes, sizes)
    judge("a plot of rows that weren't measured", "not measured" in stores and stores.count("<rect") == 1, stores)
    judge("calls that weren't measured", "not measured" in (room / "docs/speed/calls.md").read_text())


def main():
    medians()
    with tempfile.TemporaryDirectory() as name:
        written(Path(name) / "right")
        no_end = copied(Path(name) / "no_end", lambda text: text.replace("<!-- end -->", "", 1))
        judge("a block without an end", no_end.returncode != 0 and "has no end" in no_end.stderr, no_end.stderr)
        no_block = copied(Path(name) / "no_block", lambda text: text.replace("<!-- figures: walks -->", "<!-- figures: others -->"))
        judge("a page without a block", no_block.returncode != 0 and "has no block walks" in no_block.stderr, no_block.stderr)
    print(f"figures: {counts['passed']} passed, {counts['failed']} failed")
    return counts["failed"] != 0


sys.exit(main())

"""The tables of docs/SPEED.md, each of the lines of a file of figures."""
from medians import Pairs, shown, two_places
from speed.rows import SHAPES, WHAT, pauses, timed

HEADS = {"independent": "Independent", "bdwgc": "bdwgc", "before": "Before"}


def table(heads, rows):
    lines = ["| " + " | ".join(heads) + " |", "|" + "---|" * len(heads)]
    return "\n".join(lines + ["| " + " | ".join(cells) + " |" for cells in rows])


def cell(pairs, row, other):
    """The other side's time and the ratio of ours to it."""
    ratio = pairs.ratio(row, other)
    return f"{timed(row, pairs.theirs(row, other))}, {shown(ratio)}" if ratio else ""


def beside(pairs):
    others = [other for other in HEADS if other in pairs.others()]
    rows = [[WHAT[row][0], timed(row, pairs.ours(row)), *(cell(pairs, row, other) for other in others)] for row in pairs.rows()]
    return table(["Work", "Proved", *(HEADS[other] for other in others)], rows)


def slower(pairs, other, bound):
    """The rows whose time is more than so many times the other side's, with their ratios, as a part of a sentence."""
    found = [(row, ratio.median) for row in pairs.rows() if (ratio := pairs.ratio(row, other)) and ratio.median > bound]
    return "; ".join(f"`{row}` ({two_places(ratio)})" for row, ratio in found) or "none"


def turned(pairs):
    """The rows that take longer than bdwgc and did not before, with what was then, by the medians of both."""
    found = []
    for row in pairs.rows():
        before, bdwgc, ratio = pairs.theirs(row, "before"), pairs.theirs(row, "bdwgc"), pairs.ratio(row, "bdwgc")
        if before and bdwgc and ratio.median > 1 and before <= bdwgc:
            found.append(f"`{row}` ({two_places(before / bdwgc)})")
    return "; ".join(found) or "none"


def said_of_rows(pairs):
    """Sentences that go stale with no run, since they are made of it."""
    parts = []
    if "bdwgc" in pairs.others():
        parts.append(f"Rows that take longer than bdwgc: {slower(pairs, 'bdwgc', 1)}.")
    if "before" in pairs.others():
        parts.append(f"Of these before took no longer than bdwgc: {turned(pairs)}.")
        parts.append(f"Rows that take more than 1.1 times what they took before: {slower(pairs, 'before', 1.1)}.")
    differ = [row for row in pairs.rows() if any(pairs.differ(row, other) for other in pairs.others(row))]
    parts += [f"Rows in which heaps did otherwise, and which compare nothing: {', '.join(differ)}."] * bool(differ)
    return "\n".join(parts)


def calls(pairs):
    """Each row of bench/run."""
    rows = []
    for row in sorted(pairs.rows()):
        ours, theirs, ratio = pairs.ours(row), pairs.theirs(row, "plain"), pairs.ratio(row, "plain")
        rows.append([f"`{row}`", nanoseconds(ours), nanoseconds(theirs), shown(ratio) if ratio else ""])
    return table(["Row", "Proved, ns", "Plain Rust, ns", "Ratio"], rows)


def nanoseconds(picoseconds):
    return "" if picoseconds is None else f"{picoseconds / 1000:,.2f}"


def spread(pairs):
    """How many rows of bench/run have which ratio, and those that are far off."""
    ratios = {row: ratio.median for row in sorted(pairs.rows()) if (ratio := pairs.ratio(row, "plain"))}
    near = sum(0.9 <= ratio <= 1.1 for ratio in ratios.values())
    fast = sum(ratio < 0.9 for ratio in ratios.values())
    far = "; ".join(f"`{row}` ({two_places(ratio)})" for row, ratio in ratios.items() if ratio > 1.1) or "none"
    return f"Of {len(ratios)} rows {near} take 0.9 to 1.1 of plain Rust's time, and {fast} less. More take: {far}."


def helpers(pairs):
    """The pause of the proved marker, whole: alone, by helpers, and the ratio of the last to the first."""
    rows = []
    for _, shape, count in pauses(pairs):
        sides = [f"pause_{shape}_{count}_by_{number}" for number in (0, 1, 2, 4)]
        costs = [pairs.ours(row) * count / 1e6 for row in sides]
        cells = [f"{cost:.1f} us" if cost < 100 else f"{cost:,.0f} us" for cost in costs]
        rows.append([f"{SHAPES[shape]} of {count:,} objects in all", *cells, two_places(costs[-1] / costs[0])])
    return table(["Work", "Alone", "1 helper", "2 helpers", "4 helpers", "Four to alone"], rows)


def instructions(lines):
    """The lines of bench/instructions: NAME N instructions, plain Rust N, ratio R."""
    rows = []
    for line in lines:
        words = line.replace(",", "").split()
        if len(words) == 8:
            rows.append([f"`{words[0]}`", words[1], words[5], words[7]])
    return table(["Row", "Proved", "Plain Rust", "Ratio"], rows)


CALLS = {
    "begin": "the beginning of a cycle, with one object and nothing to sweep",
    "finish": "its end",
    "sweep": "a sweep with nothing to sweep",
    "full": "a request for a page where none is free",
    "retrace": "the retrace of the last page",
}


def walks(lines):
    """The lines of bench/walks: CALL and instructions on four sizes."""
    rows = [[CALLS[words[0]], *(f"{int(word):,}" for word in words[1:])] for words in map(str.split, lines)]
    return table(["Call", "4 pages", "64", "1,024", "4,096"], rows)


def replays(lines):
    """The lines of bench/replays: N objects, LINES lines: T s, NS ns a line; anywhere T s, NS ns a line."""
    rows = []
    for line in lines:
        words = line.replace(",", "").replace(";", "").split()
        objects, count = int(words[0]), int(words[2])
        rows.append([f"{objects:,}", f"{count:,}", f"{words[4]} s", f"{words[6]} ns", f"{words[11]} s", f"{words[13]} ns"])
    return table(["Objects", "Lines", "With size classes", "a line", "Anywhere", "a line"], rows)


def said(lines):
    """The lines as they are."""
    return "\n".join(["```text", *lines, "```"])


def size(lines):
    """The line of the count: CODE DEFINITIONS PROOFS."""
    code, definitions, proofs = (int(word) for word in lines[0].split())
    return f"{code:,} lines of code with contracts, {definitions:,} of definitions and {proofs:,} of proofs."


# Each block of the page: the file of figures that it is of, and what it makes of its pairs, or of its lines.
OF_PAIRS = {"beside": ("beside", beside), "beside_said": ("beside", said_of_rows), "lines": ("lines", beside), "run_said": ("run", spread),
            "helpers": ("run", helpers)}
OF_LINES = {"walks": ("walks", walks), "instructions": ("instructions", instructions), "replays": ("replays", replays),
            "calls": ("calls", said), "size": ("size", size)}


def blocks(folder):
    """The blocks of which the folder has figures."""
    for makers, read in ((OF_PAIRS, Pairs), (OF_LINES, list)):
        for name, (file, make) in makers.items():
            if (folder / file).exists():
                yield name, make(read((folder / file).read_text().splitlines()))

"""The plots of docs/SPEED.md: bars, as SVG."""
from math import log2

from medians import two_places
from speed.rows import WHAT, in_unit, pauses

COLOURS = {"proved": "#0b6e4f", "independent": "#8a5a00", "bdwgc": "#5b3fa0", "before": "#767676"}
HELPERS = {1: "#0b6e4f", 2: "#8a5a00", 4: "#5b3fa0"}
WIDTH, HEIGHT, LEFT, BOTTOM, TOP = 640, 300, 20, 250, 50


def head(title, colours, line):
    """The frame, the line from which bars rise, and what each colour is."""
    parts = [
        f'<svg xmlns="http://www.w3.org/2000/svg" viewBox="0 0 {WIDTH} {HEIGHT}" font-family="sans-serif" font-size="12">',
        f'<rect width="{WIDTH}" height="{HEIGHT}" fill="#ffffff"/>',
        f'<text x="{LEFT}" y="20" font-size="14">{title}</text>',
        f'<line x1="{LEFT}" y1="{line:g}" x2="{WIDTH - LEFT}" y2="{line:g}" stroke="#444"/>',
    ]
    for number, (name, colour) in enumerate(colours.items()):
        x = LEFT + 110 * number
        parts.append(f'<rect x="{x}" y="28" width="10" height="10" fill="{colour}"/><text x="{x + 15}" y="37">{name}</text>')
    return parts


def bar(x, width, line, tall, colour, text):
    """A bar, below the line if it is negative, with its text at its end."""
    y, said_at = (line - tall, line - tall - 4) if tall >= 0 else (line, line - tall + 12)
    return [
        f'<rect x="{x:.1f}" y="{y:.1f}" width="{width - 4:.1f}" height="{abs(tall):.1f}" fill="{colour}"/>',
        f'<text x="{x + width / 2 - 2:.1f}" y="{said_at:.1f}" text-anchor="middle">{text}</text>',
    ]


def plot(title, colours, groups):
    """`groups` are (label, bars), and a bar of a name of `colours` is its height and its text."""
    if not groups:
        return "\n".join(head(f"{title}: not measured in this run", {}, BOTTOM) + ["</svg>", ""])
    heights = [0] + [tall for _, bars in groups for tall, _ in bars.values()]
    most, low = max(heights), min(heights)
    group = (WIDTH - 2 * LEFT) / len(groups)
    wide = min(40, (group - 20) / len(colours))
    below = 16 if low < 0 else 0
    span = BOTTOM - TOP - 20 - below
    line = BOTTOM - below + span * low / (most - low)
    parts = head(title, colours, line)
    for place, (label, bars) in enumerate(groups):
        start = LEFT + place * group + (group - wide * len(colours)) / 2
        for number, (name, colour) in enumerate(colours.items()):
            if name in bars:
                parts += bar(start + number * wide, wide, line, span * bars[name][0] / (most - low), colour, bars[name][1])
        parts.append(f'<text x="{LEFT + (place + 0.5) * group:.1f}" y="{BOTTOM + 18}" text-anchor="middle">{label}</text>')
    return "\n".join(parts + ["</svg>", ""])


def costs(pairs, row):
    """The time of each side in a row."""
    found = {"proved": pairs.ours(row), **{other: pairs.theirs(row, other) for other in COLOURS if other != "proved"}}
    return {side: cost for side, cost in found.items() if cost is not None}


def of_rows(pairs, title, points):
    """A plot of rows on all heaps: `points` are (label, row)."""
    known = [(label, row) for label, row in points if row in pairs.rows()]
    groups = [(label, {side: (cost / WHAT[row][1], in_unit(row, cost)) for side, cost in costs(pairs, row).items()}) for label, row in known]
    colours = {side: colour for side, colour in COLOURS.items() if any(side in bars for _, bars in groups)}
    return plot(title, colours, groups)


def of_helpers(pairs):
    """The pause by helpers, as a part of the pause alone, which is the line: each doubling has the same height."""
    groups = []
    for _, shape, count in pauses(pairs):
        ratios = {number: pairs.ours(f"pause_{shape}_{count}_by_{number}") / pairs.ours(f"pause_{shape}_{count}_by_0") for number in HELPERS}
        size = f"{count:,}" if count < 10_000 else f"{count // 1000}k"
        groups.append((f"{shape}, {size}", {named(number): (log2(ratio), two_places(ratio)) for number, ratio in ratios.items()}))
    colours = {named(number): colour for number, colour in HELPERS.items()}
    return plot("The pause by helpers as a part of the pause alone, which is the line", colours, groups)


def named(number):
    return f"{number} helper" if number == 1 else f"{number} helpers"


def all_of(beside, run):
    """The plots of bench/beside and of bench/run, by their names."""
    stores = [(f"{number} stores", f"pause_{number}") for number in (0, 10, 100, 1000)]
    sizes = [(f"{number} pages", f"alloc_on_{number}") for number in (64, 256, 1024, 4096)]
    yield "pause.svg", of_rows(beside, "The end of a cycle over 100,000 objects, microseconds", stores)
    yield "heap_size.svg", of_rows(beside, "An allocation of 1 to 40 words, cycles included, nanoseconds", sizes)
    yield "helpers.svg", of_helpers(run)

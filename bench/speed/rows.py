"""What a row of bench/beside or of bench/lines is, and by how much its nanoseconds are divided."""

WHAT = {
    "alloc_2": ("an allocation of 2 words", 1),
    "alloc_2_many": ("the same, 32 asked for at a time", 1),
    "alloc_1_to_40": ("an allocation of 1 to 40 words, of two kinds, with cycles", 1),
    "refill": ("an object of a full heap, one in eight of which stays, collected and allocated anew", 1),
    "full": ("a request that finds no room beside 1,024 pages that are still to be swept", 1000),
    "begin_pending": ("the beginning of a cycle beside these pages", 1000),
    "forget_and_sweep": ("an object forgotten and swept, one in eight of which stays", 1),
    "collect_10000": ("an object of a full collection of 10,000, all of which stay", 1),
    "collect_100000": ("an object of a full collection of 100,000", 1),
    "full_beside_1000_new": ("1,000 allocations of 2 words beside 100,000 old objects, one in ten of which stays, and a full collection", 1000),
    "partial_beside_1000_new": ("the same with a partial one", 1000),
    "pause_0": ("the end of a cycle over 100,000 objects, with nothing left to mark", 1000),
    "pause_10": ("the same behind 10 random stores", 1000),
    "pause_100": ("behind 100", 1000),
    "pause_1000": ("behind 1,000", 1000),
    "alloc_on_64": ("1 to 40 words on 64 pages, a third of them taken by a tree that stays", 1),
    "alloc_on_64_partial": ("the same, where the proved heap makes room by partial cycles as long as they free half of what a whole one does", 1),
    "alloc_as_large": ("with whole cycles on 471 pages, to which bdwgc's heap grows for it", 1),
    "alloc_on_256": ("on 256 pages", 1),
    "alloc_on_1024": ("on 1,024 pages", 1),
    "alloc_on_4096": ("on 4,096 pages", 1),
    "line_to_file": ("a line of a random script, each reply written to a file", 1),
    "line_to_null": ("the same with replies to /dev/null", 1),
    "line_gathered": ("to a file, beside a program that gathers its replies to 64 KB", 1),
}
SHAPES = {"lists": "64 lists", "tree": "a tree", "list": "a list"}


def in_unit(row, picoseconds):
    """`21.7`, in the unit of the row."""
    value = picoseconds / 1000 / WHAT[row][1]
    return f"{value:.1f}" if value < 100 else f"{value:,.0f}"


def timed(row, picoseconds):
    """`21.7 ns`."""
    return f"{in_unit(row, picoseconds)} {'ns' if WHAT[row][1] == 1 else 'us'}"


def pauses(pairs):
    """The shapes of the pauses by helpers with their numbers of objects, by shape and then by size."""
    found = [row.split("_") for row in pairs.rows() if row.startswith("pause_") and row.endswith("_by_0")]
    return sorted((list(SHAPES).index(words[1]), words[1], int(words[2])) for words in found if words[1] in SHAPES)

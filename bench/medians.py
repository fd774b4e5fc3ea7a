#!/usr/bin/env python3
"""bench/medians.py [--per N], with pairs on standard input

A pair is one measure of each of two sides, one taken right after the other. It is a line

    ROW OTHER NUMBER OURS THEIRS [OUR_ANSWER THEIR_ANSWER]

where OURS and THEIRS are numbers of one unit, or `-` where a row has only one side. What is printed for each row and other side, in the order
in which they come, with figures divided by N, 1 if it isn't said, is

    ROW: OURS, OTHER THEIRS, ratio MEDIAN (LEAST to GREATEST) of PAIRS

with the medians of both sides, and of the ratios of OURS to THEIRS in each pair. `answers differ` stands behind a row one of whose pairs had
two answers: its sides didn't do the same."""
import sys
from collections import namedtuple
from statistics import median

Pair = namedtuple("Pair", "number ours theirs answers")
Ratio = namedtuple("Ratio", "median least greatest pairs")


def number(word):
    return None if word == "-" else float(word)


def median_of(figures):
    known = [figure for figure in figures if figure is not None]
    return median(known) if known else None


def ratio_of(pairs):
    """The ratios of pairs of figures, or none where no pair has both."""
    ratios = [ours / theirs for ours, theirs in pairs if ours is not None and theirs]
    return Ratio(median(ratios), min(ratios), max(ratios), len(ratios)) if ratios else None


class Pairs:
    """The pairs of each row and other side, in the order of the lines."""

    def __init__(self, lines):
        self.of = {}
        for line in lines:
            row, other, count, ours, theirs, *answers = line.split()
            self.of.setdefault((row, other), []).append(Pair(int(count), number(ours), number(theirs), answers))

    def rows(self):
        return list(dict.fromkeys(row for row, _ in self.of))

    def others(self, row=None):
        return list(dict.fromkeys(other for of, other in self.of if row in (None, of)))

    def ours(self, row):
        """The median of our side, over all pairs of the row."""
        return median_of(pair.ours for (of, _), pairs in self.of.items() if of == row for pair in pairs)

    def theirs(self, row, other):
        return median_of(pair.theirs for pair in self.of.get((row, other), []))

    def ratio(self, row, other):
        return ratio_of((pair.ours, pair.theirs) for pair in self.of.get((row, other), []))

    def differ(self, row, other):
        return any(len(set(pair.answers)) > 1 for pair in self.of.get((row, other), []))


def shown(ratio):
    """`1.02 (0.98 to 1.10)`."""
    return f"{two_places(ratio.median)} ({two_places(ratio.least)} to {two_places(ratio.greatest)})"


def two_places(ratio):
    return f"{ratio:.2f}" if ratio < 10 else f"{ratio:.0f}"


def tell(pairs, per):
    for row, other in pairs.of:
        ours = median_of(pair.ours for pair in pairs.of[row, other])
        theirs, ratio = pairs.theirs(row, other), pairs.ratio(row, other)
        parts = [f"{ours / per:.2f}"] if ours is not None else []
        parts += [f"{other} {theirs / per:.2f}"] if theirs is not None else []
        parts += [f"ratio {shown(ratio)} of {ratio.pairs}"] if ratio else []
        print(f"{row}: " + ", ".join(parts + ["answers differ"] * pairs.differ(row, other)))


def main():
    words = sys.argv[1:]
    if words and (len(words) != 2 or words[0] != "--per" or not words[1].isdigit()):
        sys.exit(__doc__)
    tell(Pairs(sys.stdin), int(words[1]) if words else 1)


if __name__ == "__main__":
    main()

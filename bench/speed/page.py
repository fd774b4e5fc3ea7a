"""docs/SPEED.md between marks, and docs/speed/calls.md.

A block of the page stands between `<!-- figures: NAME -->` and `<!-- end -->`."""
import re
import sys

BLOCK = re.compile(r"(<!-- figures: (\w+) -->\n).*?(<!-- end -->)", re.DOTALL)
MISSING = "(not measured in this run)"


def write(path, made):
    """Puts what was made into the blocks of its names."""
    text = path.read_text()
    names = [found[2] for found in BLOCK.finditer(text)]
    if len(names) != text.count("<!-- figures: "):
        sys.exit(f"figures: a block of {path} has no end")
    unknown = sorted(set(made) - set(names))
    if unknown:
        sys.exit(f"figures: {path} has no block {', '.join(unknown)}")
    path.write_text(BLOCK.sub(lambda found: f"{found[1]}{made.get(found[2], MISSING)}\n{found[3]}", text))


def of_calls(about, table):
    return f"""# Calls beside plain Rust

All rows of `bench/run`, written by `bench/figures`: the medians of both sides' nanoseconds, and the median of the rounds' ratios with the
least and the greatest. [SPEED](../SPEED.md) says what a row is, and how to read them.

{about}

{table}
"""

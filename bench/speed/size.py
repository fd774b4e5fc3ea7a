"""How many lines the crates have, without tests, fixtures, worked examples and benchmarks."""

NOT_COUNTED = ("# examples", "# tests", "# bench")


def crates(top):
    """The crates of the other parts of crates.txt."""
    part, found = "", []
    for line in (top / "crates.txt").read_text().splitlines():
        if line.startswith("#"):
            part = line
        elif ":" in line and part not in NOT_COUNTED:
            found.append(line.replace(":", " ").split()[0])
    return found


def lines_in(top, pattern):
    """The lines of these files in each crate, but for blank ones and those that are comments alone."""
    files = (file for crate in crates(top) for file in (top / "crates" / crate).glob(pattern))
    texts = (line.strip() for file in files for line in file.read_text().splitlines())
    return sum(bool(text) and not text.startswith(("//", "--")) for text in texts)


def counted(top):
    """`CODE DEFINITIONS PROOFS`."""
    return " ".join(str(lines_in(top, pattern)) for pattern in ("src/**/*.rt", "specs/**/*.antt", "proofs/**/*.antt")) + "\n"

"""When, where and of what a run is."""
import datetime
import os
import platform
import subprocess
from pathlib import Path


def said_by(*words):
    ended = subprocess.run(words, capture_output=True, text=True)
    return ended.stdout.strip() if ended.returncode == 0 else ""


CODE = ("crates", "c", "include")


def commit(tree):
    """The commit that stands there, the last one that changed what is measured, and whether that has changed since."""
    here, code = (said_by("git", "-C", str(tree), "log", "-1", "--format=%h", "--abbrev=8", *paths) for paths in ((), ("--", *CODE)))
    changed = said_by("git", "-C", str(tree), "status", "--porcelain", "--", *CODE)
    return f"`{here}`" + (f", whose code is of `{code}`" if code != here else "") + (", with changes" if changed else "")


def processor():
    lines = said_by("lscpu").splitlines()
    return next((line.split(":", 1)[1].strip() for line in lines if line.startswith("Model name")), platform.machine())


def of_run(top, before, counts):
    """Sentences for the head of the page; `counts` are the parts with their pairs or rounds."""
    day = datetime.date.today()
    gc = said_by("dpkg-query", "-W", "-f", "${Version}", "libgc-dev").split("-")[0].split("+")[0].removeprefix("1:")
    parts = [
        f"Measured on {day.day} {day:%B %Y}: commit {commit(top)}" + (f"; *before* is commit {commit(Path(before))}." if before else "."),
        f"Machine: {processor()}, {os.cpu_count()} processors, Linux {platform.release()}.",
        f"Compilers of the other sides: {said_by('rustc', '--version')}; {said_by('cc', '--version').splitlines()[0]}" + (f"; bdwgc {gc}." if gc else "."),
        f"Pairs or rounds: {', '.join(counts)}.",
    ]
    note = os.environ.get("FIGURES_NOTE", "")
    return "\n".join(parts + [note] * bool(note)) + "\n"

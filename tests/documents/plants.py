"""Faults that the checker has to notice: in trees of one document, and, in the clone, a program that answers 2 while it is built."""
import contextlib
import io
import os
import shutil
import subprocess

from checker import Checker
from words import faults_of

# A document without a fault, which names, runs and compares.
GOOD = """# A tree
`docs/page.md` is there, and so is [this](docs/page.md).
```sh
echo one > out/first
cat out/first; exit 3    # status 3: `one`
printf 'a\\nb\\n'
```
| Line of the script | Reply |
|---|---|
| `first` | `a` |
| `second` | `b` |
```sh measures
sleep 1000
```
```text
no command
```
"""

# What is said of each fault, and the text that it puts in the place of another.
FAULTS = (
    ("command not found", "printf 'a", "prinft 'a"),
    ("README.md: docs/pages.md isn't there", "`docs/page.md`", "`docs/pages.md`"),
    ("README.md: docs/pages.md isn't there", "(docs/page.md)", "(docs/pages.md)"),
    ("status 1 in the place of 0", "printf 'a\\nb\\n'", "cat bdwgc.run"),
    ("status 3 in the place of 0", "# status 3: `one`", ""),
    ("no line begins with 'two'", "`one`", "`two`"),
    ("in the place of ['a', 'c']", "`b`", "`c`"),
    ("doesn't say what it is", "```text", "```"),
    ("the tree behind all commands: ?? first", "> out/first", "> out/first; echo > first"),
)


def plant(folder, home, text):
    """What the checker says of a tree of this document, with how many failures and commands that measure."""
    for name in ("docs", "out"):
        os.makedirs(os.path.join(folder, name))
    for name, words in (("README.md", text), ("docs/page.md", "A page.\n"), (".gitignore", "out/\n")):
        with open(os.path.join(folder, name), "w", encoding="utf-8") as file:
            file.write(words)
    subprocess.run("git init -q && git add -A && git -c user.name=gate -c user.email=gate@localhost commit -q -m tree", shell=True, cwd=folder, check=True)
    checker, said = Checker(folder, home), io.StringIO()
    with contextlib.redirect_stdout(said):
        checker.look_at("README.md")
        checker.look_at_tree()
    return said.getvalue(), checker.failed, checker.measures


def plant_all(judge, room):
    said, failed, measures = plant(os.path.join(room, "none"), room, GOOD)
    judge.judge("no fault is planted", "" if (failed, measures) == (0, 1) else f"{failed} failures, {measures} measure: {said}")
    for number, (wanted, old, new) in enumerate(FAULTS):
        assert GOOD.count(old) == 1, old
        said, failed, _ = plant(os.path.join(room, str(number)), room, GOOD.replace(old, new))
        judge.judge(f"planted: {new or old + ' is left out'}", "" if failed and wanted in said else f"not noticed: {said}")


# Of the words of ./mpheap: the file, what is said, and the text that is put in the place of another.
WORDS = (
    ("wrapper/table", "'./mpheap record --pages N FILE' is no form", "record; record --pages N FILE;", "recorded; record --pages N FILE;"),
    ("wrapper/table", "'--pages N' takes 1 to 4097", "--pages N; 1 4096 1;", "--pages N; 1 4097 1;"),
    ("wrapper/table", "its table lacks '--loud'", "    [--quiet];", "    [--loud]; ; says all\n    [--quiet];"),
    ("wrapper/table", "lacks './mpheap test WHAT'", "package; ;", "    WHAT; ; which\npackage; ;"),
    ("docs/SCRIPTS.md", "'--helpers H' takes 1 to 8", "1 to 8 |", "1 to 9 |"),
    ("docs/SCRIPTS.md", "no command has '--step K'", "| `--steps K`", "| `--step K`"),
    ("docs/REPLAY.md", "no form of wrapper/table", "[--why] [--json]", "[--how] [--json]"),
)


def plant_words(judge, top, folder, documents):
    for document in ("wrapper/table", *documents):
        os.makedirs(os.path.dirname(os.path.join(folder, document)), exist_ok=True)
        shutil.copy(os.path.join(top, document), os.path.join(folder, document))
    for name, wanted, old, new in WORDS:
        path = os.path.join(folder, name)
        with open(path, encoding="utf-8") as file:
            text = file.read()
        assert old in text, old
        with open(path, "w", encoding="utf-8") as file:
            file.write(text.replace(old, new))
        said = "; ".join(faults_of(folder, documents))
        judge.judge(f"planted: {new}", "" if wanted in said else f"not noticed: {said}")
        with open(path, "w", encoding="utf-8") as file:
            file.write(text)


def plant_answer(judge):
    """In the clone, where all is built: the program, which judges an empty file while it is built, answers 2. That is told as no failed proof."""
    with open(os.path.join(judge.top, "crates/mpheap/args"), "w", encoding="ascii") as file:
        file.write("replay\n--pages\n1\n/dev/null\n")
    status, out, said = judge.call("rm -r crates/mpheap/out && ./mpheap build replay")
    is_noticed = status == 3 and "mpheap is proved and built, but runs otherwise" in said and "ended with status 2" in said and "mpheap: not proved" not in said
    judge.judge("planted: a program that answers 2 while it is built", "" if is_noticed else f"not noticed: status {status}: {out}{said}")

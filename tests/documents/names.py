"""Which files a document names that aren't there: in links, and in backquotes by a path from the top or from its folder."""
import glob
import os
import re

# What the commands make, and no file of the repository.
MADE = ("out/", "crates/NAME", "tests/gc/planted/NAME")


def names_in(text):
    prose = re.sub(r"(?ms)^```.*?^```$", "", text)
    links = [link.split("#")[0] for link in re.findall(r"\]\(([^)\s]+)\)", prose) if "://" not in link]
    words = [word for quoted in re.findall(r"`([^`]+)`", prose) for word in quoted.split()]
    return [link for link in links if link], words


def is_there(top, name):
    return bool(glob.glob(os.path.join(top, name)))


def missing_in(top, document):
    """The names in a document of files that aren't there."""
    with open(os.path.join(top, document), encoding="utf-8") as file:
        links, words = names_in(file.read())
    folders = [name for name in os.listdir(top) if os.path.isdir(os.path.join(top, name)) and not name.startswith(".")]
    paths = [word.removeprefix("./") for word in words]
    paths = [path for path in paths if re.fullmatch(r"[\w./*-]+", path) and path.split("/")[0] in folders and "/" in path]
    beside = os.path.dirname(os.path.join(top, document))
    paths = [path for path in paths if not path.startswith(MADE) and "/out/" not in path]
    return [path for path in paths if not is_there(top, path) and not is_there(beside, path)] + [link for link in links if not is_there(beside, link)]

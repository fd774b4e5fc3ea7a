"""Runs a command of the program on many files. Which build runs is said in tests/builds.sh."""
import os
import subprocess

TOP = os.path.dirname(os.path.dirname(os.path.dirname(os.path.abspath(__file__))))
BUILD = os.environ.get("MPHEAP_PROGRAM") or f"{TOP}/crates/mpheap/out/mpheap"


def run_all(command, files, room):
    """What the command prints of each text, and the status with which it ends; `files` has pages and text by a name of letters, digits and _."""
    os.makedirs(room)
    answers = {}
    for name, (pages, text) in files.items():
        with open(f"{room}/{name}", "w", encoding="ascii") as file:
            file.write(text)
        done = subprocess.run([BUILD, command, "--pages", str(pages), f"{room}/{name}"], stdin=subprocess.DEVNULL, capture_output=True, text=True, check=False)
        answers[name] = done.stdout.splitlines(), done.returncode
    return answers

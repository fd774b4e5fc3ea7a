"""Runs the commands of documents in a tree, one after another, and looks at what stands beside them."""
import os
import re
import shutil
import subprocess
import tempfile

from blocks import beside, blocks_of
from names import missing_in

KINDS = ("sh", "text", "rust")


class Checker:
    def __init__(self, top, home):
        self.top, self.passed, self.failed, self.left_out, self.measures = top, 0, 0, 0, 0
        own = {name: word for name, word in os.environ.items() if not name.startswith("MPHEAP")}
        # The commands have a home of their own. What rustup keeps in the old one is found by its own names.
        kept = {name: os.path.expanduser(folder) for name, folder in (("RUSTUP_HOME", "~/.rustup"), ("CARGO_HOME", "~/.cargo"))}
        self.environment = {**kept, **own, "HOME": home}

    def judge(self, what, fault):
        """Counts one thing that a document says, which is so unless there is a fault."""
        self.passed, self.failed = self.passed + (not fault), self.failed + bool(fault)
        if fault:
            print(f"documents: {what}: {fault}", flush=True)

    def call(self, command):
        with tempfile.TemporaryFile("w+", errors="replace") as said:
            done = subprocess.run(["bash", "-c", command], cwd=self.top, env=self.environment, stdin=subprocess.DEVNULL,
                                  stdout=subprocess.PIPE, stderr=said, text=True, errors="replace", check=False)
            said.seek(0)
            return done.returncode, done.stdout, said.read()

    def has(self, need):
        """Whether the machine has a program, or a library by its name for the linker."""
        if not need.startswith("-l"):
            return shutil.which(need, path=self.environment["PATH"]) is not None
        return self.call(f"echo 'int main(void) {{ return 0; }}' | cc -x c - {need} -o /dev/null")[0] == 0

    def run(self, where, command, table):
        status, reply = beside(command)
        print(f"documents: {where}: {command.split('  #')[0].strip()}", flush=True)
        ended, out, said = self.call(command)
        for line in out.splitlines():
            if re.match(r"left out: |.*\d+ passed, \d+ failed$", line):
                print(f"documents: {line}", flush=True)
        fault = ""
        if ended != status:
            fault = f"status {ended} in the place of {status}: {said[-1500:]}{out[-6000:]}"
        elif reply is not None and not any(line.startswith(reply) for line in out.splitlines()):
            fault = f"no line begins with {reply!r}: {out[-500:]!r}"
        elif table and out.splitlines() != table:
            fault = f"it prints {out.splitlines()} in the place of {table}"
        self.judge(where, fault)

    def look_at_block(self, block):
        where = f"{block.document}:{block.line}"
        commands = block.commands() if block.kind() == "sh" else []
        self.judge(where, "" if block.kind() in KINDS else f"the block doesn't say what it is: one of {', '.join(KINDS)}")
        lacking = [need for need in block.needs() if not self.has(need)]
        if not block.is_run():
            self.measures += len(commands)
        elif lacking:
            self.left_out += len(commands)
            print(f"documents: left out: {where}: {len(commands)} commands, for want of {' '.join(lacking)}", flush=True)
        else:
            for number, command in commands:
                last = number == commands[-1][0]
                self.run(f"{block.document}:{number}", command, block.table if last else [])

    def look_at(self, document):
        self.look_at_names(document)
        with open(os.path.join(self.top, document), encoding="utf-8") as file:
            blocks = blocks_of(document, file.read())
        for block in blocks:
            self.look_at_block(block)

    def look_at_names(self, document):
        self.judge(document, " ".join(f"{name} isn't there" for name in missing_in(self.top, document)))

    def look_at_tree(self):
        """What the commands wrote lies outside of the tree, or is ignored by git."""
        left = self.call("git status --porcelain")[1]
        self.judge("the tree behind all commands", re.sub(r"\s+", " ", left))

    def counts(self):
        return f"{self.passed} passed, {self.failed} failed"

"""Compares a program with these definitions on made cases.

    python3 compare.py PROGRAM KIND FIRST COUNT [FOLDER]

KIND is one of the kinds of `cases.py`.  Each case has a number, from FIRST on.
The files of a case on which the two differ are left in FOLDER.  At the end
the numbers of cases, commands, statuses and printed faults are told.
"""

import collections
import os
import random
import re
import shutil
import subprocess
import sys
import tempfile

from cases import KINDS
from members import read_members
from program import hashgraph
from storm import is_lawful

FAULTS = re.compile(
    rb"(?:refused|made none) ([a-z][a-z-]*)"
    rb"|hashgraph: (members: [a-z-]+|(?:proof|wire): row \d+ [a-z-]+|[a-z]+: [a-z-]+"
    rb"|event at \d+: [a-z-]+|script line \d+: [a-z0-9-]+|[a-z ]+)")


class Store:
    """Files in memory."""

    def __init__(self, files):
        self.files = files

    def read(self, name):
        """The bytes of a file."""
        if name not in self.files:
            raise FileNotFoundError(name)
        return self.files[name]

    def write(self, name, data):
        """Puts bytes into a file."""
        self.files[name] = data


def write_files(folder, files):
    """Writes all files of a case to a folder."""
    for name, data in files.items():
        with open(os.path.join(folder, name), "wb") as file:
            file.write(data)


def run_program(program, folder, words):
    """The status, both outputs and the journal after a run of the program."""
    done = subprocess.run([program] + words, cwd=folder, capture_output=True,
                          timeout=60)
    disk = os.path.join(folder, "disk")
    kept = None
    if os.path.exists(disk):
        with open(disk, "rb") as file:
            kept = file.read()
    return done.returncode, done.stdout, done.stderr, kept


class Comparison:
    """Runs cases and counts what they met."""

    def __init__(self, program, folder):
        self.program = os.path.abspath(program)
        self.folder = folder
        self.counts = collections.Counter()
        self.different = []

    def keep(self, title, files, words, ours, theirs):
        """Leaves the files and both answers of a difference."""
        self.different.append(title)
        folder = os.path.join(self.folder, title)
        os.makedirs(folder, exist_ok=True)
        write_files(folder, files)
        write_files(folder, {
            "words": " ".join(words).encode(),
            "definitions.out": ours[1], "definitions.err": ours[2],
            "program.out": theirs[1], "program.err": theirs[2],
            "status": f"definitions {ours[0]} program {theirs[0]}\n".encode(),
            "definitions.disk": ours[3] or b"", "program.disk": theirs[3] or b""})

    def count(self, words, result):
        """Counts a command's status and the faults that it printed."""
        self.counts["commands"] += 1
        command = words[0] if words else "none"
        self.counts[f"{command} status {result[0]}"] += 1
        for found in FAULTS.finditer(result[1] + result[2]):
            text = (found[1] or found[2]).decode()
            self.counts["fault " + re.sub(r" \d+", "", text)] += 1

    def lawful(self, files, words, out):
        """The program's own output where a storm may print it."""
        self.counts["storms of several outcomes"] += 1
        members = read_members(files["members"])
        turns = int(words[words.index("--turns") + 1])
        return out if is_lawful(members, turns, out.decode()) else b"unlawful"

    def command(self, title, folder, files, words):
        """Runs one command in both ways; False where they differ."""
        write_files(folder, files)
        before = dict(files)
        ours = hashgraph(words, Store(files))
        ours += (files.get("disk"),)
        theirs = run_program(self.program, folder, words)
        if ours[1] is None:
            ours = (0, self.lawful(files, words, theirs[1])) + ours[2:]
        self.count(words, ours)
        if ours != theirs:
            self.keep(title, before, words, ours, theirs)
        return ours == theirs, ours[1]

    def case(self, kind, number):
        """Runs one case up to its first difference."""
        rng = random.Random(f"{kind} {number}")
        files = {}
        case = KINDS[kind](rng, files)
        self.counts[f"cases of {kind}"] += 1
        with tempfile.TemporaryDirectory() as folder:
            words = next(case, None)
            step = 0
            while words is not None:
                title = f"{kind}-{number}-{step}"
                same, out = self.command(title, folder, files, words)
                if not same:
                    return
                try:
                    words = case.send(out)
                except StopIteration:
                    return
                step += 1


def main():
    """Compares, and tells the counts; status 1 where something differs."""
    program, kind, first, count = sys.argv[1:5]
    folder = sys.argv[5] if len(sys.argv) > 5 else "differences"
    shutil.rmtree(folder, ignore_errors=True)
    comparison = Comparison(program, folder)
    for number in range(int(first), int(first) + int(count)):
        comparison.case(kind, number)
    for name, value in sorted(comparison.counts.items()):
        print(f"{value:8} {name}")
    for title in comparison.different:
        print("different:", title)
    sys.exit(bool(comparison.different))


if __name__ == "__main__":
    main()

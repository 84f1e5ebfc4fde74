"""A run of the built program, or of another that takes the same words, over two files."""

import argparse
import os
import subprocess
from collections import namedtuple

ROOT = os.path.dirname(os.path.dirname(os.path.dirname(os.path.abspath(__file__))))
PROGRAM = os.path.join(ROOT, "crates", "hg_cli", "out", "hg_cli")
SECONDS_MOST = 120

# The status, below 0 where a signal ended the run or it did not end in time, and what was written.
Outcome = namedtuple("Outcome", "status out err")


def put_file(folder, name, content):
    with open(os.path.join(folder, name), "wb") as file:
        file.write(content if isinstance(content, bytes) else content.encode())


def put_files(folder, members, script):
    put_file(folder, "members.toml", members)
    put_file(folder, "script.txt", script)


def run(program, folder, *words, environment=None, seconds=SECONDS_MOST):
    """What the program comes to with these words behind its name, in so many seconds."""
    try:
        done = subprocess.run([program, *words], cwd=folder, stdin=subprocess.DEVNULL, capture_output=True, check=False,
                              timeout=seconds, env=environment)
    except subprocess.TimeoutExpired:
        return Outcome(-1, b"", b"no end in time")
    return Outcome(done.returncode, done.stdout, done.stderr)


def play(program, folder, workers=0, **how):
    """A run over the files that `put_files` put into the folder."""
    words = ["run", "--members", "members.toml", "--script", "script.txt"]
    return run(program, folder, *words, *(["--workers", str(workers)] if workers else []), **how)


def options(text):
    """A reader of words with what all scripts take; `text` says what the script does."""
    parser = argparse.ArgumentParser(description=text, formatter_class=argparse.RawDescriptionHelpFormatter)
    parser.add_argument("--program", default=PROGRAM, type=os.path.abspath, metavar="FILE")
    return parser


def other_outcome(program, folder):
    """What another program comes to; one that takes more events by itself is told the limit."""
    return play(program, folder, environment=dict(os.environ, HG_LIMIT="1048576"))

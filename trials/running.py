"""A folder with files to work on, and runs of a program there: with streams closed, under limits, or with a call that fails."""

import os
import resource
import shutil
import signal
import subprocess
import sys
from collections import namedtuple

ROOT = os.path.dirname(os.path.dirname(os.path.realpath(__file__)))

from keeping.events import Member, member_file, name_of, spelled  # noqa: E402
from keeping.reader import read  # noqa: E402

MEMBERS, EVENTS, JOURNAL, CALLS = "kept.toml", "events.bin", "journal", "calls"
# The node that is kept is the first member's. The others make events: two of three, no supermajority, so no fame is decided.
GROUP = [Member(name, name.encode() * 16, 1) for name in ("O", "A", "B")]
OWN, MAKERS = 0, (1, 2)
SECONDS_MOST = 60
# The status, below 0 where a signal ended the run, and what was written.
Outcome = namedtuple("Outcome", "status out err")
# One of the calls that trials/calls.c notes: its kind ("read", "write", "fsync", "thread"), its answer, the name of its file.
Call = namedtuple("Call", "kind answer file")


class Differs(Exception):
    """A sentence in which the program does not agree with the documents."""


class Skipped(Exception):
    """Why something cannot be tried here."""


def need(holds, sentence):
    if not holds:
        raise Differs(sentence)


def made_events(count):
    """The bytes of so many events, which the makers make by turns, each on the last one of the other."""
    events, last = [], {}
    for at in range(count):
        maker, other = MAKERS[at % 2], MAKERS[(at + 1) % 2]
        parents = (last[maker], last[other]) if maker in last else ()
        events.append(spelled(GROUP, maker, parents, at))
        last[maker] = name_of(events[-1])
    return events


def keep_words(disk=JOURNAL, events=EVENTS):
    return ["keep", "--members", MEMBERS, "--events", events, "--own", GROUP[OWN].name, "--disk", disk]


class Room:
    """A folder, the program that works there, and maybe `relay`."""

    def __init__(self, folder, program, relay=None):
        self.folder, self.program, self.relay, self.runs = folder, program, relay, 0
        self.put(MEMBERS, member_file(GROUP).encode())
        self.put(EVENTS, b"")
        os.mkdir(self.path("folder"))

    def path(self, file):
        return os.path.join(self.folder, file)

    def put(self, file, content):
        """The file has just these bytes; it is not there for None."""
        if content is not None:
            with open(self.path(file), "wb") as held:
                held.write(content)
        elif os.path.exists(self.path(file)):
            os.remove(self.path(file))

    def put_long(self, file, size):
        """The file has so many bytes, all 0."""
        self.put(file, b"")
        os.truncate(self.path(file), size)

    def bytes(self, file):
        """None where it is not there."""
        if not os.path.exists(self.path(file)):
            return None
        with open(self.path(file), "rb") as held:
            return held.read()

    def run(self, words, program=None, closed=(), out=None, err=None, given=b"", limits=(), environment=None):
        """What a run comes to with these words, a text or a list. Standard streams of these numbers are closed; output and
        error go to files of these names, if any; `given` is the input; limits are of resources, each with its most."""

        def prepare():
            signal.signal(signal.SIGXFSZ, signal.SIG_IGN)
            for kind, most in limits:
                resource.setrlimit(kind, (most, most))
            for number in closed:
                os.close(number)

        self.runs += 1
        words = words.split() if isinstance(words, str) else words
        with open(out or os.devnull, "wb") as to_out, open(err or os.devnull, "wb") as to_err:
            with subprocess.Popen([program or self.program, *words], cwd=self.folder, stdin=subprocess.PIPE,
                                  stdout=to_out if out else subprocess.PIPE, stderr=to_err if err else subprocess.PIPE,
                                  preexec_fn=prepare, env={**os.environ, **(environment or {})}) as child:
                try:
                    told = child.communicate(given, SECONDS_MOST)
                except subprocess.TimeoutExpired:
                    child.kill()
                    raise Differs(f"{words}: no end in time") from None
        return Outcome(child.returncode, *(text or b"" for text in told))

    def keep(self, *words, disk=JOURNAL, **how):
        """A run of `keep` with the event file as it is."""
        return self.run([*keep_words(disk), *words], **how)

    def left(self, file=JOURNAL):
        """The events in a file, which has to be a journal, or none yet."""
        journal = read(self.bytes(file) or b"", GROUP, OWN)
        need(journal.word in ("anew", "read"), f"it left a journal that is {journal.word} {journal.at}")
        return [record.body for record in journal.records]

    def opens(self, file=JOURNAL):
        """The events in a file, which the program has to open."""
        events = self.left(file)
        self.put(EVENTS, b"")
        ended = self.keep(disk=file)
        need(ended.status == 0 and ended.out.startswith(b"opened %d\n" % len(events)), f"{ended}, of {len(events)} events in it")
        need(self.left(file) == events, "a run with no events changed the journal")
        return events


class Noted:
    """Runs with trials/calls.c preloaded."""

    def __init__(self, room):
        compiler = next(filter(None, map(shutil.which, ("cc", "gcc", "clang"))), None)
        if compiler is None:
            raise Skipped("there is no C compiler")
        self.room, self.library = room, room.path("calls.so")
        source = os.path.join(ROOT, "trials", "calls.c")
        subprocess.run([compiler, "-shared", "-fPIC", "-O1", "-o", self.library, source, "-ldl"], check=True)

    def run(self, words, fails=""):
        """What a run comes to where this call fails, and its calls."""
        environment = {"LD_PRELOAD": self.library, "CALLS_LOG": self.room.path(CALLS), "CALLS_FAIL": fails}
        ended = self.room.run(words, environment=environment)
        notes = [line.split(" ", 2) for line in self.room.bytes(CALLS).decode().splitlines()]
        return ended, [Call(kind, int(answer), os.path.basename(path)) for kind, answer, path in notes]

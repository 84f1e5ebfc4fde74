"""A script played by the plain procedures of bin/drawing, apart from the program."""

import os

from drawing.events import Members
from drawing.play import Play


def plain_play(folder):
    """The files of the folder played. The plain procedures end the process where what must hold of them does not."""
    with open(os.path.join(folder, "script.txt"), "rb") as file:
        lines = file.read().split(b"\n")
    try:
        return Play(Members(os.path.join(folder, "members.toml")), [line.removesuffix(b"\r").decode() for line in lines])
    except SystemExit as why:
        raise ValueError(f"the plain procedures: {why}") from why


def plain_report(played):
    return "".join(text + "\n" for _, text in played.report).encode()


def report_of(folder):
    return plain_report(plain_play(folder))

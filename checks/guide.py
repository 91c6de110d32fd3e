"""Runs the sessions of docs/GUIDE.md and docs/PROTOCOL.md against the built program: each command must be answered as they say. A session is held
over a copy of its script, one that is marked `again` over what the one before it saved, and one that is marked `room` is of several seats. What
README.md shows of sheets must be printed so."""

import pathlib
import re
import shutil
import subprocess
import sys
import tempfile
import textwrap

from program import PROGRAM, TOP, faults_of
from report import tell


def sessions():
    guide = "".join((TOP / "docs" / name).read_text() for name in ("GUIDE.md", "PROTOCOL.md"))
    for mark, script, body in re.findall(r"```(session|again|room) (\S+)\n(.*?)```", guide, re.S):
        lines = body.splitlines()
        yield mark, script, [line[2:] for line in lines if line.startswith("> ")], [line[2:] for line in lines if line.startswith("< ")]


def faults_in(folder):
    for mark, script, commands, replies in sessions():
        if mark != "again":
            shutil.copy(TOP / script, folder / "script")
            (folder / "script.desk").unlink(missing_ok=True)
        yield from faults_of(script, folder, "room" if mark == "room" else "desk", commands, replies)


def printed(script):
    return subprocess.run([PROGRAM, "print"], input=script.encode(), capture_output=True).stdout.decode()


def pictures():
    """The sheet of a script, and the end of a page with the begin of the next, where the form feed is an empty line."""
    readme = (TOP / "README.md").read_text()
    script = textwrap.dedent(re.search(r"^This script\n(.*)^is this sheet", readme, re.S | re.M)[1]).strip("\n")
    sheet, turn = re.findall(r"```\n(.*?)```", readme, re.S)
    if printed(f"{script}\n") != f"{sheet}\f":
        yield "README.md shows another sheet than its script has"
    if turn not in printed((TOP / "examples/the-last-broadcast.fountain").read_text()).replace("\f", "\n"):
        yield "README.md shows other rows than examples/the-last-broadcast.fountain has"


def faults():
    with tempfile.TemporaryDirectory() as folder:
        return [*faults_in(pathlib.Path(folder)), *pictures()]


def main():
    if not PROGRAM.exists():
        return tell("guide", "no session was run", ["the program isn't built"])
    return tell("guide", f"{len(list(sessions()))} sessions and 2 pictures", faults())


if __name__ == "__main__":
    sys.exit(main())

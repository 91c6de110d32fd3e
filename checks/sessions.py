"""Runs the sessions of checks/sessions/ against the built program: each command must be answered as it is written there.

A session begins with a line `# TITLE`; then come the lines of its script behind `| `, and commands behind `> ` with their replies
behind `< `. The replies were worked out from the rules apart from this program.
"""

import pathlib
import re
import sys
import tempfile

from program import PROGRAM, TOP, faults_of
from report import tell


def sessions():
    for path in sorted((TOP / "checks/sessions").glob("*.session")):
        for part in re.split(r"^# ", path.read_text(), flags=re.M)[1:]:
            title, *lines = part.splitlines()
            told = {mark: [line[2:] for line in lines if line.startswith(mark)] for mark in "|><"}
            yield title, told["|"], told[">"], told["<"]


def faults():
    for title, script, commands, replies in sessions():
        with tempfile.TemporaryDirectory() as folder:
            (pathlib.Path(folder) / "script").write_text("".join(f"{line}\n" for line in script))
            yield from faults_of(title, folder, "desk", commands, replies)


def main():
    if not PROGRAM.exists():
        return tell("sessions", "none was run", ["the program isn't built"])
    return tell("sessions", f"{len(list(sessions()))} were run", list(faults()))


if __name__ == "__main__":
    sys.exit(main())

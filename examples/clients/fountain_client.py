#!/usr/bin/env python3
"""A client of `fountain desk` that keeps a copy of the text in step; docs/PROTOCOL.md says by which rules.

    fountain_client.py FILE COPY      asks the commands of standard input, tells their replies, and writes the text that it kept to COPY

As a module it gives `Desk`, which asks the program, and `Text`, the lines of a script."""

import json
import pathlib
import re
import shutil
import subprocess
import sys

# What ends a line of a script, and what is dropped from each line: control characters but the tab, and U+FEFF.
LINE_END = re.compile("\r\n|\r|\n")
DROPPED = re.compile("[\x00-\x08\x0a-\x1f\x7f-\x9f\ufeff]")
EDITS = ("replace", "splice")
# After these nothing can be undone, nor made again.
FORGET = ("lock_scenes", "lock_pages", "next_round", "speakers", "paper")
CHANGES = (*EDITS, "undo", "redo", *FORGET)


def find_program():
    """The program of this repository, of the same PREFIX, or on the path; none where it isn't there."""
    here = pathlib.Path(__file__).resolve().parent
    places = here / "../../run", *(folder / "bin/fountain" for folder in here.parents), "fountain"
    return next((str(place) for place in places if shutil.which(place)), None)


def lines_of(script):
    """The lines of a script's bytes."""
    lines = LINE_END.split(script.decode())
    if not lines[-1]:
        lines.pop()
    return [DROPPED.sub("", line) for line in lines]


def text_of(lines):
    """The bytes of a script with these lines."""
    return "".join(f"{line}\n" for line in lines).encode()


class Text:
    """The lines of a script, and what its undos and redos bring back."""

    def __init__(self, lines):
        self.lines, self.done, self.undone = lines, [], []

    def change_of(self, command):
        """What a command does to the lines: a place, how many lines go there, and the lines that come. None where they stay."""
        if command["do"] == "replace":
            return command["first"], command["count"], [DROPPED.sub("", line) for line in command["lines"]]
        if command["do"] == "splice":
            line = self.lines[command["line"]].encode()
            text = line[: command["from"]] + DROPPED.sub("", command["text"]).encode() + line[command["to"] :]
            return command["line"], 1, [text.decode()]
        return {"undo": self.done, "redo": self.undone}.get(command["do"], [None])[-1]

    def follow(self, command):
        """Does what an accepted command did, and gives its change."""
        name, change = command["do"], self.change_of(command)
        if name in FORGET:
            self.done, self.undone = [], []
        if not change:
            return None
        first, count, lines = change
        back = first, len(lines), self.lines[first : first + count]
        self.lines[first : first + count] = lines
        if name in EDITS:
            self.undone = []
        elif name == "undo":
            self.done.pop()
        else:
            self.undone.pop()
        (self.undone if name == "undo" else self.done).append(back)
        return change


class Desk:
    """The program over a file, asked one line at a time, and the text that it has."""

    def __init__(self, file, form="desk", **how):
        program = find_program() or sys.exit(f"{pathlib.Path(sys.argv[0]).name}: fountain isn't on the path")
        self.file, self.words, self.how = file, [program, form, file], how
        script, self.is_open = self.read(), self.begin()
        # Where the file changed meanwhile, nobody knows which of the two texts the program has.
        while self.is_open and script != (script := self.read()):
            self.end()
            self.is_open = self.begin()
        self.text = Text(lines_of(script) if self.is_open else [])

    def read(self):
        try:
            return pathlib.Path(self.file).read_bytes()
        except OSError:
            return None

    def begin(self):
        """Whether the program opens the script: then it answers a line, be it an empty one."""
        self.program = subprocess.Popen(self.words, stdin=subprocess.PIPE, stdout=subprocess.PIPE, **self.how)
        return self.answer(b"\n") != b""

    def answer(self, line):
        """The reply to a line; an empty one where the session has ended."""
        try:
            self.program.stdin.write(line)
            self.program.stdin.flush()
        except BrokenPipeError:
            pass
        return self.program.stdout.readline()

    def ask_line(self, line):
        """The reply to a command line; what an accepted one did is done to the text too."""
        reply = self.answer(line)
        if reply and json.loads(reply).get("ok"):
            self.text.follow(json.loads(line))
        return reply

    def ask(self, command):
        return json.loads(self.ask_line(json.dumps(command).encode() + b"\n") or "null")

    def end(self):
        """The status of the program, once its input has ended."""
        self.program.communicate()
        return self.program.returncode


def main():
    if sys.argv[1:] == ["--help"]:
        print(__doc__)
        return 0
    if len(sys.argv) != 3:
        print("fountain_client.py: usage: fountain_client.py FILE COPY", file=sys.stderr)
        return 2
    file, copy = sys.argv[1:]
    desk = Desk(file)
    if not desk.is_open:
        return desk.end()
    for line in sys.stdin.buffer:
        sys.stdout.buffer.write(desk.ask_line(line.removesuffix(b"\n") + b"\n"))
        sys.stdout.flush()
    pathlib.Path(copy).write_bytes(text_of(desk.text.lines))
    return desk.end()


if __name__ == "__main__":
    sys.exit(main())

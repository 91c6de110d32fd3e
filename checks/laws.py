"""Holds random sessions of the built program against what any session keeps, whatever its commands are:

- after each command the labels, the sheets and the outline that the desk tells are those of `print` and `outline` over what it saves then;
- a refused command leaves all of it, the saved files included; so do questions and saves, since the commands alone are answered so too;
- an undo gives back the state before its edit, with ids and marks, a redo the one that the undo left, and undoing all the opening;
- a lock of pages and a new round leave the bytes of all sheets; no locked label is lost, and a locked scene stays with its line;
- a new session over what was saved goes on as the one session does.

    python3 checks/laws.py [FIRST COUNT]      the sessions with these seeds; 100 from 0 on where none are given
"""

import collections
import hashlib
import json
import os
import pathlib
import random
import subprocess
import sys
import tempfile

from program import LABELS, PROGRAM, REDO, SAVE, SECONDS, UNDO, Session, lines_of
from report import tell

EDITS = ("replace", "splice")
# What so many sessions have to meet.
MET = (*EDITS, "undo", "redo", "lock_scenes", "lock_pages", "next_round", "speakers", "paper", "refused PagesLocked", "refused Range")
MANY = 100
WORDS = "the lamp burns *low* and **nobody** in _the house_ has noticed, été 字幕 e\u0301 \\* that it is morning".split()
NAMES = ("ANNA", "BERT", "@McBan", "ANNA (V.O.)", "BERT (CONT'D)", "23", "ANNA ^", "BERT ^")
NUMBERS = ("", "", "", " #1#", " #5#", " #2A#", " #1-A#", " #0#")
PIECES = ("", "x", " ", "*", "/*", "*/", "[[", "]]", "^", "===", "!", ".", "\t", "é", "字", " TO:", "word. ", "(CONT'D)", "\x07")
BAD = (b"", b"{", b"[]", b"\xff", b'{"do":"fly"}', b'{"do":7}', b'{"do":"splice","line":0}', b'{"do":"sheet","index":-1}', b'{"do":"paper","size":"a5"}')


def words(rng, most):
    return " ".join(rng.choice(WORDS) for _ in range(rng.randint(1, most)))


def speech(rng):
    spoken = [rng.choice((words(rng, 12) + ".", "(softly)", "~la la", "  ")) for _ in range(rng.choice((1, 1, 2, 3, 20)))]
    return [rng.choice(NAMES), *spoken, ""]


MAKERS = (
    (5, lambda rng: [rng.choice((".A", ".B", "INT. ROOM - DAY", "EXT. STREET")) + rng.choice(NUMBERS), ""]),
    (5, lambda rng: ["!" + words(rng, 30) for _ in range(rng.randint(1, 3))] + [""]),
    (6, lambda rng: ["==="]),
    (5, speech),
    (1, lambda rng: [words(rng, 90), ""]),
    (1, lambda rng: [rng.choice(("> CUT TO:", "> c <", "~la", "# Act", "= Then.", "[[a note]]", "  ", "BOB", "FADE TO:"))]),
    (1, lambda rng: ["/*", words(rng, 5), "*/"]),
    (1, lambda rng: ["a [[b", "c]] d"]),
    (1, lambda rng: [rng.choice(("/*", "*/", "[[", "]]", "Title: X", "@", "")), ""]),
    (0.5, lambda rng: ["!row"] * rng.randint(40, 120)),
)


def block(rng):
    weights, makers = zip(*MAKERS)
    return rng.choices(makers, weights)[0](rng)


def script_of(rng):
    lines = ["Title: The Lamp", "Author: A. Writer", ""] if rng.random() < 0.2 else []
    for _ in range(rng.choice((0, 3, 6, 12))):
        lines += block(rng)
    return "".join(f"{line}\n" for line in lines)


def edit(rng, lines):
    """An edit of these lines; one in ten asks for what isn't there."""
    if rng.random() < 0.05:
        return {"do": "replace", "first": len(lines) + rng.randint(0, 1), "count": rng.randint(0, 1), "lines": ["x\ny"]}
    if lines and rng.random() < 0.5:
        at = rng.randrange(len(lines))
        places = [len(lines[at][:end].encode()) for end in range(len(lines[at]) + 1)]
        low, high = sorted((rng.choice(places), rng.choice(places)))
        if rng.random() < 0.1:
            high += 1
        return {"do": "splice", "line": at, "from": low, "to": rng.choice((low, high)), "text": rng.choice(PIECES)}
    first = rng.randint(0, len(lines))
    count = min(rng.choice((0, 0, 0, 1, 2, 5, 40)), len(lines) - first)
    return {"do": "replace", "first": first, "count": count, "lines": block(rng) if rng.random() < 0.8 else []}


def command_of(rng, state):
    """A command of any kind; a lock comes most often where it is the next that may be taken, and else too."""
    records = state.records
    locks = {"lock_scenes": 1 if records["scenes"] is not None else 8, "lock_pages": 8 if records["scenes"] is not None and records["pages"] is None else 1}
    weights = {"edit": 24, "undo": 8, "redo": 4, "next_round": 4, "speakers": 1, "paper": 1, "bad": 2, **locks}
    kind = rng.choices(list(weights), list(weights.values()))[0]
    if kind == "edit":
        return edit(rng, state.lines)
    if kind == "bad":
        return rng.choice(BAD)
    more = {"speakers": {"on": rng.random() < 0.5}, "paper": {"size": rng.choice(("letter", "a4"))}}
    return {"do": kind, **more.get(kind, {})}


class Kept(dict):
    """What a desk tells of its state, and the files that it saves."""

    @property
    def records(self):
        return json.loads(self["records"])

    @property
    def lines(self):
        return self["text"].split("\n")[:-1]


class Difference(Exception):
    pass


def same(what, found, expected):
    if found != expected:
        names = [name for name in expected if found.get(name) != expected[name]] if isinstance(expected, dict) else ""
        raise Difference(f"{what}: {names} {str(found)[:300]} in place of {str(expected)[:300]}")


class Watched:
    """A session that is asked for all that it tells after each command."""

    def __init__(self, folder, counts):
        self.folder, self.counts = folder, counts
        self.desk = Session(folder)
        self.commands, self.replies = [], []
        self.done, self.undone = [], []
        self.state = self.look()

    def look(self):
        """The present state, held against what the files open as."""
        labels = self.desk.ask(LABELS)["labels"]
        sheets = [self.desk.ask({"do": "sheet", "index": at}) for at in range(len(labels))]
        same("a sheet behind the last", self.desk.ask({"do": "sheet", "index": len(labels)}), {"no": "NoSheet"})
        same("the labels", [sheet["label"] for sheet in sheets], labels)
        outline = self.desk.ask({"do": "outline"})["outline"]
        saved = self.desk.ask(SAVE)
        text = (self.folder / "f").read_bytes()
        same("a save", saved, {"digest": hashlib.sha256(text).hexdigest(), "ok": True})
        printed = "".join(sheet["text"] for sheet in sheets)
        same("the sheets by print", run(self.folder, "print", "f"), (0, printed, ""))
        same("the outline", run(self.folder, "outline", "f"), (0, outline, ""))
        return Kept(labels=labels, sheets=printed, outline=outline, text=text.decode(), records=(self.folder / "f.desk").read_bytes())

    def ask(self, command):
        """Asks a command, and holds what comes of it against what it may change."""
        name = command["do"] if isinstance(command, dict) else ""
        before, reply = self.state, self.desk.ask(command)
        self.commands.append(command)
        self.replies.append(reply)
        self.state = self.look()
        if "no" in reply:
            self.counts["refused " + reply["no"]] += 1
            same(f"{command} is refused and leaves", self.state, before)
            same("what can be undone", reply["no"] == "NothingToUndo", name == "undo" and not self.done)
            same("what can be redone", reply["no"] == "NothingToRedo", name == "redo" and not self.undone)
            return
        self.counts[name] += 1
        if name in EDITS:
            self.done.append(before)
            self.undone = []
        elif name == "undo":
            same("an undo", self.state, self.done.pop())
            self.undone.append(before)
        elif name == "redo":
            same("a redo", self.state, self.undone.pop())
            self.done.append(before)
        else:
            self.done, self.undone = [], []
        if name in ("lock_pages", "next_round"):
            same(f"{name} and the sheets", self.state["sheets"], before["sheets"])
        self.keeps_labels(before)

    def keeps_labels(self, before):
        old, new = before.records, self.state.records
        for label, line in old["scenes"] or []:
            if [label, line] not in new["scenes"]:
                raise Difference(f"the locked scene {label} of line {line} is gone")
        gone = {page[0] for page in old["pages"] or []} - {page[0] for page in new["pages"] or []}
        if gone:
            raise Difference(f"the locked pages {gone} are gone")
        same("labels that stand twice", len(set(self.state["labels"]) - {""}), len([label for label in self.state["labels"] if label]))


def run(folder, *words, text=b""):
    ran = subprocess.run([PROGRAM, *words], cwd=folder, input=text, capture_output=True, timeout=SECONDS)
    return ran.returncode, ran.stdout.decode(), ran.stderr.decode()


def undo_and_redo_all(watched, opening):
    """Undoing all gives the opening, redoing all the state before, and what was redone can be undone again."""
    last, edits = watched.state, len(watched.done)
    for _ in range(edits):
        watched.ask(UNDO)
    if edits:
        same("all edits undone", watched.state, opening)
    watched.ask(UNDO)
    for _ in range(edits):
        watched.ask(REDO)
    same("all edits redone", watched.state, last)
    if edits:
        watched.ask(UNDO)
        watched.ask(REDO)


def go_on(rng, watched, folder):
    """A new session over what was saved is answered as the one that saved it, but for undoing what came before."""
    other = folder / "other"
    other.mkdir()
    for name in ("f", "f.desk"):
        (other / name).write_bytes((folder / name).read_bytes())
    watched.done, watched.undone = [], []
    new = Session(other)
    for _ in range(6):
        command = command_of(rng, watched.state)
        name = command["do"] if isinstance(command, dict) else ""
        if name == "undo" and not watched.done or name == "redo" and not watched.undone:
            continue
        watched.ask(command)
        same(f"{command} in a new session", new.ask(command), watched.replies[-1])
        same("what it saves", ["digest" in new.ask(SAVE)], [True])
        for file in ("f", "f.desk"):
            same(f"its {file}", (other / file).read_bytes(), (folder / file).read_bytes())
    same("a new session ends", new.end(), (0, ""))


def hold(seed, folder, counts):
    rng = random.Random(seed)
    script = script_of(rng)
    (folder / "f").write_text(script)
    watched = Watched(folder, counts)
    opening = watched.state
    for _ in range(rng.randint(4, 16)):
        watched.ask(command_of(rng, watched.state))
        if not watched.done and not watched.undone:
            opening = watched.state
    undo_and_redo_all(watched, opening)
    go_on(rng, watched, folder)
    same("it ends", watched.desk.end(), (0, ""))
    alone = folder / "alone"
    alone.mkdir()
    (alone / "f").write_text(script)
    status, out, said = run(alone, "desk", "f", text=lines_of(*watched.commands))
    same("the commands alone", (status, [json.loads(line) for line in out.splitlines()], said), (0, watched.replies, ""))
    same("they leave the files", sorted(os.listdir(alone)), ["f"])


def faults(first, count, counts):
    room = "/dev/shm" if os.access("/dev/shm", os.W_OK) else None
    for seed in range(first, first + count):
        with tempfile.TemporaryDirectory(dir=room) as folder:
            try:
                hold(seed, pathlib.Path(folder), counts)
            except (Difference, TypeError, KeyError, IndexError, BrokenPipeError) as difference:
                yield f"seed {seed}: {difference!r}"


def main():
    if not PROGRAM.exists():
        return tell("laws", "no session was held", ["the program isn't built"])
    first, count = map(int, sys.argv[1:]) if len(sys.argv) > 1 else (0, MANY)
    counts = collections.Counter()
    found = list(faults(first, count, counts))
    if count >= MANY:
        found += [f"no session met {name}" for name in MET if not counts[name]]
    met = ", ".join(f"{name} {number}" for name, number in sorted(counts.items()))
    return tell("laws", f"{count} sessions from seed {first}, {sum(counts.values())} commands ({met})", found)


if __name__ == "__main__":
    sys.exit(main())

"""Lets writers edit one script through scripts/fountain-share-room, and holds what comes of it against what a room keeps:

- two at once, each from what it saw last: each gets a reply to each of its lines, the versions rise one by one over both, and the edits
  that were accepted, asked again in their order, give the same text;
- three at once, each up to some versions behind, one of which is killed: the text that the relay tells, and those that the others kept by
  what it told them of each change, are the text that `save` stores;
- what it refuses, writers that send rubbish, read nothing or leave, sockets that somebody or nobody serves, and lines that are kept for
  saves."""

import importlib.machinery
import importlib.util
import json
import random
import shutil
import signal
import socket
import stat
import subprocess
import sys
import threading
import time

from program import PROGRAM, SECONDS, lines_of, scripts_in
from report import faults_by, tell

LINES = 40
EDITS = 150
FEW = 30
LATEST = 12
# What three writers have to have accepted.
LEAST = 60
PIECES = ("é", "字", "\t", "", "\ufeff", "x\x07", "\u2028")
SETTINGS = ({"do": "speakers", "on": False}, {"do": "paper", "size": "a4"}, {"do": "next_round"}, {"do": "lock_scenes"}, {"do": "labels"})
# A writer that edits until it is killed.
WRITER = """
import json, socket, sys
place, seat = sys.argv[1:]
with socket.socket(socket.AF_UNIX) as writer:
    writer.connect(place)
    replies = writer.makefile("rb")
    while True:
        writer.sendall(json.dumps({"do": "replace", "first": 3, "count": 0, "lines": ["!é"], "seat": seat, "seen": 0}).encode() + b"\\n")
        replies.readline()
"""


class Seat:
    """A writer with a connection of its own, and what it sent and got."""

    def __init__(self, place, name="anna"):
        self.name, self.version, self.said = name, 0, []
        self.socket = socket.socket(socket.AF_UNIX)
        self.socket.settimeout(SECONDS)
        self.socket.connect(str(place))
        self.replies = self.socket.makefile("rb")

    def send(self, line):
        self.socket.sendall(line)
        return json.loads(self.replies.readline() or "null")

    def ask(self, command):
        command = {**command, "seat": self.name}
        reply = self.send(lines_of(command))
        self.said.append((command, reply))
        return reply

    def write(self, rng):
        lines = LINES
        for _ in range(EDITS):
            if rng.random() < 0.1:
                command = {"do": rng.choice(("undo", "redo"))}
            else:
                first = rng.randrange(lines)
                command = {"do": "replace", "first": first, "count": rng.randrange(2), "lines": [f"!{rng.random()}"] * rng.randrange(3), "seen": self.version}
            reply = self.ask(command)
            if "lines" in reply:
                self.version, lines = reply["version"], max(1, reply["lines"])
            elif "version" in reply:
                self.version = reply["version"]


class Reader(Seat):
    """A writer that keeps the texts of the last versions, by what the relay tells of each change."""

    def __init__(self, place, name):
        super().__init__(place, name)
        told = self.send(lines_of({"do": "text"}))
        self.version, self.texts, self.alone = told["version"], [told["lines"]], True

    def catch_up(self):
        told = self.send(lines_of({"do": "since", "version": self.version}))
        for change in told["changes"]:
            text = list(self.texts[-1])
            text[change["first"] : change["first"] + change["count"]] = change["lines"]
            self.alone &= change["version"] == self.version + 1
            self.version = change["version"]
            self.texts = [*self.texts, text][-LATEST:]
        self.alone &= told["version"] == self.version

    def write(self, rng):
        for _ in range(EDITS):
            if rng.random() < 0.8:
                self.catch_up()
            behind = rng.randrange(len(self.texts))
            self.ask({**self.command(rng, self.texts[-1 - behind]), "seen": self.version - behind})
        self.catch_up()

    def command(self, rng, text):
        kind = rng.random()
        if kind < 0.2 or not text:
            return {"do": rng.choice(("undo", "redo"))}
        if kind < 0.25:
            return rng.choice(SETTINGS)
        first = rng.randrange(len(text))
        if kind < 0.6:
            end = len(text[first].encode())
            begin = rng.choice((0, end))
            return {"do": "splice", "line": first, "from": begin, "to": rng.choice((begin, end)), "text": rng.choice(PIECES)}
        lines = [f"!{rng.choice(PIECES)}{rng.random()}" for _ in range(rng.randrange(4))]
        return {"do": "replace", "first": first, "count": rng.randrange(min(4, len(text) - first)), "lines": lines}


class Share:
    """A script that is shared at a socket of a folder, until it is left."""

    def __init__(self, folder, lines=LINES, name="script", place="socket"):
        (folder / name).write_text("".join(f"!line {i}\n" for i in range(lines)))
        (folder / f"{name}.desk").unlink(missing_ok=True)
        self.place, self.script = folder / place, folder / name
        self.process = begin(folder, name, place)

    def __enter__(self):
        end = time.monotonic() + SECONDS
        while self.process.poll() is None and not is_open(self.place) and time.monotonic() < end:
            time.sleep(0.05)
        return self

    def __exit__(self, *_):
        if self.process.poll() is None:
            self.process.kill()
            self.process.wait()

    def seat(self, name="anna", kind=Seat):
        return kind(self.place, name)

    def saved(self):
        """The lines that a save stores now, and its reply."""
        reply = self.seat("last").ask({"do": "save"})
        return self.script.read_text().split("\n")[:-1], reply

    def end(self):
        self.process.terminate()
        return self.process.wait(SECONDS)


def is_open(place):
    try:
        Seat(place).socket.close()
        return True
    except OSError:
        return False


def begin(folder, *words):
    # Where a shell began this beside others interrupts are ignored, and would be by the relay too.
    how = {"stderr": subprocess.PIPE, "text": True, "preexec_fn": lambda: signal.signal(signal.SIGINT, signal.SIG_DFL)}
    return subprocess.Popen([scripts_in(folder) / "fountain-share-room", *words], cwd=folder, **how)


def at_once(*writers):
    threads = [threading.Thread(target=write, args=words) for write, *words in writers]
    for thread in threads:
        thread.start()
    for thread in threads:
        thread.join()


def await_writer(name, seat):
    """Waits until something of a writer is accepted."""
    end = time.monotonic() + SECONDS
    while time.monotonic() < end:
        told = seat.send(lines_of({"do": "since", "version": 0}))
        if "changes" not in told or any(change["seat"] == name for change in told["changes"]):
            break
        time.sleep(0.02)


def kill_soon(writer):
    time.sleep(0.2)
    writer.kill()
    writer.wait()


def asked_again(folder, said):
    """The text after the accepted commands of all seats, asked one after another."""
    taken = sorted((it for it in said if "lines" in it[1]), key=lambda it: it[1]["version"])
    versions = [reply["version"] for _, reply in taken]
    commands = [command for command, _ in taken] + [{"do": "save", "seat": "last"}]
    run = subprocess.run([PROGRAM, "room", "again"], input=lines_of(*commands), capture_output=True, cwd=folder)
    same = [json.loads(it) for it in run.stdout.splitlines()[:-1]] == [reply for _, reply in taken]
    return versions == list(range(1, len(versions) + 1)), same, (folder / "again").read_bytes()


def two_writers(folder):
    with Share(folder) as share:
        shutil.copy(folder / "script", folder / "again")
        seats = [share.seat(name) for name in ("anna", "bert")]
        at_once(*((seat.write, random.Random(seat.name)) for seat in seats))
        _, saved = share.saved()
        if not saved.get("ok"):
            yield f"the save is answered {saved}"
        for seat in seats:
            if len(seat.said) != EDITS:
                yield f"{seat.name} got {len(seat.said)} replies"
        in_order, same, text = asked_again(folder, [it for seat in seats for it in seat.said])
        if not in_order:
            yield "the versions of the accepted edits don't rise one by one"
        if not same or text != (folder / "script").read_bytes():
            yield "the accepted edits, asked again in order, come to something else"
        if share.end() or share.place.exists():
            yield f"fountain-share-room ends with {share.process.returncode}, and its socket {'stays' if share.place.exists() else 'is gone'}"


def three_writers(folder):
    """Two keep the text by what they are told, and write from what they saw some versions before; one writes until it is killed."""
    with Share(folder) as share:
        third = subprocess.Popen([sys.executable, "-c", WRITER, share.place, "carl"])
        await_writer("carl", share.seat("watch"))
        seats = [share.seat(name, Reader) for name in ("anna", "bert")]
        at_once(*((seat.write, random.Random(seat.name)) for seat in seats), (kill_soon, third))
        for seat in seats:
            at_once((seat.write, random.Random(seat.name + " alone")))
        seats[0].catch_up()
        text, saved = share.saved()
        told = seats[0].send(lines_of({"do": "text"}))
        if not saved.get("ok") or told != {"lines": text, "ok": True, "version": saved["version"]}:
            yield "the relay tells another text than `save` stores"
        for seat in seats:
            accepted = sum("lines" in reply for _, reply in seat.said)
            if seat.texts[-1] != text or not seat.alone:
                yield f"{seat.name} keeps another text than `save` stores"
            if accepted < LEAST:
                yield f"only {accepted} edits of {seat.name} were accepted"
        if told["version"] <= sum("lines" in reply for seat in seats for _, reply in seat.said):
            yield "the writer that was killed had nothing accepted"
        if share.end():
            yield f"fountain-share-room ends with {share.process.returncode}"


def told_changes(folder):
    """What is told of each kind of change, with a place that moved, and what is refused."""
    with Share(folder, 4) as share:
        anna, bert = share.seat("anna"), share.seat("bert")
        anna.ask({"do": "replace", "first": 0, "count": 0, "lines": ["one", "t\two\x07"], "seen": 0})
        bert.ask({"do": "splice", "line": 1, "from": 1, "to": 5, "text": "row", "seen": 0})
        bert.ask({"do": "undo"})
        bert.ask({"do": "redo"})
        bert.ask({"do": "replace", "first": 3, "count": 1, "lines": [], "seen": 0})
        expected = [
            {"count": 0, "do": "replace", "first": 0, "lines": ["one", "t\two"], "seat": "anna", "version": 1},
            {"count": 1, "do": "splice", "first": 3, "lines": ["!row 1"], "seat": "bert", "version": 2},
            {"count": 1, "do": "undo", "first": 3, "lines": ["!line 1"], "seat": "bert", "version": 3},
            {"count": 1, "do": "redo", "first": 3, "lines": ["!row 1"], "seat": "bert", "version": 4},
            {"count": 1, "do": "replace", "first": 5, "lines": [], "seat": "bert", "version": 5},
        ]
        for version in range(6):
            reply = anna.send(lines_of({"do": "since", "version": version}))
            if reply != {"changes": expected[version:], "ok": True, "version": 5}:
                yield f"what came since version {version} is told as {reply}"
        for version, refusal in (
            (6, {"no": "Ahead", "version": 5}), (-1, {"field": "version", "no": "BadField"}), (True, {"field": "version", "no": "BadField"}),
            (1.0, {"field": "version", "no": "BadField"}), (2**64, {"field": "version", "no": "BadField"}), (None, {"field": "version", "no": "BadField"}),
        ):
            reply = anna.send(lines_of({"do": "since", "version": version}))
            if reply != refusal:
                yield f"since {version} is answered {reply}"
        raw = b'\t{"version":9,"lines":[{}],"version":5,"do":"since"} \r\n'
        anna.socket.sendall(raw)
        if anna.replies.readline() != b'{"changes":[],"ok":true,"version":5}\n':
            yield "a line of another form isn't answered as the command that it is"
        for _ in range(1000):
            version = anna.ask({"do": "replace", "first": 0, "count": 1, "lines": ["!x"], "seen": 5 if anna.version < 6 else anna.version}).get("version")
            anna.version = version
        if anna.send(lines_of({"do": "since", "version": 4})) != {"no": "Stale", "version": 1005}:
            yield "what came since 1,001 versions isn't refused as Stale"
        if len(anna.send(lines_of({"do": "since", "version": 5})).get("changes", ())) != 1000:
            yield "what came since 1,000 versions isn't told"


def bad_writers(folder):
    """Rubbish is answered, a line that is too long cuts its writer off alone, and who reads nothing keeps nobody waiting."""
    with Share(folder) as share:
        anna = share.seat("anna")
        for line in (b"\n", b"\xff\x00\n", b"[" * 100_000 + b"\n", b"[1]\n", b'{"do":["text"]}\n', b'{"do":7}\n', b"9" * 10_000 + b"\n", b'"' + b"x" * 1_048_575 + b"\n"):
            if "no" not in (anna.send(line) or {}):
                yield f"{line[:20]} isn't refused"
        long, mute, left = (share.seat(name) for name in ("long", "mute", "left"))
        long.socket.sendall(b'"' + b"x" * 1_048_577)
        if long.replies.read():
            yield "a line that is too long is answered"
        mute.socket.settimeout(0.2)
        try:
            while True:
                mute.socket.sendall(lines_of({"do": "text"}) * 1000)
        except TimeoutError:
            pass
        left.socket.sendall(b'{"do":"text"}\n{"do":"undo","seat":"left"}\n{"do"')
        left.socket.setsockopt(socket.SOL_SOCKET, socket.SO_LINGER, b"\1\0\0\0\0\0\0\0")
        left.replies.close()
        left.socket.close()
        for at in range(FEW):
            if anna.ask({"do": "splice", "line": at, "from": 0, "to": 0, "text": "x", "seen": at}).get("version") != at + 1:
                yield "a writer isn't answered beside those that read nothing and leave"
        if share.end() or share.place.exists():
            yield f"beside a writer that reads nothing it ends with {share.process.returncode}"


def ended(folder, *words):
    """How a relay ends that refuses to begin."""
    process = begin(folder, *words)
    _, said = process.communicate(timeout=SECONDS)
    return process.returncode, said


def sockets(folder):
    with Share(folder) as share:
        refused = ended(folder, "script", "socket")
        if refused != (1, "fountain-share-room: socket is served by another\n") or not is_open(share.place):
            yield f"at a place that is served a second one ends with {refused}"
        share.seat().ask({"do": "replace", "first": 0, "count": 1, "lines": ["kept"], "seen": 0})
        share.saved()
        share.process.send_signal(signal.SIGKILL)
        share.process.wait()
        if not stat.S_ISSOCK(share.place.lstat().st_mode):
            yield "a relay that was killed leaves no socket"
    with Share(folder) as share:
        if share.seat().send(lines_of({"do": "text"}))["version"] != 0:
            yield "a socket that nobody serves isn't taken over"
        if share.end() or share.place.exists():
            yield f"behind a socket that was taken over it ends with {share.process.returncode}"
    (folder / "file").write_text("kept")
    (folder / "long").write_text("a\n\n" + "b" * 5000)
    (folder / "link").symlink_to("nowhere")
    for words, expected in (
        (("script", "file"), (1, "fountain-share-room: file is there, and is no socket\n")),
        (("script", "link"), (1, "fountain-share-room: link is there, and is no socket\n")),
        (("script", "nowhere/socket"), (1, "fountain-share-room: nowhere/socket: No such file or directory\n")),
        (("script", "x" * 200), (1, f"fountain-share-room: {'x' * 200}: AF_UNIX path too long\n")),
        (("script",), (2, "fountain-share-room: usage: fountain-share-room FILE SOCKET (--help tells more)\n")),
        (("script", ""), (2, "fountain-share-room: a socket wants a name\n")),
        (("nothing", "socket"), (3, "fountain-share-room: no file nothing\n")),
        (("long", "socket"), (4, "fountain-share-room: long: line 3 is too long\n")),
    ):
        if (found := ended(folder, *words)) != expected:
            yield f"fountain-share-room {' '.join(words)} ends with {found}"
    if share.place.exists() or (folder / "file").read_text() != "kept" or not (folder / "link").is_symlink():
        yield "a relay that refuses to begin leaves other files than it found"


def signals(folder):
    """Interrupted, ended, or left by its terminal it takes its socket away and leaves the script as it was saved."""
    for number in (signal.SIGINT, signal.SIGTERM, signal.SIGHUP):
        with Share(folder) as share:
            before = share.script.read_bytes()
            share.seat().ask({"do": "replace", "first": 0, "count": 1, "lines": ["lost"], "seen": 0})
            share.process.send_signal(number)
            _, said = share.process.communicate(timeout=SECONDS)
            if share.process.returncode or said or share.place.exists() or share.script.read_bytes() != before:
                yield f"by signal {number} it ends with {share.process.returncode} and tells {said!r}"


def kept_lines(folder):
    """The last lines that a room takes are kept for saves."""
    scripts = str(scripts_in(folder))
    loader = importlib.machinery.SourceFileLoader("share_room", f"{scripts}/fountain-share-room")
    sys.path.insert(0, scripts)
    module = importlib.util.module_from_spec(importlib.util.spec_from_loader("share_room", loader))
    loader.exec_module(module)
    module.KEPT_FOR_SAVES = module.COMMAND_LIMIT - 2
    (folder / "script").write_text("!a\n")
    room = module.Room(str(folder / "script"))
    edit = {"do": "replace", "first": 0, "count": 0, "lines": ["!b"], "seat": "a", "seen": 0}
    replies = [json.loads(room.reply_to(line)) for line in lines_of(edit, edit, edit, {"do": "save", "seat": "a"}, {"do": "text"}).splitlines(True)]
    status, _ = room.end()
    if ["ok" in reply for reply in replies] != [True, True, False, True, True] or replies[2] != {"no": "InputFull"} or status:
        yield f"with two lines left, and then saves alone, it tells {replies}"
    if (folder / "script").read_text() != "!b\n!b\n!a\n":
        yield "a save by the lines that are kept stores something else"


def main():
    if not PROGRAM.exists():
        return tell("room", "no room was shared", ["the program isn't built"])
    checks = (two_writers, three_writers, told_changes, bad_writers, sockets, signals, kept_lines)
    return tell("room", f"two and three writers with {EDITS} edits each, and {len(checks) - 2} checks more", faults_by(checks))


if __name__ == "__main__":
    sys.exit(main())

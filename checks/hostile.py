"""Runs the built program where the outside fails it: full disks, closed pipes, signals, folders and links under the name of a script,
files that may not be read or written, long names, a million commands, the largest record files, clients that send anything, editors that
write under a session, two sessions over one script. Each run has to end with its status and line, and no script, lock or reply may be lost.

What needs more than a user may do here, such as a small file system, is skipped, and said to be.
"""

import hashlib
import json
import os
import pathlib
import random
import resource
import shutil
import signal
import stat
import subprocess
import sys
import tempfile
import threading
import time

from program import LABELS, PROGRAM, SAVE, SECONDS, UNDO, Session, lines_of
from report import faults_by, tell

NOBODY = 65534
# The forms that open a script with its records.
FORMS = ("print", "outline", "desk", "html", "cast", "packet", "room")
REFUSED = {"no": "Shelf"}
# The name of a file that a store writes beside, but for its number.
BESIDE = ".fountain-saving-"
LINES = {
    0: "",
    2: "fountain: usage: print [FILE], outline FILE, desk FILE, sample N",
    5: "fountain: reading failed\n",
    6: "fountain: writing failed\n",
    7: "fountain: a file failed\n",
    9: "fountain: no memory\n",
    11: "fountain: too many commands\n",
}
HELLO = " " * 73 + "1.\n\n" + " " * 15 + "Hello.\n\f"


def digest(text):
    return hashlib.sha256(text).hexdigest()


def insert(first, *lines):
    return {"do": "replace", "first": first, "count": 0, "lines": list(lines)}


class Place:
    """A folder of a test's own, with a copy of the program that any user may run."""

    def __init__(self, folder):
        self.folder = pathlib.Path(tempfile.mkdtemp(dir=folder))
        self.folder.chmod(0o777)
        self.program = pathlib.Path(folder) / "fountain"

    def put(self, name, text=b"!Hello.\n"):
        path = self.folder / name
        path.write_bytes(text)
        return path

    def text(self, name):
        path = self.folder / name
        return path.read_bytes() if path.exists() else None

    def names(self):
        return sorted(path.name for path in self.folder.iterdir())

    def run(self, *words, text=b"", before=None, **more):
        """The status, what was written, and what was told, of the program with these words; `before` is done in its process first."""
        how = {"cwd": self.folder, "timeout": SECONDS, "preexec_fn": before, "stdout": subprocess.PIPE, "stderr": subprocess.PIPE, **more}
        if "stdin" not in how:
            how["input"] = text
        ran = subprocess.run(["fountain", *words], executable=self.program, **how)
        return ran.returncode, ran.stdout, (ran.stderr or b"").decode()

    def replies(self, *commands, words=("desk", "f"), **more):
        """The status of a session and its replies, as values."""
        status, out, said = self.run(*words, text=lines_of(*commands), **more)
        return status, [json.loads(line) for line in out.splitlines()], said

    def session(self, **how):
        return Session(self.folder, program=self.program, **how)


def differs(what, found, expected):
    if found != expected:
        yield f"{what}: {str(found)[:200]} in place of {str(expected)[:200]}"


def ends(what, ran, status, out=b""):
    """A run ended with this status and the line that tells it, and wrote this."""
    yield from differs(f"{what} ends", ran[0], status)
    yield from differs(f"{what} writes", ran[1], out)
    line = LINES[status]
    if not (ran[2].startswith(line) if status == 2 else ran[2] == line):
        yield f"{what} tells {ran[2]!r}"


def opens(what, place, labels, script="f"):
    """What stands under a name opens, and its sheets have these labels."""
    status, replies, said = place.replies(LABELS, words=("desk", script))
    yield from differs(f"{what}, opened again", (status, replies, said), (0, [{"labels": labels, "ok": True}], ""))


def limit(what, most):
    return lambda: resource.setrlimit(what, (most, most))


def small_files(most, ignored=True):
    """Before the program: no file may have more bytes, and what writes more fails, or is ended."""

    def before():
        signal.signal(signal.SIGXFSZ, signal.SIG_IGN if ignored else signal.SIG_DFL)
        resource.setrlimit(resource.RLIMIT_FSIZE, (most, most))

    return before


def as_nobody():
    """How a run is one of a user whom permissions bind; none where this is one."""
    return {"user": NOBODY, "group": NOBODY, "extra_groups": []} if os.geteuid() == 0 else {}


def feed(stream, data):
    try:
        stream.write(data)
        stream.flush()
    except BrokenPipeError:
        pass


# How runs end


def statuses(place):
    """Each status has its number and its line."""
    f = place.put("f", b"!Hello.")
    hello = HELLO.encode()
    yield from ends("print FILE", place.run("print", "f"), 0, hello)
    yield from ends("print", place.run("print", text=b"!Hello."), 0, hello)
    for words in ((), ("print", "f", "f"), ("desk",), ("--help",), ("print", b"\xff")):
        yield from ends(f"{words}", place.run(*words, text=b"!Hello."), 2)
    yield from ends("outline", place.run("outline", "f"), 0)
    yield from differs("a packet where pages aren't locked", place.run("packet", "f"), (14, b"", "fountain: pages are not locked\n"))
    told = [
        ("missing", None, 3, "fountain: no file f\n"),
        ("bytes that are no UTF-8", b"!a\xff", 4, "fountain: not UTF-8 at byte 2\n"),
        ("a long line", b"!\n" + b"a" * 4097, 4, "fountain: line 1 is too long\n"),
        ("a byte past the limit", (b"a" * 4095 + b"\n") * 4096 + b"\n", 4, "fountain: the text is too long\n"),
    ]
    for what, script, status, line in told:
        f.unlink(missing_ok=True)
        if script is not None:
            f.write_bytes(script)
        for form in FORMS:
            yield from differs(f"{form} of {what}", place.run(form, "f"), (status, b"", line))
        if script is not None:
            yield from differs(f"{what} by print", place.run("print", text=script), (status, b"", line))
    f.write_bytes(hello)
    for words, status, line in (
        (("collate", "gone", "f"), 3, "fountain: no file gone\n"),
        (("collate", "f", "gone"), 3, "fountain: no file gone\n"),
        (("collate", "f", "."), 7, LINES[7]),
        (("collate", "f", "bad"), 13, "fountain: not printed sheets, file 1 sheet 0\n"),
        (("collate", "bad", "f"), 13, "fountain: not printed sheets, file 0 sheet 0\n"),
        (("collate", "bad", "gone"), 3, "fountain: no file gone\n"),
    ):
        place.put("bad", b"no sheet")
        yield from differs(f"{words}", place.run(*words), (status, b"", line))
    yield from differs("a sheet collated with itself", place.run("collate", "f", "f"), (0, hello, ""))
    f.write_bytes((b"a" * 4095 + b"\n") * 4096)
    yield from differs("a file at the limit", place.run("outline", "f"), (0, b"", ""))


def record_statuses(place):
    place.put("f", b"!a\n")
    for records, line in (
        (b"", "fountain: bad records, rule 1\n"),
        (b"{}", "fountain: bad records, rule 2\n"),
        (b"\xff", "fountain: bad records, rule 1\n"),
    ):
        place.put("f.desk", records)
        for form in FORMS:
            yield from differs(f"{form} beside {records}", place.run(form, "f", text=lines_of(SAVE)), (8, b"", line))
    place.put("f", b"")
    (place.folder / "f.desk").unlink()
    place.run("desk", "f", text=lines_of(SAVE))
    kept = place.text("f.desk")
    place.put("f", b"hello\n")
    line = f"fountain: records are of another text, kept {digest(b'')}, found {digest(b'hello' + bytes([10]))}\n"
    yield from differs("records of another text", place.run("desk", "f", text=lines_of(SAVE)), (8, b"", line))
    yield from differs("they leave the files", (place.text("f"), place.text("f.desk")), (b"hello\n", kept))


def command_statuses(place):
    place.put("f", b"!a\n")
    long = b" " * 1_048_577
    replies = b'{"no":"BadJson"}\n'
    yield from differs("a long command", place.run("desk", "f", text=b"\n" + long + b"\n\n"), (10, replies, "fountain: command line 1 is too long\n"))
    yield from differs("a command at the limit", place.run("desk", "f", text=b"\n" + long[1:]), (0, replies * 2, ""))
    million = b"\n" * 1_000_000
    yield from ends("a million commands", place.run("desk", "f", text=million), 0, replies * 1_000_000)
    yield from ends("one more", place.run("desk", "f", text=million + b"\n"), 11, replies * 1_000_000)
    edits = lines_of({"do": "splice", "line": 0, "from": 1, "to": 1, "text": "b"}, UNDO) * 100_000
    edited = b'{"lines":1,"ok":true,"sheets":1}\n' * 200_000
    yield from ends("edits and undos", place.run("desk", "f", text=edits), 0, edited)


def records_of(text, lines, scenes):
    """The record file of a text of so many lines, half of which begin a locked page, with so many locked scenes."""
    records = {
        "digest": digest(text),
        "format": "fountain-desk",
        "ids": list(range(lines)),
        "marks": [0] * lines,
        "next": lines,
        "pages": [[f"{line}(100000)", line, 4095, 0] for line in range(lines // 2)],
        "round": 0,
        "scenes": [[f"{line}A", line] for line in range(scenes)],
        "settings": {"paper": "letter", "speakers": True},
        "version": 2,
    }
    return json.dumps(records, separators=(",", ":")).encode() + b"\n"


def largest_records(place):
    """The largest lists of records are read and saved as they are; a record more is refused."""
    text = b"x\n" * 200_000
    place.put("f", text)
    records = records_of(text, 200_000, 100_000)
    place.put("f.desk", records)
    reply = f'{{"digest":"{digest(text)}","ok":true}}\n'.encode()
    yield from differs("a save of the largest lists", place.run("desk", "f", text=lines_of(SAVE)), (0, reply, ""))
    yield from differs("its files are the same", (place.text("f") == text, place.text("f.desk") == records), (True, True))
    place.put("f.desk", records_of(text, 200_000, 100_001))
    yield from differs("a record more", place.run("desk", "f", text=lines_of(SAVE)), (8, b"", "fountain: bad records, rule 5\n"))


def long_files(place):
    """A file of sheets, or of records, of a byte more than it may have is refused as that; one of as many bytes is read."""
    place.put("f", b"")
    long = place.put("f.desk", b"")
    os.truncate(long, 268_435_457)
    yield from differs("records past their limit", place.run("print", "f"), (8, b"", "fountain: bad records, rule 1\n"))
    for old in ("f", "f.desk"):
        ran = place.run("collate", old, "f.desk")
        yield from differs(f"{old} collated with sheets past their limit", ran, (4, b"", "fountain: the text is too long\n"))
    os.truncate(long, 268_435_456)
    ran = place.run("collate", "f", "f.desk")
    yield from differs("sheets at their limit", ran, (13, b"", "fountain: not printed sheets, file 1 sheet 0\n"))


def old_versions(place):
    """In a room an edit over a version that is 1,001 behind is refused."""
    place.put("f", b"!a\n")
    splices = [{"do": "splice", "line": 0, "from": 1, "to": 1, "text": "", "seat": "q", "seen": seen} for seen in (*range(1001), 0)]
    replies = [{"lines": 1, "ok": True, "sheets": 1, "version": seen + 1} for seen in range(1001)]
    replies.append({"no": "Stale", "version": 1001})
    yield from differs("a room", place.replies(*splices, words=("room", "f")), (0, replies, ""))


def names_of_the_program(place):
    """The program's own name is no word."""
    how = {"cwd": place.folder, "input": b"!Hello.", "capture_output": True, "executable": place.program}
    for words, status in ((["print"], 2), (["print", "print"], 0), (["desk", "desk"], 2), (["", "print"], 0)):
        ran = subprocess.run(words, **how)
        yield from differs(f"called with {words}", ran.returncode, status)


def little_memory(place):
    """A machine without memory costs the run alone."""
    script = b"".join(b"!line %d\n\n" % at for at in range(99_000))
    place.put("f", script)
    for most in (16, 32):
        before = limit(resource.RLIMIT_AS, most << 20)
        yield from ends(f"print with {most} MiB", place.run("print", "f", before=before), 9)
    place.put("f", b"!a\n")
    saved = lines_of(insert(1, "!b"), {"do": "lock_scenes"}, {"do": "lock_pages"}, SAVE)
    text = json.dumps(insert(0, *["!line"] * 99_000)).encode() + b"\n"
    whole = place.run("desk", "f", text=saved + text * 2)[1]
    place.put("f", b"!a\n")
    (place.folder / "f.desk").unlink()
    ran = place.run("desk", "f", text=saved + text * 2, before=limit(resource.RLIMIT_AS, 24 << 20))
    yield from differs("a session with little memory ends", (ran[0], ran[2]), (9, LINES[9]))
    if not whole.startswith(ran[1]) or not ran[1].endswith(b"\n") or ran[1].count(b"\n") < 4:
        yield f"a session with little memory writes {ran[1][:200]}"
    yield from differs("what it saved", place.text("f"), b"!a\n!b\n")
    yield from opens("what it saved", place, ["1"])


# Streams


def full_output(place):
    place.put("f", b"!a\n" * 500)
    whole = place.run("print", "f")[1]
    place.put("sheets", whole)
    with open("/dev/full", "wb") as full:
        for words, text in ((("print", "f"), b""), (("print",), b"!a\n"), (("outline", "g"), b""), (("html", "g"), b""), (("collate", "sheets", "sheets"), b""), (("desk", "f"), lines_of(LABELS)), (("sample", "3"), b"")):
            place.put("g", b".A\n")
            ran = place.run(*words, text=text, stdout=full)
            yield from differs(f"{words[0]} to a full disk", (ran[0], ran[2]), (6, LINES[6]))
        place.put("f", b"!a\n")
        ran = place.run("desk", "f", text=lines_of(insert(0, "!b"), SAVE), stdout=full)
        yield from differs("a session to a full disk", (ran[0], place.text("f"), place.names()), (6, b"!a\n", ["f", "g", "sheets"]))
        ran = place.run("print", "missing", stderr=full)
        yield from differs("a full disk for the line", (ran[0], ran[1]), (3, b""))
    place.put("f", b"!a\n" * 500)
    with open(place.folder / "out", "w+b") as out:
        ran = place.run("print", "f", stdout=out, before=small_files(5000))
        out.seek(0)
        yield from differs("print into a small file", (ran[0], ran[2], out.read()), (6, LINES[6], whole[:5000]))


def closed_pipes(place):
    """A client that goes away ends its session, and what it saved stays."""
    for handler in (signal.SIG_IGN, signal.SIG_DFL):
        place.put("f", b"!a\n")
        (place.folder / "f.desk").unlink(missing_ok=True)
        held = place.session(preexec_fn=lambda: signal.signal(signal.SIGPIPE, handler))
        yield from differs("an edit", held.ask(insert(1, "!b")), {"lines": 2, "ok": True, "sheets": 1})
        yield from differs("a save", held.ask(SAVE), {"digest": digest(b"!a\n!b\n"), "ok": True})
        held.process.stdout.close()
        feed(held.process.stdin, lines_of(insert(1, "!c"), SAVE, insert(1, "!d"), SAVE))
        yield from differs("a client that goes away", held.end(), (6, LINES[6]))
        yield from differs("what it saved", (place.text("f"), place.names()), (b"!a\n!b\n", ["f", "f.desk"]))
        yield from opens("what it saved", place, ["1"])


def closed_streams(place):
    """A stream that is closed from the start is told, and no file takes its place."""
    place.put("f", b"!a\n")
    saved = lines_of(insert(0, "!b"), SAVE)
    for number, status in ((0, 5), (1, 6)):
        ran = place.run("desk", "f", text=saved, before=lambda: os.close(number))
        yield from differs(f"a session without stream {number}", ran, (status, b"", LINES[status]))
        yield from differs("its script", (place.text("f"), place.names()), (b"!a\n", ["f"]))
    ran = place.run("desk", "f", text=saved, before=lambda: os.close(2))
    yield from differs("a session without stream 2", (ran[0], ran[1].count(b"ok"), place.text("f")), (0, 2, b"!b\n!a\n"))
    yield from opens("its script", place, ["1"])


def broken_input(place):
    """An input that can't be read, or that stands still, ends a session behind the replies to its whole lines."""
    place.put("f", b"!a\n")
    folder = os.open(place.folder, os.O_RDONLY)
    for words in (("print",), ("desk", "f")):
        yield from ends(f"{words[0]} from a folder", place.run(*words, stdin=folder), 5)
    os.close(folder)
    there, here = os.pipe()
    os.set_blocking(there, False)
    os.write(here, lines_of(LABELS) + b'{"do":"la')
    ran = place.run("desk", "f", stdin=there)
    yield from ends("a session that won't wait", ran, 5, b'{"labels":["1"],"ok":true}\n')
    os.close(there)
    os.close(here)
    yield from differs("the script", (place.text("f"), place.names()), (b"!a\n", ["f"]))


def pieces(place):
    """A line that comes byte by byte is answered once it is whole, and before more is sent."""
    place.put("f", b"!a\n")
    held = place.session()
    for command, reply in ((LABELS, {"labels": ["1"], "ok": True}), (UNDO, {"no": "NothingToUndo"})):
        for byte in json.dumps(command).encode():
            held.send(bytes([byte]))
        if held.answers_soon(0.05):
            yield "half a line is answered"
        held.send(b"\n")
        yield from differs("a line in pieces", held.reply(), reply)
    held.process.send_signal(signal.SIGSTOP)
    held.send(lines_of(LABELS))
    held.process.send_signal(signal.SIGCONT)
    yield from differs("after a stop", held.reply(), {"labels": ["1"], "ok": True})
    yield from differs("its end", held.end(), (0, ""))


def wild_clients(place):
    """Whatever a client sends, each line has its reply, and the script stays."""
    rng = random.Random(15)
    text = b"!a\n===\n!b\n"
    place.put("f", text)
    words = [b'{"do":', b'"replace"', b"{", b"}", b"[", b"]", b'"', b",", b"18446744073709551616", b"-1", b"1e400", b"\\u0000", b"\xff\xfe", b"\0", b"null", b'"first":', b"\r"]
    wild = [b"".join(rng.choice(words) for _ in range(rng.randint(0, 12))) for _ in range(2000)] + [b"[" * 100_000, b'{"do":"splice","line":0,"from":0,"to":0,"text":"' + b"a" * 1_000_000]
    ran = place.run("desk", "f", text=b"\n".join(wild) + b"\n" + lines_of(LABELS))
    replies = ran[1].splitlines()
    yield from differs("a wild client", (ran[0], len(replies), replies[-1:]), (0, len(wild) + 1, [b'{"labels":["1","2"],"ok":true}']))
    for line, reply in zip(wild, replies):
        if not reply.startswith(b'{"') or b'"no":' not in reply:
            yield f"{line[:60]} is answered {reply[:60]}"
    yield from differs("its script", (place.text("f"), place.names()), (text, ["f"]))


# Files


def folders_and_links(place):
    place.put("f", b"!a\n")
    (place.folder / "folder").mkdir()
    for form in FORMS:
        yield from ends(f"{form} of a folder", place.run(form, "folder"), 7)
        yield from ends(f"{form} below a file", place.run(form, "f/f"), 7)
        yield from ends(f"{form} of a name that is too long", place.run(form, "f" * 300), 7)
    (place.folder / "f.desk").mkdir()
    yield from ends("a folder for the records", place.run("desk", "f", text=lines_of(SAVE)), 7)
    (place.folder / "f.desk").rmdir()
    (place.folder / "loop").symlink_to("loop")
    yield from ends("a link to itself", place.run("print", "loop"), 7)
    (place.folder / "nowhere").symlink_to("gone")
    yield from differs("a link to nothing", place.run("print", "nowhere"), (3, b"", "fountain: no file nowhere\n"))
    other = place.folder / "folder" / "real"
    other.write_bytes(b"!a\n")
    other.chmod(0o640)
    link = place.folder / "link"
    link.symlink_to("folder/real")
    status, replies, _ = place.replies(insert(1, "!b"), SAVE, words=("desk", "link"))
    yield from differs("a session over a link", (status, replies[1:]), (0, [{"digest": digest(b"!a\n!b\n"), "ok": True}]))
    yield from differs("the link", (link.is_symlink(), os.readlink(link)), (True, "folder/real"))
    yield from differs("what it leads to", (other.read_bytes(), stat.S_IMODE(other.stat().st_mode)), (b"!a\n!b\n", 0o640))
    yield from opens("the link", place, ["1"], script="link")
    yield from differs("the files", place.names(), ["f", "folder", "link", "link.desk", "loop", "nowhere"])


def stores_onto_folders(place):
    """A folder in the place of a script or of its records refuses a save, and one succeeds once it is gone."""
    for name in ("f", "f.desk"):
        place.put("f", b"!a\n")
        (place.folder / "f.desk").unlink(missing_ok=True)
        held = place.session()
        held.ask(insert(1, "!b"))
        (place.folder / name).unlink(missing_ok=True)
        (place.folder / name).mkdir()
        yield from differs(f"a save onto a folder {name}", held.ask(SAVE), REFUSED)
        yield from differs("the files", place.names(), sorted({"f", name}))
        (place.folder / name).rmdir()
        yield from differs(f"a save without the folder {name}", held.ask(SAVE), {"digest": digest(b"!a\n!b\n"), "ok": True})
        yield from differs("its end", held.end(), (0, ""))
        yield from opens("the script", place, ["1"])


def files_beside(place):
    """A store takes a name beside the file that nothing has, and follows no link there."""
    victim = place.put("victim", b"kept")
    place.put("f", b"!a\n")
    (place.folder / f"{BESIDE}0").symlink_to("victim")
    for number in range(1, 99):
        place.put(f"{BESIDE}{number}", b"kept")
    status, replies, _ = place.replies(insert(1, "!b"), SAVE)
    yield from differs("a save beside 99 files", (status, "digest" in replies[1], place.text("f")), (0, True, b"!a\n!b\n"))
    yield from differs("what stood there", (victim.read_bytes(), place.text(f"{BESIDE}1")), (b"kept", b"kept"))
    place.put(f"{BESIDE}99", b"kept")
    status, replies, _ = place.replies(insert(1, "!c"), SAVE, UNDO, SAVE)
    yield from differs("a save beside 100 files", (status, replies[1], replies[3]), (0, REFUSED, REFUSED))
    yield from differs("the script", place.text("f"), b"!a\n!b\n")
    yield from opens("the script", place, ["1"])


def long_names(place):
    """Each name under which a script and its records can be opened can be saved: the system takes 255 bytes, five of them for `.desk`."""
    saved = [{"lines": 2, "ok": True, "sheets": 1}, {"digest": digest(b"!a\n!b\n"), "ok": True}]
    for name in (*("n" * length for length in range(236, 251)), "\N{LATIN SMALL LETTER E WITH ACUTE}" * 125):
        place.put(name, b"!a\n")
        what = f"a name of {len(name.encode())} bytes"
        yield from differs(f"a session over {what}", place.replies(insert(1, "!b"), SAVE, words=("desk", name)), (0, saved, ""))
        yield from differs(f"the files of {what}", (place.text(name), place.names()), (b"!a\n!b\n", [name, f"{name}.desk"]))
        yield from opens(what, place, ["1"], script=name)
        for left in place.names():
            (place.folder / left).unlink()
    place.put("n" * 251, b"!a\n")
    for form in FORMS:
        yield from ends(f"{form} of a name of 251 bytes", place.run(form, "n" * 251), 7)
    yield from differs("its files", (place.text("n" * 251), place.names()), (b"!a\n", ["n" * 251]))


def deep_folders(place):
    """A name is saved in a folder whose own path is longer than the system takes, or is no UTF-8, and by a link there."""
    saved = [{"lines": 2, "ok": True, "sheets": 1}, {"digest": digest(b"!a\n!b\n"), "ok": True}]
    at = os.open(place.folder, os.O_RDONLY)
    for name in (b"\xe9", *[b"d" * 250] * 20):
        os.mkdir(name, dir_fd=at)
        inner = os.open(name, os.O_RDONLY, dir_fd=at)
        os.close(at)
        at = inner
    for name, link in (("f", None), ("link", "f")):
        with open(os.open("f", os.O_CREAT | os.O_WRONLY | os.O_TRUNC, dir_fd=at), "wb") as script:
            script.write(b"!a\n")
        if link:
            os.symlink(link, name, dir_fd=at)
        ran = place.replies(insert(1, "!b"), SAVE, words=("desk", name), before=lambda: os.fchdir(at))
        yield from differs(f"a session over {name} in a deep folder", ran, (0, saved, ""))
        with open(os.open("f", os.O_RDONLY, dir_fd=at), "rb") as script:
            yield from differs("its script", script.read(), b"!a\n!b\n")
    yield from differs("its files", sorted(os.listdir(at)), ["f", "f.desk", "link", "link.desk"])
    yield from differs("the link", os.readlink("link", dir_fd=at), "f")
    os.close(at)


def chains_of_links(place):
    """A store follows links from folder to folder, and puts its file in the place of the last one. One that leads nowhere is replaced."""
    for name in ("one", "two", "three"):
        (place.folder / name).mkdir()
    place.put("three/f", b"!a\n")
    (place.folder / "two/f").symlink_to("../three/f")
    (place.folder / "one/f").symlink_to(place.folder / "two/f")
    (place.folder / "near").symlink_to("one")
    status, replies, _ = place.replies(insert(1, "!b"), SAVE, words=("desk", "near/f"))
    yield from differs("a session over links", (status, replies[1]), (0, {"digest": digest(b"!a\n!b\n"), "ok": True}))
    yield from differs("what they lead to", place.text("three/f"), b"!a\n!b\n")
    for name in ("one/f", "two/f"):
        yield from differs(f"{name} is a link", (place.folder / name).is_symlink(), True)
    found = {name: sorted(path.name for path in (place.folder / name).iterdir()) for name in ("one", "two", "three")}
    yield from differs("the folders", found, {"one": ["f", "f.desk"], "two": ["f"], "three": ["f"]})
    place.put("g", b"!a\n")
    (place.folder / "g.desk").symlink_to("gone")
    status, replies, _ = place.replies(insert(1, "!b"), SAVE, words=("desk", "g"))
    yield from differs("records by a link to nothing", (status, "digest" in replies[1], (place.folder / "g.desk").is_symlink()), (0, True, False))
    yield from differs("nothing", (place.folder / "gone").exists(), False)


def permissions(place):
    """A file that may not be read is told as failed, and not as missing; one that may not be written is left as it is."""
    how = as_nobody()

    def opened(name, mode, text=b"!a\n"):
        path = place.put(name, text)
        if how:
            os.chown(path, NOBODY, NOBODY)
        path.chmod(mode)
        return path

    opened("f", 0o000)
    for form in FORMS:
        yield from ends(f"{form} of a file that may not be read", place.run(form, "f", **how), 7)
    (place.folder / "f").unlink()
    opened("f", 0o644)
    opened("f.desk", 0o000)
    yield from ends("records that may not be read", place.run("desk", "f", text=lines_of(SAVE), **how), 7)
    (place.folder / "f.desk").unlink()
    (place.folder / "f").unlink()
    opened("f", 0o444)
    status, replies, _ = place.replies(insert(1, "!b"), SAVE, LABELS, **how)
    yield from differs("a script that may not be written", (status, replies[1:]), (0, [REFUSED, {"labels": ["1"], "ok": True}]))
    yield from differs("it", (place.text("f"), place.names()), (b"!a\n", ["f"]))
    (place.folder / "f").unlink()
    opened("f", 0o600)
    place.folder.chmod(0o555)
    if how:
        os.chown(place.folder, NOBODY, NOBODY)
    status, replies, _ = place.replies(insert(1, "!b"), SAVE, **how)
    yield from differs("a folder that may not be written", (status, replies[1]), (0, REFUSED))
    place.folder.chmod(0o755)
    yield from differs("its script", (place.text("f"), place.names()), (b"!a\n", ["f"]))
    status, replies, _ = place.replies(insert(1, "!b"), SAVE, **how)
    yield from differs("a folder that may be written again", (status, "digest" in replies[1], place.text("f")), (0, True, b"!a\n!b\n"))
    yield from differs("the permissions", stat.S_IMODE((place.folder / "f").stat().st_mode), 0o600)
    yield from records_that_may_not_be_written(place, how)
    place.folder.chmod(0o000)
    yield from ends("a folder that may not be entered", place.run("print", str(place.folder / "f"), cwd="/", **how), 7)
    place.folder.chmod(0o777)


def records_that_may_not_be_written(place, how):
    """The text is stored and the records aren't; the session goes on, and saves both once it may."""
    records = place.folder / "f.desk"
    kept = records.read_bytes()
    records.chmod(0o444)
    held = place.session(**how)
    held.ask(insert(2, "!c"))
    yield from differs("a save beside records that may not be written", held.ask(SAVE), REFUSED)
    yield from differs("the files", (place.text("f"), records.read_bytes(), place.names()), (b"!a\n!b\n!c\n", kept, ["f", "f.desk"]))
    records.chmod(0o644)
    yield from differs("a save once they may", held.ask(SAVE), {"digest": digest(b"!a\n!b\n!c\n"), "ok": True})
    yield from differs("its end", held.end(), (0, ""))
    yield from opens("its script", place, ["1"])


def short_stores(place):
    """A store that can't be written whole leaves the file, and the session goes on; one that ends the program leaves it too."""
    many = ["!" + "b" * 99] * 100
    text = b"!a\n"
    place.put("f", text)
    status, replies, _ = place.replies(insert(1, *many), SAVE, UNDO, SAVE, LABELS, before=small_files(5000))
    yield from differs("a store of too many bytes", (status, replies[1:]), (0, [REFUSED, {"lines": 1, "ok": True, "sheets": 1}, {"digest": digest(text), "ok": True}, {"labels": ["1"], "ok": True}]))
    yield from differs("the files", (place.text("f"), place.names()), (text, ["f", "f.desk"]))
    yield from opens("the script", place, ["1"])
    kept = place.text("f.desk")
    few = ["!"] * 900
    status, replies, _ = place.replies(insert(0, *few), SAVE, UNDO, SAVE, before=small_files(4000))
    yield from differs("records of too many bytes", (status, replies[1], "digest" in replies[3]), (0, REFUSED, True))
    yield from differs("the files", (place.text("f"), place.names(), len(place.text("f.desk"))), (text, ["f", "f.desk"], len(kept)))
    ran = place.run("desk", "f", text=lines_of(insert(1, *many), SAVE), before=small_files(5000, ignored=False))
    yield from differs("a store that is ended", (ran[0], place.text("f")), (-signal.SIGXFSZ, text))
    yield from opens("the script", place, ["1"])


SMALL_DISK = """
mount -t tmpfs -o size=64k none disk && cp f disk/f && cd disk && "$1" desk f <../commands >../replies || exit
cp f ../f.after && cp f.desk ../f.desk.after && ls -A >../names
"""
READ_ONLY = """
mount -t tmpfs none disk && cp f disk/f && mount -o remount,ro none disk && cd disk && "$1" print f >../printed || exit
"$1" desk f <../commands >../replies && cp f ../f.after && ls -A >../names
"""


def mounted(place, script):
    """Runs a shell script where mounts are its own; none where they may not be made."""
    (place.folder / "disk").mkdir(exist_ok=True)
    words = ["unshare", "--map-root-user", "--mount", "sh", "-c", script, "sh", str(place.program)]
    try:
        ran = subprocess.run(words, cwd=place.folder, capture_output=True, timeout=SECONDS)
    except FileNotFoundError:
        return None
    return None if b"mount" in ran.stderr or b"unshare" in ran.stderr else ran.returncode


def small_file_systems(place):
    """A full disk refuses a save and leaves what stood there, and a later save succeeds."""
    text = b"!" + b"a" * 99 + b"\n"
    place.put("f", text * 200)
    large = insert(0, *["!" + "b" * 99] * 300)
    small = insert(0, *["!"] * 9000)
    place.put("commands", lines_of(large, SAVE, UNDO, SAVE, {"do": "replace", "first": 1, "count": 199, "lines": []}, small, SAVE, UNDO, SAVE))
    status = mounted(place, SMALL_DISK)
    if status is None:
        print("hostile: full file systems are skipped, since none may be mounted here")
        return
    replies = [json.loads(line) for line in (place.text("replies") or b"").splitlines()]
    saves = [replies[at] for at in (1, 3, 6, 8)] if len(replies) == 9 else replies
    yield from differs("saves on a small disk", (status, saves), (0, [REFUSED, {"digest": digest(text * 200), "ok": True}, REFUSED, {"digest": digest(text), "ok": True}]))
    yield from differs("the small disk", (place.text("f.after"), place.text("names")), (text, b"f\nf.desk\n"))
    shutil.copy(place.folder / "f.after", place.folder / "f")
    shutil.copy(place.folder / "f.desk.after", place.folder / "f.desk")
    yield from opens("what it has", place, ["1"])


def read_only_file_systems(place):
    place.put("f", b"!Hello.\n")
    place.put("commands", lines_of(insert(0, "!b"), SAVE, UNDO, SAVE))
    status = mounted(place, READ_ONLY)
    if status is None:
        print("hostile: file systems that are read alone are skipped, since none may be mounted here")
        return
    replies = [json.loads(line) for line in (place.text("replies") or b"").splitlines()]
    yield from differs("saves on a disk that is read alone", (status, replies[1::2]), (0, [REFUSED, REFUSED]))
    yield from differs("the disk", (place.text("printed"), place.text("f.after"), place.text("names")), (HELLO.encode(), b"!Hello.\n", b"f\n"))


def devices(place):
    """A save takes the place of no device."""
    path = place.folder / "null"
    try:
        os.mknod(path, 0o666 | stat.S_IFCHR, os.makedev(1, 3))
        path.open("rb").close()
    except OSError:
        print("hostile: devices are skipped, since none may be made here")
        return
    status, replies, _ = place.replies(insert(0, "!a"), SAVE, words=("desk", "null"))
    yield from differs("a save over a device", (status, replies[1], place.names()), (0, REFUSED, ["null"]))
    yield from differs("the device", stat.S_ISCHR(path.stat().st_mode), True)


# Ends that nobody chose, and two at once


def ended_sessions(place):
    """A session that is ended leaves what its last save stored; one that is ended in a save leaves whole files."""
    text = b"!a\n"
    place.put("f", text)
    held = place.session()
    held.ask(insert(1, "!b"))
    held.ask({"do": "lock_scenes"})
    held.ask({"do": "lock_pages"})
    held.ask(SAVE)
    held.ask(insert(1, "===", "!c"))
    held.process.terminate()
    yield from differs("a session that is ended", held.end()[0], -signal.SIGTERM)
    yield from differs("what it saved", (place.text("f"), place.names()), (b"!a\n!b\n", ["f", "f.desk"]))
    yield from opens("what it saved", place, ["1"])
    rng = random.Random(8)
    begun = time.monotonic()
    yield from ended_saves(place, signal.SIGTERM, None)
    taken = time.monotonic() - begun
    for _ in range(20):
        yield from ended_saves(place, rng.choice((signal.SIGTERM, signal.SIGKILL)), rng.random() * taken)


def ended_saves(place, how, seconds):
    """Wherever a session is ended that saves and saves, the text is whole, and so are the records. Without a time it ends by itself."""
    for name in place.names():
        (place.folder / name).unlink()
    place.put("f", b"")
    whole = b"!line\n" * 10_000
    held = place.session()
    commands = lines_of(insert(0, *whole.decode().splitlines()), *[SAVE] * 30)
    writer = threading.Thread(target=feed, args=(held.process.stdin, commands))
    reader = threading.Thread(target=held.process.stdout.read)
    writer.start()
    reader.start()
    if seconds is not None:
        time.sleep(seconds)
        held.process.send_signal(how)
    else:
        writer.join()
        held.process.stdin.close()
    held.process.wait(SECONDS)
    reader.join()
    writer.join()
    held.end()
    text, records = place.text("f"), place.text("f.desk")
    if text not in (b"", whole):
        yield f"a text of {len(whole)} bytes has {len(text)} where its save was ended"
    if records is not None and (not records.endswith(b"}\n") or json.loads(records)["digest"] != digest(whole)):
        yield f"records have {len(records)} bytes where their save was ended"
    yield from differs("what it opens as", place.run("print", "f")[0], 0)
    left = [name for name in place.names() if name not in ("f", "f.desk")]
    yield from differs("what is left beside", all(name.startswith(BESIDE) for name in left) and len(left) < 2, True)


def overwrite(path, text):
    """As an editor that writes into the file itself."""
    path.write_bytes(text)


def replace(path, text):
    """As an editor that puts another file in its place."""
    other = path.with_name("other")
    other.write_bytes(text)
    other.replace(path)


def remove(path, _=None):
    path.unlink()


def put_folder(path, _):
    path.unlink(missing_ok=True)
    path.mkdir()


def put_pipe(path, _):
    path.unlink(missing_ok=True)
    os.mkfifo(path)


def put_link(path, text):
    path.unlink(missing_ok=True)
    other = path.with_name("elsewhere" + path.suffix)
    other.write_bytes(text)
    path.symlink_to(other.name)


# What another program does under a session, with which name and text; the script is longer than one read takes.
LONG = b"!line\n" * 5000
FOREIGN = [
    (name, change, text)
    for name in ("f", "f.desk")
    for change, text in (
        (overwrite, b"!other\n"), (overwrite, b""), (replace, b"!other\n"), (put_folder, None), (put_pipe, None), (put_link, b"!other\n"),
    )
] + [("f", change, text) for change in (overwrite, replace) for text in (LONG + b"!", LONG[:-1], LONG[:-2] + b"f\n", b"a" + LONG[1:])]


def seen(place):
    """What stands under each name: its bytes, or what kind of file it is."""
    return {path.name: path.read_bytes() if path.is_file() else stat.S_IFMT(path.stat().st_mode) for path in place.folder.iterdir()}


def foreign_writes(place):
    """A save takes the place of no file that another program wrote: it is refused, nothing is written, and it succeeds once that file
    is put aside."""
    for name, change, text in FOREIGN:
        for saved_first in (False, True):
            what = f"{change.__name__} {name} with {(text or b'')[:9]} of {len(text or b'')} bytes" + (" behind a save" if saved_first else "")
            yield from foreign_write(place, what, name, saved_first, lambda path: change(path, text))


def cleared(place):
    for path in place.folder.iterdir():
        path.rmdir() if path.is_dir() else path.unlink()
    place.put("f", LONG)
    place.run("desk", "f", text=lines_of({"do": "lock_scenes"}, SAVE))


def foreign_write(place, what, name, saved_first, change):
    cleared(place)
    held = place.session()
    held.ask(insert(0, "!mine"))
    if saved_first:
        held.ask(SAVE)
        held.ask(UNDO)
    change(place.folder / name)
    found = seen(place)
    for _ in range(2):
        yield from differs(f"a save, {what}", held.ask(SAVE), REFUSED)
        yield from differs(f"the files, {what}", seen(place) == found, True)
    yield from differs(f"the session, {what}", held.ask(LABELS)["ok"], True)
    (place.folder / name).rename(place.folder / "aside")
    text = LONG if saved_first else b"!mine\n" + LONG
    yield from differs(f"a save once it is put aside, {what}", held.ask(SAVE), {"digest": digest(text), "ok": True})
    yield from differs(f"its end, {what}", held.end(), (0, ""))
    now = seen(place)
    yield from differs(f"what was put aside, {what}", now.pop("aside") == found[name], True)
    yield from differs(f"the script, {what}", (now.pop("f") == text, sorted(now)), (True, sorted({*found, "f.desk"} - {"f"})))
    yield from differs(f"it opens, {what}", place.run("outline", "f")[0], 0)


def kept_files(place):
    """A file that is touched, written again as it was, or gone is no other's."""
    changes = {
        "touched": lambda path: os.utime(path, (1, 1)),
        "given other permissions": lambda path: path.chmod(0o600),
        "overwritten with the same": lambda path: overwrite(path, path.read_bytes()),
        "replaced by the same": lambda path: replace(path, path.read_bytes()),
        "moved behind a link": lambda path: put_link(path, path.read_bytes()),
        "removed": remove,
    }
    text = b"!mine\n" + LONG
    for what, change in changes.items():
        for names in (("f",), ("f.desk",), ("f", "f.desk")):
            cleared(place)
            held = place.session()
            held.ask(insert(0, "!mine"))
            for name in names:
                change(place.folder / name)
            yield from differs(f"a save where {names} were {what}", held.ask(SAVE), {"digest": digest(text), "ok": True})
            held.ask(UNDO)
            yield from differs(f"a second one where {names} were {what}", held.ask(SAVE), {"digest": digest(LONG), "ok": True})
            yield from differs("its end", held.end(), (0, ""))
            yield from differs(f"the script where {names} were {what}", place.text("f") == LONG, True)
            yield from differs(f"the files where {names} were {what}", set(place.names()) - {"elsewhere", "elsewhere.desk"}, {"f", "f.desk"})
            yield from differs("it opens", place.run("outline", "f")[0], 0)


def unreadable_files(place):
    """A file that can't be looked at any more is taken for another's."""
    how = as_nobody()
    for name in ("f", "f.desk"):
        cleared(place)
        for path in place.folder.iterdir():
            if how:
                os.chown(path, NOBODY, NOBODY)
        held = place.session(**how)
        held.ask(insert(0, "!mine"))
        path = place.folder / name
        path.chmod(0o200)
        found = {other: place.text(other) for other in place.names()}
        yield from differs(f"a save where {name} may not be read", held.ask(SAVE), REFUSED)
        yield from differs("the files", {other: place.text(other) for other in place.names()} == found, True)
        path.chmod(0o600)
        yield from differs(f"a save where {name} may be read again", "digest" in held.ask(SAVE), True)
        yield from differs("its end", held.end(), (0, ""))


def two_sessions(place):
    """Of two sessions over one script the one that saves first wins; the other is refused until what was saved is put aside."""
    place.put("f", b"!a\n")
    one, other = place.session(), place.session()
    one.ask(insert(1, "!one"))
    other.ask(insert(1, "!other"))
    texts = {one: b"!a\n!one\n", other: b"!a\n!other\n"}
    yield from differs("the first save of two", one.ask(SAVE), {"digest": digest(texts[one]), "ok": True})
    found = seen(place)
    for _ in range(2):
        yield from differs("the second save of two", other.ask(SAVE), REFUSED)
        yield from differs("the files", seen(place) == found, True)
    yield from differs("the first one saves again", one.ask(SAVE), {"digest": digest(texts[one]), "ok": True})
    for name in ("f", "f.desk"):
        (place.folder / name).rename(place.folder / f"aside{name[1:]}")
    yield from differs("a save of the second", other.ask(SAVE), {"digest": digest(texts[other]), "ok": True})
    yield from differs("a save of the first behind it", one.ask(SAVE), REFUSED)
    yield from differs("both end", (one.end(), other.end()), ((0, ""), (0, "")))
    yield from differs("what both saved", (place.text("aside"), place.text("f"), place.names()), (*texts.values(), ["aside", "aside.desk", "f", "f.desk"]))
    for script in ("aside", "f"):
        yield from opens("what both saved", place, ["1"], script=script)
    yield from records_of_another_session(place)
    yield from saves_at_once(place)


def records_of_another_session(place):
    """A session that has saved nothing but records is overwritten by no other: the text stays too."""
    place.put("g", b"!a\n")
    one, other = place.session(script="g"), place.session(script="g")
    one.ask({"do": "lock_pages"})
    other.ask(insert(1, "!other"))
    yield from differs("a save of records", one.ask(SAVE), {"digest": digest(b"!a\n"), "ok": True})
    yield from differs("a save of a text beside them", other.ask(SAVE), REFUSED)
    yield from differs("both end", (one.end(), other.end()), ((0, ""), (0, "")))
    yield from differs("the text", place.text("g"), b"!a\n")
    yield from opens("the records", place, ["1"], script="g")


def saves_at_once(place):
    """Two sessions that save and save at once leave whole files, and one of them is refused from the other's first save on."""
    texts = {}
    for name in ("one", "other"):
        texts[name] = f"!{name}\n".encode() * (200 if name == "one" else 300)
    for name in place.names():
        (place.folder / name).unlink()
    place.put("f", b"")
    ended = {}

    def save_often(name):
        lines = texts[name].decode().splitlines()
        ended[name] = place.run("desk", "f", text=lines_of(insert(0, *lines), *[SAVE] * 50))

    threads = [threading.Thread(target=save_often, args=(name,)) for name in texts]
    for thread in threads:
        thread.start()
    for thread in threads:
        thread.join()
    for name in texts:
        status, out, said = ended.get(name, (None, b"", ""))
        # One that came late has opened what the other saved, or the text of one save beside the records of another.
        yield from differs(f"{name} ends", status in (0, 8), True)
        replies = [json.loads(line) for line in out.splitlines()[1:]]
        refused = [reply == REFUSED for reply in replies]
        yield from differs(f"{name} has its replies", all(no or "digest" in reply for no, reply in zip(refused, replies)), True)
        yield from differs(f"{name} is refused from one save on", refused, sorted(refused))
    text, kept = place.text("f"), json.loads(place.text("f.desk"))
    yield from differs("the text of two that save at once", text in (*texts.values(), texts["one"] + texts["other"], texts["other"] + texts["one"]), True)
    status = place.run("print", "f")[0]
    yield from differs("it opens", status, 0 if kept["digest"] == digest(text) else 8)
    yield from differs("what is left beside", place.names(), ["f", "f.desk"])


CHECKS = [
    statuses, record_statuses, command_statuses, largest_records, long_files, old_versions, names_of_the_program, little_memory,
    full_output, closed_pipes, closed_streams, broken_input, pieces, wild_clients, folders_and_links, stores_onto_folders, files_beside,
    long_names, deep_folders, chains_of_links, permissions, short_stores, small_file_systems, read_only_file_systems, devices,
    ended_sessions, foreign_writes, kept_files, unreadable_files, two_sessions,
]


def place_of(folder):
    """A place with a copy of the program, which any user may run."""
    os.chmod(folder, 0o755)
    shutil.copy(PROGRAM, f"{folder}/fountain")
    os.chmod(f"{folder}/fountain", 0o755)
    return Place(folder)


def main():
    if not PROGRAM.exists():
        return tell("hostile", "none was run", ["the program isn't built"])
    return tell("hostile", f"{len(CHECKS)} kinds of failure", faults_by(CHECKS, place_of))


if __name__ == "__main__":
    sys.exit(main())

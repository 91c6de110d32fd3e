"""Lets the clients of examples/clients/ hold sessions of random commands, and compares the text that each kept with the one that `save`
stored. The clients have to tell the replies of the program as they are, and where it opens no script they keep nothing."""

import json
import os
import pathlib
import random
import shutil
import subprocess
import sys

from program import PROGRAM, SAVE, TOP, lines_of
from report import faults_by, tell
from tools import has, lacks

CLIENTS = {"fountain_client.py": sys.executable, "fountain_client.js": "node"}
PLACE = "examples/clients"
SESSIONS = 12
COMMANDS = 400
# What all sessions together have to accept of each.
LEAST = 50
LINES = ("INT. MILL - DAY", "", "The wheel turns.", "été", "字幕\t字", "e\u0301 \U0001f600", "ANNA", "It is *late*.", "===", "\u2028")
PIECES = ("", "x", "é", "字", "\t", "\x07", "\ufeff", "\u2028 two", "one\ntwo", "[[", "*/", "\U0001f600")
ENDS = (b"\n", b"\r\n", b"\r", b"\x00\n")
SETTINGS = (
    {"do": "lock_scenes"}, {"do": "lock_pages"}, {"do": "next_round"}, {"do": "speakers", "on": False}, {"do": "paper", "size": "a4"}, SAVE,
)
RUBBISH = (b"", b"{", b"\xff", b"{}\r", b'"\xe2\x80\xa8"', b'{"do":"undo","do":"labels"}', b' {"do":"undo"}\t\r')


def script(rng):
    """A script with ends of all kinds, or none at its last line, and maybe a Byte Order Mark."""
    raw = b"".join(rng.choice(LINES).encode() + rng.choice(ENDS) for _ in range(rng.choice((0, 1, 30, 300))))
    return rng.choice((b"", "\ufeff".encode())) + raw + rng.choice((b"", b"The last line."))


def command(rng):
    """An edit of the first lines, which may be refused, or what goes back and forth between edits."""
    kind, few = rng.random(), rng.randint(0, 8)
    if kind < 0.35:
        return {"do": "splice", "line": few, "from": (begin := rng.randint(0, 4)), "to": begin + rng.randint(0, 3), "text": rng.choice(PIECES)}
    if kind < 0.6:
        texts = [rng.choice(LINES) + rng.choice(PIECES) for _ in range(rng.choice((0, 1, 2, 9)))]
        return {"do": "replace", "first": few, "count": rng.randint(0, 4), "lines": texts}
    if kind < 0.95:
        return {"do": rng.choice(("undo", "undo", "redo"))}
    return rng.choice((rng.choice(SETTINGS), rng.choice(RUBBISH)))


def environment(folder):
    return {**os.environ, "PATH": f"{folder / 'bin'}:{os.environ['PATH']}"}


def run(client, folder, commands):
    words = [CLIENTS[client], folder / PLACE / client, "script", "copy"]
    return subprocess.run(words, cwd=folder, env=environment(folder), input=commands, capture_output=True)


def session(folder, client, seed):
    """The faults of a client over one session, and the commands of it that were accepted."""
    rng = random.Random(seed)
    raw, asked = script(rng), [command(rng) for _ in range(COMMANDS)] + [SAVE]
    sent = lines_of(*asked)
    faults, told = [], {}
    for form, by in (("desk", None), ("client", client)):
        (folder / "script").write_bytes(raw)
        (folder / "script.desk").unlink(missing_ok=True)
        ran = run(by, folder, sent) if by else subprocess.run([PROGRAM, "desk", "script"], cwd=folder, input=sent, capture_output=True)
        told[form] = ran.returncode, ran.stdout
    if told["desk"] != told["client"] or told["desk"][0]:
        faults.append(f"{client} tells something else than the program in session {seed}")
    if (folder / "copy").read_bytes() != (folder / "script").read_bytes():
        faults.append(f"{client} keeps another text than `save` stores in session {seed}")
    replies = [json.loads(line) for line in told["client"][1].splitlines()]
    return faults, [it["do"] for it, reply in zip(asked, replies) if reply.get("ok") and isinstance(it, dict)]


def sessions(folder):
    for client in present():
        accepted = []
        for seed in range(SESSIONS):
            faults, names = session(folder, client, seed)
            yield from faults
            accepted += names
        for name in ("replace", "splice", "undo", "redo"):
            if accepted.count(name) < LEAST:
                yield f"only {accepted.count(name)} of {name} were accepted"


def refused(folder):
    """A client over a script that isn't opened ends as the program does, and leaves its copy as it was."""
    (folder / "script").write_bytes(b"\xff")
    for client in present():
        (folder / "copy").write_bytes(b"kept")
        ran = run(client, folder, lines_of(SAVE))
        if (ran.returncode, ran.stdout, ran.stderr) != (4, b"", b"fountain: not UTF-8 at byte 0\n") or (folder / "copy").read_bytes() != b"kept":
            yield f"{client} ends with {ran.returncode}, {ran.stdout} and {ran.stderr} over a script that is none"


def unread(folder):
    for client in present():
        for name, status in (("nothing", 3), (".", 7)):
            ran = subprocess.run([CLIENTS[client], folder / PLACE / client, name, "copy"], cwd=folder, env=environment(folder), capture_output=True)
            if ran.returncode != status or ran.stdout or ran.stderr.count(b"\n") != 1 or (folder / "copy").exists():
                yield f"{client} ends with {ran.returncode} and {ran.stderr} over {name}"


def without_program(folder):
    (folder / "bin/fountain").unlink()
    (folder / "script").touch()
    for client in present():
        words = [shutil.which(CLIENTS[client]), folder / PLACE / client, "script", "copy"]
        ran = subprocess.run(words, cwd=folder, env={**os.environ, "PATH": str(folder)}, input=lines_of(SAVE), capture_output=True)
        if (ran.returncode, ran.stdout, ran.stderr.decode()) != (1, b"", f"{client}: fountain isn't on the path\n"):
            yield f"{client} ends with {ran.returncode} and {ran.stderr} where there is no program"


def ended(folder):
    """A command line that is too long ends the session; the text is kept as far as it came."""
    long = b'{"do":"undo"' + b" " * 1048576 + b"}"
    edit = {"do": "replace", "first": 0, "count": 1, "lines": ["b"]}
    for client in present():
        (folder / "script").write_bytes(b"a\n")
        ran = run(client, folder, lines_of(edit, long, edit))
        if ran.returncode != 10 or ran.stdout.count(b"\n") != 1 or (folder / "copy").read_bytes() != b"b\n":
            yield f"{client} ends with {ran.returncode} and {ran.stdout} behind a line that is too long"


def present():
    return [client for client, reader in CLIENTS.items() if has(reader)]


def place_of(name):
    """A folder with the program and the clients, put where they find it."""
    folder = pathlib.Path(name)
    (folder / "bin").mkdir()
    (folder / "bin/fountain").symlink_to(PROGRAM)
    shutil.copytree(TOP / PLACE, folder / PLACE)
    return folder


def main():
    if not PROGRAM.exists():
        return tell("clients", "none was run", ["the program isn't built"])
    lacks("clients", "fountain_client.js isn't run", "node")
    faults = faults_by((sessions, refused, unread, ended, without_program), place_of)
    return tell("clients", f"{len(present())} clients with {SESSIONS} sessions of {COMMANDS} commands each", faults)


if __name__ == "__main__":
    sys.exit(main())

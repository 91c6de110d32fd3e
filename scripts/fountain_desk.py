"""What the scripts share that keep a script: files that are written whole, and a session of the desk that is asked one command after the
other."""

import contextlib
import hashlib
import json
import os
import pathlib
import re
import subprocess
import tempfile

from fountain_common import BYTES, find_program, line_of, read, records_of, refusal_of, stop

# So many commands are sent before their replies are read. Either they or their replies are short, and so fill no pipe.
AHEAD = 64
SAVE, LABELS, PACKET, BLOCKS, OUTLINE = ({"do": name} for name in ("save", "labels", "packet", "blocks", "outline"))
LOCK_SCENES, LOCK_PAGES, NEXT_ROUND = ({"do": name} for name in ("lock_scenes", "lock_pages", "next_round"))
# What a refusal says to people.
REASONS = {
    "SceneForm": "its scene number can't be locked: it is no label, or 0",
    "SceneOrder": "its scene number isn't above that of the heading before",
    "NoPages": "no page has a row, so there is nothing to lock",
    "RoundsFull": "the round is the last one, so no other can begin",
    "RecordsFull": "there would be more than 100,000 locked scenes or pages",
    "TextFull": "the text would be too long",
    "LineFull": "the line would be too long",
    "IdsSpent": "no number is left for a new line",
    "Shelf": "a file couldn't be stored",
}


# Files


def stem_of(file):
    """A script's path without the ending of its kind."""
    return re.sub(r"(?<=[^/])\.(fountain|spmd|txt)$", "", str(file))


def digest_of(text):
    return hashlib.sha256(text).hexdigest()


def had(file):
    """The bytes of a script; where there is none, that ends the calling script."""
    raw = read(file)
    if raw is None:
        stop(f"no file {file}", 3)
    if len(raw) > BYTES:
        stop(f"{file}: the text is too long", 4)
    return raw


def round_of(file):
    return records_of(file).get("round", 0)


def write(name, data):
    """Puts bytes in the place of a file, or of none, whole or not at all; links are followed and permissions kept."""
    path, beside = pathlib.Path(os.path.realpath(name)), None
    try:
        descriptor, beside = tempfile.mkstemp(prefix=f".{path.name[:200]}.", dir=path.parent)
        with open(descriptor, "wb") as file:
            os.fchmod(descriptor, mode_of(path))
            file.write(data)
            file.flush()
            os.fsync(descriptor)
        os.replace(beside, path)
    except BaseException as fault:
        if beside:
            os.unlink(beside)
        if isinstance(fault, OSError):
            fault.filename = str(name)
        raise


def mode_of(path):
    """The permissions of a file, or those of any new one."""
    try:
        return path.stat().st_mode & 0o7777
    except FileNotFoundError:
        mask = os.umask(0)
        os.umask(mask)
        return 0o666 & ~mask


@contextlib.contextmanager
def put_apart(text, records=None):
    """A script of its own with this text and these records, for as long as it is used."""
    with tempfile.TemporaryDirectory() as folder:
        script = pathlib.Path(folder, "script")
        script.write_bytes(text)
        if records is not None:
            pathlib.Path(f"{script}.desk").write_bytes(records)
        yield script


# Sessions


class Refused(Exception):
    """A command that the desk refuses: its place among those that were asked together, and the reply."""

    def __init__(self, place, reply):
        self.place, self.reply = place, reply

    def told(self, file):
        """What is refused, in words; lines count from 1."""
        where = f", line {self.reply['line'] + 1}" if "line" in self.reply else ""
        return f"{file}{where}: {REASONS.get(self.reply['no'], self.reply['no'])}"


class Desk:
    """A session of `desk` over a script. It can't be opened where the first command isn't answered; then the script ends, and says why."""

    def __init__(self, file, told=None):
        """What is told of it calls the script `told`."""
        self.told = told or file
        # An interrupt is for the script: the desk ends with its input, behind the command that it answers.
        pipes = {"stdin": subprocess.PIPE, "stdout": subprocess.PIPE, "stderr": subprocess.PIPE}
        self.process = subprocess.Popen([find_program(), "desk", file], start_new_session=True, **pipes)

    def __enter__(self):
        return self

    def __exit__(self, *_):
        with contextlib.suppress(BrokenPipeError):
            self.process.stdin.close()
        self.process.stdout.read()
        self.process.wait()
        self.process.stdout.close()
        self.process.stderr.close()

    def ask_all(self, commands):
        """The replies to commands; Refused at the first that is refused."""
        replies = []
        for first in range(0, len(commands), AHEAD):
            part = commands[first : first + AHEAD]
            with contextlib.suppress(BrokenPipeError):
                self.process.stdin.write(b"".join(line_of(command) for command in part))
                self.process.stdin.flush()
            for place in range(first, first + len(part)):
                replies.append(self.reply())
                if "no" in replies[-1]:
                    raise Refused(place, replies[-1])
        return replies

    def ask(self, command):
        return self.ask_all([command])[0]

    def reply(self):
        line = self.process.stdout.readline()
        if not line:
            self.tell_end()
        return json.loads(line)

    def tell_end(self):
        """Ends the script where the session ended by itself, and says why."""
        errors, status = self.process.stderr.read(), self.process.wait()
        stop(refusal_of(self.told, status, errors), status if status > 0 else 1)

"""The copies of a script that take-in and hand-out keep in the folder FILE.kept beside it, each with its records, and what else may have
an old text of it: other files of its folder, and git."""

import contextlib
import os
import pathlib
import re
import shlex
import shutil
import subprocess

from fountain_client import lines_of, text_of
from fountain_common import BYTES, read, records_of, round_name, say, stop
from fountain_desk import SAVE, Refused, digest_of, round_of, write

COPY = re.compile(r"(\d+)-[0-9a-z-]+")


def folder_of(file):
    return pathlib.Path(f"{file}.kept")


def number_of(copy):
    return int(copy.name.split("-")[0])


def copies(file):
    """The kept copies of a script, the oldest first."""
    folder = folder_of(file)
    found = [path for path in folder.iterdir() if COPY.fullmatch(path.name)] if folder.is_dir() else []
    return sorted(found, key=number_of)


def last_locked(file):
    """The last copy of a script that has locked pages, or none."""
    return next((copy for copy in reversed(copies(file)) if records_of(copy).get("pages")), None)


def has_lost_records(file):
    """Whether a script has no records, and a copy of it has locked pages."""
    return read(f"{file}.desk") is None and last_locked(file) is not None


def name_before(file):
    """The name that a script without locked pages may have had before: that of a script that isn't beside it, with records there that have
    some. Of several the one whose records are of this text, and none where there is no such name."""
    if records_of(file).get("pages"):
        return None
    raw, found = read(file), {}
    for path in sorted(pathlib.Path(file).parent.glob("*.desk")):
        script = path.with_suffix("")
        with contextlib.suppress(OSError):
            records = records_of(script)
            if records.get("pages") and not script.exists():
                found[script] = is_of(raw, records.get("digest"))
    return max(found, key=found.get, default=None)


def stop_without_records(file):
    """Ends where a script has lost its records, since all that comes then would be numbered anew."""
    if has_lost_records(file):
        recover = f"fountain-take-in --recover {shlex.quote(str(file))} puts it back"
        stop(f"{file}.desk is gone, and pages are locked in {last_locked(file)}; {recover}, or move {folder_of(file)} away to lock anew")
    name = name_before(file)
    if name:
        both = f"{name}.desk and {folder_of(name)}"
        stop(f"{name}.desk has locked pages, and {name} is gone: if {file} is that script, rename {both} too; if not, move them away")


def keep(file, text, records, number):
    """Keeps a text with its records, which are in the round of this number, where the last copy doesn't have both."""
    last = (copies(file) or [None])[-1]
    if not last or read(last) != text or read(f"{last}.desk") != records:
        add(file, text, records, number)


def add(file, text, records, number):
    """A new copy."""
    place = max((number_of(copy) for copy in copies(file)), default=0) + 1
    folder_of(file).mkdir(exist_ok=True)
    copy = folder_of(file) / f"{place:03}-{round_name(number).lower().replace(' ', '-')}"
    if records is not None:
        write(f"{copy}.desk", records)
    write(copy, text)
    return copy


@contextlib.contextmanager
def all_or_nothing(file, text, made=()):
    """Where something in it is refused or fails, all is left as it was: copies that were kept in it and the files that it made go, and the
    script, if it has this text by then, gets back what it had. A desk that ended behind its save has done all of it."""
    old, records, before = read(file), read(f"{file}.desk"), copies(file)
    try:
        yield
    except (Refused, OSError, SystemExit) as fault:
        if isinstance(fault, SystemExit) and read(f"{file}.desk") != records:
            raise
        if read(file) == text != old:
            # It was stored, and its records weren't.
            write(file, old)
        for copy in copies(file)[len(before) :]:
            copy.unlink()
            pathlib.Path(f"{copy}.desk").unlink(missing_ok=True)
        if not before and folder_of(file).is_dir():
            folder_of(file).rmdir()
        for path in made:
            pathlib.Path(path).resolve().unlink(missing_ok=True)
        raise


def save(file, desk, old, text, number, files={}):
    """Keeps a script, which has these old bytes, and the text that comes, which is in the round of this number; writes the other files; and
    has the desk save, all of it or nothing. The text is kept before, so that records are always of a text that is there."""
    if read(file) != old:
        stop(f"{file} was changed by another program in the meantime")
    made = [path for path in files if read(path) is None]
    with all_or_nothing(file, text, made):
        for path in made:
            write(path, files[path])
        keep(file, old, read(f"{file}.desk"), round_of(file))
        copy = add(file, text, None, number)
        reply = desk.ask(SAVE)
    if reply["digest"] != digest_of(text):
        stop(f"{file} was changed by another program in the meantime: {folder_of(file)} has what it was")
    try:
        write(f"{copy}.desk", read(f"{file}.desk"))
    except OSError as fault:
        say(f"{fault.filename}: {fault.strerror}; {file} is saved, and that copy of it has no records")


def begun(file, records):
    """The copy of the script as its present round began: the first of those that were last kept in this round, one after the other, where
    no edit had come yet. Copies of a later round are of a hand-out that was taken back, and one of another text than its records was
    changed."""
    base = None
    for copy in reversed(copies(file)):
        of = records_of(copy)
        if of.get("round") != records["round"]:
            if base:
                break
            continue
        is_edited = records["round"] in of["marks"] or records["round"] in [page[3] for page in of["pages"] or ()]
        if of["scenes"] == records["scenes"] and not is_edited and is_of(read(copy), of["digest"]):
            base = copy
    return base


# Old texts


def texts_beside(file):
    """The copies, the last first, and the files of the folder whose names have that of the script in them, as an editor leaves them."""
    path = pathlib.Path(file)
    yield from reversed(copies(file))
    yield from (it for it in sorted(path.parent.iterdir()) if path.name in it.name and it.name != path.name)


def git(file, *words):
    """What git tells of a file; nothing where it isn't there, or the file is in no repository."""
    if not shutil.which("git"):
        return b""
    path = pathlib.Path(file).resolve()
    words = ["git", "--literal-pathspecs", "-C", path.parent, *(path.name if word is None else word for word in words)]
    return subprocess.run(words, stdin=subprocess.DEVNULL, stdout=subprocess.PIPE, stderr=subprocess.DEVNULL).stdout


def texts_in_git(file):
    """The names of what the file was in the index and in any commit of its repository: of a branch, of a stash or left behind by others."""
    said = git(file, "ls-files", "-s", "--", None)
    said += git(file, "log", "--all", "--reflog", "-m", "--root", "--format=", "--raw", "--no-abbrev", "--", None)
    return list(dict.fromkeys(re.findall(rb"\b[0-9a-f]{40,64}\b", said)))


def is_of(raw, digest):
    """Whether bytes are a script of the text with this digest."""
    try:
        return raw is not None and len(raw) <= BYTES and digest_of(text_of(lines_of(raw))) == digest
    except UnicodeDecodeError:
        return False


def find_text(file, digest):
    """An old text of a script by its digest, with where it was found; none where no copy of it is there."""
    for path in texts_beside(file):
        if path.is_file() and os.access(path, os.R_OK) and path.stat().st_size <= BYTES:
            raw = read(path)
            if is_of(raw, digest):
                return raw, path
    for name in texts_in_git(file):
        raw = git(file, "cat-file", "blob", name.decode())
        if is_of(raw, digest):
            return raw, f"git ({name.decode()[:12]})"
    return None, None

"""Runs the built program with a library before that of the system, which lets chosen calls move few bytes, move nothing or fail: those
that read the input, write the output, fetch a file and store one. Each run has to end with its status and line: nothing that failed is
taken as ended, nothing that was moved in part as whole, and no file is lost.

It needs a C compiler, `cc`, and a program that calls the C library of the system.
"""

import errno
import mmap
import pathlib
import shutil
import struct
import subprocess
import sys
import tempfile

from hostile import BESIDE, FORMS, LINES, REFUSED, Place, differs, digest, insert, opens
from program import LABELS, PROGRAM, SAVE, UNDO, lines_of
from report import found_by, tell
from tools import lacks

# The calls of one function for one stream or file are counted from 1 on. The one with the number `at` fails with an error, or moves nothing
# where there is none, and each other moves `most` bytes at most. The plan stands in a file that whoever starts the program shares.
LIBRARY = r"""
#define _GNU_SOURCE
#include <dlfcn.h>
#include <errno.h>
#include <fcntl.h>
#include <stdarg.h>
#include <stdio.h>
#include <stdlib.h>
#include <string.h>
#include <sys/mman.h>
#include <sys/stat.h>
#include <unistd.h>
#define NEXT(call) ((__typeof__(&call))dlsym(RTLD_NEXT, #call))
enum { GOES_ON = 1 };
static struct plan { unsigned long calls, changed, at, most, error; char call[16], name[32]; } *plan;
static char names[64][32] = {"input", "output", "errors"};
__attribute__((constructor)) static void begin(void) {
    const char *name = getenv("PLAN");
    int file = name ? NEXT(open)(name, O_RDWR) : -1;
    if (file < 0) return;
    void *shared = mmap(NULL, sizeof *plan, PROT_READ | PROT_WRITE, MAP_SHARED, file, 0);
    close(file);
    if (shared != MAP_FAILED) plan = shared;
}
static const char *name_in(const char *path) {
    const char *slash = strrchr(path, '/');
    return slash ? slash + 1 : path;
}
static const char *name_of(int file) { return file >= 0 && file < 64 ? names[file] : ""; }
static long change_call(const char *call, const char *name, size_t *count) {
    if (!plan || strcmp(call, plan->call) || strcmp(name, plan->name)) return GOES_ON;
    if (++plan->calls == plan->at) {
        plan->changed++;
        errno = plan->error;
        return plan->error ? -1 : 0;
    }
    if (count && *count > plan->most) {
        plan->changed++;
        *count = plan->most;
    }
    return GOES_ON;
}
int open(const char *path, int flags, ...) {
    va_list rest;
    va_start(rest, flags);
    mode_t mode = flags & O_CREAT ? va_arg(rest, mode_t) : 0;
    va_end(rest);
    int file = change_call("open", name_in(path), NULL) == GOES_ON ? NEXT(open)(path, flags, mode) : -1;
    if (file >= 0 && file < 64) snprintf(names[file], sizeof names[file], "%s", name_in(path));
    return file;
}
ssize_t read(int file, void *bytes, size_t count) {
    long moves = change_call("read", name_of(file), &count);
    return moves == GOES_ON ? NEXT(read)(file, bytes, count) : moves;
}
ssize_t write(int file, const void *bytes, size_t count) {
    long moves = change_call("write", name_of(file), &count);
    return moves == GOES_ON ? NEXT(write)(file, bytes, count) : moves;
}
int fsync(int file) { return change_call("fsync", name_of(file), NULL) == GOES_ON ? NEXT(fsync)(file) : -1; }
int fchmod(int file, mode_t mode) { return change_call("fchmod", name_of(file), NULL) == GOES_ON ? NEXT(fchmod)(file, mode) : -1; }
int statx(int file, const char *path, int flags, unsigned mask, struct statx *stat) {
    return change_call("statx", *path ? name_in(path) : name_of(file), NULL) == GOES_ON ? NEXT(statx)(file, path, flags, mask, stat) : -1;
}
int rename(const char *from, const char *to) { return change_call("rename", name_in(to), NULL) == GOES_ON ? NEXT(rename)(from, to) : -1; }
ssize_t readlink(const char *path, char *to, size_t count) {
    return change_call("readlink", name_in(path), NULL) == GOES_ON ? NEXT(readlink)(path, to, count) : -1;
}
"""
PLAN = struct.Struct("=5Q16s32s")
NEVER = 2**64 - 1
NOTHING = 0
# How a run ends: as if no call was changed, or as where the file is missing.
WHOLE = "whole"
MISSING = "missing"

SCRIPT = b"INT. MILL - NIGHT\n\nANNA\nListen.\n\n===\n\nShe lights a lamp.\n"
# Then the script has records, which tell in each of its forms: a sheet 1A with a scene and a speech.
LOCKED = lines_of({"do": "lock_scenes"}, {"do": "lock_pages"}, insert(5, "===", "", "EXT. YARD - DAY", "", "BERT", "No.", ""), SAVE)
ASKED = lines_of(*({**command, "seat": "a", "seen": 0} for command in (LABELS, UNDO, {"do": "outline"}, LABELS)))
COLLATE = ("collate", "old", "new")
OLD, NEW = b"!Hello.\n", b"!Once again.\n!Hello.\n"


class Calls:
    """A place whose program runs with the library, and what becomes of its calls."""

    def __init__(self, folder):
        self.place = Place(folder)
        self.file = open(folder / "plan", "r+b")
        self.plan = mmap.mmap(self.file.fileno(), PLAN.size)
        self.env = {"LD_PRELOAD": str(folder / "calls.so"), "PLAN": str(folder / "plan")}
        self.change("", "")

    def change(self, call, name, most=NEVER, at=NEVER, error=NOTHING):
        """From here on calls for this stream or file move so many bytes at most, and the one with this number fails."""
        self.plan[:] = PLAN.pack(0, 0, at, most, error, call.encode(), name.encode())

    def changed(self):
        """Whether a call was changed; from here on none is."""
        count = PLAN.unpack(self.plan[:])[1]
        self.change("", "")
        return count > 0

    def run(self, words, text, *plan):
        """The status, what was written, and what was told, of the program with these words."""
        self.change(*plan or ("", ""))
        return self.place.run(*words, text=text, env=self.env)

    def finds(self, what, found, expected):
        """A call was changed, and what came of it is right."""
        yield from differs(f"{what}: a call is changed", self.changed(), True)
        yield from differs(what, found, expected)

    def put_locked(self):
        """Puts a script with records, its sheets, and those of its packet."""
        self.place.put("f", SCRIPT)
        self.run(("desk", "f"), LOCKED)
        for name, form in (("old", "print"), ("new", "packet")):
            self.place.put(name, self.run((form, "f"), b"")[1])


def told(call, name, most=NEVER, at=NEVER, error=NOTHING):
    """A plan in words."""
    pieces = "" if most == NEVER else f" of {most} bytes at most"
    does = "moves nothing" if error == NOTHING else f"fails with {errno.errorcode[error]}"
    return f"{call} of {name}{pieces}" + ("" if at == NEVER else f", {does} at call {at}")


# Streams


INPUTS = [(3,), *((3, at, error) for at in (1, 2, 3, 9, 20) for error in (errno.EIO, errno.EINTR))]
OUTPUTS = [(3,), *((3, at, error) for at in (1, 2, 9) for error in (NOTHING, errno.EIO, errno.EPIPE, errno.EINTR))]


def inputs(calls):
    """An input that comes in pieces is read whole. One that fails is told as that, behind the replies to its whole lines."""
    calls.put_locked()
    for words, text in ((("print",), SCRIPT), (("desk", "f"), ASKED), (("room", "f"), ASKED)):
        whole = calls.run(words, text)
        for most, *failure in INPUTS:
            plan, expected = ("read", "input", most, *failure), whole
            if failure:
                lines = text[: most * (failure[0] - 1)].count(b"\n") if words != ("print",) else 0
                expected = (5, b"".join(whole[1].splitlines(True)[:lines]), LINES[5])
            yield from calls.finds(f"{words}, {told(*plan)}", calls.run(words, text, *plan), expected)


def outputs(calls):
    """An output that takes pieces gets all. One that fails, or takes nothing, is told and has what it took before."""
    calls.put_locked()
    for words in (("print",), ("sample", "3"), COLLATE, *((form, "f") for form in FORMS)):
        text = SCRIPT if words == ("print",) else ASKED
        whole = calls.run(words, text)
        for most, *failure in OUTPUTS:
            plan = ("write", "output", most, *failure)
            what, ran = f"{words}, {told(*plan)}", calls.run(words, text, *plan)
            yield from calls.finds(what, ran, (6, ran[1], LINES[6]) if failure else whole)
            if failure and not (whole[1].startswith(ran[1]) and failure[0] - 1 <= len(ran[1]) <= most * (failure[0] - 1)):
                yield f"{what} writes {ran[1][:200]}"


def fault_lines(calls):
    """A fault is told whole in pieces, and by its status alone where its line can't be written."""
    for failure, line in (((), "fountain: no file gone\n"), ((1, errno.EIO), ""), ((3, NOTHING), "founta")):
        plan = ("write", "errors", 3, *failure)
        yield from calls.finds(told(*plan), calls.run(("print", "gone"), b"", *plan), (3, b"", line))


# Files


# A call, what becomes of it, and how a run ends that fetches the file.
FETCHES = [
    ("read", (3,), WHOLE),
    ("read", (3, 2, errno.EINTR), WHOLE),
    ("read", (3, 1, errno.EIO), 7),
    ("read", (3, 2, errno.EIO), 7),
    ("read", (3, 2, errno.EACCES), 7),
    ("read", (3, 2, errno.ENOENT), 7),
    ("read", (3, 1, errno.ENOMEM), 9),
    ("read", (3, 2, errno.ENOMEM), 9),
    ("open", (NEVER, 1, errno.EINTR), WHOLE),
    ("open", (NEVER, 1, errno.ENOENT), MISSING),
    ("open", (NEVER, 1, errno.EACCES), 7),
    ("open", (NEVER, 1, errno.EIO), 7),
    ("open", (NEVER, 1, errno.EMFILE), 7),
    ("open", (NEVER, 1, errno.ENOMEM), 9),
]


def fetches(calls):
    """A script and its records, and both files of a collation, are fetched whole, or it is told why not, and nothing is written."""
    calls.put_locked()
    place = calls.place
    files = {name: place.text(name) for name in place.names()}
    for words, names in (*(((form, "f"), ("f", "f.desk")) for form in FORMS), (COLLATE, COLLATE[1:])):
        for name in names:
            yield from fetch(calls, words, name)
    yield from differs("the files", {name: place.text(name) for name in place.names()}, files)


def fetch(calls, words, name):
    place, whole = calls.place, calls.run(words, ASKED)
    kept = place.text(name)
    (place.folder / name).unlink()
    missing = calls.run(words, ASKED)
    place.put(name, kept)
    if whole == missing:
        yield f"{words} ends without {name} as with it"
    for call, changes, end in FETCHES:
        plan, expected = (call, name, *changes), {WHOLE: whole, MISSING: missing}.get(end, (end, b"", LINES.get(end)))
        yield from calls.finds(f"{words}, {told(*plan)}", calls.run(words, ASKED, *plan), expected)


# What a save stores: nothing, the text alone, or both files.
NONE, TEXT, BOTH = range(3)
# A call, whether it is for the script, the records or the file beside, what becomes of it, and what a save stores. Each of its two stores
# follows links, finds the old file, opens it, fills the one beside, and then looks at the script and at the records, before it renames.
STORES = [
    ("write", f"{BESIDE}0", (5,), BOTH),
    ("write", f"{BESIDE}0", (5, 2, errno.EINTR), BOTH),
    ("write", f"{BESIDE}0", (5, 1, errno.EIO), NONE),
    ("write", f"{BESIDE}0", (5, 2, errno.ENOSPC), NONE),
    ("write", f"{BESIDE}0", (5, 2, NOTHING), NONE),
    ("write", f"{BESIDE}0", (5, 6, errno.EIO), TEXT),
    ("write", f"{BESIDE}0", (5, 7, errno.ENOSPC), TEXT),
    ("write", f"{BESIDE}0", (5, 7, NOTHING), TEXT),
    ("fsync", f"{BESIDE}0", (NEVER, 1, errno.EIO), NONE),
    ("fsync", f"{BESIDE}0", (NEVER, 2, errno.EIO), TEXT),
    ("fchmod", f"{BESIDE}0", (NEVER, 1, errno.EPERM), BOTH),
    ("fchmod", f"{BESIDE}0", (NEVER, 2, errno.EPERM), BOTH),
    ("open", f"{BESIDE}0", (NEVER, 1, errno.EACCES), NONE),
    ("open", f"{BESIDE}0", (NEVER, 1, errno.ENOSPC), NONE),
    ("open", f"{BESIDE}0", (NEVER, 2, errno.ENOSPC), TEXT),
    ("rename", "f", (NEVER, 1, errno.EACCES), NONE),
    ("rename", "f", (NEVER, 1, errno.EIO), NONE),
    ("rename", "f.desk", (NEVER, 1, errno.EIO), TEXT),
    ("readlink", "f", (NEVER, 1, errno.EACCES), NONE),
    ("readlink", "f.desk", (NEVER, 1, errno.EIO), TEXT),
    ("statx", "f", (NEVER, 1, errno.EIO), NONE),
    ("open", "f", (NEVER, 1, errno.EACCES), NONE),
    ("statx", "f", (NEVER, 2, errno.EIO), NONE),
    ("open", "f", (NEVER, 2, errno.EACCES), NONE),
    ("open", "f", (NEVER, 2, errno.ENOENT), NONE),
    ("read", "f", (3,), BOTH),
    ("read", "f", (3, 2, errno.EINTR), BOTH),
    ("read", "f", (3, 2, errno.EIO), NONE),
    ("read", "f", (3, 2, errno.ENOENT), NONE),
    ("read", "f", (3, 2, NOTHING), NONE),
    ("statx", "f.desk", (NEVER, 1, errno.EIO), NONE),
    ("open", "f.desk", (NEVER, 1, errno.EACCES), NONE),
    ("read", "f.desk", (NEVER, 1, errno.EIO), NONE),
    ("statx", "f", (NEVER, 3, errno.EIO), TEXT),
    ("open", "f", (NEVER, 3, errno.EACCES), TEXT),
    ("statx", "f.desk", (NEVER, 2, errno.EIO), TEXT),
    ("open", "f.desk", (NEVER, 2, errno.EACCES), TEXT),
    ("statx", "f.desk", (NEVER, 3, errno.EIO), TEXT),
    ("open", "f.desk", (NEVER, 3, errno.EACCES), TEXT),
    ("read", "f.desk", (5,), BOTH),
]


def stores(calls):
    """A save puts whole files in place, or is refused and leaves the file whose store failed, and the session goes on and saves."""
    for call, name, plan, stored in STORES:
        yield from store(calls, (call, name, *plan), stored)


def store(calls, plan, stored):
    place, what, saved = calls.place, told(*plan), {"digest": digest(NEW), "ok": True}
    place.put("f", OLD)
    (place.folder / "f.desk").unlink(missing_ok=True)
    calls.run(("desk", "f"), lines_of(SAVE))
    records = place.text("f.desk")
    held = place.session(env=calls.env)
    held.ask(insert(0, "!Once again."))
    calls.change(*plan)
    yield from calls.finds(f"a save, {what}", held.ask(SAVE), saved if stored == BOTH else REFUSED)
    yield from differs(f"the text, {what}", place.text("f"), OLD if stored == NONE else NEW)
    yield from differs(f"the records are as they were, {what}", place.text("f.desk") == records, stored != BOTH)
    yield from differs(f"the files, {what}", place.names(), ["f", "f.desk"])
    yield from differs(f"a later save, {what}", held.ask(SAVE), saved)
    yield from differs(f"its end, {what}", held.end(), (0, ""))
    yield from differs(f"its files, {what}", (place.text("f"), place.names()), (NEW, ["f", "f.desk"]))
    yield from opens(what, place, ["1"])


CHECKS = [inputs, outputs, fault_lines, fetches, stores]


def prepare(folder):
    """Puts the program, the library and room for a plan into a folder."""
    (folder / "calls.c").write_text(LIBRARY)
    subprocess.run(["cc", "-O2", "-shared", "-fPIC", "-o", "calls.so", "calls.c"], cwd=folder, check=True)
    (folder / "plan").write_bytes(bytes(PLAN.size))
    shutil.copy(PROGRAM, folder / "fountain")


def main():
    if lacks("calls", "no call is changed", "cc", "/usr/include/dlfcn.h"):
        return 0
    if not PROGRAM.exists():
        return tell("calls", "none was changed", ["the program isn't built"])
    with tempfile.TemporaryDirectory() as name:
        folder = pathlib.Path(name)
        prepare(folder)
        return tell("calls", f"{len(CHECKS)} kinds of calls", [fault for check in CHECKS for fault in found_by(check, Calls(folder))])


if __name__ == "__main__":
    sys.exit(main())

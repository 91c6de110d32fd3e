"""Refuses each allocation of some runs of the built program in turn, alone and with all that come after it, and holds what comes of it
against the run that has its memory:

- the run ends with status 9 and its line, or as if nothing had been refused;
- what it wrote is a prefix of what the whole run writes, and in a session whole replies;
- FILE and FILE.desk are each as before the run, or as a save of it leaves them; a save may be refused, and a later one succeeds.

    python3 bench/allocations.py [--every N]      only each Nth allocation

It needs a C compiler, `cc`, and a program that takes its memory from the C library of the system.
"""

import argparse
import json
import mmap
import pathlib
import struct
import subprocess
import sys
import tempfile

TOP = pathlib.Path(__file__).resolve().parent.parent
PROGRAM = TOP / "crates/fountain_cli/out/fountain_cli"
SECONDS = 60
NEVER = 2**64 - 1
# Calls are counted, and those from `first` to `last` refused, from 1 on, in a file that whoever starts the program shares.
REFUSING = r"""
#include <errno.h>
#include <fcntl.h>
#include <stddef.h>
#include <stdlib.h>
#include <sys/mman.h>
#include <unistd.h>
void *__libc_malloc(size_t), *__libc_realloc(void *, size_t), *__libc_calloc(size_t, size_t);
static struct tally { unsigned long calls, refused, first, last; } *tally;
__attribute__((constructor)) static void begin(void) {
    const char *name = getenv("TALLY");
    int file = name ? open(name, O_RDWR) : -1;
    if (file < 0) return;
    void *shared = mmap(NULL, sizeof *tally, PROT_READ | PROT_WRITE, MAP_SHARED, file, 0);
    close(file);
    if (shared != MAP_FAILED) tally = shared;
}
static int refuses(void) {
    if (!tally || ++tally->calls < tally->first || tally->calls > tally->last) return 0;
    tally->refused++;
    errno = ENOMEM;
    return 1;
}
void *malloc(size_t size) { return refuses() ? NULL : __libc_malloc(size); }
void *calloc(size_t count, size_t size) { return refuses() ? NULL : __libc_calloc(count, size); }
void *realloc(void *old, size_t size) { return refuses() ? NULL : __libc_realloc(old, size); }
"""

LAMP = """Title: The Lamp
Author: A. Writer

FADE IN:

INT. KITCHEN - DAY #1#

ANNA (30) lights a lamp. [[check prop]]

ANNA
(softly)
It is *late*.

BERT
Go.

ANNA ^
Stay.

~La la la

> CUT TO:

= Anna leaves.

EXT. STREET - NIGHT
"""
SAVE = {"do": "save"}
LABELS = {"do": "labels"}
LOCKS = [{"do": "lock_scenes"}, {"do": "lock_pages"}]


def insert(first, *lines):
    return {"do": "replace", "first": first, "count": 0, "lines": list(lines)}


def splice(line, text):
    return {"do": "splice", "line": line, "from": 2, "to": 2, "text": text}


def sheets(count):
    return [{"do": "sheet", "index": at} for at in range(count)]


LETTERED = [*LOCKS, insert(3, "===", "!d"), LABELS, {"do": "next_round"}, insert(3, "===", "!e"), LABELS, *sheets(5), {"do": "outline"}, SAVE, LABELS, SAVE]
OMITTED = [*LOCKS, {"do": "replace", "first": 2, "count": 4, "lines": []}, LABELS, *sheets(3), {"do": "undo"}, LABELS, {"do": "redo"}, SAVE, {"do": "blocks"}, SAVE]
# 270 rows of few lines, so that lists of rows pass 256; a row comes at the beginning and one at the end, and both go and come again.
MANY_ROWS = "!a\n\n" + 4 * ("!" + 4000 * "b" + "\n") + "\n!c\n"
ENDS = [{"do": "sheet", "index": 0}, {"do": "sheet", "index": 5}]
ROWS = [splice(0, 60 * "d"), splice(7, 60 * "e"), *2 * [{"do": "undo"}], *ENDS, *2 * [{"do": "redo"}], *ENDS, SAVE]
# Words, the script, and the commands of a session.
RUNS = [
    (["sample", "20"], "", []),
    (["print"], LAMP, []),
    (["print", "f"], LAMP, []),
    (["outline", "f"], LAMP, []),
    (["desk", "f"], "!a\n===\n!b\n===\n!c\n", LETTERED),
    (["desk", "f"], "!a\n===\n!b\n===\n!c\n===\n!d\n", OMITTED),
    (["desk", "f"], MANY_ROWS, ROWS),
]


class Refuser:
    """Runs programs whose allocations are counted, and some of them refused."""

    def __init__(self, folder):
        (folder / "refusing.c").write_text(REFUSING)
        subprocess.run(["cc", "-O2", "-shared", "-fPIC", "-o", "refusing.so", "refusing.c"], cwd=folder, check=True)
        (folder / "tally").write_bytes(bytes(32))
        self.file = open(folder / "tally", "r+b")
        self.tally = mmap.mmap(self.file.fileno(), 32)
        self.env = {"LD_PRELOAD": str(folder / "refusing.so"), "TALLY": str(folder / "tally")}

    def run(self, words, folder, text, first=NEVER, last=NEVER):
        """The ended run; how many allocations it asked for, and how many were refused."""
        self.tally[:] = struct.pack("=4Q", 0, 0, first, last)
        ran = subprocess.run(words, cwd=folder, input=text, capture_output=True, env=self.env, timeout=SECONDS)
        return ran, *struct.unpack("=4Q", self.tally[:])[:2]


def files_of(folder):
    return {path.name: path.read_bytes() for path in folder.iterdir()}


def place(folder, script):
    for path in folder.iterdir():
        path.unlink()
    (folder / "f").write_text(script)


def is_kept(files, before, after):
    """Each of both files is as before the run, or as a save of it leaves it; no other file is there but one beside them."""
    left = {name for name in files if name not in ("f", "f.desk")}
    return all(files.get(name) in (before.get(name), after.get(name)) for name in ("f", "f.desk")) and all(name.startswith(".fountain-saving-") for name in left), len(left)


def replies_agree(replies, whole):
    """Replies are those of the whole run, but that a save may be refused; where one is, a later one may still succeed."""
    return len(replies) <= len(whole) and all(reply == other or (b"digest" in other and reply == b'{"no":"Shelf"}') for reply, other in zip(replies, whole))


def fault_in(ran, whole, words):
    """What is wrong with a run of which allocations were refused."""
    told = (ran.returncode, ran.stderr)
    if told not in ((9, b"fountain: no memory\n"), (whole.returncode, whole.stderr)):
        return f"ends with {ran.returncode} and tells {ran.stderr[:100]}"
    if words[0] == "desk":
        if ran.stdout and not ran.stdout.endswith(b"\n"):
            return f"writes half a reply: {ran.stdout[-100:]}"
        replies, all_replies = ran.stdout.splitlines(), whole.stdout.splitlines()
        if not replies_agree(replies, all_replies) or (ran.returncode == 0 and len(replies) < len(all_replies)):
            return f"writes {ran.stdout[-200:]}"
    elif not whole.stdout.startswith(ran.stdout) or (ran.returncode == 0 and ran.stdout != whole.stdout):
        return f"writes {ran.stdout[:200]}"
    elif words[0] == "sample" and ran.returncode == 9 and ran.stdout:
        return f"writes {ran.stdout[:200]}"
    return ""


def refuse_each(refuser, folder, run, every):
    """Refuses the allocations of a run in turn, and prints what came of it. Gives how many runs lost something."""
    words, script, commands = run
    text = "".join(json.dumps(command) + "\n" for command in commands).encode() if commands else script.encode()
    place(folder, script)
    before = files_of(folder)
    whole, calls, _ = refuser.run([PROGRAM, *words], folder, text)
    after = files_of(folder)
    ends, refused, beside, lost = {}, 0, 0, 0
    for first in range(1, calls + 1, every):
        for last in (first, NEVER):
            place(folder, script)
            ran, _, count = refuser.run([PROGRAM, *words], folder, text, first, last)
            kept, left = is_kept(files_of(folder), before, after)
            fault = fault_in(ran, whole, words) or ("" if kept else "loses a file")
            if not count:
                fault = "wasn't refused anything"
            refused, beside, lost = refused + count, beside + left, lost + bool(fault)
            end = 9 if ran.returncode == 9 else "refused a save" if ran.stdout != whole.stdout else "as if it had memory"
            ends[end] = ends.get(end, 0) + 1
            if fault:
                print(f"{' '.join(words)}, allocations {first} to {'the last' if last == NEVER else last} refused: {fault}")
    told = ", ".join(f"{'status 9' if end == 9 else end} {count}" for end, count in ends.items())
    print(f"{' '.join(words):12} {calls:7} allocations, {sum(ends.values()):7} runs, {refused:9} refusals ({told}; {beside} files left beside), {lost} losses", flush=True)
    return lost + (calls == 0)


def main():
    parser = argparse.ArgumentParser()
    parser.add_argument("--every", type=int, default=1)
    every = parser.parse_args().every
    with tempfile.TemporaryDirectory() as folder:
        folder = pathlib.Path(folder)
        (folder / "room").mkdir()
        refuser = Refuser(folder)
        lost = sum(refuse_each(refuser, folder / "room", run, every) for run in RUNS)
    return 1 if lost else 0


if __name__ == "__main__":
    sys.exit(main())

"""Tries scripts/fountain-check-script on scripts with one slip each, told at its line, and on scripts without; and holds what it tells of
random scripts against the program: numbers that can't be locked, boneyards that nothing closes, notes that are printed, and lines that
can't be read."""

import json
import os
import pathlib
import random
import re
import resource
import shutil
import subprocess
import sys
import time

from program import PROGRAM, TOP, lines_of
from report import faults_by, tell
from tools import lacks

CHECKER = TOP / "scripts/fountain-check-script"
RUNS = 150
# What a script of 200,000 lines may take, on a machine that does other work too.
SECONDS = 60
# Has Emacs read the lines as those of a compiler, and write the file and the line of the first.
EMACS = """(progn (require 'compile) (insert-file-contents "told") (compilation-mode) (compilation--ensure-parse (point-max))
(goto-char (point-min)) (let ((at (compilation--message->loc (get-text-property (point) 'compilation-message))))
(write-region (format "%s %s" (caar (compilation--loc->file-struct at)) (compilation--loc->line at)) nil "seen")))"""
# Scripts with the line of each slip, from 1, and a part of what is told.
SLIPS = (
    ("INT. KITCHEN - DAY\nAnna comes in.\n", [(1, "heading is taken for action")]),
    ("Rain.\nint. kitchen - day\n\nINT. HALL\n", [(2, "heading is taken for action")]),
    ("Rain.\nINT KITCHEN\n", [(2, "heading is taken for action")]),
    ("ANNA\nHello.\nEXT. YARD - NIGHT\n", [(3, "heading is taken for dialogue")]),
    ("INT KITCHEN\n\n!INT. A FORCED LINE\nand one more\n", []),
    ("EXT/INT. CAR - DAY\n\nRain.\n", [(1, "looks like a heading and is taken for action")]),
    ("INTERIOR HOUSE\nRain.\n", [(1, "looks like a heading and is taken for a cue")]),
    ("12A. INT. HOUSE - DAY\n\nRain.\n", [(1, "looks like a heading")]),
    ("ANNA\n\nHello.\n\nANNA\nYes.\n", [(1, "cue is taken for action")]),
    ("BOOM!\n\nANNA\nYes.\n\nTHE END\n", []),
    ("ANNA (O.S.)\n\nHello.\n", [(1, "cue is taken for action")]),
    ("ANNA\n\n(softly)\nHello.\n", [(1, "cue is taken for action")]),
    ("Anna\nHello.\n\nANNA\nYes.\n", [(1, "wants capitals")]),
    ("@Anna\nHello.\n\nAnna\nis gone.\n", []),
    ("Rain.\n\nCUT TO:\nINT. HALL\n", [(3, "transition is taken for a cue"), (4, "heading is taken for dialogue")]),
    ("She runs.\nCUT TO:\n", [(2, "transition is taken for action")]),
    ("BOOM!\nThe door falls.\n\nJOHN JR.\nHm.\n\n@Who?\nI.\n", [(1, "looks like action and is taken for a cue")]),
    ("\nTitle: A script\nAuthor: x\n\nRain.\n", [(2, "title page is taken for action")]),
    ("Title: A script\n\nNotes: none.\n", []),
    ("INT. A\n\nANNA ^\nYes.\n\nBERT\nNo.\n\nCARL ^\nOh.\n", [(3, "^ has no speech")]),
    ("ANNA\n(softly\nHello.\n", [(2, "parenthesis")]),
    ("ANNA\n(softly)\nHello (there).\n", []),
    ("ANNA\nYes.\n\nANNE\nNo.\n\nANNA\nOh.\n", [(4, "ANNE, 1 speech, is one letter from ANNA, 2 speeches")]),
    ("HANNA\nYes.\n\nHANNA\nNo.\n\nHANNAH (V.O.)\nOh.\n", [(7, "HANNAH, 1 speech, is one letter from HANNA, 2 speeches")]),
    ("MR. FOX\nYes.\n\nMR FOX\nNo.\n", [(4, "MR FOX, 1 speech, is one letter from MR. FOX")]),
    ("@McBride\nYes.\n\nMCBRIDE\nNo.\n", [(4, "MCBRIDE, 1 speech, is one letter from McBride")]),
    ("COP 1\nYes.\n\nCOP 2\nNo.\n\nGUARD A\nOh.\n\nGUARD B\nWell.\n\nCOP\nHm.\n\nANNA\nA.\n\nHANNAH\nB.\n", []),
    ("INT. A #1#\n\nINT. B #x#\n\nINT. C #0#\n\nINT. D #3#\n\nINT. E #2A#\n\nINT. F\n\nINT. G #3#\n", [
        (3, "scene number x can't be locked"), (5, "scene number 0 can't"), (9, "scene number 2A can't be locked: 3 stands before it"),
        (13, "scene number 3 can't be locked: 3 stands before it"),
    ]),
    ("INT. A #1#\n\nINT. B #1A#\n\nINT. C #1A.B#\n\nINT. D #2#\n\nINT. E\n\nINT. F #999999999#\n", []),
    ("INT. A #1000000000#\n\nINT. B #1ABCDEFGHABCDEFGHA#\n\nINT. C #01#\n\nINT. D #2I#\n", [
        (1, "1000000000 can't"), (3, "1ABCDEFGHABCDEFGHA can't"), (5, "01 can't"), (7, "2I can't"),
    ]),
    ("Rain.\n\n/* A thought.\n\nINT. LOST\n", [(3, "nothing closes this boneyard")]),
    ("/* one\n\n/* two */\n\nRain. /*/ x */\n", [(1, "another /* in it, in line 3")]),
    ("/* a\n\nb */ Rain */ and more.\n", [(3, "*/ closes no boneyard")]),
    ("Rain.\nMore [[a note\n\n]] and so on.\n", [(2, "nothing closes this note"), (4, "]] closes no note")]),
    ("[[one\ntwo]] Rain [[three\nand four\n", [(2, "nothing closes this note")]),
    ("Rain [[one]] and [[two\nthree]].\n", []),
    ("*Rain* and **snow.\n\n# **An act\n\n***\n\n**Snow** _falls_.\n", [(1, "nothing closes these **")]),
    ("/* gone */\nRain.\nINT. HALL\n", [(3, "heading is taken for action")]),
    ("Title: **x\nAuthor: y\n\nRain.\n", [(1, "nothing closes these **")]),
    ("", []),
)


def told(*words, given=None, place=None):
    ran = subprocess.run([CHECKER, *words], capture_output=True, input=given, cwd=place)
    return ran.returncode, ran.stdout.decode(errors="surrogateescape"), ran.stderr.decode()


def slips(folder):
    script = folder / "a script.fountain"
    for text, expected in SLIPS:
        for end in ("\n", "\r\n", "\r"):
            script.write_text(text.replace("\n", end), newline="")
            status, out, said = told(script)
            found = [line.removeprefix(f"{script}:").split(": ", 1) for line in out.splitlines()]
            good = len(found) == len(expected) and all(at == str(line) and what in text for (at, text), (line, what) in zip(found, expected))
            if not good or status != bool(expected) or said:
                yield f"{text[:60]!r} ends with {status}: {out}{said}"


def whole_scripts(folder):
    """The examples, of which one has a number twice, as the guide tells."""
    for script in sorted((TOP / "examples").glob("*.fountain")):
        shutil.copy(script, folder / script.name)
        status, out, _ = told(folder / script.name)
        expected = ["59: the scene number 3 can't be locked: 3 stands before it"] if script.stem == "the-lighthouse" else []
        if [line.removeprefix(f"{folder / script.name}:") for line in out.splitlines()] != expected or status != len(expected):
            yield f"{script.name} ends with {status}: {out}"
        if (folder / script.name).read_bytes() != script.read_bytes():
            yield f"{script.name} is changed"
    slip = b"ANNA\n(softly\nHello.\n"
    status, out, _ = told(folder / "the-mill.fountain", "-", given=slip)
    if status != 1 or not out.startswith("-:2: "):
        yield f"two scripts end with {status}: {out}"
    (folder / "slip").write_bytes(slip)
    os.mkfifo(folder / "pipe")
    with subprocess.Popen(["sh", "-c", 'cat "$1" >"$2"', "sh", folder / "slip", folder / "pipe"]):
        status, out, said = told(folder / "pipe")
    if status != 1 or not out.startswith(f"{folder / 'pipe'}:2: "):
        yield f"a pipe, which is read but once, ends with {status}: {out} {said}"


def records(folder):
    """Locked numbers aren't looked at, and records of another text are told."""
    script = folder / "script"
    script.write_text("INT. A #1#\n\nINT. B #2#\n\nRain.\n")
    edit = {"do": "replace", "first": 0, "count": 1, "lines": ["INT. A #3#"]}
    subprocess.run([PROGRAM, "desk", script], input=lines_of({"do": "lock_scenes"}, edit, {"do": "save"}), capture_output=True, check=True)
    if told(script) != (0, "", ""):
        yield f"a locked script is told {told(script)}"
    kept = pathlib.Path(f"{script}.desk").read_bytes()
    script.write_text("INT. A #4#\n\nINT. B #2#\n\nANNA\n(softly\nHm.\n")
    status, out, _ = told(script)
    lines = out.splitlines()
    is_told = len(lines) == 2 and "records" in lines[0] and lines[1].startswith(f"{script}:6: ")
    if status != 1 or not is_told or pathlib.Path(f"{script}.desk").read_bytes() != kept:
        yield f"a script with records of another text ends with {status}: {out}"


def random_script(rng):
    pieces = (
        "INT. ROOM", "INT. ROOM #1#", "INT. ROOM #2A#", "INT. ROOM #7#", "INT. ROOM #x#", "EXT. YARD #0#", "Rain.", "ANNA", "Hello.", "", "", "",
        "/* a", "b */", "[[ note", "end ]]", "/*/", "# Act", "===", "  ", "!x", "**y", "a /* b */ c [[d]]",
    )
    return "".join(f"{rng.choice(pieces)}\n" for _ in range(rng.randrange(1, 40)))


def random_scripts(folder):
    script, rng = folder / "script", random.Random("check")
    for _ in range(RUNS):
        text = random_script(rng)
        script.write_text(text)
        _, out, said = told(script)
        lines = [line.removeprefix(f"{script}:").split(": ", 1) for line in out.splitlines()]
        commands = lines_of({"do": "lock_scenes"}, {"do": "blocks"})
        ran = subprocess.run([PROGRAM, "desk", script], input=commands, capture_output=True, check=True)
        locked, blocks = map(json.loads, ran.stdout.splitlines())
        numbers = [int(at) - 1 for at, what in lines if "can't be locked" in what]
        if said or numbers[:1] != ([locked["line"]] if "line" in locked else []):
            yield f"{text!r}: the program refuses {locked}, and these lines are told: {numbers} {said}"
        behind = subprocess.run([PROGRAM, "print"], input=f"{text}\n\n!QQQ\n".encode(), capture_output=True, check=True).stdout
        if any("nothing closes this boneyard" in what for _, what in lines) != (b"QQQ" not in behind):
            yield f"{text!r}: whether a boneyard is left open is told otherwise"
        shown = ["[[" in line for block in blocks["blocks"] for line in block["lines"]]
        if any("nothing closes this note" in what for _, what in lines) != any(shown):
            yield f"{text!r}: whether a note is left open is told otherwise"


def unreadable(folder):
    """Lines that can't be read: the first of them is the one that the program names."""
    script = folder / "script"
    for data, expected in (
        (b"Rain.\r\ncaf\xe9\r\xff\xfe\nx\n", [2, 3]), (b"Rain.\n" + b"x" * 4096 + b"\n" + b"y" * 4097 + b"\n\n" + b"\xc3\xa4" * 2049, [3, 5]),
        (b"\x01" * 5000 + b"\n\xe2\x82\n", [2]), ("INT. A\n".encode("utf-16"), [1]), (b"\n" * 200_001, [200_001]), (b"x\n" * 100 + b"y" * 16_777_216, [101]),
    ):
        script.write_bytes(data)
        status, out, said = told(script)
        lines = [int(line.removeprefix(f"{script}:").split(":")[0]) for line in out.splitlines()]
        if status != 1 or lines != expected or said:
            yield f"{data[:20]} ends with {status} and tells the lines {lines}: {said}"
        fault = subprocess.run([PROGRAM, "print"], input=data, capture_output=True).stderr.decode()
        at = re.search(r"byte (\d+)|line (\d+)", fault)
        first = len(re.findall(b"\r\n|\r|\n", data[: int(at[1])])) + 1 if at and at[1] else int(at[2]) + 1 if at else lines[0]
        if first != lines[0]:
            yield f"{data[:20]}: the program tells {fault}"


def refusals(folder):
    (folder / "folder").mkdir()
    for words, why in (
        (["nobody"], "no file nobody"), ([folder / "folder"], "folder: Is a directory"), ([], "usage"), (["--what"], "usage"),
        ([""], "no file"), (["caf\udce9"], "isn't UTF-8"),
    ):
        status, out, said = told(*words)
        if status != 2 or out or not said.startswith("fountain-check-script: ") or said.count("\n") != 1 or why not in said:
            yield f"{[str(it) for it in words]} ends with {status}: {said!r}"
    (folder / "script").write_text("Rain.\n")
    # No more than tempfile writes to try a folder.
    limit = resource.RLIMIT_FSIZE, (4, 4)
    ran = subprocess.run([CHECKER, folder / "script"], capture_output=True, preexec_fn=lambda: resource.setrlimit(*limit))
    if (ran.returncode, ran.stdout, ran.stderr) != (2, b"", b"fountain-check-script: File too large\n"):
        yield f"with no room for a copy it ends with {ran.returncode}: {ran.stderr}"
    if told("--help")[0] or not told("--help")[1].startswith("fountain-check-script FILE ..:"):
        yield "--help tells something else"


def editors(folder):
    """What vim and Emacs make of the lines, where they are installed, also of names with blanks."""
    asked = {"vim": ["-Nu", "NONE", "-es", "-c", "cgetfile told", "-c", "redir! > seen", "-c", "silent clist", "-c", "redir END", "-c", "qa!"]}
    asked["emacs"] = ["--batch", "--load", TOP / "examples/editors/fountain.el", "--eval", EMACS]
    for editor, words in asked.items():
        if lacks("check_script", f"{editor} reads no lines", editor):
            continue
        for name in ("script", "the mill - draft 2.fountain", "a:3 (b).fountain"):
            (folder / name).write_text("Rain.\n\nANNA\n(softly\nHello.\n")
            (folder / "told").write_text(told(name, place=folder)[1])
            (folder / "seen").unlink(missing_ok=True)
            subprocess.run([editor, *words], cwd=folder, capture_output=True, timeout=SECONDS)
            seen = (folder / "seen").read_text().strip() if (folder / "seen").exists() else ""
            if not seen.startswith(f"1 {name}:4:") and seen != f"{name} 4":
                yield f"{editor} sees {seen!r} of {name}"


def large(folder):
    """200,000 lines of each kind that a careless search would be slow on."""
    script = folder / "script"
    for name, text, count in (
        ("short scenes", "".join(f"INT. ROOM {at}\n\nANNA\nw{at}w\n\n" for at in range(40_000)), 0),
        ("names", "".join(f"{chr(65 + at // 676 % 26)}Q{chr(65 + at // 26 % 26)}Q{chr(65 + at % 26)}XX\nw\n\n" for at in range(60_000)), None),
        ("boneyards", "/* /* */\n" * 200_000, 200_000),
        ("notes", "[[ a\n" * 199_999, None),
        ("one speech", "ANNA\n" + "(a\n" * 199_999, 199_999),
        ("numbers", "INT. A #x#\n\n" * 100_000, 100_000),
    ):
        script.write_text(text)
        begun = time.monotonic()
        status, out, said = told(script)
        if said or count is not None and (out.count("\n") != count or status != bool(count)) or time.monotonic() - begun > SECONDS:
            yield f"{name} end with {status}, {out.count(chr(10))} lines in {time.monotonic() - begun:.0f} s: {said}"


def main():
    if not PROGRAM.exists():
        return tell("check_script", "no script was checked", ["the program isn't built"])
    faults = faults_by((slips, whole_scripts, records, random_scripts, unreadable, refusals, editors, large))
    return tell("check_script", f"{len(SLIPS)} scripts with slips or none, and {RUNS} random ones", faults[:20])


if __name__ == "__main__":
    sys.exit(main())

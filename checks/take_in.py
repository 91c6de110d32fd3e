"""Takes drafts into scripts by fountain-take-in, as installed: what comes of it is held against sheets that are laid out here, against the
least number of lines that can differ, and against the rules of texts; with refusals, runs that are ended anywhere, editors that wrote over
a script with locked pages, two writers at once, and 200,000 lines."""

import json
import os
import random
import resource
import shutil
import subprocess
import sys
import time

from installed import MOST_SECONDS, Place, Scene, differs, digest, ended_anywhere, omitted, refuses, script_of, seconds_of_children, sheet, text_by_rules
from program import PROGRAM, SECONDS
from report import faults_by, tell
from tools import lacks

TAKE_IN = "fountain-take-in"
MILL = script_of([Scene(f"INT. ROOM {at} - DAY", [f"The lamp in room {at} is lit."]) for at in range(1, 6)])
CHANGED = "s was changed by another program since it was saved; fountain-take-in --recover s mends that"


def take_in(place, draft, *options, file="s"):
    place.put("draft", draft)
    return place.run(TAKE_IN, *options, "draft", file)


# What comes of drafts


def scenes(rng):
    count = rng.randint(3, 9)
    return [Scene(f"INT. ROOM {at} - DAY", [f"Lamp {at} of {line} burns at {rng.randrange(900)}." for line in range(rng.randint(1, 6))]) for at in range(1, count + 1)]


def changed(rng, at, scene):
    """A scene as a writer leaves it, with stars where a line is another one or new."""
    after = Scene(scene.heading, [])
    if rng.random() < 0.3:
        after.heading = f"INT. ROOM {at} - NIGHT"
        after.stars.add(after.heading)
    for line in scene.lines:
        kind = rng.random()
        if kind < 0.2 and len(scene.lines) > 1:
            continue
        if kind < 0.5:
            line = f"Now {line.lower()}" if kind < 0.4 else f"{line} Out."
            after.stars.add(line)
        after.lines.append(line)
        if kind > 0.8:
            after.lines.append(f"Somebody new comes in, {rng.random()}.")
            after.stars.add(after.lines[-1])
    if not after.lines:
        after.lines = scene.lines[:1]
    return after


def omitted_sheets(gone):
    """The one sheet of pages that are gone, or none."""
    return [omitted(str(gone[0]) if len(gone) == 1 else f"{gone[0]}-{gone[-1]}", "Blue")] if gone else []


def revised(rng, old):
    """The scenes of a draft, and the sheets that it has to come to. New scenes stand behind scenes that stay, and before such."""
    kinds = [rng.choice(("stays", "stays", "changes", "goes")) for _ in old]
    kinds[0] = "stays"
    draft, sheets, gone = [], [], []
    for at, (scene, kind) in enumerate(zip(old, kinds), 1):
        if kind == "goes":
            gone.append(at)
            continue
        sheets += omitted_sheets(gone)
        gone = []
        after = changed(rng, at, scene) if kind == "changes" else scene
        draft.append(after)
        is_blue = (after.heading, after.lines) != (scene.heading, scene.lines)
        count = rng.choice((0, 0, 1, 2)) if kind == "stays" and kinds[at : at + 1] != ["goes"] else 0
        sheets.append(sheet(str(at), "Blue" if is_blue or count else "", str(at), after))
        # Behind the last scene numbers rise.
        for label in (f"{at}A", f"{at}B")[:count] if at < len(old) else (str(at + 1), str(at + 2))[:count]:
            new = Scene(f"EXT. YARD {label} - DUSK", [f"A cart comes by, {rng.random()}."])
            new.stars = {new.heading, *new.lines}
            draft.append(new)
            sheets.append(sheet(label, "Blue", label, new))
    sheets += omitted_sheets(gone)
    return draft, "".join(sheets)


def locked_scripts(place):
    """Labels, colours, numbers and stars are those that a department expects."""
    for seed in range(30):
        rng = random.Random(seed)
        old = scenes(rng)
        place.clear()
        place.lock(script_of(old))
        draft, sheets = revised(rng, old)
        ran = take_in(place, script_of(draft))
        yield from differs(f"take-in of draft {seed} ends", (ran[0], ran[2]), (0, ""))
        yield from differs(f"the text of draft {seed}", (place.folder / "s").read_text(), script_of(draft))
        yield from differs(f"the sheets of draft {seed}", place.sheets(), sheets)


def longest_common(one, other):
    row = [0] * (len(other) + 1)
    for it in one:
        before = row[:]
        for at, that in enumerate(other):
            row[at + 1] = before[at] + 1 if it == that else max(row[at], before[at + 1])
    return row[-1]


def least_lines(place):
    """As few lines get marks as can be, of lines that print something, and those that went and came are just the ones that differ."""
    words = ["ANNA", "BERT", "", "", "", "INT. A - DAY", "===", "He goes out of the room, slowly.", "x"]
    for seed in range(30):
        rng = random.Random(seed)

        def line():
            return rng.choice(words) + rng.choice(("", "", str(rng.randrange(9))))

        old = [line() for _ in range(rng.randrange(40))]
        new = list(old)
        for _ in range(rng.randrange(6)):
            first = rng.randrange(len(new) + 1)
            end = min(len(new), first + rng.randrange(5))
            part = new[first:end]
            new[first:end] = rng.choice(([], [line() for _ in range(3)], [f"{it} again" for it in part], part[::-1]))
        place.clear()
        place.put("s", "".join(f"{it}\n" for it in old))
        place.desk({"do": "next_round"}, {"do": "save"})
        before = place.records()
        ran = take_in(place, "".join(f"{it}\n" for it in new))
        yield from differs(f"take-in {seed} ends", (ran[0], ran[2]), (0, ""))
        yield from differs(f"text {seed}", (place.folder / "s").read_text().splitlines(), new)
        after = place.records()
        full = [[it for it in side if it.strip("=")] for side in (old, new)]
        marked = sum(mark for mark, it in zip(after["marks"], new) if it.strip("="))
        yield from differs(f"lines with marks of {seed}", marked, len(full[1]) - longest_common(*full))
        texts = dict(zip(before["ids"], old))
        for it, mark, text in zip(after["ids"], after["marks"], new):
            if not mark and texts.get(it) != text:
                yield f"{seed}: a line without a mark is {text!r} and was {texts.get(it)!r}"


def numbers(place):
    """A heading that is changed keeps its number; one that comes before it gets another; a scene that moves or is replaced whole is new."""
    old = "INT. KITCHEN - DAY\n\nAnna cooks.\n\nINT. HALL - DAY\n\nBert waits at the door.\n\nEXT. WEIR - DUSK\n\nThe water is high.\n"
    cases = [
        ("changed", old.replace("HALL - DAY", "HALL - NIGHT"), ["1", "2", "3"]),
        ("another place", old.replace("INT. HALL - DAY", "EXT. GARDEN, UNDER THE TREES - NIGHT"), ["1", "2", "3"]),
        ("one before a changed one", old.replace("INT. HALL - DAY\n\nBert waits", "INT. STUDIO - DAY\n\nOtis sings.\n\nINT. HALL - NIGHT\n\nNow Bert waits"), ["1", "1A", "2", "3"]),
        ("one of the same heading before it", old.replace("INT. HALL - DAY\n", "INT. HALL - DAY\n\nOtis sings.\n\nINT. HALL - DAY\n"), ["1", "1A", "2", "3"]),
        ("moved", old.replace("INT. KITCHEN - DAY\n\nAnna cooks.\n\n", "") + "\nINT. KITCHEN - DAY\n\nAnna cooks.\n", ["1 gone", "2", "3", "4"]),
        ("replaced whole", old.replace("INT. HALL - DAY\n\nBert waits at the door.", "EXT. GARDEN, UNDER TREES - NIGHT\n\nOtis sings."), ["1", "2 gone", "2A", "3"]),
        ("gone", old.replace("INT. HALL - DAY\n\nBert waits at the door.\n\n", ""), ["1", "2 gone", "3"]),
    ]
    for what, draft, expected in cases:
        place.clear()
        place.lock(old)
        yield from differs(f"{what} ends", take_in(place, draft)[0], 0)
        lines = place.desk({"do": "outline"})[0]["outline"].splitlines()
        told = [line.split("\t")[0] + (" gone" if line.endswith("\t-\tOMITTED") else "") for line in lines]
        yield from differs(f"the numbers where a scene is {what}", told, expected)


def drafts_of_all_kinds(place):
    """Line ends, a Byte Order Mark and characters that no page shows are read by the rules; where only they differ nothing is saved."""
    same = [MILL.replace("\n", "\r\n"), MILL.replace("\n", "\r"), "\ufeff" + MILL, MILL[:-1], MILL.replace("lamp", "la\0m\x85p\ufeff")]
    place.lock(MILL)
    for draft in same:
        before = place.files()
        ran = take_in(place, draft)
        yield from differs("a draft of the same lines", ran, (0, "s has that text already, so nothing is changed\n", ""))
        after = place.files()
        yield from differs("what it leaves", {name for name in after if after[name] != before.get(name)}, {"draft"})
    texts = ["", "\ufeff", "\r\0\n", "a\r\nb\rc\n", "INT. A - DAY\r\n\r\n  \r\n\tä\u2028 字\0", "\n\n\n", "x" * 4096, "!\\\"{}\x7f\ttab"]
    for text in texts:
        place.clear()
        place.lock(MILL)
        ran = take_in(place, text)
        yield from differs(f"{text[:20]!r} ends", (ran[0], ran[2]), (0, ""))
        yield from differs(f"the text of {text[:20]!r}", (place.folder / "s").read_bytes(), text_by_rules(text.encode()))
        yield from differs(f"the digest of {text[:20]!r}", place.records()["digest"], digest(text_by_rules(text.encode())))
        yield from differs(f"{text[:20]!r} opens", place.run("fountain", "print", "s")[0], 0)
    place.clear()
    place.put("s", MILL.replace("\n", "\r\n"))
    yield from differs("a script that isn't locked", take_in(place, MILL + "\nMore.\n")[0], 0)
    yield from differs("its text", (place.folder / "s").read_text(), MILL + "\nMore.\n")


def told(place):
    """A dry run tells what would change, with lines from 1, and changes nothing; a run tells how much did."""
    place.lock(MILL)
    draft = MILL.replace("lamp in room 2", "candle in room 2").replace("\n===\n\nINT. ROOM 4 - DAY\n\nThe lamp in room 4 is lit.\n", "") + "\nThe end.\n"
    place.put("draft", draft)
    before = place.files()
    expected = [
        "line 9, changed:", "- The lamp in room 2 is lit.", "+ The candle in room 2 is lit.",
        "lines 19 to 24, gone:", "- INT. ROOM 4 - DAY", "- ", "- The lamp in room 4 is lit.", "- ", "- ===", "- ",
        "behind line 27, new:", "+ ", "+ The end.",
    ]
    yield from differs("a dry run", place.run(TAKE_IN, "--dry-run", "draft", "s"), (0, "".join(f"{it}\n" for it in expected), ""))
    yield from differs("what it leaves", place.files(), before)
    yield from differs("a run", take_in(place, draft), (0, "s: 1 line changed, 2 new, 6 gone; Blue sheets: 2, 4, 5\n", ""))
    moved = draft.replace("INT. ROOM 1 - DAY\n\nThe lamp in room 1 is lit.\n\n===\n\n", "") + "\n===\n\nINT. ROOM 1 - DAY\n\nThe lamp in room 1 is lit.\n"
    place.put("draft", moved)
    out = place.run(TAKE_IN, "--dry-run", "draft", "s")[1]
    if "moved behind line" not in out or "moved from line" not in out:
        yield f"a scene that moved is told so: {out}"


# What is refused, and what is ended


def crafted(place, **fields):
    """A locked script whose records have other fields."""
    place.clear()
    place.lock(MILL)
    records = place.records() | fields
    place.put("s.desk", json.dumps(records))


def refusals(place):
    usage = "usage: fountain-take-in [--dry-run] [--base=OLD] DRAFT FILE, or fountain-take-in [--dry-run] --recover FILE (--help tells more)"
    two = "draft", "s"
    for words in ((), ("draft",), ("a", *two), *((option, *two) for option in ("--other", "--recover", "--dry-run=1", "--base", "--base="))):
        yield from refuses(f"{words}", place, 2, usage, TAKE_IN, *words)
    place.lock(MILL)
    place.put("draft", MILL + "\nMore.\n")
    yield from refuses("a draft that isn't there", place, 3, "no file gone", TAKE_IN, "gone", "s")
    for name in ("gone", "gone/s"):
        yield from refuses("a script that isn't there", place, 3, f"no file {name}", TAKE_IN, "draft", name)
    yield from refuses("a folder", place, 1, f"{place.folder.name}: Is a directory".replace(place.folder.name, "."), TAKE_IN, ".", "s")
    for what, draft, line in (
        ("bytes that are no UTF-8", b"!a\xff", "draft: not UTF-8 at byte 2"),
        ("a long line", b"!\n" + b"a" * 4097, "draft: line 2 is too long"),
        ("too many lines", b"\n" * 200_001, "draft: the text is too long"),
        ("too many bytes", b"a" * 16_777_217, "draft: the text is too long"),
    ):
        place.put("draft", draft)
        yield from refuses(what, place, 4, line, TAKE_IN, "draft", "s")
    place.put("draft", MILL + "\nMore.\n")
    place.put("old", MILL)
    said = "s has locked pages, and draft has none: the draft is named first, and then the script"
    yield from refuses("a script that is taken into its draft", place, 1, said, TAKE_IN, "s", "draft")
    yield from refuses("--base with --recover", place, 2, "--base is for a draft, and not for --recover", TAKE_IN, "--base=old", "--recover", "s")
    for what in ("text", "records"):
        place.lock(MILL)
        place.put("draft", MILL + "\nMore.\n")
        place.fill(what)
        yield from refuses(f"a save of {what} that fails", place, 1, "s: a file couldn't be stored", TAKE_IN, "draft", "s")
        place.clear()
    crafted(place, next=2**48)
    place.put("draft", MILL.replace("lamp in room 5", "candle in room 5") + "\nMore.\n")
    yield from refuses("the ids are spent", place, 1, "draft, line 28: no number is left for a new line", TAKE_IN, "draft", "s")
    place.put("s", MILL + "\nBy an editor.\n")
    yield from refuses("a script of another text", place, 8, CHANGED, TAKE_IN, "draft", "s")
    place.put("s", MILL)
    place.put("s.desk", b"{}")
    yield from refuses("no records", place, 8, "s.desk is no record file (rule 2); fountain-take-in --recover s mends that", TAKE_IN, "draft", "s")

    def small_files():
        resource.setrlimit(resource.RLIMIT_FSIZE, (100, 100))

    place.clear()
    place.lock(MILL)
    place.put("draft", MILL + "\nMore.\n")
    before = place.files()
    ran = place.run(TAKE_IN, "draft", "s", preexec_fn=small_files)
    yield from differs("a full disk", (ran[0] > 0, ran[1], ran[2].count("\n"), place.files() == before), (True, "", 1, True))


def ended(place):
    """A run that is ended anywhere leaves the old text or the new one, and a second run ends in the same."""
    many = [Scene(f"INT. ROOM {at} - DAY", [f"The lamp in room {at} is lit."]) for at in range(400)]
    old, new = script_of(many), script_of(many).replace("lamp in room 1", "candle in room 1").replace("lit.\n", "lit.\n\nIt is late.\n", 50)
    place.lock(old)
    start = {name: (place.folder / name).read_bytes() for name in ("s", "s.desk")}
    begun = time.monotonic()
    yield from differs("a run", take_in(place, new)[0], 0)
    taken, sheets = time.monotonic() - begun, place.sheets()
    rng = random.Random(4)
    for number in range(20):
        place.clear()
        for name, data in start.items():
            place.put(name, data)
        place.put("draft", new)
        yield from ended_anywhere(place, rng, taken, number, TAKE_IN, "draft", "s")
        text = (place.folder / "s").read_text()
        if text not in (old, new):
            yield f"a run that was ended leaves {len(text)} bytes"
        status = place.run("fountain", "print", "s")[0]
        if status:
            yield from differs("a script that doesn't open", (status, place.run(TAKE_IN, "--recover", "s")[0]), (8, 0))
        yield from differs("a second run", (place.run(TAKE_IN, "draft", "s")[0], (place.folder / "s").read_text() == new), (0, True))
        yield from differs("its sheets", place.sheets() == sheets, True)


# Recovery


def written_over(place, **kept):
    """A locked Blue script to which a draft was taken in, and what an editor then wrote over it."""
    place.clear()
    place.lock(MILL)
    take_in(place, MILL.replace("lamp in room 1", "candle in room 1"))
    (place.folder / "draft").unlink()
    saved = (place.folder / "s").read_text()
    if not kept.get("copies", True):
        shutil.rmtree(place.folder / "s.kept")
    return saved, saved.replace("lamp in room 3", "torch in room 3")


def mended_sheets():
    scenes = [Scene(f"INT. ROOM {at} - DAY", [f"The {thing} in room {at} is lit."]) for at, thing in enumerate(("candle", "lamp", "torch", "lamp", "lamp"), 1)]
    for at in (0, 2):
        scenes[at].stars = set(scenes[at].lines)
    return "".join(sheet(str(at), "Blue" if scene.stars else "", str(at), scene) for at, scene in enumerate(scenes, 1))


def mends(what, place, text):
    """The script with this text is taken as an edit of what it was; its own bytes stay."""
    place.put("s", text)
    yield from differs(f"{what}: it doesn't open", place.run("fountain", "print", "s")[0], 8)
    before = place.files()
    yield from differs(f"{what}: a dry run", (place.run(TAKE_IN, "--dry-run", "--recover", "s")[0], place.files()), (0, before))
    ran = place.run(TAKE_IN, "--recover", "s")
    yield from differs(f"{what} ends", (ran[0], ran[2]), (0, ""))
    yield from differs(f"{what}: the text", (place.folder / "s").read_bytes(), text.encode())
    yield from differs(f"{what}: the sheets", place.sheets(), mended_sheets())
    again = place.run(TAKE_IN, "--recover", "s")
    yield from differs(f"{what}, again", again, (0, "s opens, so there is nothing to mend\n", ""))


def recovery(place):
    """A script that an editor wrote over: the text that its records are of is found, and what the editor changed is taken in."""
    _, text = written_over(place)
    yield from mends("a kept copy", place, text)
    _, text = written_over(place)
    yield from mends("a kept copy, and CR LF", place, text.replace("\n", "\r\n"))
    for name in ("s~", "old s.bak", "#s#", os.fsdecode(b"s\xff")):
        saved, text = written_over(place, copies=False)
        place.put(name, "\ufeff" + saved.replace("\n", "\r\n"))
        yield from mends(f"the file {name!r}", place, text)
    _, text = written_over(place, copies=False)
    place.put("s", text)
    place.put("other", MILL)
    said = f"s.desk is of a text with the SHA-256 {place.records()['digest']}, and no copy of that is in s.kept, beside s or in git"
    yield from refuses("no copy", place, 1, said, TAKE_IN, "--recover", "s")
    yield from refuses("a dry run without one", place, 1, said, TAKE_IN, "--dry-run", "--recover", "s")
    place.clear()
    place.put("s", MILL)
    place.desk({"do": "save"})
    place.put("s", MILL + "\nMore.\n")
    ran = place.run(TAKE_IN, "--recover", "s")
    yield from differs("records that lock nothing", (ran[0], ran[2].endswith("; but nothing is locked in s.desk, so it can be moved away\n")), (1, True))
    yield from refuses("a script that isn't there", place, 3, "no file gone", TAKE_IN, "--recover", "gone")
    place.put("t", MILL)
    yield from differs("a script without records", place.run(TAKE_IN, "--recover", "t"), (0, "t opens, so there is nothing to mend\n", ""))


def from_git(place):
    if lacks("take_in", "nothing is looked for in git", "git"):
        return
    def git(*words):
        who = ["-c", "user.name=a", "-c", "user.email=a@b.invalid"]
        subprocess.run(["git", *who, *words], cwd=place.folder, check=True, stdout=subprocess.DEVNULL)

    def commit(text):
        place.put("s", text)
        git("add", "s")
        git("commit", "-qm", "another")

    def stash(text):
        place.put("s", text)
        git("stash", "-q")

    def leave(text):
        commit(text)
        git("reset", "-q", "--hard", "HEAD~1")
        commit("another")

    for what, do in (
        ("a commit", commit),
        ("an older commit", lambda saved: [commit(it) for it in (saved, "another", "others")]),
        ("a commit that was left behind", leave),
        ("another branch", lambda saved: [git("switch", "-q", "-c", "other"), commit(saved), git("switch", "-q", "-"), commit("another")]),
        ("the index", lambda saved: [place.put("s", saved), git("add", "s")]),
        ("a stash", stash),
        ("an older stash", lambda saved: [stash(saved), stash("another")]),
    ):
        saved, text = written_over(place, copies=False)
        git("init", "-q")
        commit("first")
        do(saved)
        yield from mends(f"git, {what}", place, text)


def broken_off(place):
    """A save that was ended between its two files is ended from the file beside, or taken in where that isn't whole."""
    saved, text = written_over(place)
    old = (place.folder / "s.desk").read_bytes()
    take_in(place, text)
    new = (place.folder / "s.desk").read_bytes()
    place.put("s.desk", old)
    place.put(".fountain-saving-0", b"x")
    place.put(".fountain-saving-1", new)
    ran = place.run(TAKE_IN, "--recover", "s")
    yield from differs("a whole file beside", ran, (0, ".fountain-saving-1 has the records of s, whose save was broken off\n", ""))
    yield from differs("the records", ((place.folder / "s.desk").read_bytes() == new, (place.folder / ".fountain-saving-1").exists()), (True, False))
    yield from differs("the sheets", place.sheets(), mended_sheets())
    place.put("s.desk", old)
    place.put(".fountain-saving-0", new[: len(new) // 2])
    yield from mends("half a file beside", place, text)


def lost_records(place):
    """Records that are lost or spoiled come back from the last copy, and what changed since is taken in."""
    for what, records in (("lost", None), ("spoiled", b"{}"), ("cut", b'{"digest":"')):
        _, text = written_over(place)
        place.put("s", text)
        (place.folder / "s.desk").unlink()
        if records is not None:
            place.put("s.desk", records)
        else:
            place.put("draft", text + "\nMore.\n")
            said = "s.desk is gone, and pages are locked in s.kept/002-blue; fountain-take-in --recover s puts it back, or move s.kept away to lock anew"
            yield from refuses("a draft without records", place, 1, said, TAKE_IN, "draft", "s")
            yield from refuses("a hand-out without records", place, 1, said, "fountain-hand-out", "s")
            # A run that was killed may have left the copy of a text that wasn't saved.
            place.put("s.kept/003-blue", text)
            yield from refuses("a hand-out without records after a kill", place, 1, said, "fountain-hand-out", "s")
        ran = place.run(TAKE_IN, "--recover", "s")
        yield from differs(f"{what} records", (ran[0], ran[2]), (0, ""))
        yield from differs(f"{what} records: the sheets", place.sheets(), mended_sheets())


# Two writers, and much text


def two_writers(place):
    """With the text that a draft was copied from, what others changed since stays; where both changed a line, that is refused."""
    place.lock(MILL)
    place.put("old", MILL)
    yield from differs("the first writer", take_in(place, MILL.replace("lamp in room 1", "candle in room 1") + "\nThe end.\n")[0], 0)
    second = MILL.replace("lamp in room 3", "torch in room 3").replace("\n===\n\nINT. ROOM 5", "\nA moth.\n\n===\n\nINT. ROOM 5")
    yield from differs("the second writer", take_in(place, second, "--base=old")[0], 0)
    both = second.replace("lamp in room 1", "candle in room 1") + "\nThe end.\n"
    yield from differs("the text of both", (place.folder / "s").read_text(), both)
    place.put("draft", MILL.replace("lamp in room 3", "fire in room 3"))
    said = "draft, line 15: s was changed there too since old, in another way"
    yield from refuses("the third writer", place, 1, said, TAKE_IN, "--base=old", "draft", "s")
    yield from differs("the second writer again", take_in(place, second, "--base=old"), (0, "s has that text already, so nothing is changed\n", ""))
    yield from refuses("no such text", place, 3, "no file gone", TAKE_IN, "--base=gone", "draft", "s")

    place.clear()
    place.lock(MILL)
    place.put("old", MILL)
    expected = MILL.replace("lamp", "candle")
    for at in range(1, 6):
        place.put(f"draft {at}", MILL.replace(f"lamp in room {at}", f"candle in room {at}"))
    runs = [place.start(TAKE_IN, "--base=old", f"draft {at}", "s") for at in range(1, 6)]
    for run in runs:
        said = run.communicate(timeout=SECONDS)[1].decode()
        yield from differs("one of five writers at once", (run.returncode, said), (0, ""))
    yield from differs("the text of five writers at once", (place.folder / "s").read_text(), expected)


def large_script():
    rng = random.Random(5)
    lines = []
    while len(lines) < 199_990:
        at = len(lines) // 10
        lines += [f"INT. ROOM {at} - DAY", "", f"The lamp in room {at} is lit, and {rng.randrange(999)} moths come.", "", "ANNA", f"I have counted {rng.randrange(500)} lamps.", "", "BERT", "Count them again.", ""]
    return lines


def much_text(place):
    """200,000 lines take seconds, also where each is changed, and so do 20,000 that were shuffled: those are thousands of edits."""
    rng = random.Random(6)
    lines = large_script()
    few = list(lines)
    for _ in range(1000):
        few[rng.randrange(len(few))] += " again"
    part = lines[:20_000]
    drafts = {
        "few changes": (lines, few),
        "each line changed": (lines, [it and f"{it}." for it in lines]),
        "shuffled": (part, rng.sample(part, len(part))),
        "nothing left": (lines, []),
        "another script": (lines, [f"!{at}" for at in range(199_000)]),
        "each line of a block changed": ([f"!{at}" for at in range(199_000)], [f"!{at}." for at in range(199_000)]),
    }
    for what, (lines, draft) in drafts.items():
        place.clear()
        place.lock("".join(f"{it}\n" for it in lines))
        begun = seconds_of_children()
        ran = take_in(place, "".join(f"{it}\n" for it in draft))
        taken = seconds_of_children() - begun
        yield from differs(f"{what} ends", (ran[0], ran[2]), (0, ""))
        yield from differs(f"the text of {what}", (place.folder / "s").read_text().splitlines() == draft, True)
        if taken > MOST_SECONDS:
            yield f"{what} takes {taken:.1f} s"


def full_texts(place):
    """A draft at the limits comes in, also where what comes and what goes don't fit at once, and where lines take many bytes."""
    lines = [f"{at}" for at in range(200_000)]
    drafts = {
        "lines": (lines, lines[150_000:] + [f"new {at}" for at in range(150_000)]),
        "bytes": (["a" * 4095] * 4096, ["b" * 4095] + ["a" * 4095] * 4000 + ["c" * 4095] * 95),
        "escapes": (["x"], ['"\\' * 2048] * 4000),
    }
    for what, (old, new) in drafts.items():
        place.clear()
        place.lock("".join(f"{it}\n" for it in old))
        ran = take_in(place, "".join(f"{it}\n" for it in new))
        yield from differs(f"a text full of {what} ends", (ran[0], ran[2]), (0, ""))
        yield from differs(f"a text full of {what}", (place.folder / "s").read_text().splitlines() == new, True)


CHECKS = [
    locked_scripts, least_lines, numbers, drafts_of_all_kinds, told, refusals, ended, recovery, from_git, broken_off, lost_records, two_writers, much_text,
    full_texts,
]


def main():
    if not PROGRAM.exists():
        return tell("take_in", "nothing was taken in", ["the program isn't built"])
    return tell("take_in", f"{len(CHECKS)} kinds of drafts", faults_by(CHECKS, Place))


if __name__ == "__main__":
    sys.exit(main())

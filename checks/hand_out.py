"""Hands out scripts over several days by fountain-hand-out, as installed: which sheets are handed out, in which file, and in which colour is
held against sheets that are laid out here; what was handed out, collated day by day, has to be the present sheets; and the memo has to tell
what was changed. With options, refusals, and runs that are ended anywhere."""

import json
import random
import resource
import shutil
import signal
import sys
import tempfile
import time

from installed import MOST_SECONDS, Place, Scene, crash, differs, ended_anywhere, of_guide, omitted, refuses, script_of, seconds_of_children, sheet, shell
from program import PROGRAM, SECONDS, TOP
from report import found_by, tell

HAND_OUT, TAKE_IN, MEMO = "fountain-hand-out", "fountain-take-in", "fountain-memo"


def rooms(count):
    return [Scene(f"INT. ROOM {at} - DAY", [f"The lamp in room {at} is lit.", "It is late."]) for at in range(1, count + 1)]


def take_in(place, draft, file="s.fountain"):
    place.put("draft", draft)
    return place.run(TAKE_IN, "draft", file)[0]


def collated(place, old, new):
    return place.run("fountain", "collate", old, new)[1]


# Days


def three_days(place):
    """The white sheets, a Blue packet and a Pink one, each in its file, with what is told of them."""
    place.put("s.fountain", script_of(rooms(4)))
    ran = place.run(HAND_OUT, "s.fountain")
    said = "s-white.txt: hand out all 4 sheets\nwhat is changed in s.fountain from now on is Blue\n"
    yield from differs("the first day", ran, (0, said, ""))
    white = "".join(sheet(str(at), "", str(at), scene) for at, scene in enumerate(rooms(4), 1))
    yield from differs("the white sheets", (place.folder / "s-white.txt").read_text(), white)
    yield from refuses("a day without changes", place, 1, "no sheet of s.fountain differs from those that were handed out, so there is nothing to hand out", HAND_OUT, "s.fountain")

    blue = rooms(4)
    blue[1].lines[0] = "The candle in room 2 is lit."
    blue[1].stars = {blue[1].lines[0]}
    yard = Scene("EXT. YARD - DUSK", ["A cart comes by."])
    yard.stars = {yard.heading, *yard.lines}
    yield from differs("the Blue draft", take_in(place, script_of([blue[0], blue[1], yard, blue[3]])), 0)
    # The yard stands where the third page began.
    packet = sheet("2", "Blue", "2", blue[1]) + sheet("3", "Blue", "3A", yard)
    ran = place.run(HAND_OUT, "s.fountain")
    said = "s-blue.txt: hand out 2 sheets: 2, 3\ns-blue-memo.txt: what changed\nwhat is changed in s.fountain from now on is Pink\n"
    yield from differs("the second day", ran, (0, said, ""))
    yield from differs("the Blue packet", (place.folder / "s-blue.txt").read_text(), packet)
    memo = (
        "Change memo: s, Blue\n\nSheets to hand out:\n  2  Blue  changed\n  3  Blue  changed\n\nScenes, each with the sheet that it begins on:\n"
        "  2   changed  INT. ROOM 2 - DAY, sheet 2\n  3   OMITTED  INT. ROOM 3 - DAY\n  3A  new      EXT. YARD - DUSK, sheet 3\n"
    )
    yield from differs("the Blue memo", (place.folder / "s-blue-memo.txt").read_text(), memo)
    place.put("book", collated(place, "s-white.txt", "s-blue.txt"))
    yield from differs("white and Blue, collated", (place.folder / "book").read_text(), place.sheets("s.fountain"))

    pink = [blue[0], blue[3]]
    yield from differs("the Pink draft", take_in(place, script_of(pink)), 0)
    memo = (
        "Change memo: s, Pink\n\nSheets to hand out:\n  2-3  Pink  OMITTED\n\nScenes, each with the sheet that it begins on:\n"
        "  2   OMITTED  INT. ROOM 2 - DAY\n  3A  OMITTED  EXT. YARD - DUSK\n"
    )
    yield from differs("the Pink memo, asked before", place.run(MEMO, "s.fountain"), (0, memo, ""))
    ran = place.run(HAND_OUT, "s.fountain")
    yield from differs("the third day", ran[1].splitlines()[0], "s-pink.txt: hand out 1 sheet: 2-3")
    yield from differs("the Pink packet", (place.folder / "s-pink.txt").read_text(), omitted("2-3", "Pink"))
    yield from differs("the Pink memo", (place.folder / "s-pink-memo.txt").read_text(), memo)
    yield from differs("all three, collated", collated(place, "book", "s-pink.txt"), place.sheets("s.fountain"))
    yield from differs("the round", place.records("s.fountain")["round"], 3)


def edited(rng, lines):
    """A draft of a script with a few changes of any kind, in any place."""
    lines = list(lines)
    for _ in range(rng.randint(1, 4)):
        first = rng.randrange(len(lines))
        end = min(len(lines), first + rng.randrange(1, 8))
        part = lines[first:end]
        lines[first:end] = rng.choice(
            ([], [f"{it} Again." if it else it for it in part], [*part, "", f"EXT. YARD - {rng.random()}", "", "A cart.", ""], ["===", "", *part], ["", "ANNA", f"I said {rng.random()}.", "", *part])
        )
    return lines


def many_days(place):
    """What was handed out, collated day by day, is what the script prints, whatever comes in between, over several drafts a day; and each
    sheet that isn't handed out stays."""
    for name, days in (("the-mill", 6), ("the-last-broadcast", 8), ("the-lighthouse", 4)):
        rng = random.Random(name)
        place.clear()
        text = (TOP / f"examples/{name}.fountain").read_text().replace("#3#", "")
        place.put("s.fountain", text)
        yield from differs(f"{name}: the first day", place.run(HAND_OUT, "s.fountain")[0], 0)
        shutil.copy(place.folder / "s-white.txt", place.folder / "book")
        for day in range(days):
            begun = place.files()
            before = place.sheets("s.fountain").split("\f")
            for _ in range(rng.randint(1, 3)):
                take_in(place, "\n".join(edited(rng, (place.folder / "s.fountain").read_text().split("\n"))))
            now = place.sheets("s.fountain").split("\f")
            told = place.run("fountain", "packet", "s.fountain")[1]
            ran = place.run(HAND_OUT, "s.fountain")
            if now == before:
                yield from differs(f"{name}: day {day} without a change", ran[0], 1)
                continue
            yield from differs(f"{name}: day {day}", (ran[0], ran[2]), (0, ""))
            new = sorted(place.files().keys() - begun.keys() - {"draft"})
            packet = [it for it in new if it.endswith(".txt") and "memo" not in it]
            yield from differs(f"{name}: the files of day {day}", len(packet), 1)
            yield from differs(f"{name}: the packet of day {day}", (place.folder / packet[0]).read_text(), told)
            sheets = told.split("\f")
            if set(sheets) - set(now):
                yield f"{name}: day {day} hands out what isn't printed"
            missing = set(now) - set(before) - set(sheets)
            if missing:
                yield f"{name}: day {day} doesn't hand out {missing}"
            place.put("book", collated(place, "book", packet[0]))
            yield from differs(f"{name}: the sheets of day {day}, collated", (place.folder / "book").read_text(), place.sheets("s.fountain"))


def memos(place):
    """The memo tells a scene that only lost a line, a title page, a scene before all others, and a sheet of which the colour alone changed;
    and says where no copy of the script as the round began is kept."""
    scenes = rooms(3)
    title = "Title: The lamps\nDraft date: first\n\n"
    place.put("s.fountain", title + script_of(scenes))
    place.run(HAND_OUT, "s.fountain")
    yield from differs("a memo without a change", place.run(MEMO, "s.fountain")[1].splitlines()[2:4], ["Sheets to hand out:", "  title page  White  as it was"])
    scenes[0].lines.pop()
    scenes.insert(2, Scene("EXT. YARD - DUSK", ["A cart comes by."]))
    take_in(place, title.replace("Draft date: first\n", "") + script_of(scenes))
    rows = [
        "Change memo: s, Blue", "", "Sheets to hand out:", "  title page  White  changed", "  1           Blue   changed", "  2           Blue   no row changed",
        "  2A          Blue   new", "", "Scenes, each with the sheet that it begins on:", "  1   changed  INT. ROOM 1 - DAY, sheet 1", "  2A  new      EXT. YARD - DUSK, sheet 2A",
    ]
    yield from differs("the memo", place.run(MEMO, "s.fountain"), (0, "".join(f"{it}\n" for it in rows), ""))
    rows[5], rows[9:] = "  2           Blue   changed", ["  2A  new  EXT. YARD - DUSK, sheet 2A"]
    rows += ["", "No copy of the script as this round began is kept, so a scene that only lost lines isn't told."]
    place.put("s.fountain.kept/002-blue", "Somebody wrote here.\n")
    yield from differs("the memo with a copy that was changed", place.run(MEMO, "s.fountain"), (0, "".join(f"{it}\n" for it in rows), ""))
    shutil.rmtree(place.folder / "s.fountain.kept")
    yield from differs("the memo without a copy", place.run(MEMO, "s.fountain"), (0, "".join(f"{it}\n" for it in rows), ""))


def guide_day(place):
    """The commands of the guide do what it says: a day in four, the memo, a hand-out that is taken back, and a session after a crash."""
    shutil.copy(TOP / "examples/the-mill.fountain", place.folder)
    mill = (place.folder / "the-mill.fountain").read_text()
    anna = mill.replace("Flour in the air.\n", "Flour in the air.\n\n===\n\nEXT. MILL RACE - DAY\n\nA cap floats by.\n")
    place.put("anna.fountain", anna)
    ran = shell(place, of_guide("fountain-hand-out the-mill.fountain"))
    yield from differs("four commands end", (ran.returncode, ran.stderr), (0, ""))
    yield from differs("the book", (place.folder / "book.txt").read_text(), place.sheets("the-mill.fountain"))
    begin = "Change memo: the-mill, Blue"
    memo = (TOP / "docs/GUIDE.md").read_text().split(f"    {begin}\n")[1].split("\n\n`")[0]
    yield from differs("the memo", (place.folder / "the-mill-blue-memo.txt").read_text(), "\n".join([begin, *[line[4:] for line in memo.split("\n")]]) + "\n")
    sheets = place.sheets("the-mill.fountain")
    handed = {name: data for name, data in place.files().items() if name.startswith("the-mill-blue")}
    ran = shell(place, of_guide("cp the-mill.fountain.kept/003-blue the-mill.fountain"))
    yield from differs("a hand-out is taken back", (ran.returncode, ran.stderr, place.records("the-mill.fountain")["round"], place.sheets("the-mill.fountain")), (0, "", 1, sheets))
    yield from differs("it is done again", place.run(HAND_OUT, "the-mill.fountain")[0], 0)
    yield from differs("what it writes again", {name: place.files().get(name) for name in handed}, handed)

    commands = [{"do": "splice", "line": 2, "from": 0, "to": 3, "text": "One"}, {"do": "save"}, {"do": "splice", "line": 2, "from": 0, "to": 3, "text": "Each"}]
    crash(place, *commands)
    yield from differs("what was saved before the crash", (place.folder / "the-mill.fountain").read_text(), anna.replace("The wheel turns", "One wheel turns"))
    ran = shell(place, of_guide("{ tac log"))
    yield from differs("after the crash", (ran.returncode, (place.folder / "the-mill.fountain").read_text()), (0, anna.replace("The wheel turns", "Each wheel turns")))


def options(place):
    """The paper and the speakers are set before the pages are locked, and not later."""
    long = "INT. ROOM - DAY\n\n" + "".join(f"ANNA\nIt is {at}.\n\nShe waits.\n\n" for at in range(60))
    for words, rows, is_told in (((), 54, True), (("--a4",), 58, True), (("--without-speakers",), 54, False), (("--without-speakers", "--a4"), 58, False)):
        place.clear()
        place.put("s", long)
        ran = place.run(HAND_OUT, *words, "s")
        yield from differs(f"{words} ends", (ran[0], ran[2]), (0, ""))
        text = (place.folder / "s-white.txt").read_text()
        # The first page is as full as its speeches let it be: each takes five rows.
        height = len(text.split("\f")[0].split("\n")) - 3
        if not rows - 5 < height <= rows:
            yield f"the first page with {words} has {height} rows"
        yield from differs(f"{words}: speakers", ("(CONT'D)" in text), is_told)
        for word in ("--a4", "--without-speakers"):
            yield from refuses(f"{word} later", place, 1, f"{word} can be given on the first day alone: the pages of s are locked", HAND_OUT, word, "s")


def other_beginnings(place):
    """Scripts that were locked by a desk before, or are in a round already, and scripts with CR LF."""
    text = script_of(rooms(2))
    locks = [{"do": "lock_scenes"}, {"do": "lock_pages"}, {"do": "next_round"}]
    for what, commands, name, sheets in (
        ("scenes are locked", locks[:1], "white", 2), ("scenes and pages are locked", locks[:2], "white", 2), ("a round has begun", locks[2:], "blue", 2),
        ("a round has begun over locked pages", [*locks, {"do": "splice", "line": 2, "from": 0, "to": 3, "text": "One"}], "blue", 1),
    ):
        place.clear()
        place.put("s", text)
        place.desk(*commands, {"do": "save"})
        ran = place.run(HAND_OUT, "s")
        yield from differs(f"{what}", (ran[0], ran[1].split(":")[0], ran[2]), (0, f"s-{name}.txt", ""))
        yield from differs(f"{what}: the sheets", (place.folder / f"s-{name}.txt").read_text().count("\f"), sheets)
    for ending, stem in (("s.fountain", "s"), ("s.txt", "s"), ("s.draft", "s.draft"), (".fountain", ".fountain")):
        place.clear()
        place.put(ending, text.replace("\n", "\r\n"))
        yield from differs(f"{ending} ends", place.run(HAND_OUT, ending)[0], 0)
        yield from differs(f"{ending} leaves", sorted(it for it in place.files() if "kept" not in it), sorted([ending, f"{ending}.desk", f"{stem}-white.txt"]))
        yield from differs(f"the text of {ending}", (place.folder / ending).read_text(), text)
    (place.folder / "below").mkdir()
    place.put("below/s.fountain", text)
    yield from differs("a script below", place.run(HAND_OUT, "below/s.fountain")[1].split(":")[0], "below/s-white.txt")


def renamed(place):
    """A locked script that was renamed without its records isn't locked anew, whatever its text is by then; with them it goes on, and where
    they are moved away, or are of a script that is there or has no locks, a script is locked for the first time."""
    text = script_of(rooms(2))

    def begun(name):
        place.clear()
        place.put("s.fountain", text)
        place.run(HAND_OUT, "s.fountain")
        (place.folder / "s.fountain").rename(place.folder / name)

    def said(file):
        both = f"{file[:-len('t.fountain')]}s.fountain"
        what = f"{both}.desk has locked pages, and {both} is gone"
        return f"{what}: if {file} is that script, rename {both}.desk and {both}.kept too; if not, move them away"

    texts = {"renamed": text, "renamed and changed": text.replace("late", "early"), "renamed, with CR LF": text.replace("\n", "\r\n")}
    for what, after in texts.items():
        begun("t.fountain")
        place.put("t.fountain", after)
        place.put("draft", text)
        for words in ((HAND_OUT,), (TAKE_IN, "draft"), (TAKE_IN, "--dry-run", "draft"), (TAKE_IN, "--recover"), (MEMO,)):
            yield from refuses(f"a script that was {what}", place, 1, said("t.fountain"), *words, "t.fountain")
        below = f"../{place.folder.name}/t.fountain"
        yield from refuses(f"a script that was {what}, from below", place, 1, said(below), HAND_OUT, below)
    # A desk may have saved it under its new name.
    place.desk({"do": "save"}, file="t.fountain")
    yield from refuses("a script that was renamed and saved", place, 1, said("t.fountain"), HAND_OUT, "t.fountain")
    # Records of other scripts that are gone stand there too.
    begun("t.fountain")
    for name in ("a", "z"):
        place.lock(script_of(rooms(3)), name)
        (place.folder / name).unlink()
    yield from refuses("a script among others that are gone", place, 1, said("t.fountain"), HAND_OUT, "t.fountain")
    begun("t.fountain")
    for ending in ("desk", "kept"):
        (place.folder / f"s.fountain.{ending}").rename(place.folder / f"t.fountain.{ending}")
    take_in(place, text.replace("late", "early", 1), "t.fountain")
    out = place.run(HAND_OUT, "t.fountain")[1]
    yield from differs("a script that was renamed with its records", out.splitlines()[:1], ["t-blue.txt: hand out 1 sheet: 1"])

    def away():
        (place.folder / "s.fountain.desk").rename(place.folder / "away")

    def not_locked():
        away()
        place.put("s.fountain", text)
        place.desk({"do": "save"}, file="s.fountain")
        (place.folder / "s.fountain").unlink()

    for what, done in (
        ("were moved away", away),
        ("lock nothing", not_locked),
        ("are no record file", lambda: place.put("s.fountain.desk", "[" * 100_000)),
        ("are of a script that is there", lambda: place.put("s.fountain", text)),
    ):
        begun("t.fountain")
        done()
        out = place.run(HAND_OUT, "t.fountain")[1]
        yield from differs(f"a first day where records {what}", out.splitlines()[:1], ["t-white.txt: hand out all 2 sheets"])


# Refusals, and runs that are ended


def refusals(place):
    usage = "usage: fountain-hand-out [--a4] [--without-speakers] FILE (--help tells more)"
    for words in ((), ("--a4",), ("s", "t"), ("--letter", "s"), ("--a4=1", "s")):
        yield from refuses(f"{words}", place, 2, usage, HAND_OUT, *words)
    yield from refuses("no memo", place, 2, "usage: fountain-memo FILE (--help tells more)", MEMO)
    for name in ("gone", "gone/s"):
        yield from refuses("a script that isn't there", place, 3, f"no file {name}", HAND_OUT, name)
    for what, text, line in (
        ("a number that falls", "INT. A - DAY\n\nINT. B - DAY\n\nINT. C - DAY #2#\n", "s, line 5: its scene number isn't above that of the heading before"),
        ("a number that is none", "\nINT. A - DAY #A1#\n", "s, line 2: its scene number can't be locked: it is no label, or 0"),
        ("no page", "Title: A\n", "s: no page has a row, so there is nothing to lock"),
    ):
        place.put("s", text)
        yield from refuses(what, place, 1, line, HAND_OUT, "s")
    place.put("s", b"!\n" + b"a" * 4097)
    yield from refuses("a long line", place, 4, "s: line 2 is too long", HAND_OUT, "s")
    place.put("s", script_of(rooms(2)))
    yield from refuses("a memo without locks", place, 1, "the pages of s aren't locked: fountain-hand-out s locks them and writes all sheets", MEMO, "s")
    place.put("s-white.txt", "mine")
    yield from refuses("a file that is there", place, 1, "s-white.txt is there already and has something else: move it away", HAND_OUT, "s")
    (place.folder / "s-white.txt").unlink()
    (place.folder / "s-white.txt").symlink_to("nowhere/s")
    yield from refuses("a link that leads nowhere", place, 1, "s-white.txt: No such file or directory", HAND_OUT, "s")
    for what in ("text", "records"):
        place.clear()
        place.put("s", script_of(rooms(2)))
        place.desk({"do": "save"})
        place.put("s", script_of(rooms(2)).replace("\n", "\r\n"))
        place.fill(what)
        yield from refuses(f"a save of {what} that fails", place, 1, "s: a file couldn't be stored", HAND_OUT, "s")
    place.clear()
    place.put("s", script_of(rooms(2)))
    place.desk({"do": "lock_scenes"}, {"do": "lock_pages"}, {"do": "save"})
    yield from refuses("a memo of the white sheets", place, 1, "s is at White, the first round, so nothing is a revision yet", MEMO, "s")
    records = place.records()
    place.put("s.desk", json.dumps(records | {"round": 99, "pages": [[*page[:3], 99] for page in records["pages"]]}))
    yield from refuses("the last round", place, 1, "s: the round is the last one, so no other can begin", HAND_OUT, "s")
    place.put("s", script_of(rooms(3)))
    said = "s was changed by another program since it was saved; fountain-take-in --recover s mends that"
    yield from refuses("a script of another text", place, 8, said, HAND_OUT, "s")
    yield from refuses("its memo", place, 8, said, MEMO, "s")
    place.clear()
    place.put("s", script_of(rooms(9)))
    before = place.files()
    for most in (100, 700, 1000):
        ran = place.run(HAND_OUT, "s", preexec_fn=lambda: resource.setrlimit(resource.RLIMIT_FSIZE, (most, most)))
        yield from differs(f"a disk of {most} bytes", (ran[0] > 0, ran[1], ran[2].count("\n"), place.files() == before), (True, "", 1, True))


def ended(place):
    """A run that is ended anywhere leaves a script that opens, in the old round or the new one; in the old one a second run does all of it."""
    scenes = rooms(300)
    place.put("s", script_of(scenes))
    place.run(HAND_OUT, "s")
    scenes[5].lines[0] = "The candle is lit."
    take_in(place, script_of(scenes), "s")
    start = place.files()
    begun = time.monotonic()
    yield from differs("a run", place.run(HAND_OUT, "s")[0], 0)
    taken, whole = time.monotonic() - begun, place.files()
    rng = random.Random(7)
    for number in range(16):
        place.clear()
        for name, data in start.items():
            if data is None:
                (place.folder / name).mkdir()
        for name, data in start.items():
            if data is not None:
                place.put(name, data)
        yield from ended_anywhere(place, rng, taken, number, HAND_OUT, "s")
        yield from differs("a script after a run that was ended", place.run("fountain", "print", "s")[0], 0)
        if place.records()["round"] == 1:
            yield from differs("a second run", place.run(HAND_OUT, "s")[0], 0)
        for name in ("s", "s.desk", "s-blue.txt", "s-blue-memo.txt"):
            yield from differs(f"{name} in the end", place.files().get(name) == whole[name], True)


def copies(place):
    """What goes wrong with a copy ends a run before it does anything, or is told where the script is saved already."""
    for name, status in (("001-white", 1), ("002-blue", 1), ("002-blue.desk", 0)):
        place.clear()
        place.put("s", script_of(rooms(2)))
        (place.folder / "s.kept" / name / "full").mkdir(parents=True)
        if status:
            yield from refuses(f"a folder {name}", place, 1, f"s.kept/{name}: Is a directory", HAND_OUT, "s")
            continue
        said = f"fountain-hand-out: s.kept/{name}: Is a directory; s is saved, and that copy of it has no records\n"
        out = "s-white.txt: hand out all 2 sheets\nwhat is changed in s from now on is Blue\n"
        yield from differs(f"a folder {name}", place.run(HAND_OUT, "s"), (0, out, said))
        shutil.rmtree(place.folder / "s.kept" / name)
        take_in(place, script_of(rooms(1)), "s")
        white = (place.folder / "s-white.txt").read_text()
        yield from differs("the copies behind it", place.run("fountain", "print", "s.kept/003-blue")[1], white)


def bad_times(place):
    """A run that is interrupted as its desk saves does all that it does else, and says so. One whose desk ends before the save leaves all as
    it was, and one whose desk ends behind it has done all but the last copy's records."""
    text = script_of(rooms(3))
    place.put("s", text)
    place.run(HAND_OUT, "s")
    place.put("draft", text.replace("late", "early", 1))
    for words in ((TAKE_IN, "draft", "s"), (HAND_OUT, "s")):
        begun = place.files()
        before = {name: data for name, data in begun.items() if data is not None}
        ran = place.run(*words)
        whole = place.files()

        def again():
            place.clear()
            (place.folder / "s.kept").mkdir()
            for name, data in before.items():
                place.put(name, data)

        place.pass_saves(f"touch '{place.bin}/saves'; sleep 1")
        for number in (signal.SIGINT, signal.SIGTERM, signal.SIGHUP):
            again()
            (place.bin / "saves").unlink(missing_ok=True)
            script = place.start(*words)
            while script.poll() is None and not (place.bin / "saves").exists():
                time.sleep(0.01)
            script.send_signal(number)
            out, said = script.communicate(timeout=SECONDS)
            what = f"{words[0]}, interrupted by {number.name} at its save"
            yield from differs(f"{what}, ends", (script.returncode, out.decode(), said.decode()), (128 + number, ran[1], ""))
            yield from differs(f"{what}, leaves", sorted(name for name in whole if place.files().get(name) != whole[name]), [])
        again()
        place.pass_saves("break")
        yield from refuses(f"{words[0]}, whose desk ends before its save", place, 1, "s: the program ended", *words)
        place.pass_saves(behind="break", replies="sed -u /digest/d")
        yield from differs(f"{words[0]}, whose desk ends behind its save", place.run(*words), (1, "", f"{words[0]}: s: the program ended\n"))
        left = sorted(name for name in whole if place.files().get(name) != whole[name])
        records = [name for name in whole if name.startswith("s.kept/") and name.endswith(".desk")]
        yield from differs("the files that lack then", left, [max(records)])
        place.pass_saves()
        again()
        place.run(*words)


def much_text(place):
    """200,000 lines are handed out, changed and handed out again in seconds."""
    lines = []
    while len(lines) < 199_990:
        lines += [f"INT. ROOM {len(lines)} - DAY", "", "ANNA", "I have counted the lamps.", "", "They are all lit.", "", "BERT", "Count them again.", ""]
    place.put("s", "".join(f"{it}\n" for it in lines))
    lines[100_005] = "One isn't lit."
    place.put("draft", "".join(f"{it}\n" for it in lines))
    for words in ((HAND_OUT, "s"), (TAKE_IN, "draft", "s"), (MEMO, "s"), (HAND_OUT, "s")):
        begun = seconds_of_children()
        yield from differs(f"{words} ends", place.run(*words)[::2], (0, ""))
        taken = seconds_of_children() - begun
        if taken > MOST_SECONDS:
            yield f"{words} takes {taken:.1f} s"
    yield from differs("the packet", (place.folder / "s-blue.txt").read_text().count("\f"), 1)
    if collated(place, "s-white.txt", "s-blue.txt") != place.sheets():
        yield "both, collated, aren't the present sheets"


CHECKS = [three_days, many_days, memos, guide_day, options, other_beginnings, renamed, refusals, ended, copies, bad_times, much_text]


def faults_of(check):
    with tempfile.TemporaryDirectory() as folder:
        yield from found_by(check, Place(folder))


def main():
    if not PROGRAM.exists():
        return tell("hand_out", "nothing was handed out", ["the program isn't built"])
    return tell("hand_out", f"{len(CHECKS)} kinds of days", [fault for check in CHECKS for fault in faults_of(check)])


if __name__ == "__main__":
    sys.exit(main())

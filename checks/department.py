"""Plays two weeks of a script department, as installed and by the guide alone: two writers with editors of their own, a coordinator, an
assistant, four hand-outs; with drafts of one day, a crash, a run that is killed, an editor that saves over the script, and a second desk. What
is on paper is held against the script as the check has it, which knows each line and when it changed.

    PROGRAM=MODEL python3 checks/department.py FOLDER

plays the same weeks with another program, and keeps in FOLDER all sheets, packets, memos and records of each day; so two programs that
follow the same rules leave the same files, which diff -r compares."""

import os
import pathlib
import random
import re
import shutil
import subprocess
import sys
import tempfile
import time

from installed import Place, crash, differs, ended_anywhere, of_guide, refuses, shell, surroundings, text_by_rules
from program import PROGRAM, SAVE, TOP, Session
from report import found_by, tell
from tools import has, lacks
from screenplay import COLOURS, NAMES, Line, Maker, Paragraph, Screenplay, label_key, put_in, sheets_of, unstarred

SEEDS, SCENES, PARAGRAPHS = range(4), 30, 8
MILL, BOOK = "the-mill.fountain", "book.txt"
# What is done to scenes, the more often done things twice.
KINDS = ("rewords", "rewords", "adds", "adds", "cuts", "heads", "comes", "goes", "notes")
# How the editors of the writers leave a text.
EDITORS = {"anna": lambda text: text.replace("\n", "\r\n").encode(), "bert": lambda text: f"\ufeff{text}".encode()}
HAS_PAPER = all(map(has, ("gs", "pdftotext")))


class Installed(Place):
    """What ./install put below a PREFIX, and the folder of a department. Nothing else of the repository is on its path."""

    def __init__(self, prefix, folder):
        self.bin, self.folder = prefix / "bin", folder
        folder.mkdir()

    def start(self, script, *words, **how):
        return super().start(script, *words, **{"env": surroundings(self), **how})


# What a writer does


class Edits:
    """Edits of scenes, no two of which are neighbours: which paragraphs go, behind which one others come, and these."""

    # The kinds of edits that were made.
    made = set()

    def __init__(self, rng, make, number, kinds):
        """`kinds` are those that come next, and are filled up as they are used up."""
        self.rng, self.make, self.round, self.kinds = rng, make, number, kinds

    def changed(self, paragraph, line, text):
        new = Line(line.kind, text, self.round)
        return [paragraph], None, [Paragraph(paragraph.kind, [new if it is line else it for it in paragraph.lines], paragraph.scene)]

    def rewords(self, scene):
        paragraph = self.rng.choice([it for it in scene[1:] if it.kind in ("action", "speech")])
        line = self.rng.choice([it for it in paragraph.lines if it.is_alone])
        more = self.make.sentence(("It is said again", "And once more", "So it was told"))
        return self.changed(paragraph, line, self.rng.choice((f"{line.text} {more}", f"{more} {line.text}", f"{line.text.split('.')[0]}, or {more.lower()}", more)))

    def adds(self, scene):
        return [], self.rng.choice(scene), [self.rng.choice((self.make.action, self.make.speech))(self.round)]

    def cuts(self, scene):
        middle = [it for it in scene[1:-1] if it.kind in ("action", "speech")]
        return [self.rng.choice(middle)], None, []

    def heads(self, scene):
        old, new = (" - DAY", " - NIGHT") if scene[0].heading.endswith("DAY") else (" - NIGHT", " - DAY")
        return self.changed(scene[0], scene[0].lines[0], scene[0].heading.replace(old, new))

    def comes(self, scene):
        return [], scene[-1], self.make.scene(self.round, 5)

    def goes(self, scene):
        return scene, None, []

    def notes(self, scene):
        """Changes what isn't printed alone."""
        found = [it for it in scene if it.kind == "synopsis"]
        return self.changed(found[0], found[0].lines[0], "= Another synopsis.") if found else self.rewords(scene)

    def moves(self, scene, behind):
        """The scene is a new one where it stands now."""
        ident = object()
        copies = [Paragraph(it.kind, [Line(line.kind, line.text, self.round) for line in it.lines], it.scene and ident) for it in scene]
        return scene, behind[-1], copies

    def some(self, scenes):
        """A few edits of these scenes. One that moves is shorter than what it passes, so that it is the one that moved."""
        left, out = list(range(0, len(scenes), 2)), []
        self.rng.shuffle(left)
        while left and len(out) < 3:
            at = left.pop()
            others = [to for to in left if size_of(scenes[min(at + 1, to + 1) : max(at, to + 1)]) > 2 * size_of([scenes[at]])]
            if others and self.rng.random() < 0.3:
                to = self.rng.choice(others)
                left.remove(to)
                self.made.add("moves")
                out.append(self.moves(scenes[at], scenes[to]))
            else:
                if not self.kinds:
                    self.kinds += self.rng.sample(KINDS, len(KINDS))
                kind = self.kinds.pop()
                self.made.add(kind)
                out.append(getattr(self, kind)(scenes[at]))
        return out


def is_done(reply):
    return bool(reply) and reply.get("ok") is True


def size_of(scenes):
    return sum(len(it.lines) for scene in scenes for it in scene)


# The department


def unlike(what, found, expected):
    """Where two texts differ first."""
    sides = [text.split("\n") for text in (found, expected)]
    at = next((at for at, (one, other) in enumerate(zip(*sides)) if one != other), min(map(len, sides)))
    if found != expected:
        yield f"{what}: line {at + 1} is {sides[0][at : at + 1]} in place of {sides[1][at : at + 1]}"


class Department:
    def __init__(self, place, seed, papers=None):
        """All that is on paper is kept in the folder `papers`, where there is one."""
        self.place, self.rng, self.papers, self.count = place, random.Random(seed), papers, 0
        self.make, self.round, self.kinds = Maker(self.rng), 0, []
        title = Paragraph("title", [Line("title", it, 0) for it in ("Title: The Mill", "Author: Anna and Bert", "Draft date: first")])
        self.play = self.begun = Screenplay([title, *(it for _ in range(SCENES) for it in self.make.scene(0, PARAGRAPHS))])
        # The sheets on the table, and the scenes that have a number for good.
        self.book, self.locked = [], {}
        place.put(MILL, self.play.text())

    def path(self, name):
        return self.place.folder / name

    def kept(self, name, text):
        if self.papers:
            self.papers.mkdir(parents=True, exist_ok=True)
            self.count += 1
            (self.papers / f"{self.count:03}-{name}").write_text(text)
        return text

    def edits(self):
        return Edits(self.rng, self.make, self.round, self.kinds)

    # What has to hold

    def numbers(self, what):
        """The label of each scene; those that were locked keep theirs, and no other gets one of them."""
        told = [line.split("\t") for line in self.place.run("fountain", "outline", MILL)[1].split("\n\n")[0].splitlines()]
        told = [line for line in told if not line[0].startswith("= ")]
        there, scenes = [line for line in told if line[1] != "-"], [scene[0] for scene in self.play.scenes()]
        yield from differs(f"{what}: the headings", [line[2] for line in there], [it.heading for it in scenes])
        labels = dict(zip([it.scene for it in scenes], [line[0] for line in there]))
        kept = {scene: label for scene, label in self.locked.items() if scene in labels}
        yield from differs(f"{what}: the numbers of scenes that stay", [labels[it] for it in kept], list(kept.values()))
        gone = sorted((label for scene, label in self.locked.items() if scene not in labels), key=label_key)
        yield from differs(f"{what}: the numbers of scenes that are gone", [line[0] for line in told if line[1] == "-"], gone)
        order = [label_key(line[0]) for line in told]
        yield from differs(f"{what}: all numbers rise", order, sorted(set(order)))
        self.labels, self.on_sheets = labels, dict(zip([it.scene for it in scenes], [line[1] for line in there]))

    def on_paper(self, what):
        """The sheets show the script, row by row, with numbers beside headings, colours and stars."""
        self.sheets = sheets_of(self.kept("sheets", self.place.sheets(MILL)))
        spans = [it.span for it in self.sheets if it.span]
        yield from differs(f"{what}: labels rise", spans, sorted(set(spans)))
        yield from (f"{what}: sheet {it.label} has {len(it.body)} rows" for it in self.sheets if len(it.body) > 54)
        title = [(row.strip(), is_starred) for row, is_starred in map(unstarred, filter(bool, self.sheets[0].body))]
        expected = [(line.text.split(": ")[1], 0 < line.round == self.sheets[0].round) for line in self.play.paragraphs[0].lines]
        yield from differs(f"{what}: the title page", title, expected)
        rows = self.play.rows()
        quiet = {scene[0].scene for scene in self.play.scenes() if not any(line.round for it in scene for line in it.lines)}
        self.shown = [(sheet, *row) for sheet in self.sheets for row in sheet.printed()]
        for row, (sheet, column, text, is_starred, number) in zip(rows, self.shown):
            where = f"{what}: {text!r} on {sheet.label}"
            if (row.column, row.text) != (column, text):
                yield f"{where} in place of {row.text!r}"
                break
            if row.line.round > sheet.round:
                yield f"{where} was changed in {COLOURS[row.line.round]}, and the sheet is {sheet.colour}"
            if (row.line.is_alone or row.scene in quiet) and is_starred != (0 < row.line.round == sheet.round):
                yield f"{where} has {'a' if is_starred else 'no'} star"
            if row.line.kind == "heading" and (number, sheet.label) != (self.labels[row.scene], self.on_sheets[row.scene]):
                yield f"{where} has the number {number}"
        yield from differs(f"{what}: the number of rows", len(self.shown), len(rows))

    def is_right(self, what):
        yield from unlike(f"{what}: the text", text_by_rules(self.path(MILL).read_bytes()).decode(), self.play.text())
        yield from self.numbers(what)
        yield from self.on_paper(what)

    def untouched(self):
        """The labels of sheets that no change of this round came near: their lines, and those of the sheets beside them, stand together as
        they did when the round began."""
        pages = {}
        for (sheet, *_), row in zip(self.begun_shown, self.begun.rows()):
            pages.setdefault(sheet.label, {})[row.line] = None
        lines = list(map(list, pages.values()))
        lines[0].insert(0, "first")
        lines[-1].append("last")
        now = list(dict.fromkeys(["first", *(row.line for row in self.play.rows()), "last"]))
        places = {line: at for at, line in enumerate(now)}
        for at, label in enumerate(pages):
            near = list(dict.fromkeys(line for part in lines[max(0, at - 1) : at + 2] for line in part))
            begin = places.get(near[0], len(now))
            if now[begin : begin + len(near)] == near:
                yield label

    # Drafts

    def take_in(self, what, play, *options, draft="anna"):
        """Takes a draft in that has to make the script this one. A dry run tells the lines that come and go."""
        before = self.place.files()
        ran = self.place.run("fountain-take-in", "--dry-run", *options, f"{draft}.fountain", MILL)
        yield from differs(f"{what}: a dry run", (ran[0], ran[2], self.place.files() == before), (0, "", True))
        lines = [[line for it in side.paragraphs for line in it.lines if line.is_alone] for side in (self.play, play)]
        for sign, mine, others in (("-", *lines), ("+", *lines[::-1])):
            known, kept = {line.text for line in mine}, set(map(id, others))
            told = sorted(line[2:] for line in ran[1].splitlines() if line.startswith(f"{sign} ") and line[2:] in known)
            yield from differs(f"{what}: lines with {sign}", told, sorted(line.text for line in mine if id(line) not in kept))
        ran = self.place.run("fountain-take-in", *options, f"{draft}.fountain", MILL)
        yield from differs(what, (ran[0], ran[2]), (0, ""))
        self.play = play
        yield from self.is_right(what)

    def newest_copy(self):
        return f"{MILL}.kept/{max(it for it in os.listdir(self.path(f'{MILL}.kept')) if '.' not in it)}"

    def write(self, name, play):
        self.place.put(f"{name}.fountain", EDITORS[name](play.text()))

    def two_drafts(self):
        """Anna and Bert copy the script on the same day. They change other scenes, and one line both, each in their way."""
        base, edits, scenes = self.newest_copy(), self.edits(), self.play.scenes()
        yield from unlike("the copy that is kept", text_by_rules(self.path(base).read_bytes()).decode(), self.play.text())
        middle = len(scenes) // 2
        both = next(it for it in scenes[middle] if it.kind == "action")
        annas, berts = edits.some(scenes[1 : middle - 1]), edits.some(scenes[middle + 2 : -1])
        hers, his = (edits.changed(both, both.lines[0], f"{both.lines[0].text} {who} wrote this.") for who in ("Anna", "Bert"))
        before = self.play
        self.write("anna", before.edited([*annas, hers]))
        yield from self.take_in("Anna's draft", before.edited([*annas, hers]))
        draft = before.edited([*berts, his])
        self.write("bert", draft)
        said = f"bert.fountain, line {draft.line_of(his[2][0].lines[0]) + 1}: {MILL} was changed there too since {base}, in another way"
        yield from refuses("Bert's draft", self.place, 1, said, "fountain-take-in", f"--base={base}", "bert.fountain", MILL)
        self.write("bert", before.edited([*berts, hers]))
        yield from self.take_in("Bert's draft", self.play.edited(berts), f"--base={base}", draft="bert")

    def command(self, edit):
        """The command that changes a line of the script as it is now, or puts a paragraph behind another one."""
        gone, behind, (new,) = edit
        if behind:
            return {"do": "replace", "first": self.play.line_of(behind.lines[-1]) + 1, "count": 0, "lines": ["", *(it.text for it in new.lines)]}
        old, line = next(pair for pair in zip(gone[0].lines, new.lines) if pair[0] is not pair[1])
        return {"do": "replace", "first": self.play.line_of(old), "count": 1, "lines": [line.text]}

    def crash(self):
        """A desk and its terminal are killed in a session; what was told since its save is told again."""
        edits, (one, other, third) = self.edits(), self.rng.sample(self.play.scenes(), 3)
        saved, commands = None, []
        for edit in (edits.rewords(one), edits.adds(other), edits.rewords(third)):
            commands.append(self.command(edit))
            self.play = self.play.edited([edit])
            if not saved:
                saved = self.play
                commands.append(SAVE)
        yield from differs("the session before the crash", set(map(is_done, crash(self.place, *commands))), {True})
        yield from unlike("what was saved before the crash", self.path(MILL).read_text(), saved.text())
        ran = shell(self.place, of_guide("{ tac log"))
        yield from differs("the session after the crash", (ran.returncode, ran.stderr, '"no"' in ran.stdout), (0, "", False))
        yield from self.is_right("the crash")

    def killed(self):
        """A run that takes a draft in is killed; then the script opens or is mended, and a second run takes it in."""
        before, edits = self.play, self.edits()
        after = before.edited(edits.some(before.scenes()[1:-1]))
        self.write("anna", after)
        begun = time.monotonic()
        self.place.run("fountain-take-in", "--dry-run", "anna.fountain", MILL)
        yield from ended_anywhere(self.place, self.rng, 1.5 * (time.monotonic() - begun), self.rng.choice((0, 1)), "fountain-take-in", "anna.fountain", MILL)
        if self.place.run("fountain", "print", MILL)[0]:
            yield from differs("after the kill", self.place.run("fountain-take-in", "--recover", MILL)[::2], (0, ""))
        text = text_by_rules(self.path(MILL).read_bytes()).decode()
        yield from unlike("what a run that was killed leaves", text, after.text() if text != before.text() else text)
        ran = self.place.run("fountain-take-in", "anna.fountain", MILL)
        yield from differs("the run after the kill", ran[::2], (0, ""))
        self.play = after
        yield from self.is_right("the run after the kill")

    def editor_saves_over(self):
        """Bert's editor saves over the script itself. That is told, nothing is handed out, and --recover takes it in."""
        after = self.play.edited(self.edits().some(self.play.scenes()[1:-1]))
        raw = EDITORS["bert"](after.text())
        self.place.put(MILL, raw)
        yield from differs("the script that was saved over", self.place.run("fountain", "print", MILL)[:2], (8, ""))
        said = f"{MILL} was changed by another program since it was saved; fountain-take-in --recover {MILL} mends that"
        yield from refuses("a hand-out then", self.place, 8, said, "fountain-hand-out", MILL)
        yield from differs("slips of it", self.place.run("fountain-check-script", MILL)[0], 1)
        before = self.place.files()
        # What each command does stands behind it.
        dry, wet = (line.split("   ")[0] for line in of_guide("fountain-take-in --dry-run --recover").splitlines())
        ran = shell(self.place, dry)
        yield from differs("a dry run then", (ran.returncode, self.place.files() == before), (0, True))
        ran = shell(self.place, wet)
        yield from differs("the script is mended", (ran.returncode, ran.stderr, self.path(MILL).read_bytes()), (0, "", raw))
        self.play = after
        yield from self.is_right("the script that was saved over")

    def second_desk(self):
        """Two desks have the script open. The one that saves later is refused, and nothing is lost: with the other version put aside it saves,
        and then that is taken in."""
        base, edits = self.newest_copy(), self.edits()
        one, other = (edits.rewords(scene) for scene in self.rng.sample(self.play.scenes(), 2))
        desks = [Session(self.place.folder, MILL, program=self.place.bin / "fountain") for _ in range(2)]
        for desk, edit in zip(desks, (one, other)):
            yield from differs("an edit at one of two desks", is_done(desk.ask(self.command(edit))), True)
        yield from differs("the desk that saves first", is_done(desks[0].ask(SAVE)), True)
        before = self.place.files()
        yield from differs("the desk that saves later", (desks[1].ask(SAVE), self.place.files() == before), ({"no": "Shelf"}, True))
        shell(self.place, of_guide("mv the-mill.fountain theirs.fountain"))
        yield from differs("the desk that saves later, again", is_done(desks[1].ask(SAVE)), True)
        for desk in desks:
            yield from differs("a desk ends", desk.end(), (0, ""))
        yield from unlike("the version that was put aside", self.path("theirs.fountain").read_text(), self.play.edited([one]).text())
        before = self.play.edited([other])
        self.play = before
        yield from self.take_in("the version that was put aside", before.edited([one]), f"--base={base}", draft="theirs")

    def title_page(self):
        title = self.play.paragraphs[0]
        new = self.edits().changed(title, title.lines[2], f"Draft date: {COLOURS[self.round]}")
        self.write("bert", self.play.edited([new]))
        yield from self.take_in("a new title page", self.play.edited([new]), draft="bert")

    # Hand-outs

    def slips(self):
        """The assistant looks for slips: one that a draft has is told with its line, and the script has none."""
        heading = self.rng.choice(self.play.scenes()[1:])[0]
        lines = self.play.lines()
        at = self.play.line_of(heading.lines[0])
        del lines[at - 1]
        self.place.put("slip.fountain", "".join(f"{it}\n" for it in lines))
        what = f"slip.fountain:{at}: this heading is taken for "
        ran = self.place.run("fountain-check-script", "slip.fountain")
        yield from differs("a heading without an empty line before it", (ran[0], [it[: len(what)] for it in ran[1].splitlines()][:1], ran[2]), (1, [what], ""))
        yield from differs("slips before a hand-out", self.place.run("fountain-check-script", MILL), (0, "", ""))

    def hand_out(self):
        yield from self.slips()
        colour = COLOURS[self.round]
        stem = f"the-mill-{colour.lower()}"
        # White sheets get their numbers as they are handed out.
        before = self.place.sheets(MILL) if self.round else None
        memo = self.place.run("fountain-memo", MILL)[1]
        ran = self.place.run("fountain-hand-out", MILL)
        yield from differs(f"the {colour} hand-out", (ran[0], ran[2]), (0, ""))
        now = self.place.sheets(MILL)
        yield from unlike(f"the sheets before the {colour} hand-out and behind it", now, before or now)
        handed = self.kept(f"{stem}.txt", self.path(f"{stem}.txt").read_text())
        self.kept("records", self.path(f"{MILL}.desk").read_text())
        if self.round:
            yield from self.packet(colour, sheets_of(handed))
            yield from unlike(f"the {colour} memo", self.kept(f"{stem}-memo.txt", self.path(f"{stem}-memo.txt").read_text()), memo)
            yield from self.memo(memo)
            line = of_guide("fountain collate book.txt").replace("the-mill-pink.txt", f"{stem}.txt")
            yield from differs(f"{colour} sheets are put in", shell(self.place, line).returncode, 0)
            self.book = put_in(self.book, sheets_of(handed))
        else:
            shutil.copy(self.path(f"{stem}.txt"), self.path(BOOK))
            self.book = sheets_of(handed)
            yield from self.is_right("the white sheets")
            labels = [it.label for it in self.book if it.label]
            yield from differs("white labels", labels, [str(at + 1) for at in range(len(labels))])
        yield from unlike(f"the {colour} book", self.kept(BOOK, self.path(BOOK).read_text()), now)
        yield from unlike(f"the {colour} sheets, put in by hand", "".join(f"{it.text}\f" for it in self.book), now)
        self.round += 1
        self.begun, self.begun_shown = self.play, self.shown
        self.locked |= self.labels
        said = f"no sheet of {MILL} differs from those that were handed out, so there is nothing to hand out"
        yield from refuses(f"another hand-out behind {colour}", self.place, 1, said, "fountain-hand-out", MILL)
        yield from self.sides()
        yield from self.paper(f"{stem}.txt", sheets_of(handed))

    def packet(self, colour, packet):
        """What a packet has: each sheet with a changed line, in the colour of the round, and none that no change came near; and all labels
        that were handed out stay."""
        now, handed = {it.label: it for it in self.sheets}, {it.label: it for it in packet}
        before = {it.label: it for it in self.book}
        for label, sheet in handed.items():
            if label not in now or now[label].text != sheet.text:
                yield f"{colour}: {label} is handed out, and isn't printed so"
            elif label and sheet.colour != colour and sheet.text != getattr(before.get(label), "text", None):
                yield f"{colour}: {label} is handed out changed, and is {sheet.colour}"
        changed = {sheet.label for (sheet, *_), row in zip(self.shown, self.play.rows()) if row.line.is_alone and row.line.round == self.round}
        yield from differs(f"{colour}: sheets with changed lines that aren't handed out", sorted(changed - handed.keys()), [])
        far = list(self.untouched())
        self.far += len(far)
        for label in far:
            if label in handed or now[label].text != before[label].text:
                yield f"{colour}: no change came near {label}, and it {'is handed out' if label in handed else 'is another one'}"
        spans = [it.span for it in self.sheets if it.span]
        for sheet in self.book:
            if sheet.span and not any(first <= sheet.span[0] and sheet.span[1] <= last for first, last in spans):
                yield f"{colour}: the label {sheet.label} is lost"

    # How many sheets no change came near.
    far = 0

    def change_of(self, sheet):
        """What became of a sheet since the one with its label was handed out."""
        old = next((it for it in self.book if it.label == sheet.label), None)
        if old and old.text == sheet.text:
            return "as it was"
        if sheet.is_omitted:
            return "OMITTED"
        if old and sheet.label and old.body == sheet.body:
            return "no row changed"
        return "changed" if not sheet.label or any(it.span[0] <= sheet.span[0] <= it.span[1] for it in self.book if it.span) else "new"

    def memo(self, memo):
        """The memo tells the sheets of the packet and the scenes that are new, changed or gone."""
        sheets, scenes = memo.split("\n\nSheets to hand out:\n")[1].split("\n\nScenes, each with the sheet that it begins on:\n")
        packet = sheets_of(self.path(f"the-mill-{COLOURS[self.round].lower()}.txt").read_text())
        expected = [[it.label or "title page", it.colour, self.change_of(it)] for it in packet]
        yield from differs("the sheets of the memo", [re.split(" {2,}", line.strip()) for line in sheets.splitlines()], expected)
        old, new = ({scene[0].scene: scene for scene in play.scenes()} for play in (self.begun, self.play))
        shown = lambda scene: [line for it in scene if it.kind != "synopsis" for line in it.lines]
        rows = [(self.locked[it], "OMITTED", scene[0].heading) for it, scene in old.items() if it not in new]
        for it, scene in new.items():
            if it not in old or shown(scene) != shown(old[it]):
                rows.append((self.labels[it], "changed" if it in old else "new", f"{scene[0].heading}, sheet {self.on_sheets[it]}"))
        told = [tuple(line.split(None, 2)) for line in scenes.splitlines()]
        yield from differs("the scenes of the memo", told, sorted(rows, key=lambda row: label_key(row[0])) or [("none",)])

    # The assistant

    def picked(self, what, places, *words):
        expected = "".join(f"{self.sheets[at].text}\f" for at in sorted(places))
        yield from differs(f"sheets by {what}", self.place.run("fountain-pick-sheets", *words), (0, expected, ""))

    def sides(self):
        """Sheets by label, by scene and by name."""
        places = [at for at, it in enumerate(self.sheets) if it.label and not it.is_omitted]
        one, (first, last) = self.rng.choice(places), sorted(self.rng.sample(places, 2))
        words = self.sheets[one].label, f"{self.sheets[first].label}-{self.sheets[last].label}"
        yield from self.picked(f"label {words}", {one, *range(first, last + 1)}, MILL, *words)
        yield from self.picked(f"label {words[0]} of the book", {0, one}, "--sheets", BOOK, "title", words[0])
        where = {id(sheet): at for at, sheet in enumerate(self.sheets)}
        rows = [(where[id(sheet)], row) for (sheet, *_), row in zip(self.shown, self.play.rows())]
        scene, behind = self.rng.choice(list(zip(self.labels, [*self.labels, None][1:])))
        shown = [at for at, row in rows if row.scene is scene]
        end = next((at for at, row in rows if row.scene is behind), len(self.sheets))
        yield from self.picked(f"scene {self.labels[scene]}", range(shown[0], max(shown[-1] + 1, end)), MILL, "--scene", self.labels[scene])
        name = self.rng.choice([it for it in NAMES if any(row.speaker == it for _, row in rows)])
        yield from self.picked(f"name {name}", {at for at, row in rows if row.speaker == name}, MILL, "--name", name)

    def paper(self, file, sheets):
        """A PDF of a packet has a page for each sheet, with its words."""
        if not HAS_PAPER:
            return
        ran = self.place.run("fountain-pdf", "--colours", "--sheets", file, "out.pdf")
        yield from differs(f"the PDF of {file}", ran, (0, "", ""))
        pages = subprocess.run(["pdftotext", "-layout", self.path("out.pdf"), "-"], capture_output=True, text=True).stdout.split("\f")[:-1]
        yield from differs(f"the pages of {file}", [sorted(it.split()) for it in pages], [sorted(it.text.split()) for it in sheets])


def two_weeks(place, seed, papers):
    department = Department(place, seed, papers)
    days = (
        department.hand_out,
        department.two_drafts, department.hand_out,
        department.crash, department.killed, department.hand_out,
        department.editor_saves_over, department.second_desk, department.title_page, department.hand_out,
    )
    for day in days:
        yield from (f"{seed}: {fault}" for fault in day())
    if not department.far:
        yield f"{seed}: a change came near each sheet"


def faults(papers):
    with tempfile.TemporaryDirectory() as folder:
        prefix = pathlib.Path(folder) / "a prefix ü"
        ran = subprocess.run([TOP / "install", prefix], capture_output=True, text=True)
        yield from differs("./install", (ran.returncode, ran.stderr), (0, f"install: {prefix}/bin isn't on the path yet\n"))
        shutil.copy(PROGRAM, prefix / "bin/fountain")
        for seed in SEEDS:
            place = Installed(prefix, pathlib.Path(folder) / f"weeks {seed}")

            def weeks(place):
                return two_weeks(place, seed, papers and papers / f"{seed}")

            yield from found_by(weeks, place)
        yield from differs("the kinds of edits", Edits.made, {*KINDS, "moves"})


def main(folder=None):
    papers = folder and pathlib.Path(folder)
    if not PROGRAM.exists():
        return tell("department", "nothing was played", ["the program isn't built"])
    lacks("department", "no PDF is made", "gs", "pdftotext")
    return tell("department", f"two weeks of {len(SEEDS)} departments", list(faults(papers)))


if __name__ == "__main__":
    sys.exit(main(*sys.argv[1:]))

"""A script as its writers have it, paragraph by paragraph, with the round in which each line last changed; and what that has to be on paper,
told by the rules of columns and wrapping. Each line says something that no other says, but for cues, parentheticals and transitions."""

import re
import textwrap

COLOURS = ("White", "Blue", "Pink", "Yellow", "Green", "Goldenrod", "Buff", "Salmon", "Cherry", "Tan")
# Columns and widths of rows.
PLACES = {"heading": (15, 60), "action": (15, 60), "cue": (37, 38), "parenthetical": (31, 24), "dialogue": (25, 35), "transition": (75, 60)}
UNPRINTED = ("synopsis", "title")
NAMES = ("MARA", "OTIS", "BERTRAM", "JUNE", "DR. WELLS")
PLAIN = ("The rain goes on", "A lamp is lit", "Somebody knocks", "The wheel turns", "A cart comes by", "The river is high", "Nobody looks up", "A *dog* barks")
SPOKEN = ("I have counted them", "You said so yesterday", "We were *never* there", "Café Noir it was", "Ask the miller", "It will be late", "Let me see")
PLACES_OF_SCENES = ("MILL", "WEIR", "STATION", "LIGHTHOUSE", "GARDEN", "CELLAR", "STUDIO", "HARBOUR", "CHAPEL", "ATTIC")


class Line:
    def __init__(self, kind, text, number):
        self.kind, self.text, self.round = kind, text, number

    @property
    def is_alone(self):
        """Whether no other line says the same, so that it is known which line of before it is."""
        return self.kind in ("heading", "action", "dialogue")

    def rows(self):
        """What it is on paper, each row with its column."""
        column, width = PLACES[self.kind]
        for row in textwrap.wrap(self.text.replace("*", ""), width, break_on_hyphens=False):
            yield column - len(row) if self.kind == "transition" else column, row


class Paragraph:
    """Lines up to an empty one. Headings know their scene, which stays the same where the heading is another one."""

    def __init__(self, kind, lines, scene=None):
        self.kind, self.lines, self.scene = kind, lines, scene

    @property
    def heading(self):
        return self.lines[0].text


class Row:
    """A row of a page as it has to be: the line it shows, and who speaks there."""

    def __init__(self, column, text, line, scene, speaker):
        self.column, self.text, self.line, self.scene, self.speaker = column, text, line, scene, speaker


class Maker:
    """What writers think of."""

    def __init__(self, rng):
        self.rng, self.count = rng, 0

    def sentence(self, words):
        self.count += 1
        return f"{self.rng.choice(words)}, {self.count}."

    def text(self, words, most):
        return " ".join(self.sentence(words) for _ in range(self.rng.randint(1, most)))

    def action(self, number):
        return Paragraph("action", [Line("action", self.text(PLAIN, 4), number) for _ in range(self.rng.choice((1, 1, 2)))])

    def speech(self, number):
        lines = [Line("cue", self.rng.choice(NAMES), number)]
        if self.rng.random() < 0.2:
            lines.append(Line("parenthetical", self.rng.choice(("(beat)", "(softly)")), number))
        return Paragraph("speech", [*lines, *(Line("dialogue", self.text(SPOKEN, 6), number) for _ in range(self.rng.choice((1, 1, 2))))])

    def heading(self, number):
        self.count += 1
        where = f"{self.rng.choice(('INT.', 'EXT.'))} {self.rng.choice(PLACES_OF_SCENES)} {self.count}"
        return Paragraph("heading", [Line("heading", f"{where} - DAY", number)], object())

    def scene(self, number, most):
        """A scene with action at its beginning and its end, and more the more `most` is."""
        synopsis = [Paragraph("synopsis", [Line("synopsis", f"= {self.sentence(PLAIN)}", number)])] if self.rng.random() < 0.2 else []
        middle = [self.rng.choice((self.action, self.speech, self.speech, self.speech))(number) for _ in range(self.rng.randint(2, most - 2))]
        if self.rng.random() < 0.2:
            middle.append(Paragraph("transition", [Line("transition", "CUT TO:", number)]))
            middle.append(self.action(number))
        return [self.heading(number), *synopsis, self.action(number), *middle, self.action(number)]


class Screenplay:
    """Paragraphs in order. Edits find theirs by identity, so that the same ones can be made of another version."""

    def __init__(self, paragraphs):
        self.paragraphs = list(paragraphs)

    def text(self):
        """The file: an empty line stands between paragraphs."""
        return "\n\n".join("\n".join(line.text for line in it.lines) for it in self.paragraphs) + "\n"

    def lines(self):
        return self.text().splitlines()

    def line_of(self, line):
        """The place of a line in the file, from 0."""
        at = 0
        for paragraph in self.paragraphs:
            for it in paragraph.lines:
                if it is line:
                    return at
                at += 1
            at += 1
        raise IndexError

    def place(self, paragraph):
        return [it is paragraph for it in self.paragraphs].index(True)

    def scenes(self):
        """The paragraphs of each scene."""
        found = []
        for it in self.paragraphs:
            if it.kind == "heading":
                found.append([])
            if found:
                found[-1].append(it)
        return found

    def edited(self, edits):
        """What these edits make of it: each takes paragraphs away and puts some where the first of them stood, or behind one."""
        play = Screenplay(self.paragraphs)
        for gone, behind, new in edits:
            at = play.place(behind) + 1 if behind else play.place(gone[0])
            play.paragraphs[at:at] = new
            for it in gone:
                del play.paragraphs[play.place(it)]
        return play

    def rows(self):
        """All rows of its pages, in order."""
        found, scene, last = [], None, None
        for paragraph in self.paragraphs:
            if paragraph.kind in UNPRINTED:
                continue
            if paragraph.kind == "heading":
                scene, last = paragraph.scene, None
            speaker = paragraph.lines[0].text if paragraph.kind == "speech" else None
            for line in paragraph.lines:
                for column, text in line.rows():
                    text += " (CONT'D)" if line.kind == "cue" and speaker == last else ""
                    found.append(Row(column, text, line, scene, speaker))
            last = speaker or last
        return found


# Sheets


STEP = re.compile(r"\.|[A-HJ-NP-Z]|\((\d+)\)")


def label_key(text):
    """What orders labels: their number, and then step by step."""
    number = re.match(r"\d+", text)[0]
    steps = [0 if it[0] == "." else int(it[1]) if it[1] else "ABCDEFGHJKLMNPQRSTUVWXYZ".index(it[0]) + 1 for it in STEP.finditer(text[len(number) :])]
    return int(number), *steps


class Sheet:
    """A printed sheet, read again: its round, the first and the last of its labels, and its rows."""

    def __init__(self, text):
        self.text = text
        header, _, *body = text.split("\n")
        words = header.split()
        self.label = words[-1][:-1] if words and words[-1].endswith(".") else ""
        self.colour = words[0] if words and not words[0].endswith(".") else COLOURS[0]
        self.round = COLOURS.index(self.colour) if self.colour in COLOURS else -1
        labels = list(map(label_key, self.label.split("-"))) if self.label else []
        self.span = (labels[0], labels[-1]) if labels else None
        self.body = body[:-1]
        self.is_omitted = body == [f"{'':15}OMITTED", ""]

    def printed(self):
        """The rows that show lines of the script: column, text, whether it has a star, and the number beside a heading."""
        rows = [row for row in self.body if row]
        if self.is_omitted or not self.label:
            return
        for at, row in enumerate(rows):
            text, is_starred = unstarred(row)
            if text == f"{'':37}(MORE)" and at == len(rows) - 1 or at == 0 and self.goes_on and text.endswith(" (CONT'D)"):
                continue
            number = None
            if text[7:8].strip():
                number = text[7:15].strip()
                text = f"{'':15}{text[15:76].rstrip()}" if text[76:] == number else f"{text}: two numbers"
            yield len(text) - len(text.lstrip()), text.strip(), is_starred, number

    # Whether the sheet before ends in a speech that goes on here.
    goes_on = False


def unstarred(row):
    """A row without its star, and whether it has one. That stands at column 80, or behind a long number beside a heading."""
    is_starred = len(row) > 80 and row.endswith(" *")
    return (row[:-1].rstrip() if is_starred else row), is_starred


def sheets_of(text):
    """The sheets of printed text."""
    *texts, rest = text.split("\f")
    found = [Sheet(it) for it in texts]
    before = ""
    for sheet in found:
        sheet.goes_on = before == f"{'':37}(MORE)"
        before = sheet.body[-1] if sheet.body and not sheet.is_omitted else before
    return found if not rest else found + [Sheet("\n\n")]


def put_in(old, new):
    """What somebody has on the table who puts new sheets into old ones by hand: new title sheets in place of the old ones, and each other
    sheet in its place by label, where it replaces all whose labels it has."""
    spans = [sheet.span for sheet in new if sheet.span]
    stay = [sheet for sheet in old if sheet.span and not any(first <= sheet.span[1] and sheet.span[0] <= last for first, last in spans)]
    titles = [sheet for sheet in new if not sheet.span]
    return titles + sorted((sheet for sheet in [*stay, *new] if sheet.span), key=lambda sheet: sheet.span)

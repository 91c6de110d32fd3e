"""What the scripts share that know printed sheets: labels, files of sheets, outlines, and columns. docs/RULES.md has the rules ("Sheets",
"Labels", "Outline")."""

import collections
import itertools
import re
import unicodedata

from fountain_client import DROPPED
from fountain_common import COLOURS, output_of, stop

LABEL = re.compile(r"(0|[1-9]\d{0,9})((?:\.|[A-HJ-NP-Z]|\([1-9]\d{0,7}\))*)", re.A)
# The most of the number of a label, and of a step.
MOST_NUMBER, MOST_STEP = 4_000_000_000, 16_777_216
LETTERS = "ABCDEFGHJKLMNPQRSTUVWXYZ"
# The name of a round at column 15, and a label with a full stop; a title sheet has no label.
HEADER = re.compile(rf"(?: {{15}}((?:\d+(?:st|nd|rd|th) )?({'|'.join(COLOURS)})))?(?: +([^ ]+)\.)?", re.A)
# How many widths are asked at once, each on a line.
ASKED_AT_ONCE = 100_000
# Blocks that no sheet shows.
UNPRINTED = ("section", "synopsis", "page_break")

Sheet = collections.namedtuple("Sheet", "text colour labels")


def label_of(text):
    """A label as numbers that are ordered as labels are; None where the text is none."""
    found = LABEL.fullmatch(text)
    if not found:
        return None
    label = [int(found[1])]
    for step in re.findall(r"\.|[A-Z]|\(\d+\)", found[2]):
        label.append(0 if step == "." else LETTERS.index(step) + 1 if step in LETTERS else int(step[1:-1]))
        if step[0] == "(" and not len(LETTERS) < label[-1] <= MOST_STEP:
            return None
    return None if label[0] > MOST_NUMBER or len(label) > 1 and not label[-1] else tuple(label)


def sheet_of(text):
    """A sheet without its form feed, with its colour and its first and last label; None where the text is none."""
    rows = text.split("\n")
    header = HEADER.fullmatch(rows[0])
    if not header or len(rows) < 3 or rows[1] or rows[-1] or any("\t" in row or DROPPED.search(row) for row in rows):
        return None
    labels = [label_of(it) for it in header[3].split("-")] if header[3] else []
    if None in labels or len(labels) > 2 or labels != sorted(set(labels)):
        return None
    return Sheet(text, header[2] or COLOURS[0], (labels[0], labels[-1]) if labels else None)


def sheets_in(data, name):
    """The sheets of a file, in any order of labels."""
    try:
        *texts, rest = data.decode().split("\f")
    except UnicodeDecodeError:
        stop(f"{name} is no file of sheets: it isn't UTF-8")
    sheets = [sheet_of(text) for text in texts]
    if None in sheets:
        stop(f"{name} is no file of sheets: sheet {sheets.index(None) + 1} isn't one")
    if rest:
        stop(f"{name} is no file of sheets: no form feed ends the last one")
    return sheets


def speaker_of(cue):
    """The name in the visible text of a cue."""
    return cue.split("(")[0].strip(" \t") if cue.endswith(")") else cue


def scenes_of(outline):
    """The number of each scene in an outline, the label of the sheet that its heading begins on, and the heading; a scene that is gone has
    `-` for the label."""
    for line in itertools.takewhile(bool, outline.split("\n")):
        number, *rest = line.split("\t", 2)
        if len(rest) == 2 and number[0] not in "#=":
            yield number, *rest


def about_width(character):
    """About how many columns a character has, told without the program."""
    return 0 if unicodedata.category(character) in ("Mn", "Me", "Cf") else 2 if unicodedata.east_asian_width(character) in "WF" else 1


def joins(character):
    """Whether a character belongs to the one before it, as a combining mark does."""
    return (
        unicodedata.category(character)[0] == "M"
        or character in "\u200c\u200d\uff9e\uff9f"
        or any(first <= character <= last for first, last in (("\u1160", "\u11ff"), ("\ud7b0", "\ud7fb"), ("🏻", "🏿"), ("\U000e0020", "\U000e007f")))
    )


def is_flag_letter(text):
    return "🇦" <= text <= "🇿" and len(text) == 1


def clusters_of(text):
    """The characters of a text with what belongs to them."""
    clusters = []
    for character in text:
        if clusters and (joins(character) or clusters[-1][-1] == "\u200d" or is_flag_letter(clusters[-1]) and is_flag_letter(character)):
            clusters[-1] += character
        else:
            clusters.append(character)
    return clusters


def widths_of(clusters):
    """The columns of clusters, told by the program: in a heading `.A` CLUSTER `A#1#` the number stands at column 76 of the sheet."""
    clusters, widths = sorted(set(clusters)), {}
    for first in range(0, len(clusters), ASKED_AT_ONCE):
        asked = clusters[first : first + ASKED_AT_ONCE]
        printed = output_of("print", input="".join(f".A{it}A#1#\n" for it in asked).encode()).decode()
        rows = [row for row in re.split("[\n\f]", printed) if row.startswith("       1       A")]
        widths |= {it: 59 - (len(row) - len(row[:-1].rstrip(" ")) - 1) for it, row in zip(asked, rows, strict=True)}
    return widths

"""Makes PDFs by scripts/fountain-pdf, by Ghostscript and by a browser, and looks at each page: its size, its text, and the places of its ink,
which have to be those of its sheet; at wide characters, emphasis, colours and titles; and at what is refused."""

import os
import pathlib
import re
import shutil
import subprocess
import sys
import tempfile
import unicodedata

from program import PROGRAM, TOP, lines_of
from report import found_by, tell
from tools import lacks

MAKER = TOP / "scripts/fountain-pdf"
# Pixels an inch, and those of a cell, at ten columns and six rows an inch; the first row begins half an inch below the edge.
INCH = 120
WIDTH, HEIGHT, TOP_EDGE = INCH // 10, INCH // 6, INCH // 2
# How far ink may reach out of its cell: to the sides, downwards, and upwards, as wide characters and lines below words do.
ASIDE, DOWN, UP = 4, 4, 7
SIZES = {"letter": (612, 792), "a4": (595, 842)}
A4 = {"do": "paper", "size": "a4"}
WHITE = b"\xff\xff\xff"
# What Ghostscript's face has, and what it hasn't: wide characters and words from right to left. Each comes out without marks.
NARROW = """Title:
    _**A Title**_
    in two lines
Credit: written by

.INT. CAFÉ №1 #12A#

!Καλημέρα, Привет (a) \\\\ [b] `c` 'd' "e" — “f” & <g> %% {h}
!cafe\u0301 cre\u0300me \\*
!plain words
!**bolder words**
!*slanted words*
!_lined words_

ANNA
It's late.

BERT ^
Not so late.
"""
WIDE = """.INT. 厨房 KITCHEN #1#

!字字字 three and 한글 two, é one
!ｗｉｄｅ and half
!_字 字_ lined
!שלום עולם and مرحبا بالعالم too

安娜
太晚了。

BERT ^
不晚。
"""


class Pages:
    """The pages of a PDF."""

    def __init__(self, pdf):
        told = subprocess.run(["pdfinfo", pdf], capture_output=True, check=True).stdout.decode()
        self.told = dict(re.findall(r"^(.*?): +(.*)$", told, re.M))
        self.size = tuple(round(float(it)) for it in re.findall(r"[\d.]+", self.told["Page size"])[:2])
        text = subprocess.run(["pdftotext", "-fixed", "7.2", pdf, "-"], capture_output=True, check=True).stdout.decode()
        self.texts = [page.split("\n") for page in text.split("\f")[:-1]]
        with tempfile.TemporaryDirectory() as folder:
            subprocess.run(["pdftoppm", "-r", str(INCH), pdf, f"{folder}/page"], check=True)
            self.pictures = [Picture(page.read_bytes()) for page in sorted(pathlib.Path(folder).glob("page-*.ppm"))]


class Picture:
    """A page in colours."""

    def __init__(self, data):
        _, size, _, self.pixels = data.split(b"\n", 3)
        self.width, self.height = map(int, size.split())
        # Of each row of pixels where it is dark, by its green.
        green = self.pixels[1::3]
        self.rows = [green[self.width * y : self.width * (y + 1)] for y in range(self.height)]

    def corners(self):
        places = [(3, 3), (self.width - 4, 3), (3, self.height - 4), (self.width - 4, self.height - 4)]
        return {self.pixels[3 * (self.width * y + x) : 3 * (self.width * y + x) + 3] for x, y in places}

    def ink(self, limit=110):
        for y, row in enumerate(self.rows):
            for found in re.finditer(rb"[\x00-\x%02x]" % limit, row):
                yield found.start(), y


def sheets_of(*words, **how):
    text = subprocess.run([PROGRAM, *words], capture_output=True, check=True, **how).stdout.decode()
    return [sheet.rstrip("\n").split("\n") for sheet in text.split("\f")[:-1]]


def call(*words, given=b"", path=None):
    return subprocess.run([MAKER, *words], input=given, capture_output=True, env={**os.environ, "PATH": path or os.environ["PATH"]})


def is_refused(ran, why):
    said = ran.stderr.decode()
    return ran.returncode in (1, 2) and said.startswith("fountain-pdf: ") and said.count("\n") == 1 and why in said and not ran.stdout


def without(folder, *tools):
    """A path that has all tools but these."""
    place = folder / f"without-{'-'.join(tools)}"
    place.mkdir()
    for path in os.environ["PATH"].split(os.pathsep):
        for tool in pathlib.Path(path).glob("*"):
            if tool.name not in tools and not (place / tool.name).is_symlink():
                (place / tool.name).symlink_to(tool)
    return str(place)


def cells_of(row):
    """The characters of a row, each with its column and how many columns it has."""
    column = 0
    for character in row:
        columns = 0 if unicodedata.combining(character) else 2 if unicodedata.east_asian_width(character) in "WF" else 1
        if character != " " and columns:
            yield character, column, columns
        column += columns


def ink_faults(sheet, picture):
    """Ink in a place where the sheet has no character, and characters without ink."""
    inked = {}
    for x, y in picture.ink():
        inked.setdefault((x // WIDTH, (y - TOP_EDGE) // HEIGHT), []).append((x % WIDTH, (y - TOP_EDGE) % HEIGHT))
    filled = set()
    for row, text in enumerate(sheet):
        for character, column, columns in cells_of(text):
            cells = {(it, row) for it in range(column, column + columns)}
            filled |= cells
            # A phrase from right to left stands somewhere in its columns.
            if not cells & inked.keys() and unicodedata.bidirectional(character) not in ("R", "AL"):
                yield f"row {row} has no ink in column {column}, where the sheet has {character}"
        for phrase in re.finditer("[\u0590-\u06ff ]*[\u0590-\u06ff]", text):
            filled |= {(it, row) for it in range(phrase.start(), phrase.end())}
    for column, row in sorted(inked.keys() - filled, key=lambda it: it[::-1]):
        if any(ASIDE <= x < WIDTH - ASIDE and DOWN <= y < HEIGHT - UP for x, y in inked[column, row]):
            yield f"row {row} has ink in column {column}, where the sheet has none"


def placed(rows):
    """The rows that aren't empty, without what stands before all of them."""
    rows = [row.rstrip() for row in rows if row.strip()]
    edge = min((len(row) - len(row.lstrip()) for row in rows), default=0)
    return [row[edge:] for row in rows]


def page_faults(pdf, sheets, size, with_text=True):
    """Where the pages of a PDF aren't the sheets."""
    pages = Pages(pdf)
    if len(pages.texts) != len(sheets) or len(pages.pictures) != len(sheets):
        yield f"it has {len(pages.texts)} pages of {len(sheets)} sheets"
    if pages.size != SIZES[size]:
        yield f"its pages are {pages.size}"
    for number, (sheet, text, picture) in enumerate(zip(sheets, pages.texts, pages.pictures), 1):
        if with_text and placed(sheet) != placed(text):
            pairs = zip(placed(sheet), placed(text))
            yield f"page {number} isn't its sheet: {next((it for it in pairs if it[0] != it[1]), 'it has other rows')}"
        yield from (f"page {number}, {fault}" for fault in list(ink_faults(sheet, picture))[:3])


def examples(way):
    """All examples on both papers; by a browser, which is slow to begin, one alone on both."""
    for script in sorted((TOP / "examples").glob("*.fountain")):
        papers = [((), "letter"), (("--a4",), "a4")]
        for options, size in papers if way.name == "gs" or script.stem == "the-last-broadcast" else papers[:1]:
            copy, pdf = way.folder / script.name, way.folder / "out.pdf"
            shutil.copy(script, copy)
            ran = way.call(*options, copy, pdf)
            if way.name == "gs" and any(columns == 2 for _, _, columns in cells_of(script.read_text())):
                if not is_refused(ran, "can't be printed without chromium"):
                    yield f"{script.name} has wide characters and ends with {ran.returncode}"
                continue
            if ran.returncode or ran.stderr:
                yield f"{script.name} {options} ends with {ran.returncode}: {ran.stderr.decode().strip()}"
                continue
            if copy.read_bytes() != script.read_bytes() or pathlib.Path(f"{copy}.desk").exists():
                yield f"{script.name} is changed by {options}"
            if size == "a4":
                subprocess.run([PROGRAM, "desk", copy], input=lines_of(A4, {"do": "save"}), capture_output=True, check=True)
            # A browser gives wide characters and those beside them pieces of their own.
            with_text = way.name == "gs" or script.read_text().isascii()
            yield from (f"{script.name} {options}: {fault}" for fault in page_faults(pdf, sheets_of("print", copy), size, with_text))
            pathlib.Path(f"{copy}.desk").unlink(missing_ok=True)


def wide():
    """What Ghostscript's face hasn't, as far as the fonts of the machine have it."""
    if not shutil.which("fc-list") or subprocess.run(["fc-list", ":charset=d55c"], capture_output=True).stdout:
        return WIDE
    print("paper: skipped: no page has Korean letters, since the Debian package fonts-noto-cjk isn't installed")
    return WIDE.replace("한글", "字")


def characters(way):
    """Characters of other alphabets, wide ones, and emphasis."""
    script, pdf = way.folder / "script", way.folder / "out.pdf"
    for text in (NARROW, wide()) if way.name == "chromium" else (NARROW,):
        script.write_text(text)
        ran = way.call(script, pdf)
        if ran.returncode or ran.stderr:
            yield f"it ends with {ran.returncode}: {ran.stderr.decode().strip()}"
            continue
        yield from page_faults(pdf, sheets_of("print", script), "letter", with_text=False)
        shown = unicodedata.normalize("NFC", "".join("".join(page) for page in Pages(pdf).texts).replace(" ", ""))
        words = set(re.findall(r"[^\W_]{4,}", unicodedata.normalize("NFC", text))) - {"Title", "Credit"}
        lacking = sorted(word for word in words if word not in shown)
        if lacking:
            yield f"its text hasn't {lacking}"
    script.write_text(NARROW)
    way.call(script, pdf)
    yield from emphasis_faults(sheets_of("print", script)[1], Pages(pdf).pictures[1])


def emphasis_faults(sheet, picture):
    """The words of `words` are printed four times: plain, bold, slanted and lined."""
    rows = [row for row, text in enumerate(sheet) if text.endswith(" words")]
    pictures = []
    for row in rows:
        column = sheet[row].index("words")
        left, top = WIDTH * column, TOP_EDGE + HEIGHT * row
        pictures.append({(x - left, y - top) for x, y in picture.ink() if left <= x < left + 5 * WIDTH and top <= y < top + HEIGHT})
    plain, bold, slanted, lined = pictures
    if len(bold) < 1.2 * len(plain):
        yield "bold words have no more ink than plain ones"
    if len(plain & slanted) > 0.8 * len(plain):
        yield "slanted words look like plain ones"
    lines = [y for y in range(HEIGHT) if sum((x, y) in lined for x in range(5 * WIDTH)) > 4.8 * WIDTH]
    if not lines or [y for y in range(HEIGHT) if sum((x, y) in plain for x in range(5 * WIDTH)) > 4 * WIDTH]:
        yield "lined words have no line below them, or plain ones have"


def titles(way):
    script, pdf = way.folder / "a script.fountain", way.folder / "out.pdf"
    cases = (
        (NARROW, "A Title in two lines"),
        ("Credit: by\nTitle: *Ends* & <b> ü\nAuthor: x\n\nHello.\n", "Ends & <b> ü"),
        ("title:Low\r\n\r\nHello.\r\n", "Low"),
        ("Title:\nCredit: by\n\nHello.\n", "a script"),
        ("Author: x\nTitle: /*\n\nHello.\n", "a script"),
        ("Author: x\n\nTitle: none\n", "a script"),
        ("Hello.\n\nTitle: none\n", "a script"),
    )
    for text, title in cases if way.name == "gs" else cases[:2]:
        script.write_text(text, newline="")
        way.call(script, pdf)
        told = Pages(pdf).told.get("Title")
        if told != title:
            yield f"the title of {text[:30]!r} is {told}"
    printed = subprocess.run([PROGRAM, "print", TOP / "examples/the-lighthouse.fountain"], capture_output=True, check=True).stdout
    ran = way.call("--sheets", "-", way.folder / "some sheets.pdf", given=printed)
    if ran.returncode or Pages(way.folder / "some sheets.pdf").told.get("Title") != "some sheets":
        yield f"sheets of standard input end with {ran.returncode} and have another title than the file"
    (way.folder / "caf\udce9.fountain").write_text("Hello.\n")
    ran = way.call(way.folder / "caf\udce9.fountain", pdf)
    if ran.returncode != 2 or ran.stderr != b"fountain-pdf: a word isn't UTF-8\n":
        yield f"a script whose name isn't UTF-8 ends with {ran.returncode}: {ran.stderr.decode()}"


def colours(way):
    """A sheet of each colour, and one of each again; and a script with rounds and its packet."""
    names = ["White", "Blue", "Pink", "Yellow", "Green", "Goldenrod", "Buff", "Salmon", "Cherry", "Tan"]
    headers = [f"{' ' * 15}{name:<15}{' ' * 43}{number}." for number, name in enumerate(names[1:] + [f"2nd {name}" for name in names[1:]], 1)]
    headers = [f"{' ' * 15}Pink", f"{' ' * 73}0.", *headers, f"{' ' * 15}11th Tan{' ' * 50}99."]
    sheets, pdf = way.folder / "sheets", way.folder / "out.pdf"
    sheets.write_text("".join(f"{header}\n\n               Hello.\n\f" for header in headers))
    way.call("--colours", "--a4", "--sheets", sheets, pdf)
    pages = Pages(pdf).pictures
    if any(len(page.corners()) > 1 for page in pages):
        yield "a tint doesn't reach all corners"
    tints = [min(page.corners()) for page in pages]
    title, white, *first = tints[:11]
    are_colours = white == WHITE and white not in first and len(set(first)) == 9
    if not are_colours or tints[11:] != [*first, first[-1]] or title != first[1]:
        yield f"the tints are {[tint.hex() for tint in tints]}"
    if min(min(tint) for tint in tints) < 0x90:
        yield "a tint is too dark to read on"
    way.call("--sheets", sheets, pdf)
    if {corner for page in Pages(pdf).pictures for corner in page.corners()} != {WHITE}:
        yield "without --colours a page has a tint"


def handed_out(way):
    """Locked pages on A4, and a packet through a pipe."""
    script, pdf = way.folder / "script", way.folder / "out.pdf"
    shutil.copy(TOP / "examples/the-mill.fountain", script)
    locks = [{"do": "lock_scenes"}, {"do": "lock_pages"}, {"do": "next_round"}]
    commands = [*locks, {"do": "splice", "line": 8, "from": 0, "to": 0, "text": "Much. "}, {"do": "save"}]
    subprocess.run([PROGRAM, "desk", script], input=lines_of(*commands), capture_output=True, check=True)
    before = script.read_bytes(), pathlib.Path(f"{script}.desk").read_bytes()
    ran = way.call("--a4", script, pdf)
    if ran.returncode or ran.stderr.decode() != "fountain-pdf: pages are locked on Letter, so they keep its 54 rows\n":
        yield f"locked pages on A4 end with {ran.returncode}: {ran.stderr.decode()}"
    yield from page_faults(pdf, sheets_of("print", script), "a4")
    packet = subprocess.run([PROGRAM, "packet", script], capture_output=True, check=True).stdout
    ran = way.call("--colours", "--sheets", "-", pdf, given=packet)
    pages = Pages(pdf).pictures
    if ran.returncode or packet.count(b"\f") != 1 or len(pages) != 1 or pages[0].corners() == {WHITE}:
        yield f"the packet of one blue sheet ends with {ran.returncode} and has {len(pages)} pages"
    way.call("--colours", script, pdf)
    if [page.corners() == {WHITE} for page in Pages(pdf).pictures] != [True, False, True, True]:
        yield "with --colours other sheets of the script are tinted than the blue one"
    if (script.read_bytes(), pathlib.Path(f"{script}.desk").read_bytes()) != before:
        yield "the script or its records are changed"
    # A long script has other pages on A4, and a desk that set A4 needs no option.
    script, text = way.folder / "long", "".join(f"!Line {number}.\n\n" for number in range(85))
    script.write_text(text)
    way.call("--a4", script, pdf)
    pages = len(Pages(pdf).texts)
    subprocess.run([PROGRAM, "desk", script], input=lines_of(A4, {"do": "save"}), capture_output=True, check=True)
    way.call(script, pdf)
    yield from page_faults(pdf, sheets_of("print", script), "a4")
    # 29 lines with an empty row between them are 57 rows, and 27 are 53, which makes 4 pages.
    if pages != 3 or len(Pages(pdf).texts) != 3:
        yield f"85 lines have {pages} pages on A4, and {len(Pages(pdf).texts)} where the records say so"


def names(way):
    """A script from standard input and one from a pipe, as process substitution makes it; and names that mean something to the tools."""
    text, folder = NARROW.encode(), way.folder / "100% #1 ?a%d=-x"
    folder.mkdir()
    script, pipe, pdf = folder / "a script", folder / "pipe", folder / "%d out.pdf"
    script.write_bytes(text)
    os.mkfifo(pipe)
    (folder / "link.pdf").symlink_to("behind.pdf")
    sheets = sheets_of("print", script)
    for words, given, made in (
        (("-", pdf), text, pdf), ((script, pdf), b"", pdf), ((script, folder / "link.pdf"), b"", folder / "behind.pdf"),
    ):
        ran = way.call(*words, given=given)
        if ran.returncode or ran.stderr:
            yield f"{[str(it) for it in words]} end with {ran.returncode}: {ran.stderr.decode()}"
        else:
            yield from page_faults(made, sheets, "letter", with_text=False)
    with subprocess.Popen(["sh", "-c", 'cat "$1" >"$2"', "sh", script, pipe]):
        ran = way.call(pipe, pdf)
    if ran.returncode or len(Pages(pdf).texts) != len(sheets):
        yield f"a pipe ends with {ran.returncode}: {ran.stderr.decode()}"
    names = sorted(it.name for it in folder.iterdir())
    if names != ["%d out.pdf", "a script", "behind.pdf", "link.pdf", "pipe"] or not (folder / "link.pdf").is_symlink():
        yield f"the folder has {names}"


def sizes(way):
    """Sixty full pages: small, and quick to search."""
    script, pdf = way.folder / "script", way.folder / "out.pdf"
    script.write_text("".join(f"!Line {number} of a long script, with some words behind it.\n\n" for number in range(60 * 27)))
    way.call(script, pdf)
    if pdf.stat().st_size > 500_000 or len(Pages(pdf).texts) != 60:
        yield f"it has {len(Pages(pdf).texts)} pages in {pdf.stat().st_size} bytes"


def refusals(way):
    folder = way.folder
    (folder / "script").write_text("Hello.\n")
    (folder / "old.pdf").write_bytes(b"%PDF-1.4 old")
    (folder / "latin").write_bytes(b"caf\xe9\n")
    (folder / "folder").mkdir()
    os.mkfifo(folder / "pipe")
    (folder / "long").write_text("a\n\n" + "b" * 5000)
    header = f"{' ' * 73}1.\n\n"
    sheets = {
        "high": header + "x\n" * 55 + "\f", "higher": header + "x\n" * 59 + "\f", "wide": header + "x" * 86 + "\n\f",
        "no label": f"{' ' * 73}A.\n\nx\n\f", "no empty row": f"{' ' * 73}1.\nx\nx\n\f", "tab": header + "\tx\n\f",
        "windows": header.replace("\n", "\r\n") + "x\r\n\f", "unended": header + "x\n", "none": "", "second": header + "x\n\fMauve\n\nx\n\f",
    }
    for name, text in sheets.items():
        (folder / name).write_text(text, newline="")
    before = {it.name: it.is_file() and it.read_bytes() for it in folder.iterdir()}
    out = folder / "old.pdf"
    for words, why in (
        ((), "usage"), ((folder / "script",), "usage"), ((folder / "script", out, out), "usage"),
        (("--a5", folder / "script", out), "usage"),
        ((folder / "script", "-"), "wants a name"), ((folder / "script", ""), "wants a name"),
        ((folder / "nobody", out), "no file"), ((folder / "folder", out), ""), ((folder / "latin", out), "UTF-8"),
        ((folder / "script", folder / "latin"), "is no PDF"), ((folder / "script", folder / "script"), "is no PDF"),
        ((folder / "script", folder / "folder"), "is no PDF"), ((folder / "script", folder / "pipe"), "is no PDF"),
        ((folder / "script", "/dev/null"), "is no PDF"), ((folder / "long", out), "long: line 3 is too long"), (("", out), "no file"),
        ((folder / "script", folder / "nowhere/out.pdf"), "folder"),
        (("--sheets", folder / "script", out), "no file of sheets"), (("--sheets", folder / "latin", out), "no file of sheets"),
        (("--sheets", folder / "high", out), "sheet 1 has 55 rows below its header, and Letter has 54: --a4 has 58"),
        (("--a4", "--sheets", folder / "higher", out), "sheet 1 has 59 rows below its header, and A4 has 58"),
        (("--sheets", folder / "wide", out), "row 3 of sheet 1 has 86 columns, and Letter has 85"),
        (("--sheets", folder / "unended", out), "no form feed"), (("--sheets", folder / "none", out), "no sheets"),
        (("--sheets", folder / "second", out), "sheet 2"),
        *((("--sheets", folder / name, out), "sheet 1") for name in ("no label", "no empty row", "tab", "windows")),
    ):
        ran = way.call(*words)
        if not is_refused(ran, why):
            yield f"{[str(it) for it in words]} ends with {ran.returncode}: {ran.stderr.decode()!r}"
    if {it.name: it.is_file() and it.read_bytes() for it in folder.iterdir()} != before:
        yield "refused PDFs change the folder"
    if way.call("--a4", "--sheets", folder / "high", out).returncode:
        yield "55 rows are refused on A4"
    told = way.call("--help")
    if told.returncode or not told.stdout.startswith(b"fountain-pdf [--a4]"):
        yield f"--help ends with {told.returncode}"


class Way:
    """A folder of its own, and a path without the other tool."""

    def __init__(self, name, folder, path):
        self.name, self.folder, self.path = name, folder, path

    def call(self, *words, given=b""):
        return call(*words, given=given, path=self.path)


def tools(folder, without_gs, without_chromium):
    """What is said where a tool is missing."""
    (folder / "wide").write_text(WIDE)
    (folder / "script").write_text("!a \ue123 b\n")
    if without_chromium:
        ran = call(folder / "wide", folder / "out.pdf", path=without_chromium)
        if not is_refused(ran, "can't be printed without chromium") or "U+05D5" not in ran.stderr.decode():
            yield f"without chromium wide characters end with {ran.returncode}: {ran.stderr.decode()}"
    ran = call(folder / "script", folder / "out.pdf", path=without(folder, "gs", "chromium", "chromium-browser", "google-chrome", "google-chrome-stable"))
    if not is_refused(ran, "neither gs nor chromium"):
        yield f"without both tools it ends with {ran.returncode}: {ran.stderr.decode()}"
    half = folder / "half"
    half.mkdir()
    (half / "chromium").write_text('#!/bin/sh\nfor word; do case $word in --print-to-pdf=*) echo "%PDF-1.4" >"${word#*=}" ;; esac; done\n')
    (half / "chromium").chmod(0o755)
    (folder / "out.pdf").write_bytes(b"%PDF-1.4 old")
    ran = call(folder / "wide", folder / "out.pdf", path=f"{half}:{os.environ['PATH']}")
    if not is_refused(ran, "wrote no whole PDF") or (folder / "out.pdf").read_bytes() != b"%PDF-1.4 old":
        yield f"where a browser leaves half a PDF it ends with {ran.returncode}: {ran.stderr.decode()}"
    if without_gs and not lacks("paper", "no character that no font has is printed", "fc-list"):
        ran = call(folder / "script", folder / "out.pdf", path=without_gs)
        if ran.returncode or ran.stderr.decode() != "fountain-pdf: no font of this machine has U+E123\n":
            yield f"a character that no font has ends with {ran.returncode}: {ran.stderr.decode()}"


def main():
    if not PROGRAM.exists():
        return tell("paper", "no page was made", ["the program isn't built"])
    if lacks("paper", "no page is looked at", "pdftotext", "pdftoppm", "pdfinfo"):
        return 0
    faults, ways = [], [tool for tool in ("gs", "chromium") if not lacks("paper", f"no page is made by {tool}", tool)]
    with tempfile.TemporaryDirectory() as name:
        folder = pathlib.Path(name)
        paths = {tool: without(folder, *({"gs", "chromium"} - {tool})) for tool in ways}
        for tool in ways:
            for check in (examples, characters, titles, colours, handed_out, names, sizes, refusals):
                place = folder / f"{tool}-{check.__name__}"
                place.mkdir()
                faults += [f"{tool}: {fault}" for fault in found_by(check, Way(tool, place, paths[tool]))]
        faults += tools(folder, paths.get("chromium"), paths.get("gs"))
    return tell("paper", f"pages by {' and '.join(ways) or 'nothing'}", faults[:20])


if __name__ == "__main__":
    sys.exit(main())

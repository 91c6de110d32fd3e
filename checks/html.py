"""Opens the pages of the examples in a browser: the text of each sheet there has to be the sheet, with its rows and columns; and
a picture of one has the size that was asked for, and ink in just the columns where the sheet has characters."""

import json
import pathlib
import re
import subprocess
import sys
import tempfile
import urllib.parse
import zlib

from program import PROGRAM, TOP, output_of, sheets_of
from report import tell
from tools import lacks

BROWSER = ["chromium", "--headless", "--no-sandbox", "--disable-gpu", "--hide-scrollbars"]
# A script whose first sheet of the body is drawn, and the size of the picture.
DRAWN = TOP / "examples/the-last-broadcast.fountain"
WIDTH, HEIGHT = 720, 960
# What is asked of a page: the text of each sheet, and where the second one stands and how wide its characters are.
ASKED = """<script>
const sheets = [...document.querySelectorAll("pre")].map(it => it.innerText);
const probe = document.createElement("span");
probe.textContent = "0".repeat(100);
document.querySelector("pre").append(probe);
const told = {sheets, column: probe.getBoundingClientRect().width / 100};
document.body.textContent = "told:" + encodeURIComponent(JSON.stringify(told)) + ":";
</script>"""
# Characters that a script may have and that HTML gives a meaning, with styles round them.
HOSTILE = """Title: A & B <c>

.*A* & **B**<i> #1&#

_x & y_ &lt; ***z*** > _q_ &amp; </b></pre> \\*
\tTab, 字, e\u0301 and <!-- no comment -->

A & B
*(softly <b>)*
*It is **late** & <u>_dark_*.

C ^
"Quotes" & 'quotes'.
"""


def told_of(page, folder):
    """What the browser tells of a page."""
    path = folder / "page.html"
    path.write_text(page.replace("</body>", ASKED + "</body>"))
    run = subprocess.run([*BROWSER, f"--user-data-dir={folder / 'browser'}", "--dump-dom", path], capture_output=True, check=True)
    return json.loads(urllib.parse.unquote(re.search(r"told:(.*?):", run.stdout.decode())[1]))


def picture_of(page, folder):
    """The width, the height and the rows of grey pixels of a page."""
    path, picture = folder / "page.html", folder / "page.png"
    path.write_text(page)
    subprocess.run(
        [*BROWSER, f"--user-data-dir={folder / 'browser'}", f"--window-size={WIDTH},{HEIGHT}", f"--screenshot={picture}", path],
        capture_output=True, check=True,
    )
    return pixels_of(picture.read_bytes())


def pixels_of(png):
    """A PNG of three or four bytes a pixel."""
    at, data, size = 8, b"", None
    while at < len(png):
        length, kind = int.from_bytes(png[at : at + 4], "big"), png[at + 4 : at + 8]
        chunk = png[at + 8 : at + 8 + length]
        if kind == b"IHDR":
            size = int.from_bytes(chunk[:4], "big"), int.from_bytes(chunk[4:8], "big"), {2: 3, 6: 4}[chunk[9]]
        if kind == b"IDAT":
            data += chunk
        at += 12 + length
    width, height, step = size
    data, above, rows = zlib.decompress(data), bytes(width * step), []
    for y in range(height):
        way, *row = data[y * (width * step + 1) : (y + 1) * (width * step + 1)]
        for x in range(width * step):
            left, up, corner = (row[x - step], above[x], above[x - step]) if x >= step else (0, above[x], 0)
            guess = left + up - corner
            near = min((left, up, corner), key=lambda it: abs(guess - it))
            row[x] = (row[x] + (0, left, up, (left + up) // 2, near)[way]) % 256
        above = row
        rows.append([min(row[x : x + 3]) for x in range(0, width * step, step)])
    return width, height, rows


def text_faults(script, folder):
    sheets, told = sheets_of(script), told_of(output_of("html", script), folder)["sheets"]
    if len(told) != len(sheets):
        yield f"it has {len(told)} sheets of {len(sheets)}"
    for number, (sheet, text) in enumerate(zip(sheets, told), 1):
        pairs = zip(sheet.split("\n"), text.split("\n"))
        if sheet != text:
            yield f"sheet {number} isn't shown: {next((it for it in pairs if it[0] != it[1]), 'it has other rows')}"


def ink_faults(folder):
    """The faults of a picture of one sheet, whose body has a margin of 8 pixels."""
    page, sheet = output_of("html", DRAWN), sheets_of(DRAWN)[1]
    head, *parts = page.split("<pre>")
    alone = f"{head}<pre>{parts[1]}</body></html>"
    column = told_of(alone, folder)["column"]
    width, height, rows = picture_of(alone, folder)
    if (width, height) != (WIDTH, HEIGHT):
        yield f"the picture has {width} by {height} pixels"
    inked = {x for row in rows for x, pixel in enumerate(row) if pixel < 160}
    texts = sheet.split("\n")
    for place in range(80):
        is_empty = all(text[place : place + 1] in ("", " ") for text in texts)
        begin, end = round(8 + column * place), round(8 + column * (place + 1))
        if is_empty and inked & set(range(begin + 2, end - 2)):
            yield f"the picture has ink in column {place}, where the sheet has none"
        if not is_empty and not inked & set(range(begin, end)):
            yield f"the picture has no ink in column {place}, where the sheet has some"


def main():
    if lacks("html", "no page is opened", "chromium"):
        return 0
    if not PROGRAM.exists():
        return tell("html", "no page was opened", ["the program isn't built"])
    faults = []
    with tempfile.TemporaryDirectory() as name:
        folder = pathlib.Path(name)
        (folder / "hostile.fountain").write_text(HOSTILE)
        scripts = [*sorted((TOP / "examples").glob("*.fountain")), folder / "hostile.fountain"]
        for script in scripts:
            faults += [f"{script.name}: {fault}" for fault in text_faults(script, folder)]
        faults += [f"{DRAWN.name}: {fault}" for fault in ink_faults(folder)]
    return tell("html", f"{len(scripts)} pages and a picture", faults[:20])


if __name__ == "__main__":
    sys.exit(main())

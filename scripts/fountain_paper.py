"""Sheets on paper, for fountain-pdf: ten characters and six rows an inch, a sheet on each page. Ghostscript prints what its own typewriter
face has, a browser any other characters. A sheet is marked up as in a page of `fountain html`."""

import bisect
import collections
import html
import os
import re
import subprocess
import tempfile
import unicodedata

from fountain_common import read, say, stop
from fountain_sheets import clusters_of, sheet_of, widths_of

# Of each paper its name, how wide and high it is, also in points, its columns, and the rows below a header.
Paper = collections.namedtuple("Paper", "name width height width_in_points height_in_points columns rows")
PAPERS = {"letter": Paper("Letter", "8.5in", "11in", 612, 792, 85, 54), "a4": Paper("A4", "210mm", "297mm", 595.276, 841.89, 82, 58)}
TINTS = {
    "Blue": "cfe2f6", "Pink": "fbd5e0", "Yellow": "fff5b1", "Green": "cfeccd", "Goldenrod": "f8dd90", "Buff": "f5e4c3", "Salmon": "fcc8b4",
    "Cherry": "f6a8b4", "Tan": "e2c9a6",
}
# Categories of characters that show nothing: spaces and marks of format.
UNSEEN = ("Cf", "Zs", "Zl", "Zp")
# Letters that are written from right to left, a phrase of them, and any other characters outside ASCII with the one before them.
RIGHT = "\u0590-\u08ff\ufb1d-\ufdff\ufe70-\ufefc\U00010800-\U00010fff\U0001e800-\U0001efff"
OUTSIDE = rf"[{RIGHT}](?:[{RIGHT} -@\[-`{{-~\u2000-\u206f]*[{RIGHT}])?|[ -~]?[^\x00-\x7f{RIGHT}]+"
# What PostScript wants a backslash before, in a text, and the text with it.
BRACKETS, PROTECTED = r"([()\\])", r"\\\1"
# The characters of the face, by their codes, and what shows words, one character and a line below: X Y FACE (TEXT) T, X Y FACE CODE C and
# X Y WIDTH U.
TYPESETTING = r"""/codes 1000 dict def
/NimbusMonoPS-Regular findfont /CharStrings get {
    pop dup 64 string cvs
    dup length 7 eq { dup 0 3 getinterval (uni) eq } { false } ifelse
    { 3 4 getinterval 7 string dup 0 (16#) putinterval dup 3 4 -1 roll putinterval cvi }
    { pop AdobeGlyphList 1 index known { AdobeGlyphList 1 index get } { null } ifelse } ifelse
    dup type /integertype eq { exch codes 3 1 roll put } { pop pop } ifelse
} forall
/encoding 256 array def
0 1 255 { encoding exch dup codes exch known { dup codes exch get } { /.notdef } ifelse put } for
/fonts [ [ /NimbusMonoPS-Regular /NimbusMonoPS-Italic /NimbusMonoPS-Bold /NimbusMonoPS-BoldItalic ] {
    findfont dup length dict begin { 1 index /FID eq { pop pop } { def } ifelse } forall
    /Encoding encoding def FontName currentdict end definefont 12 scalefont
} forall ] def
/at { exch fonts exch get setfont 3 1 roll moveto } bind def
/T { at show } bind def
/C { at codes exch get glyphshow } bind def
/U { 3 1 roll moveto 0 rlineto .6 setlinewidth stroke } bind def
"""
# In a browser a letter takes a tenth of an inch whatever its font says, and what isn't ASCII stands in boxes of so many columns.
STYLE = """@page { size: %(width)s %(height)s; margin: 0 }
html, body { margin: 0; -webkit-print-color-adjust: exact; print-color-adjust: exact }
pre { box-sizing: border-box; width: %(width)s; height: %(height)s; margin: 0; padding-top: .5in; overflow: hidden; break-after: page }
pre { font: 12pt/12pt "Courier Prime", "Nimbus Mono PS", "Liberation Mono", monospace; font-kerning: none; font-variant-ligatures: none }
pre, pre * { letter-spacing: calc(.1in - 1ch) }
pre:last-child { break-after: auto }
pre > b:first-child { font-weight: normal }
span { display: inline-block; line-height: 0 }
u span { text-decoration: underline }
"""


def run_tool(*words, **how):
    ran = subprocess.run(words, capture_output=True, env={**os.environ, "LC_ALL": "C.UTF-8"}, **how)
    if ran.returncode:
        stop(f"{words[0]} fails: {(ran.stderr.decode(errors='replace').splitlines() or ['it tells nothing'])[-1]}")
    return ran.stdout


def plain(markup):
    """What a marked up sheet shows."""
    return html.unescape(re.sub("<[^>]*>", "", markup))


def escaped(text):
    """A text as HTML, without the two characters outside ASCII at which a browser ends a line."""
    return html.escape(text.translate({0x2028: " ", 0x2029: " "}), quote=False)


def pieces_of(text):
    """A text cut into words, spaces, and what isn't ASCII, with the character before that, which it may belong to."""
    return re.findall(rf"{OUTSIDE}|(?:[!-~]+(?: [!-~]+)*| +)(?![^\x00-\x7f{RIGHT}])", text)


def outside_widths(texts):
    """The columns of all characters that stand in pieces outside ASCII."""
    pieces = {piece for text in texts if not text.isascii() for row in text.split("\n") for piece in pieces_of(row)}
    return widths_of({it for piece in pieces if not piece.isascii() for it in clusters_of(piece)})


def columns_of(text, widths):
    if text.isascii():
        return len(text)
    return sum(len(it) if it.isascii() else sum(widths[cluster] for cluster in clusters_of(it)) for it in pieces_of(text))


def need_room(texts, widths, paper):
    """Stops where a sheet has more rows or columns than the paper."""
    most = PAPERS[paper]
    for number, text in enumerate(texts, 1):
        rows = text.split("\n")[:-1]
        if len(rows) - 2 > most.rows:
            hint = ": --a4 has 58" if paper == "letter" else ""
            stop(f"sheet {number} has {len(rows) - 2} rows below its header, and {most.name} has {most.rows}{hint}")
        for at, row in enumerate(rows, 1):
            columns = columns_of(row, widths)
            if columns > most.columns:
                stop(f"row {at} of sheet {number} has {columns} columns, and {most.name} has {most.columns}")


def tint_of(text):
    """The tint of a sheet, by the colour in its header; White has none."""
    return TINTS.get(sheet_of(text).colour)


def seen_in(widths):
    """The characters outside ASCII that show something, composed as far as they can be."""
    composed = {it for cluster in widths for it in unicodedata.normalize("NFC", cluster)}
    return {it for it in composed if not it.isascii() and not "\ufe00" <= it <= "\ufe0f" and unicodedata.category(it) not in UNSEEN}


def named(characters):
    them = [f"U+{ord(it):04X}" for it in sorted(characters)]
    return ", ".join(them[:8]) + (f" and {len(them) - 8} more" if len(them) > 8 else "")


def face_lacks(characters):
    """Those characters that the face of Ghostscript hasn't."""
    told = run_tool("gs", "-q", "-dBATCH", "-dNODISPLAY", "-c", TYPESETTING + "codes { pop = } forall") if characters else b""
    return characters - {chr(int(it)) for it in told.split()}


def print_by_ghostscript(sheets, tints, widths, title, paper, work):
    width, height = PAPERS[paper].width_in_points, PAPERS[paper].height_in_points
    lines = ["%!PS", TYPESETTING, f"<< /PageSize [{width} {height}] >> setpagedevice", f"[ /Title <FEFF{title.encode('utf-16-be').hex()}> /DOCINFO pdfmark"]
    for sheet, tint in zip(sheets, tints):
        if tint:
            red, green, blue = (int(tint[at : at + 2], 16) / 255 for at in (0, 2, 4))
            lines.append(f"{red:.3f} {green:.3f} {blue:.3f} setrgbcolor 0 0 {width} {height} rectfill 0 setgray")
        # The header isn't bold on paper.
        for at, row in enumerate(re.sub("^<b>(.*?)</b>", r"\1", sheet).split("\n")):
            lines += typeset(row, height - 45 - 12 * at, widths)
        lines.append("showpage")
    (work / "sheets.ps").write_text("\n".join(lines) + "\n")
    # In the folder itself, since a % in the name of a file stands for a page.
    run_tool("gs", "-q", "-dBATCH", "-dNOPAUSE", "-sDEVICE=pdfwrite", "-sOutputFile=pdf", "sheets.ps", cwd=work)


def typeset(row, height, widths):
    """The PostScript of a row, each piece at its column."""
    column, style = 0, set()
    for part in re.split("(<[^>]*>)", row):
        if part.startswith("</"):
            style.discard(part[2])
        elif part.startswith("<"):
            style.add(part[1])
        else:
            start, face = column, ("i" in style) + 2 * ("b" in style)
            for piece in pieces_of(html.unescape(part)):
                for text in [piece] if piece.isascii() else clusters_of(piece):
                    at = f"{7.2 * column:.1f} {height:.2f} {face}"
                    if not text.isascii():
                        yield from (f"{at} {ord(it)} C" for it in unicodedata.normalize("NFC", text) if it in seen_in([text]))
                    elif text[0] != " ":
                        yield f"{at} ({re.sub(BRACKETS, PROTECTED, text)}) T"
                    column += len(text) if piece.isascii() else widths[text]
            if "u" in style:
                yield f"{7.2 * start:.1f} {height - 1.5:.2f} {7.2 * (column - start):.1f} U"


def print_by_browser(browser, sheets, tints, widths, title, paper, work):
    """The page has no script and nothing from elsewhere, so it goes without a sandbox, which root and containers haven't."""
    style = STYLE % PAPERS[paper]._asdict()
    head = f'<meta charset="utf-8"><title>{escaped(title)}</title><style>{style}</style>'
    pages = (f'<pre{f" style=background:#{tint}" if tint else ""}>{boxed(sheet, widths)}</pre>' for sheet, tint in zip(sheets, tints))
    (work / "page.html").write_bytes(f"<!DOCTYPE html><html><head>{head}</head><body>{''.join(pages)}</body></html>".encode())
    how = ["--headless", "--no-sandbox", "--disable-gpu", "--no-first-run", "--no-pdf-header-footer", f"--print-to-pdf={work / 'pdf'}"]
    with tempfile.TemporaryDirectory(prefix="fountain-pdf.", ignore_cleanup_errors=True) as profile:
        run_tool(browser, *how, f"--user-data-dir={profile}", work / "page.html")
    # It ends so on a full disk too.
    if not (read(work / "pdf") or b"").endswith(b"%%EOF\n"):
        stop(f"{browser} wrote no whole PDF, as where a disk is full")


def boxed(markup, widths):
    """A sheet with what isn't ASCII in boxes."""
    if markup.isascii():
        return markup
    parts = re.split("(<[^>]*>)", markup)
    for at in range(0, len(parts), 2):
        rows = html.unescape(parts[at]).split("\n")
        parts[at] = "\n".join("".join(escaped(it) if it.isascii() else boxes(it, widths) for it in pieces_of(row)) for row in rows)
    return "".join(parts)


def boxes(piece, widths):
    """Each wide character in a box of its own, and in one what stands between them; a phrase from right to left in one alone."""
    clusters, groups = clusters_of(piece), []
    if re.match(f"[{RIGHT}]", piece):
        groups = [clusters]
    for cluster in () if groups else clusters:
        if not groups or widths[cluster] > 1 or widths[groups[-1][-1]] > 1:
            groups.append([])
        groups[-1].append(cluster)
    return "".join(
        f'<span style="width:{sum(widths[it] for it in group) / 10:.1f}in">{escaped("".join(group))}</span>' for group in groups
    )


def tell_missing(characters):
    """Tells those that no font of the machine has, and that come out as boxes."""
    try:
        told = run_tool("fc-list", "--format=%{charset} ", ":").decode().split() if characters else []
    except FileNotFoundError:
        return say("whether the fonts have all characters isn't known: fc-list is missing, of the Debian package fontconfig")
    ranges = []
    for first, last in sorted((int(it.split("-")[0], 16), int(it.split("-")[-1], 16)) for it in set(told)):
        if ranges and first <= ranges[-1][1] + 1:
            ranges[-1][1] = max(ranges[-1][1], last)
        else:
            ranges.append([first, last])
    behind = {it: bisect.bisect(ranges, [ord(it), 0x110000]) for it in characters}
    missing = {it for it in characters if not behind[it] or ranges[behind[it] - 1][1] < ord(it)}
    if missing:
        say(f"no font of this machine has {named(missing)}")

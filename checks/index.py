"""The index of the definitions that contracts cite and of the laws that docs/PROMISES.md names, by the sections of docs/RULES.md.
`checks/index.py >docs/INDEX.md` makes it. A file belongs to the sections that its first comment names. checks/index.txt tells that of
files that name none, and has words for definitions whose comments say too little."""

import pathlib
import re
import sys
import textwrap

TOP = pathlib.Path(__file__).resolve().parent.parent
CRATES = TOP / "crates"
BESIDE = "Beside the rules"
HEAD = """# Index

Where each section of docs/RULES.md is restated: the definitions that contracts cite, file by file; the laws that docs/PROMISES.md names,
behind what it promises by them; and the files of rows that are computed from the definitions. What stands behind a name is the comment
above it, and names with one comment share a line. `python3 checks/index.py >docs/INDEX.md` makes this page of the sources and of
checks/index.txt, and checks/repository.py compares it."""
DEFINED = re.compile(r"(?:abbrev |unfoldable )*pub (?:record |data )?(?!mod |use )([^\s:({]+)")
DECLARED = re.compile(r"pub (?:enum|struct|const) (\w+)")
PROVED = re.compile(r"^ *(?:unfoldable )?(?:pub )?([^\s:]+) : ", re.M)
NAMED = r"((?:`[^`\s]+`(?:, | and )?)+)"


def sections():
    return re.findall(r"^## (.+)$", (TOP / "docs/RULES.md").read_text(), re.M)


def told():
    """What the sources don't tell: the sections of crates and files, and the words of definitions."""
    lines = (TOP / "checks/index.txt").read_text().splitlines()
    return dict(line.split(": ", 1) for line in lines if line and not line.startswith("#"))


def opening(text):
    """The comment that a file begins with."""
    return " ".join(line.lstrip("-/! ") for line in re.match(r"(?:(?:--|//!).*\n)*", text)[0].splitlines())


def cited(comment):
    """The sections of docs/RULES.md that a comment names."""
    found = re.search(r'docs/RULES\.md, ((?:"[^"]+"(?:, | and )?)+)', comment)
    return re.findall(r'"([^"]+)"', found[1]) if found else []


def bare(comment):
    return re.sub(r" ?\(docs/RULES\.md[^)]*\)", "", comment)


def homes(crate, stem, text, words):
    """The sections that a file belongs to, the one under which it stands first."""
    return cited(opening(text)) or [words.get(f"{crate}/{stem}") or words.get(crate) or BESIDE]


def files():
    """Each file of definitions: its crate, its name, its text, and how its names and comments are written."""
    for path in sorted(CRATES.glob("*/specs/*.antt")):
        if path.stem != "Lib":
            yield path.parent.parent.name, path.stem, path.read_text(), DEFINED, "-- "
    for path in sorted(CRATES.glob("spec_*/src/lib.rt")):
        yield path.parent.parent.name, "src/lib.rt", path.read_text(), DECLARED, "/// "


def names(text, pattern, mark):
    """Each name with the comment above it."""
    comment = []
    for line in text.splitlines():
        found = pattern.match(line)
        if found:
            yield found[1], " ".join(comment)
        if line.startswith(mark):
            comment.append(line[len(mark) :])
        elif not line.startswith("#["):
            comment = []


def wrapped(text, later=""):
    return textwrap.fill(text, 140, subsequent_indent=later, break_long_words=False, break_on_hyphens=False)


def item(text):
    return wrapped(f"- {text}", "  ")


def lines_of(file, defined, words):
    """The lines of names, where those without words of their own share the line of the one before."""
    shared = []
    for name, comment in defined:
        said = words.get(f"{file} {name}") or bare(comment)
        if said or not shared:
            shared.append(([name], said))
        else:
            shared[-1][0].append(name)
    for group, said in shared:
        yield item(f"{', '.join(f'`{name}`' for name in group)}{': ' if said else ''}{said}")


def definitions(words):
    """The definitions of each file under the first of its sections, and under each other that they stand there. What a crate declares for
    code too stands under the sections of its own comments."""
    for crate, stem, text, pattern, mark in files():
        first, *others = homes(crate, stem, text, words)
        head, under = f"**{crate}, {stem}.**", {}
        for name, comment in names(text, pattern, mark):
            home = (cited(comment) or [first])[0] if pattern is DECLARED else first
            under.setdefault(home, []).append((name, comment))
        said = "" if pattern is DECLARED else f" {bare(opening(text))}"
        for section, defined in under.items():
            yield section, "\n".join([wrapped(head + said), "", *lines_of(f"{crate}/{stem}", defined, words)])
        for other in others if under else []:
            yield other, f'{head} Stands under "{first}".'


def promised():
    """Each promise of docs/PROMISES.md with the laws that it names, and with the crate that it names for them, if it does."""
    for row in (TOP / "docs/PROMISES.md").read_text().splitlines():
        promise, _, carried = row.strip("| ").partition(" | ")
        for part in carried.split("; "):
            for many in re.findall(r"\blaws? " + NAMED, part):
                of = re.search(r"`(sp(?:ec)?_\w+)", part)
                yield promise, re.findall(r"`([^`]+)`", many), of and of[1]


def laws(words):
    """Each promise with its laws, under the section of the file that has them."""
    places = {}
    for path in sorted(CRATES.glob("*/proofs/**/*.antt")):
        crate, text = path.relative_to(CRATES).parts[0], path.read_text()
        for name in PROVED.findall(text):
            places.setdefault(name, []).append((crate, path.stem, homes(crate, path.stem, text, words)[0]))
    for promise, named, of in promised():
        found = {}
        for law in named:
            here = [place for place in places.get(law, []) if of in (None, place[0])]
            if not here:
                raise LookupError(f"docs/PROMISES.md names the law {law}, which no proof{f' of {of}' if of else ''} has")
            for place in here:
                found.setdefault(place, []).append(law)
        for (crate, stem, home), there in found.items():
            yield home, item(f"{promise} {', '.join(f'`{law}`' for law in there)} of {crate}, {stem}.")


def computed(words):
    """The files of rows that are computed from the definitions."""
    for path in sorted(CRATES.glob("spec_*/proofs/*Rows.antt")):
        text = path.read_text()
        said = bare(opening(text))
        if path.stem == "Rows" or re.match(r"Telling |Rows of ", said) or "computed" in said:
            crate = path.parent.parent.name
            yield homes(crate, path.stem, text, words)[0], item(f"{crate}, {path.stem}: {said}")


def index():
    words = told()
    page = {section: [] for section in sections() + [BESIDE]}
    for section, text in definitions(words):
        page[section].append(text)
    for head, listed in (("Laws", laws(words)), ("Rows, computed", computed(words))):
        under = {}
        for section, line in listed:
            under.setdefault(section, []).append(line)
        for section, lines in under.items():
            page[section].append("\n".join([f"**{head}.**", "", *dict.fromkeys(lines)]))
    return "\n\n".join([HEAD, *(part for section, texts in page.items() for part in (f"## {section}", *texts))]) + "\n"


def empty_sections(text):
    """The sections of docs/RULES.md under which no definition stands."""
    for part in re.split(r"^## ", text, flags=re.M)[1:]:
        if "\n**s" not in part:
            yield part.split("\n", 1)[0]


def strangers(text):
    """What checks/index.txt tells of files and definitions that the sources or the index lack."""
    for key in told():
        place, _, name = key.partition(" ")
        crate, _, stem = place.partition("/")
        there = any((CRATES / crate / folder / f"{stem}.antt").exists() for folder in ("specs", "proofs"))
        if not (CRATES / crate).is_dir() or stem and not there or name and f"`{name}`" not in text:
            yield key


if __name__ == "__main__":
    sys.stdout.write(index())

"""Checks of the repository that no proof makes: the one line of HANDLES, the sizes of files, the sections that comments
cite, the names of definitions, calls, clauses, checks and edits that the documents cite, that docs/INDEX.md is the index of the sources,
that the searches of docs/MAP.md find what it names, that crates have edits that must fail, that none lists a crate that its files don't
name, that no call counts by steps of its own, and that each file of cases is run."""

import pathlib
import re
import subprocess
import sys

from index import empty_sections, index, strangers
from report import tell

TOP = pathlib.Path(__file__).resolve().parent.parent
CRATES = TOP / "crates"
MOST_LINES = 800
# How many edits that must fail a crate of the program has at least; not those that are tests alone.
LEAST_EDITS = 3
NO_EDITS = ("sp_case", "sp_cases")
# The calls that make steps; all others count what they read and fill by those of their caller.
COUNTING = ("fountain_cli/src/main.rt", "sp_case/src/ran.rt")


def sources(*endings, below=CRATES):
    for path in sorted(below.rglob("*")):
        if path.suffix in endings and "out" not in path.relative_to(CRATES).parts:
            yield path


def handles():
    if (TOP / "HANDLES").read_text() != "Handles allowed: none.\n":
        yield "HANDLES is not its one line"


def sizes():
    for path in sources(".rt"):
        count = len(path.read_text().splitlines())
        if count > MOST_LINES:
            yield f"{path.relative_to(TOP)} has {count} lines"


def sections():
    headings = set(re.findall(r"^## (.+)$", (TOP / "docs/RULES.md").read_text(), re.M))
    for path in sources(".rt", ".antt"):
        text = re.sub(r"\n\s*(///|//!|//|--)\s*", " ", path.read_text())
        for cited in re.findall(r"docs/RULES\.md, ((?:\"[^\"]+\"(?:, | and )?)+)", text):
            for name in re.findall(r"\"([^\"]+)\"", cited):
                if name not in headings:
                    yield f"{path.relative_to(TOP)} cites the section \"{name}\", which docs/RULES.md lacks"


def names():
    checks = sorted((TOP / "checks").glob("*.py"))
    written = " ".join(path.read_text() for path in sources(".rt", ".antt"))
    known = set(re.findall(r"[A-Za-z_][A-Za-z0-9_'-]*", written)) | {path.name for path in CRATES.iterdir()}
    known |= {name for path in checks for name in re.findall(r"^def (\w+)", path.read_text(), re.M)}
    for document in ("RULES.md", "MAP.md", "PROMISES.md"):
        text = re.sub(r"```.*?```", "", (TOP / "docs" / document).read_text(), flags=re.S)
        for cited in re.findall(r"`([a-z][a-z_]+[a-z](?:::[A-Za-z_]+)*)`", text):
            if not all(part in known for part in cited.split("::")):
                yield f"docs/{document} cites `{cited}`, which no source has"


def indexed():
    """docs/INDEX.md is what checks/index.py makes; each section of docs/RULES.md has a definition, or a file, there."""
    try:
        text = index()
    except LookupError as fault:
        yield fault.args[0]
        return
    if (TOP / "docs/INDEX.md").read_text() != text:
        yield "docs/INDEX.md isn't what checks/index.py makes"
    for section in empty_sections(text):
        yield f"no definition stands under \"{section}\" in docs/INDEX.md"
    for key in strangers(text):
        yield f"checks/index.txt tells of {key}, which no source has"


def searches():
    """Each file that a list under "To add something" of docs/MAP.md names is found by the search above that list."""
    _, _, text = (TOP / "docs/MAP.md").read_text().partition("\n## To add something\n")
    for part in re.split(r"^### ", text.partition("\n## ")[0], flags=re.M)[1:]:
        search, crate = re.search(r"^    (grep .*)$", part, re.M)[1], ""
        found = subprocess.run(["sh", "-c", search], cwd=TOP, capture_output=True, text=True).stdout.split()
        for name in re.findall(r"`(sp(?:ec)?_\w+|(?:src|specs|proofs)/[\w/.]+)`", part):
            if "/" not in name:
                crate = name
            elif f"crates/{crate}/{name}" not in found:
                yield f"docs/MAP.md names {name} of {crate}, which `{search}` doesn't find"


def contracts(crate):
    """The calls of a crate, each with its contract."""
    for path in (CRATES / crate / "src").rglob("*.rt"):
        for found in re.finditer(r"\bfn (\w+).*?(?:\{\n|;\n)", path.read_text(), re.S):
            yield found[1], found[0]


def clauses():
    """In the tables of docs/PROMISES.md each word behind a call is one of its contract, and each behind a type or a crate a call, a clause or
    a definition of the crate's contracts, but for those behind `with`."""
    for crate, call, words in re.findall(r"`(sp_\w+)((?:::\w+)*)`: ([^;|]*)", (TOP / "docs/PROMISES.md").read_text()):
        name = call.split("::")[-1]
        is_call = name[:1].islower()
        word_of = r"\b(\w+)" if is_call else r"(?:\bfn |\bensures |\b(?=[A-Z]))(\w+)"
        known = {word for of, text in contracts(crate) if of == name or not is_call for word in re.findall(word_of, text)}
        for word in re.findall(r"`(\w+)`", re.sub(r"\blaws? .*| with .*?(?=, `|$)", "", words)):
            if word not in known:
                yield f"docs/PROMISES.md cites {word} of {crate}{call}, whose contract hasn't it"


def dependencies():
    """Each crate names in crates.txt those that its files name, and no others, and stands behind them."""
    lines = [line.split("#")[0].partition(":") for line in (TOP / "crates.txt").read_text().splitlines()]
    above = {crate for crate, colon, _ in lines if colon}
    for crate, _, named in lines:
        above.discard(crate)
        for name in above.intersection(named.split()):
            yield f"crates.txt has {crate} before {name}, which it stands on"
        written = " ".join(path.read_text() for path in sources(".rt", ".antt", below=CRATES / crate)) if named else ""
        known = {name for found in re.finditer(r"\bRattle\.(\w+)\.|\b(\w+)::", written) for name in found.groups()}
        for name in named.split():
            if name not in known:
                yield f"crates.txt says that {crate} stands on {name}, which none of its files names"


def edits():
    for line in (TOP / "crates.txt").read_text().splitlines():
        name = line.split(":")[0]
        if not name.startswith("sp_") or name in NO_EDITS:
            continue
        count = len(list((CRATES / name / "must-fail").glob("*.edit")))
        if count < LEAST_EDITS:
            yield f"{name} has {count} edits that must fail"
    for name in re.findall(r"`(\w+/\w+)`", (TOP / "docs/PROMISES.md").read_text()):
        crate, edit = name.split("/")
        if not (CRATES / crate / "must-fail" / f"{edit}.edit").exists():
            yield f"docs/PROMISES.md cites {name}, which is no edit that must fail"


def counters():
    for path in sources(".rt"):
        if "Counter::new(" in path.read_text() and str(path.relative_to(CRATES)) not in COUNTING:
            yield f"{path.relative_to(TOP)} counts by steps of its own"


def cases():
    named = set((CRATES / "sp_cases/args").read_text().split())
    for path in (CRATES / "sp_cases/data").iterdir():
        if path.stem not in named:
            yield f"{path.relative_to(TOP)} is run by no word of crates/sp_cases/args"


def main():
    checks = [handles, sizes, sections, names, indexed, searches, clauses, dependencies, edits, counters, cases]
    return tell("checks", f"{len(checks)} checks", [fault for check in checks for fault in check()])


if __name__ == "__main__":
    sys.exit(main())

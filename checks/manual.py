"""Compares the manual page and the completions with docs/RULES.md: forms, exit statuses, commands and limits; and the pages of the scripts
with the usage that these tell. It has man and mandoc read the pages, where they are installed."""

import pathlib
import re
import subprocess
import sys

from report import tell
from tools import lacks

TOP = pathlib.Path(__file__).resolve().parent.parent
PAGE = TOP / "docs/fountain.1"
# Where the completions for each shell have the words of the forms.
COMPLETED = {"fountain.bash": r'-eq 1 \]; then\n +words="(.*)"', "_fountain": r"^    '(\w+):", "fountain.fish": r"__fish_use_subcommand -a (\w+)"}
# How each reader of the page is called.
READERS = {"mandoc": ["-T", "lint", "-W", "style"], "man": ["--warnings", "-E", "UTF-8", "-Tutf8", "-Z", "-l"]}


def part(text, heading, mark):
    return re.search(rf"^{re.escape(mark)} \"?{re.escape(heading)}\"?\n(.*?)(?=^{re.escape(mark)} |\Z)", text, re.M | re.S)[1]


def plain(text):
    """A line of the page without fonts."""
    text = re.sub(r"^\.[BIR]+ |\\f.", "", text)
    return " ".join(text.replace('"', "").split())


def differences(what, rules, page):
    for it in rules:
        if it not in page:
            yield f"docs/fountain.1 lacks {what} {it}"
    for it in page:
        if it not in rules:
            yield f"docs/fountain.1 has {what} {it}, which docs/RULES.md lacks"


def told(words):
    """What a reader says of the page, on standard error or, where it is a lint, on standard output."""
    said = subprocess.run(words, capture_output=True, text=True)
    return (said.stdout if "lint" in words else said.stderr).splitlines()


def usages(page):
    """The forms of a page, as a script tells them."""
    lines = [plain(line.replace("\\-", "-")) for line in part(page, "SYNOPSIS", ".SH").splitlines()]
    return [" ".join(form.split()).replace("[ ", "[").replace(" ]", "]").replace("= ", "=") for form in "\n".join(lines).split(".br")]


def script_faults():
    for script in sorted((TOP / "scripts").glob("fountain-*")):
        path = TOP / "docs" / f"{script.name}.1"
        if not path.exists():
            if script.name not in PAGE.read_text().replace("\\-", "-"):
                yield f"{script.name} has no page, and docs/fountain.1 doesn't tell of it"
            continue
        page, told = path.read_text(), subprocess.run([script, "--help"], capture_output=True, text=True).stdout
        yield from differences_of(script.name, " ".join(re.split(": |\n\n", told)[0].split()).split(", or "), usages(page))
        for option in set(re.findall(r"--[a-z0-9-]+", told)):
            if option not in page.replace("\\-", "-"):
                yield f"docs/{path.name} lacks {option}"


def differences_of(name, told, forms):
    if told != forms:
        yield f"docs/{name}.1 has the forms {forms}, and {name} tells {told}"


def faults():
    rules, page = (TOP / "docs/RULES.md").read_text(), PAGE.read_text()
    forms = re.search(r"fountain: usage: (.*?)`", rules)[1].split(", ")
    synopsis = re.sub(r"\n\.R?I", "", part(page, "SYNOPSIS", ".SH")).replace("[ FILE ]", "[FILE]").split(".br")
    synopsis = [" ".join(it.split()).removeprefix(".B fountain ") for it in synopsis]
    yield from differences("the form", forms, synopsis)
    heads = [plain(it) for it in re.findall(r"^\.TP\n(.*)", part(page, "COMMANDS", ".SH"), re.M)]
    yield from differences("a paragraph on", forms, heads)
    for name, words in COMPLETED.items():
        completed = " ".join(re.findall(words, (TOP / "completions" / name).read_text(), re.M)).split()
        if completed != [it.split()[0] for it in forms]:
            yield f"completions/{name} completes {completed}"
    statuses = re.findall(r"^\| \w+ \| (\d+) \|", part(rules, "Fault lines", "##"), re.M)
    yield from differences("the exit status", statuses, re.findall(r"^\.TP\n\.B (\d+)", part(page, "EXIT STATUS", ".SH"), re.M))
    table = part(rules, "Commands", "##").split("Definitions of")[0]
    named = re.findall(r"^\| (`[a-z_`, ]+`) \|", table, re.M)
    commands = [it for it in re.findall(r"`([a-z_]+)`", " ".join(named)) if it != "do"]
    desk = re.search(r"The commands are\n(.*?)A refused", page, re.S)[1]
    yield from differences("the command", commands, re.findall(r"^\.BR? ([a-z_]+)", desk, re.M))
    limits = re.findall(r"^\| (.*?) \| (.*?) \|", part(rules, "Limits", "##"), re.M)
    for row in re.findall(r"^(.*)\t(.*)$", part(page, "LIMITS", ".SH"), re.M):
        if row not in limits:
            yield f"docs/fountain.1 has the limit {row}, which docs/RULES.md lacks"
    for reader, words in READERS.items():
        for path in () if lacks("manual", f"{reader} doesn't read the pages", reader) else sorted((TOP / "docs").glob("*.1")):
            yield from (f"{reader}: {it}" for it in told([reader, *words, path]))
    yield from script_faults()
    yield from status_faults()


def status_faults():
    """The statuses of a script's page, and the one of words that are wrong, which has to be among them."""
    for script in sorted((TOP / "scripts").glob("fountain-*")):
        page = TOP / "docs" / f"{script.name}.1"
        if page.exists():
            statuses = re.findall(r"^\.TP\n\.B (\d+)", part(page.read_text(), "EXIT STATUS", ".SH"), re.M)
            ran = subprocess.run([script, "--no-such-option"], capture_output=True, text=True)
            if str(ran.returncode) not in statuses or ran.stderr.count("\n") != 1 or not ran.stderr.startswith(f"{script.name}: "):
                yield f"{script.name} with a wrong option ends with {ran.returncode} and tells {ran.stderr!r}"


def main():
    return tell("manual", "forms, statuses, commands and limits", list(faults()))


if __name__ == "__main__":
    sys.exit(main())

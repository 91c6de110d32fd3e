"""Tells what the tables of docs/RULES.md name and no case of crates/sp_cases/data meets: that a command is accepted, on a desk and in a
room, each of its refusals and each of its fields; each status of each form; each line on standard error. What a case meets is read from the
lines that it is written in (crates/sp_case/src/lines.rt). A refusal or a status that a case asks for and no table names is told too."""

import collections
import itertools
import json
import pathlib
import re
import sys

from report import tell

TOP = pathlib.Path(__file__).resolve().parent.parent
DATA = TOP / "crates/sp_cases/data"
SESSIONS = ("desk FILE", "room FILE")
# Why a line is no command at all.
UNREAD = ("BadJson", "UnknownCommand")
# How every form may end.
ALWAYS = ("Done", "WriteFault")
# What no case meets, since none lacks memory or has files so long: `little_memory` and `long_files` of checks/hostile.py do.
ELSEWHERE = ("exit status 9: fountain: no memory", "collate OLD NEW ends with BadText")
# What comes for two reasons, and so has two cases at least: too many lines or bytes, and records of either kind.
TWICE = (
    "desk FILE: replace is refused TextFull",
    "desk FILE: lock_pages is refused RecordsFull",
    "desk FILE: next_round is refused RecordsFull",
)
# What letters of a line on standard error stand for; and the numbers of files for F, each of which has to be told, as each rule for K.
LETTERS = {"P": r"\d+", "S": r"\d+", "NAME": ".+", "A": "[0-9a-f]{64}", "B": "[0-9a-f]{64}"}
FILES = "01"


def named(cell):
    return re.findall("`([^`]+)`", cell)


def acceptance(form, command):
    return f"{form}: {command} is accepted"


def refusal(form, command, name, field=""):
    return f"{form}: {command} is refused {name}{' of ' if field else ''}{field}"


def ending(form, status):
    return f"{form} ends with {status}"


def line(code, text):
    return f"exit status {code}: {text}"


class Rules:
    """The tables of docs/RULES.md."""

    def __init__(self, text):
        self.sections = dict(part.split("\n", 1) for part in re.split("^## ", text, flags=re.M)[1:])
        self.names = {name for cell, *_ in self.table("Replies", "name") for name in cell.split(", ")}
        self.statuses = {code: status for status, code, _ in self.table("Fault lines", "status")}
        self.forms = {form: re.findall(r"[A-Z]\w+", told) for forms, told in self.table("Fault lines", "form") for form in named(forms)}
        self.fields = {command: named(fields) for commands, fields, _ in self.table("Commands", "`do`") for command in named(commands)}

    def table(self, section, head):
        """The rows of the table of a section whose heads begin so."""
        found = re.search(rf"^\| {re.escape(head)} \|.*\n\|[-|]+\|\n((?:\|.*(?:\n|\Z))+)", self.sections[section], re.M)
        return [[cell.strip() for cell in row[1:-1].split("|")] for row in found[1].splitlines()]

    def refused(self, section):
        """Each command of a table of refusals with each name behind it. A row without commands goes on with those above."""
        above = []
        for commands, told in self.table(section, "command | refusals, in order"):
            above = named(commands) or above if commands != "any other" else []
            yield from itertools.product(above, re.findall(r"\b[A-Z]\w+", re.sub(r"\(.*?\)", "", told)))

    def replies(self):
        desk, room = list(self.refused("The desk")), list(self.refused("The room"))
        for form in SESSIONS:
            for command, name in desk + (room if form == "room FILE" else []):
                yield refusal(form, command, name)
            for command, fields in self.fields.items():
                yield acceptance(form, command)
                yield from (refusal(form, command, "BadField", field) for field in fields)
            yield from (refusal(form, "a line", name) for name in UNREAD)
        for field, commands, _ in self.table("The room", "field"):
            for command in named(commands) or self.fields:
                yield refusal("room FILE", command, "BadField", field.strip("`"))

    def strangers(self):
        """The names that the table of replies has alone, or another table alone."""
        told = {name for section in ("The desk", "The room") for _, name in self.refused(section)}
        return self.names ^ {*told, *UNREAD, "BadField"}

    def lines(self):
        """The lines on standard error, F and K by their numbers."""
        rules = "".join(re.findall(r"^(\d)\. ", self.sections["Record file"], re.M))
        for _, code, lines in self.table("Fault lines", "status"):
            for text in named(lines):
                parts = [{"F": FILES, "K": rules}.get(part, [part]) for part in re.split(r"\b", text)]
                yield from (line(code, "".join(choice)) for choice in itertools.product(*parts))

    def endings(self):
        yield ending("words of no form", "Usage")
        for form, statuses in self.forms.items():
            yield from (ending(form, status) for status in [*ALWAYS, *statuses])


class Case:
    def __init__(self, text):
        text = re.sub(r"\\u\{([0-9a-fA-F]+)\}", lambda found: chr(int(found[1], 16)), text)
        self.lines = []
        for written in text.split("\n"):
            count, kind, rest = re.fullmatch(r"(?:(\d+)\*)?(.?)(.*)", written, re.S).groups()
            self.lines.append((int(count or 1), kind, rest))

    def all_of(self, kinds):
        return [it for it in self.lines if it[1] and it[1] in kinds]

    def first_of(self, kind):
        return next((rest for _, _, rest in self.all_of(kind)), None)

    def bytes_of(self, kinds):
        return b"".join(bytes_of(kind, rest) * count for count, kind, rest in self.all_of(kinds))

    def form(self, rules):
        words = "print" if self.first_of("$") is None else self.first_of("$")
        alike = [it for it in rules.forms if it.split(" ")[0] == words.split(" ")[0] and it.count(" ") == words.count(" ")]
        return alike[0] if alike else "words of no form"

    def pairs(self):
        """The command lines, each with its reply, but each pair once."""
        commands = self.bytes_of(">)\"" if self.all_of(">)\"") else "|(^")
        replies = self.bytes_of("<+").splitlines()
        return set(zip(commands.split(b"\n"), replies))

    def replies(self, form):
        for command, reply in self.pairs() if form in SESSIONS else ():
            told = json.loads(reply)
            if told.get("no") in UNREAD:
                yield refusal(form, "a line", told["no"])
            elif "no" in told:
                yield refusal(form, json.loads(command)["do"], told["no"], told.get("field", ""))
            else:
                yield acceptance(form, json.loads(command)["do"])

    def statuses(self, form):
        """Each form that the case runs with each status that it asks for, and what the line is then."""
        code, _, text = (self.first_of("?") or "0").partition(" ")
        yield form, code, text
        for _, _, rest in self.all_of("*"):
            _, code, least = rest.split(" ")
            if int(least):
                yield form, code, ""
        for _, _, rest in self.all_of("/"):
            yield "print FILE", *rest.split(" ", 1)


def bytes_of(kind, rest):
    """The bytes that a line of a command or of a reply stands for."""
    if kind in "^\"+":
        return rest.encode("utf-8" if kind == "+" else "latin-1", "replace")
    count, text = re.fullmatch(r"(?:(\d+)\*)?(.*)", rest, re.S).groups() if kind in "()" else (1, rest)
    return text.encode() * int(count or 1) + b"\n"


def cases():
    for path in sorted(DATA.iterdir()):
        for text in path.read_text().split("\n\n"):
            case = Case(text)
            # A packet's case compares no status, and of the replies the last alone.
            if case.first_of(".") is None:
                yield case


def met_by(case, rules, lines):
    form = case.form(rules)
    yield from case.replies(form)
    for of, code, text in case.statuses(form):
        status = rules.statuses.get(code, code)
        yield ending("words of no form" if status == "Usage" else of, status)
        for told, pattern in lines if text else ():
            if pattern.fullmatch(line(code, text)):
                yield told


def pattern_of(told):
    return re.compile("".join(LETTERS.get(part, re.escape(part)) for part in re.split(r"\b", told)))


def main():
    rules = Rules((TOP / "docs/RULES.md").read_text())
    lines = [(told, pattern_of(told)) for told in rules.lines()]
    asked = {*rules.replies(), *(told for told, _ in lines), *rules.endings()}
    met = collections.Counter(it for case in cases() for it in set(met_by(case, rules, lines)))
    faults = [f"docs/RULES.md has {name} in one table of refusals alone" for name in sorted(rules.strangers())]
    faults += [f"no case meets this: {it}" for it in sorted(asked - {*met, *ELSEWHERE})]
    faults += [f"a single case meets this, which comes for two reasons: {it}" for it in TWICE if met[it] == 1]
    faults += [f"a case meets what docs/RULES.md doesn't name: {it}" for it in sorted({*met} - asked)]
    faults += [f"a case meets this, which is said to be met elsewhere: {it}" for it in ELSEWHERE if it in met]
    return tell("refusals", f"{len(asked)} replies, statuses and lines on standard error", faults)


if __name__ == "__main__":
    sys.exit(main())

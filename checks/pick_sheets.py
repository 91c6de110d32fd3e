"""Picks sheets of random scripts by scripts/fountain-pick-sheets, before and after locks and rounds: by label and from one to another, and by
scene and name, where each row of a scene and of a speech has a word of its own, by which its sheets are found in what is printed."""

import json
import os
import pathlib
import random
import re
import shutil
import subprocess
import sys
import time

from program import LOCKS, PROGRAM, SAVE, TOP, lines_of, output_of, sheets_of
from report import faults_by, tell

PICKER = TOP / "scripts/fountain-pick-sheets"
RUNS = 8
NAMES = ("ANNA", "BERT", "@McKay", "THE MILLER'S WIFE")
# What a script of 200,000 lines may take, on a machine that does other work too.
SECONDS = 60


class Script:
    """A script of paragraphs, each with its scene, who speaks in it, and its word, of which each of its rows consists."""

    def __init__(self, rng):
        self.rng, self.paragraphs, self.words = rng, [], 0
        for _ in range(rng.randrange(3, 9)):
            self.paragraphs += self.scene()

    def word(self):
        self.words += 1
        return f"w{self.words}w"

    def text(self, word):
        return " ".join([word] * self.rng.choice((1, 3, 12, 90)))

    def scene(self):
        number = self.word()
        paragraphs = [(number, None, number, [f"INT. {number}"])]
        for _ in range(self.rng.randrange(14)):
            paragraphs += self.paragraph(number)
        return paragraphs

    def paragraph(self, scene):
        name, word = self.rng.choice(NAMES), self.word()
        kind = self.rng.random()
        if kind < 0.1:
            return [(scene, None, None, ["==="])]
        if kind < 0.2:
            return [(scene, None, None, ["= A synopsis."]), (scene, None, None, ["/* left", "", "out */"])]
        if kind < 0.5:
            return [(scene, None, word, [f"!{self.text(word)}" for _ in range(self.rng.randrange(1, 4))])]
        said = [f"{self.text(word)}." for _ in range(self.rng.randrange(1, 5))]
        speech = (scene, name, word, [f"{name}{self.rng.choice(('', ' (O.S.)'))}", f"({word})", *said])
        if kind < 0.9:
            return [speech]
        name, word = self.rng.choice(NAMES), self.word()
        return [speech, (scene, name, word, [f"{name} ^", f"{self.text(word)}."])]

    def lines(self):
        return [line for *_, lines in self.paragraphs for line in [*lines, ""]]

    def edit(self):
        """A paragraph or a scene more, or some paragraphs less, as a command."""
        at = self.rng.randrange(1, len(self.paragraphs))
        line = sum(len(lines) + 1 for *_, lines in self.paragraphs[:at])
        gone = self.paragraphs[at : at + self.rng.choice((0, 0, 1, 8))]
        new = []
        if not gone:
            new = self.scene() if self.rng.random() < 0.3 else self.paragraph(self.paragraphs[at - 1][0])
        self.paragraphs[at : at + len(gone)] = new
        # What stands behind a heading belongs to its scene.
        scene, count = None, sum(len(lines) + 1 for *_, lines in gone)
        for place, (_, name, word, lines) in enumerate(self.paragraphs):
            scene = word if lines[0].startswith("INT. ") else scene
            self.paragraphs[place] = scene, name, word, lines
        return {"do": "replace", "first": line, "count": count, "lines": [line for *_, lines in new for line in [*lines, ""]]}


def printed(script):
    return [f"{sheet}\f" for sheet in sheets_of(script)]


def pick(*words, given=None):
    ran = subprocess.run([PICKER, *words], capture_output=True, input=given)
    return ran.returncode, ran.stdout.decode(), ran.stderr.decode()


def label_of(sheet):
    return sheet.split("\n")[0].split(" ")[-1].removesuffix(".")


def showing(sheets, words):
    """The places of the sheets with one of these words."""
    words = set(words) - {None}
    return [at for at, sheet in enumerate(sheets) if words & set(re.findall(r"w\d+w", sheet))]


def number_of(heading, sheets, script):
    """The number that stands before a heading, or its place among the headings."""
    for sheet in sheets:
        found = re.search(rf"^ {{7}}([^ ]+) +INT\. {heading}\b", sheet, re.M)
        if found:
            return found[1]
    headings = [word for *_, word, lines in script.paragraphs if lines[0].startswith("INT. ")]
    return str(headings.index(heading) + 1)


def by_scene_and_name(script, file):
    sheets = printed(file)
    headings = list(dict.fromkeys(scene for scene, *_ in script.paragraphs))
    for heading, behind in zip(headings, [*headings[1:], None]):
        shown = showing(sheets, [word for scene, _, word, _ in script.paragraphs if scene == heading])
        # Sheets of omitted pages may stand before that of the next heading.
        end = max(shown[-1] + 1, showing(sheets, [behind])[0] if behind else len(sheets))
        number = number_of(heading, sheets, script)
        if pick(file, "--scene", number) != (0, "".join(sheets[shown[0] : end]), ""):
            yield f"scene {number} isn't on {[label_of(sheet) for sheet in sheets[shown[0] : end]]}"
    for name in NAMES:
        shown = showing(sheets, [word for _, who, word, _ in script.paragraphs if who == name])
        status, text, _ = pick(file, f"--name={name.removeprefix('@')}")
        if (status, text) != (0 if shown else 1, "".join(sheets[at] for at in shown)):
            yield f"{name} doesn't speak on {[label_of(sheets[at]) for at in shown]}"
    cast = output_of("cast", file)
    for name, *scenes in (part.split("\n") for part in re.split(r"\n(?!\t|$)", cast) if part):
        told = {label for scene in scenes if scene for label in scene.split("\t")[-1].split(", ")}
        begins = {label_of(sheet) for sheet in re.findall(r"[^\f]*\f", pick(file, "--name", name)[1])}
        if not told <= begins:
            yield f"the sheets of {name} in the cast are {sorted(told)}, and {sorted(begins)} are picked"


def by_label(file, rng):
    sheets = printed(file)
    labels = [label_of(sheet) for sheet in sheets]
    for given, words in ((None, [file]), ("".join(sheets).encode(), ["--sheets", "-"])):
        for at in rng.sample(range(len(sheets)), min(6, len(sheets))):
            to = rng.randrange(at, len(sheets))
            first, last = labels[at].split("-")[0], labels[to].split("-")[-1]
            if pick(*words, first.lower(), given=given) != (0, sheets[at], ""):
                yield f"the sheet {first} isn't the one that is printed"
            if pick(*words, f"{first}-{last}", given=given) != (0, "".join(sheets[at : to + 1]), ""):
                yield f"the sheets {first}-{last} aren't those that are printed"
            if pick(*words, labels[at], labels[to], labels[at], given=given) != (0, "".join(sheets[place] for place in sorted({at, to})), ""):
                yield f"the sheets {labels[at]} and {labels[to]} aren't those that are printed"


def random_scripts(folder):
    for seed in range(RUNS):
        rng = random.Random(seed)
        script, file = Script(rng), folder / "script"
        pathlib.Path(f"{file}.desk").unlink(missing_ok=True)
        end = rng.choice(("\n", "\r\n", "\r"))
        file.write_text("\ufeff" * (seed % 2) + "".join(f"{line}{end}" for line in script.lines()), newline="")
        kept = file.read_bytes()
        for fault in [*by_scene_and_name(script, file), *by_label(file, rng)]:
            yield f"script {seed}: {fault}"
        if file.read_bytes() != kept or pathlib.Path(f"{file}.desk").exists():
            yield f"script {seed} is changed"
        commands = [*LOCKS, *(script.edit() for _ in range(4)), LOCKS[2], *(script.edit() for _ in range(4)), SAVE]
        subprocess.run([PROGRAM, "desk", file], input=lines_of(*commands), capture_output=True, check=True)
        kept = file.read_bytes(), pathlib.Path(f"{file}.desk").read_bytes()
        for fault in [*by_scene_and_name(script, file), *by_label(file, rng)]:
            yield f"script {seed}, locked: {fault}"
        if (file.read_bytes(), pathlib.Path(f"{file}.desk").read_bytes()) != kept:
            yield f"script {seed} or its records are changed"


def last_round(folder):
    """The last round has no further one."""
    file = folder / "script"
    shutil.copy(TOP / "examples/the-mill.fountain", file)
    subprocess.run([PROGRAM, "desk", file], input=lines_of(*LOCKS, *[LOCKS[2]] * 98, SAVE), capture_output=True, check=True)
    if json.loads(pathlib.Path(f"{file}.desk").read_bytes())["round"] != 99 or pick(file, "--scene", "2-3") != (0, "".join(printed(file)[1:3]), ""):
        yield "in round 99 scenes 2-3 aren't on sheets 2 and 3"


def omitted(folder):
    """Sheets of omitted pages, and a scene that is gone."""
    file = folder / "script"
    shutil.copy(TOP / "examples/the-mill.fountain", file)
    gone = {"do": "replace", "first": 6, "count": 11, "lines": []}
    subprocess.run([PROGRAM, "desk", file], input=lines_of(*LOCKS, gone, SAVE), capture_output=True, check=True)
    sheets = printed(file)
    if [label_of(sheet) for sheet in sheets] != ["1", "2-3", "4"]:
        yield f"the sheets are {[label_of(sheet) for sheet in sheets]}"
    for word in ("2", "3", "2-3", "2A", "2-2"):
        if pick(file, word) != (0, sheets[1], ""):
            yield f"{word} isn't on the sheet of omitted pages"
    if pick(file, "2-4") != (0, "".join(sheets[1:]), "") or pick(file, "--scene", "1-4") != (0, "".join(sheets), ""):
        yield "2-4, or scenes 1-4, aren't those that are printed"
    if pick(file, "--scene", "1") != (0, "".join(sheets[:2]), ""):
        yield "scene 1 isn't on sheet 1 and that of omitted pages behind it"
    status, text, said = pick(file, "--scene", "2")
    if (status, text) != (1, "") or "omitted" not in said:
        yield f"the scene that is gone ends with {status}: {said}"


def refusals(folder):
    file, titled = folder / "script", folder / "titled"
    shutil.copy(TOP / "examples/the-mill.fountain", file)
    shutil.copy(TOP / "examples/the-lighthouse.fountain", titled)
    sheets = printed(titled)
    if pick(titled, "title", "2") != (0, sheets[0] + sheets[2], ""):
        yield "the title sheet and sheet 2 aren't picked"
    (folder / "latin").write_bytes(b"caf\xe9\n")
    (folder / "long").write_text("a\n\n" + "b" * 5000)
    digits = "9" * 5000
    for words, why in (
        ([folder / "long", "1"], "long: line 3 is too long"), ([folder, "1"], f"{folder}: a file failed"),
        (["caf\udce9", "1"], "isn't UTF-8"), ([file, digits], "no label"), ([file, f"1({digits})"], "no label"),
        ([file, "4000000001"], "no label"), ([file, "1(16777217)"], "no label"),
        ([file, "4000000000(16777216)"], "no sheet 4000000000(16777216)"), ([file, "--scene", digits], "no scene"),
        ([], "usage"), ([file], "usage"), ([file, "--scene"], "--scene"), (["--what", file, "1"], "--what"), ([file, "5"], "no sheet 5"),
        ([file, "1", "2A"], "no sheet 2A"), ([file, "3-2"], "sheet 3 comes behind 2"), ([file, "2-9"], "no sheet 9"), ([file, "title"], "no title sheet"),
        ([file, "1-2-3"], "no label"), ([file, "02"], "no label"), ([file, "--scene", "7"], "no scene 7"), ([file, "--scene", "3-2"], "comes behind"),
        ([file, "--name", "ANNA"], "no speech of ANNA"), ([titled, "--name", "Edda"], "no speech of Edda"), (["nobody", "1"], "no file nobody"),
        ([folder / "latin", "1"], "UTF-8"), (["--sheets", file, "1"], "no file of sheets"), (["--sheets", file, "--name", "ANNA"], "want a script"),
    ):
        status, text, said = pick(*words)
        if status not in (1, 2) or text or not said.startswith("fountain-pick-sheets: ") or said.count("\n") != 1 or why not in said:
            yield f"{[str(it) for it in words]} ends with {status}: {said!r}"
    if pick("--help")[0] or not pick("--help")[1].startswith("fountain-pick-sheets SCRIPT WHAT .."):
        yield "--help tells something else"
    with open("/dev/full", "wb") as full:
        ran = subprocess.run([PICKER, file, "1"], stdout=full, stderr=subprocess.PIPE)
    if ran.returncode != 1 or ran.stderr != b"fountain-pick-sheets: writing failed\n":
        yield f"with no room to write it ends with {ran.returncode}: {ran.stderr}"


def pipes(folder):
    """A script that can be read but once, as process substitution gives it; by standard input, and by a name."""
    script = (TOP / "examples/the-mill.fountain").read_bytes()
    (folder / "script").write_bytes(script)
    sheets = printed(folder / "script")
    os.mkfifo(folder / "pipe")
    for word in ("--scene=2", "2"):
        for name in ("-", "/dev/stdin"):
            if pick(name, word, given=script) != (0, sheets[1], ""):
                yield f"{word} of {name} isn't sheet 2: {pick(name, word, given=script)}"
        with subprocess.Popen(["sh", "-c", 'cat "$1" >"$2"', "sh", folder / "script", folder / "pipe"]):
            if (told := pick(folder / "pipe", word)) != (0, sheets[1], ""):
                yield f"{word} of a pipe isn't sheet 2: {told}"


def large(folder):
    """200,000 lines, from a pipe."""
    text = "".join(f"INT. ROOM {number}\n\nANNA\nw{number}w\n\n" for number in range(40_000)).encode()
    begun = time.monotonic()
    status, picked, said = pick("-", "--scene=39999-40000", "--name", "ANNA", "1-2", given=text)
    if status or picked.count("w39999w") != 1 or picked.count("w0w") != 1:
        yield f"a script of 200,000 lines ends with {status}: {said}"
    if time.monotonic() - begun > SECONDS:
        yield f"a script of 200,000 lines takes {time.monotonic() - begun:.0f} s"


def main():
    if not PROGRAM.exists():
        return tell("pick_sheets", "no sheet was picked", ["the program isn't built"])
    faults = faults_by((random_scripts, last_round, omitted, refusals, pipes, large))
    return tell("pick_sheets", f"{RUNS} random scripts, before and after locks", faults[:20])


if __name__ == "__main__":
    sys.exit(main())

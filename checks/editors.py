"""Tries what shows the sheets beside a script:

- the sheet and the row that scripts/fountain-sheet-at tells of lines, against where words that each line has alone stand in what `print`
  writes; without locks, with pages between locked ones, and in the last round;
- Vim and Emacs in a terminal, with the files of examples/editors/: the sheet follows the cursor, keeps its place where the script is saved,
  and makes way for a fault line; and what fountain-check-script tells leads to its line;
- scripts/fountain-watch-sheets in a terminal and beside one, and the tasks of VS Code, whose pattern Node reads;
- what the scripts tell for --help and for words that are none."""

import json
import os
import random
import re
import shlex
import shutil
import subprocess
import sys
import tempfile
import time

from program import LOCKS, PROGRAM, SAVE, SECONDS, TOP, lines_of, scripts_in, sheets_of
from report import faults_by, tell
from tools import lacks

SCRIPTS = 2
ASKED = 10
# The lines of a title page, which no other line is put before.
TITLE = 5
WIDTH, HEIGHT = 170, 70
# What stands beside a script whose records are none.
REFUSED = r"fountain-sheet-at: .*s\.fountain\.desk is no record.*mends that"


def shown(rng, at, form):
    """A line of a form with a word at its begin and one at its end that no other line has, and maybe many between."""
    return form.replace("..", " ".join((f"B{at}", *["wörd"] * rng.choice((0, 0, 3, 200)), f"E{at}")))


def script(rng):
    """The lines of a script, in which each line that a sheet shows has two words of its own, and no other line has one."""
    lines = ["Title:", "   .. ", "Author: ..", "Contact:", ""] if rng.random() < 0.5 else []
    for _ in range(rng.choice((2, 30, 90))):
        speech = ["@..", "..", "(..)", "..", ".."][: rng.randint(2, 5)]
        lines += rng.choice((
            [".S ..", ""], ["!..", "!..", "!..", ""], [*speech, ""], [*speech, "", "@.. ^", "..", "~..", ""], ["> .. TO:", ""], ["~..", ""],
            ["> .. <", "> .. <", ""], ["===", ""], ["# a section", ""], ["= a synopsis", ""], ["[[a note]]", ""], ["", "", ""],
            ["/*", "gone", "", "gone", "*/", ""],
            ["!..", "[[a note]]", "/* gone", "gone */", "!..", ""], ["!*..*", ""], ["!.. *", "!字..字 *", ""],
        ))
    return [shown(rng, at, line) for at, line in enumerate(lines)]


def place_of(sheets, word):
    """The place of the first sheet, and of the row in it, that has a word."""
    for index, sheet in enumerate(sheets):
        for row, text in enumerate(sheet.split("\n")):
            if re.search(rf"{word}(?![\dx])", text):
                return index, row
    return None


def call(folder, *words, **how):
    return subprocess.run([scripts_in(folder) / words[0], *words[1:]], cwd=folder, capture_output=True, text=True, timeout=SECONDS, **how)


def write(folder, lines, *commands):
    """A script as it is after commands, with its records."""
    (folder / "script").write_text("".join(f"{line}\n" for line in lines))
    (folder / "script.desk").unlink(missing_ok=True)
    if commands:
        subprocess.run([PROGRAM, "desk", "script"], cwd=folder, input=lines_of(*commands, SAVE), capture_output=True)
    return (folder / "script").read_text().split("\n")[:-1]


def insertions(rng, lines):
    """Edits that bring pages between locked ones, and long ones within."""
    for at in range(9):
        texts = ["", *(shown(rng, f"{at}x{n}", "!..") for n in range(rng.choice((1, 70)))), ""]
        yield {"do": "replace", "first": rng.randint(min(TITLE, lines), lines), "count": 0, "lines": texts}


def sheet_of_lines(folder):
    for seed in range(SCRIPTS):
        rng = random.Random(seed)
        lines = script(rng)
        edits = tuple(insertions(rng, len(lines)))
        for commands in ((), (*edits,), (*LOCKS, *edits), (*LOCKS, *LOCKS[2:] * 98, *edits)):
            yield from sheets_differ(folder, write(folder, lines, *commands), rng, f"script {seed} behind {len(commands)} commands")


def sheets_differ(folder, lines, rng, title):
    sheets = sheets_of(folder / "script")
    own = [re.search(r"B(\w+)", line) for line in lines]
    places = {at: place for at, word in enumerate(own) if word and (place := place_of(sheets, f"B{word[1]}"))}
    ends = {at: place_of(sheets, f"E{own[at][1]}") for at in places}
    for at in rng.sample(range(len(lines)), min(ASKED, len(lines))):
        above, below = [it for it in ends if it < at], [it for it in places if it > at]
        place = places[at] if at in places else ends[above[-1]] if above else places[below[0]] if below else None
        ran = call(folder, "fountain-sheet-at", "--json", "script", str(at + 1))
        told = json.loads(ran.stdout) if ran.stdout else {}
        if place != (told and (told["index"], told["row"]) or None) or place and told["text"] != sheets[place[0]] + "\f":
            found = told and (told["index"], told["row"])
            yield f"{title}: line {at + 1} of {len(lines)}, {lines[at][:20]!r}, stands at {place}, and it tells {found} {ran.stderr}"


def soon(is_so):
    end = time.monotonic() + SECONDS
    while not (it := is_so()) and time.monotonic() < end:
        time.sleep(0.1)
    return bool(it)


class Terminal:
    """A program in a terminal of tmux, with keys that are pressed and what is seen."""

    def __init__(self, folder, *words, kind="screen"):
        self.tmux = ["tmux", "-S", tempfile.mktemp(prefix="tmux", dir=folder), "-f", "/dev/null"]
        path = f"{folder / 'bin'}:{scripts_in(folder)}:{os.environ['PATH']}"
        environment = {"PATH": path, "LC_ALL": "C.UTF-8", "HOME": str(folder), "TERM": kind}
        command = shlex.join(["env", *(f"{name}={value}" for name, value in environment.items()), *map(str, words)])
        self.call("new-session", "-d", "-x", str(WIDTH), "-y", str(HEIGHT), "-c", str(folder), command)
        if not self.call("list-sessions"):
            raise OSError(f"tmux doesn't begin with {words}")

    def __enter__(self):
        return self

    def __exit__(self, *_):
        self.call("kill-server")

    def call(self, *words):
        return subprocess.run([*self.tmux, *words], capture_output=True, text=True).stdout

    def press(self, *keys):
        for key in keys:
            self.call("send-keys", key)

    def rows(self):
        return self.call("capture-pane", "-p").split("\n")

    def beside(self):
        """What is seen in the right half."""
        return "\n".join(["", *(row[WIDTH // 2 :] for row in self.rows())])

    def sees(self, pattern):
        """Whether a pattern is seen soon."""
        return soon(lambda: re.search(pattern, "\n".join(self.rows()), re.S))

    def sees_beside(self, pattern):
        return soon(lambda: re.search(pattern, self.beside(), re.S))

    def is_gone(self):
        """Whether the program ends soon."""
        return soon(lambda: not self.call("list-sessions"))


def steps(terminal, title, *done):
    """Presses keys, and yields each time that what should be seen beside isn't."""
    for keys, pattern in done:
        terminal.press(*keys)
        if not terminal.sees_beside(pattern):
            yield f"{title}: after {keys} there isn't {pattern} beside but {terminal.beside().strip()[:300]!r}"
            return


def pages(folder):
    """A script with 27 lines `Word N` on each sheet, each behind an empty line, and something that tells of one."""
    (folder / "s.fountain").write_text("".join(f"!Word {at}.\n\n" for at in range(1, 101)))
    check = folder / "bin/fountain-check-script"
    scripts_in(folder)
    check.write_text("#!/bin/sh\necho \"$1:121: a heading came out as action\"\nexit 1\n")
    check.chmod(0o755)


def sheet(number, word):
    """What is seen of a sheet with a word."""
    return rf" {number}\.\n.*Word {word}"


def vim(folder):
    pages(folder)
    (folder / ".vim/plugin").mkdir(parents=True)
    (folder / ".vimrc").touch()
    shutil.copy(TOP / "examples/editors/fountain.vim", folder / ".vim/plugin")
    with Terminal(folder, "vim", "s.fountain") as terminal:
        if not terminal.sees(r"Word 1\."):
            yield "vim doesn't open the script"
        records = folder / "s.fountain.desk"
        yield from steps(
            terminal, "vim",
            ((":w", "Enter"), sheet(1, 1)),
            ((":81", "Enter"), sheet(2, 41)),
            (("A", " Changed.", "Escape", ":w", "Enter"), sheet(2, r"41\. Changed")),
            (("G",), sheet(4, 100)),
            (("1", "0", "G"), sheet(1, 5)),
            ((":silent make", "Enter", "C-l"), sheet(3, 61)),
        )
        yield from steps(
            terminal, "vim",
            ((":81", "Enter", "5000Ax", "Escape", ":w", "Enter"), "fountain-sheet-at: .*s.fountain: line 81 is too long"),
            (("u", ":w", "Enter"), sheet(2, r"41\. Changed")),
            ((":121", "Enter"), sheet(3, 61)),
        )
        records.write_text("{}")
        yield from steps(terminal, "vim", ((":w", "Enter"), REFUSED))
        records.unlink()
        yield from steps(terminal, "vim", ((":w", "Enter"), sheet(3, 61)), ((":tab split", "Enter", ":FountainSheet", "Enter", "G"), sheet(4, 100)))
        terminal.press(":tabclose", "Enter")
        terminal.press(":q", "Enter")
        if not terminal.is_gone():
            yield "vim stays open with the sheet alone"
    with Terminal(folder, "vim", "s.fountain") as terminal:
        if not terminal.sees(r"Word 1\."):
            yield "vim doesn't open the script again"
        terminal.press(":wq", "Enter")
        if not terminal.is_gone():
            yield "vim stays open with the sheet that it opened as it ended"


def emacs(folder):
    pages(folder)
    (folder / ".emacs").write_text(f'(load "{TOP}/examples/editors/fountain.el")\n')
    with Terminal(folder, "emacs", "-nw", "s.fountain") as terminal:
        if not terminal.sees(r"Word 1\."):
            yield "emacs doesn't open the script"
        records = folder / "s.fountain.desk"
        yield from steps(
            terminal, "emacs",
            (("M-x", "fountain-sheet-show", "Enter"), sheet(1, 1)),
            (("M-g", "g", "81", "Enter"), sheet(2, 41)),
            (("C-e", " Changed.", "C-x", "C-s"), sheet(2, r"41\. Changed")),
            (("M->",), sheet(4, 100)),
            (("M-g", "g", "10", "Enter"), sheet(1, 5)),
        )
        terminal.press("M-x", "compile", "Enter", "Enter")
        if not terminal.sees("came out as action.*exited abnormally"):
            yield "emacs doesn't show what fountain-check-script tells"
        yield from steps(
            terminal, "emacs",
            (("M-g", "n"), sheet(3, 61)),
            (("C-u", "5000", "x", "C-x", "C-s"), "fountain-sheet-at: .*s.fountain: line 121 is too long"),
            (("C-/", "C-x", "C-s"), sheet(3, 61)),
        )
        records.write_text("{}")
        yield from steps(terminal, "emacs", (("C-e", "!", "C-x", "C-s"), REFUSED))
        records.unlink()
        yield from steps(terminal, "emacs", (("C-e", "!", "C-x", "C-s"), sheet(3, r"61\.!!")))


def emacs_alone(folder):
    """What Emacs shows without fountain-sheet-at, and how many buffers it keeps of it."""
    (folder / "s.fountain").write_text("Rain.\n")
    code = f"""(progn (load "{TOP}/examples/editors/fountain.el" nil t) (setq exec-path nil) (find-file "s.fountain")
    (fountain-sheet-show) (fountain-sheet-show) (princ (with-current-buffer fountain-sheet-buffer (buffer-string)))
    (princ (length (seq-filter (lambda (it) (string-prefix-p " *fountain" (buffer-name it))) (buffer-list)))))"""
    ran = subprocess.run(["emacs", "--batch", "--eval", code], cwd=folder, capture_output=True, text=True, timeout=SECONDS)
    if ran.stdout != "Searching for program: No such file or directory, fountain-sheet-at0":
        yield f"without fountain-sheet-at emacs shows {ran.stdout!r} {ran.stderr!r}"


def read_to(stream, end):
    """The bytes of a stream up to an end."""
    told = b""
    while not told.endswith(end) and (it := stream.read(1)):
        told += it
    return told


def watching(folder):
    """What is shown in a terminal while a script changes."""
    pages(folder)
    script, records = folder / "s.fountain", folder / "s.fountain.desk"
    text = script.read_text()
    with Terminal(folder, "fountain-watch-sheets", "s.fountain") as terminal:
        for keys, changed, pattern in (
            ((), text, sheet(1, "27") + ".*: sheet 1 of 4"),
            (("n", " "), text, sheet(3, "55") + ".*: sheet 3 of 4"),
            ((), text.replace("Word 41.", "Wörd 41."), r"Word 40\.\n\n *Wörd 41.*: sheet 2 of 4"),
            ((), text.replace("Word 41.", "Wörd 41.") + "[[a note]]\n", "Wörd 41.*: sheet 2 of 4"),
            (("G",), None, sheet(4, "100") + ".*: sheet 4 of 4"),
            ((), text.replace("Word 41.", "W\x00rd 41.\n!A row."), r"Wrd 41.*: sheet 2 of 4"),
            ((), "\udcff", "^\n*s.fountain: not UTF-8 at byte 0\n*$"),
            ((), "a\n" + "b" * 5000, "^\n*s.fountain: line 2 is too long\n*$"),
            ((), text, r"Word 41\.\n.*: sheet 2 of 4"),
            ((), text * 2, r"Word 100\.\n.*: sheet 4 of 8"),
            ((), "", "^\n*s.fountain: no sheet\n*$"),
        ):
            if changed is not None:
                script.write_text(changed, errors="surrogateescape")
            if changed == text and keys:
                terminal.sees("sheet 1")
            terminal.press(*keys)
            if not terminal.sees(pattern):
                yield f"after {keys} and a change there isn't {pattern} but {''.join(terminal.rows())[:300]!r}"
        records.write_text("{}")
        if not terminal.sees("^\n*s.fountain.desk is no record file .rule 2.; fountain-take-in --recover s.fountain mends that\n*$"):
            yield "other records aren't read"
        terminal.press("q")
        if not terminal.is_gone():
            yield "q doesn't end it"
    records.unlink()
    with Terminal(folder, "fountain-watch-sheets", "s.fountain", kind="vt220") as terminal:
        if not terminal.sees("s.fountain: no sheet"):
            yield f"in a terminal without colours there isn't what it shows but {''.join(terminal.rows())[:300]!r}"


def watching_beside(folder):
    """What is written elsewhere than in a terminal while a script changes."""
    pages(folder)
    script = folder / "s.fountain"
    text = script.read_text()
    watch = subprocess.Popen([scripts_in(folder) / "fountain-watch-sheets", "s.fountain"], cwd=folder, stdout=subprocess.PIPE, stderr=subprocess.PIPE)
    sheets = [it.encode() for it in sheets_of(script)]
    told = read_to(watch.stdout, b"\f")
    (folder / "new").write_text(text.replace("Word 61.", "Word 161."))
    (folder / "new").rename(script)
    told += read_to(watch.stdout, b"\f")
    script.unlink()
    fault = read_to(watch.stderr, b"\n")
    watch.terminate()
    status = watch.wait(SECONDS)
    watch.stdout.close()
    watch.stderr.close()
    shown = sheets[0] + b"\f" + sheets[2].replace(b"Word 61", b"Word 161") + b"\f"
    if told != shown or fault != b"fountain-watch-sheets: no file s.fountain\n" or status:
        yield f"beside a terminal it writes {told}, tells {fault} and ends with {status}"


def matched(folder):
    """The problem matcher of VS Code takes what fountain-check-script tells, and its tasks run what there is."""
    tasks = json.loads((TOP / "examples/editors/vscode/tasks.json").read_text())["tasks"]
    pattern = tasks[0]["problemMatcher"]["pattern"]
    told = ("a: b/s.fountain:121: a heading: as action", "s.fountain:0: x", "fountain-check-script: no file s.fountain", "")
    code = "const [pattern, ...told] = process.argv.slice(1); console.log(JSON.stringify(told.map((line) => line.match(new RegExp(pattern)))))"
    ran = subprocess.run(["node", "-e", code, pattern["regexp"], *told], capture_output=True, text=True)
    found, *others = json.loads(ran.stdout or "[null]")
    if not found or [found[pattern[it]] for it in ("file", "line", "message")] != ["a: b/s.fountain", "121", "a heading: as action"] or any(others):
        yield f"the problem matcher takes {ran.stdout} {ran.stderr}"
    for task in tasks[1:]:
        if not (TOP / "scripts" / task["command"]).exists():
            yield f"there is no {task['command']}"


def words(folder):
    for name in ("fountain-sheet-at", "fountain-watch-sheets", "fountain-share-room"):
        ran = call(folder, name, "--help")
        if ran.returncode or not ran.stdout.startswith(f"{name} ") or ran.stderr:
            yield f"{name} --help ends with {ran.returncode} and tells {ran.stdout[:50]!r} {ran.stderr!r}"
        for wrong in ((), ("-x",), ("a", "b", "c", "d")):
            ran = call(folder, name, *wrong)
            if ran.returncode != 2 or ran.stdout or ran.stderr != f"{name}: usage: {usage_of(folder, name)} (--help tells more)\n":
                yield f"{name} {wrong} ends with {ran.returncode} and tells {ran.stdout!r} {ran.stderr!r}"
    (folder / "empty").touch()
    (folder / "long").write_text("a\n\n" + "b" * 5000)
    (folder / "none").touch()
    (folder / "none.desk").write_text("{}")
    for wrong, status, said in (
        (("empty", "1"), 1, "fountain-sheet-at: no sheet shows a line of empty\n"),
        (("nothing", "1"), 3, "fountain-sheet-at: no file nothing\n"),
        (("long", "1"), 4, "fountain-sheet-at: long: line 3 is too long\n"),
        ((".", "1"), 7, "fountain-sheet-at: .: a file failed\n"),
        (("none", "1"), 8, "fountain-sheet-at: none.desk is no record file (rule 2); fountain-take-in --recover none mends that\n"),
        (("caf\udce9", "1"), 2, "fountain-sheet-at: a word isn't UTF-8\n"),
        (("empty", "0"), 2, "fountain-sheet-at: 0 is no line: lines count from 1\n"),
        (("empty", "²"), 2, "fountain-sheet-at: ² is no line: lines count from 1\n"),
        (("empty", "9" * 5000), 1, "fountain-sheet-at: no sheet shows a line of empty\n"),
    ):
        ran = call(folder, "fountain-sheet-at", *wrong)
        if (ran.returncode, ran.stdout, ran.stderr) != (status, "", said):
            yield f"fountain-sheet-at {wrong} ends with {ran.returncode} and tells {ran.stdout!r} {ran.stderr!r}"


def usage_of(folder, name):
    """What a script tells for --help before it says what it does."""
    return call(folder, name, "--help").stdout.split(": ")[0]


# Checks by what they need beside the program.
CHECKS = {
    sheet_of_lines: [],
    vim: ["tmux", "vim"],
    emacs: ["tmux", "emacs"],
    emacs_alone: ["emacs"],
    watching: ["tmux"],
    watching_beside: [],
    matched: ["node"],
    words: [],
}


def main():
    if not PROGRAM.exists():
        return tell("editors", "none was tried", ["the program isn't built"])
    tried = [check for check, tools in CHECKS.items() if not lacks("editors", f"{check.__name__} isn't tried", *tools)]
    return tell("editors", f"{len(tried)} checks", faults_by(tried))


if __name__ == "__main__":
    sys.exit(main())

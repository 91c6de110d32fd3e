"""Installs the program into an empty folder and over an earlier version, runs it from there and removes it; and breaks installing off."""

import filecmp
import os
import pathlib
import random
import shutil
import signal
import subprocess
import sys
import tempfile
import time

from program import PROGRAM, TOP
from report import tell

SCRIPT = TOP / "examples/the-lighthouse.fountain"
PLACES = {
    "bin/fountain", "bin/fountain-hand-out", "bin/fountain-memo", "bin/fountain-take-in", "share/fountain/fountain_desk.py",
    "share/man/man1/fountain.1", "share/man/man1/fountain-take-in.1", "share/bash-completion/completions/fountain",
    "share/bash-completion/completions/fountain-pdf", "share/fish/vendor_completions.d/fountain-pdf.fish", "share/zsh/site-functions/_fountain",
    "share/doc/fountain/changelog", "share/doc/fountain/copyright", "share/doc/fountain/README.md", "share/doc/fountain/docs/GUIDE.md",
    "share/doc/fountain/docs/PROTOCOL.md", "share/doc/fountain/docs/RULES.md", "share/doc/fountain/examples/clients/fountain_client.py",
    "share/doc/fountain/examples/editors/fountain.vim", "share/doc/fountain/examples/editors/vscode/tasks.json",
}
# What an earlier version left, and what is none of its files.
OLD, OTHER = "share/doc/fountain/docs/MAP.md", "share/doc/fountain/docs/other.md"
# How often installing is broken off.
BROKEN_OFF = 12


def call(*words, **how):
    return subprocess.run(words, capture_output=True, text=True, **how)


def below(folder):
    return sorted(str(it.relative_to(folder)) for it in folder.rglob("*"))


def prints(program, folder):
    """Whether a program prints as the built one does, called from another folder."""
    return call(program, "print", SCRIPT, cwd=folder).stdout == call(PROGRAM, "print", SCRIPT).stdout


def hands_out(prefix, folder):
    """Whether the installed scripts find the program, and hand out what the built one prints, called from another folder."""
    script = folder / "script.fountain"
    shutil.copy(TOP / "examples/the-mill.fountain", script)
    ran = call(prefix / "bin/fountain-hand-out", script, cwd=prefix)
    return not ran.returncode and (folder / "script-white.txt").read_text() == call(PROGRAM, "print", script).stdout


def works(prefix, folder):
    """The faults of a program that is installed, and of the scripts over it."""
    if not prints(prefix / "bin/fountain", folder):
        yield f"the program below {prefix} prints something else"
    if not hands_out(prefix, folder):
        yield f"the scripts below {prefix} don't hand out"
    for script in sorted((prefix / "bin").glob("fountain-*")):
        ran = call(script, "--help", cwd=folder)
        if ran.returncode or ran.stderr or script.name not in ran.stdout:
            yield f"{script} --help ends with {ran.returncode} and tells {ran.stderr[-200:]!r}"


def is_refused(ran):
    """Whether a run ended with one line on standard error and a status above 0."""
    return ran.returncode > 0 and ran.stderr.count("\n") == 1 and ran.stderr.endswith("\n") and not ran.stdout


def installing(folder):
    prefix = folder / "a prefix ü"
    prefix.mkdir()
    for time in ("first", "second"):
        ran = call(TOP / "install", prefix)
        if ran.returncode:
            yield f"the {time} ./install ends with {ran.returncode}: {ran.stderr.strip()}"
        if [line for line in ran.stdout.splitlines() if not os.path.isfile(line)]:
            yield f"the {time} ./install tells files that aren't there"
    told = {line.removeprefix(f"{prefix}/") for line in ran.stdout.splitlines()}
    files = {name for name in below(prefix) if (prefix / name).is_file()}
    if told != files or not files.issuperset(PLACES):
        yield f"./install tells {sorted(told)} and leaves {sorted(files)}"
    if not filecmp.cmp(prefix / "bin/fountain", PROGRAM, shallow=False):
        yield "the installed program isn't the built one"
    yield from works(prefix, folder)
    removed = call(TOP / "install", "--remove", prefix)
    if removed.returncode or below(prefix):
        yield f"./install --remove ends with {removed.returncode} and leaves {below(prefix)}"


def refusals(folder):
    (folder / "file").write_text("kept")
    before = below(folder)
    for words in ([folder / "file"], [folder / "file/below"], ["--remove", folder / "file"], ["--other"], ["a", "b"]):
        ran = call(TOP / "install", *words)
        if not is_refused(ran):
            yield f"./install {words} ends with {ran.returncode}: {ran.stderr!r}"
    (folder / "taken/bin/fountain").mkdir(parents=True)
    ran = call(TOP / "install", folder / "taken")
    if not is_refused(ran) or below(folder / "taken") != ["bin", "bin/fountain"]:
        yield f"./install over a folder ends with {ran.returncode} and leaves {below(folder / 'taken')}"
    shutil.rmtree(folder / "taken")
    if below(folder) != before:
        yield f"refused installs leave {below(folder)}"


def put(path, text):
    path.parent.mkdir(parents=True, exist_ok=True)
    path.write_text(text)


def contents(folder):
    return {str(path.relative_to(folder)): path.read_bytes() if path.is_file() else None for path in folder.rglob("*")}


def over_old(folder):
    """Over an earlier version its files go, and those of others stay; removing does the same."""
    for words in ((), ("--remove",)):
        for name in (OLD, OTHER, "bin/fountain"):
            put(folder / name, "old")
        ran = call(TOP / "install", *words, folder)
        if ran.returncode or (folder / OLD).exists() or (folder / OTHER).read_text() != "old":
            yield f"./install {words} over an earlier version ends with {ran.returncode}, {ran.stderr!r}, and leaves {below(folder)}"
    if [name for name in below(folder) if (folder / name).is_file()] != [OTHER]:
        yield f"./install --remove leaves {below(folder)}"


def broken_off(folder):
    """Broken off anywhere, installing leaves all as it was, or all that it installs."""
    rng, prefix, begun = random.Random(12), folder / "it's", time.monotonic()
    call(TOP / "install", prefix)
    seconds, whole = time.monotonic() - begun, contents(prefix)
    shutil.rmtree(prefix)
    for name in (OLD, "bin/fountain", "bin/fountain-pdf"):
        put(prefix / name, "old")
    before = contents(prefix)
    for number in range(BROKEN_OFF):
        ran = subprocess.Popen([TOP / "install", prefix], stdout=subprocess.DEVNULL, stderr=subprocess.DEVNULL, start_new_session=True)
        # At any time, or once the files come to their places.
        while number % 4 and ran.poll() is None and not list(prefix.glob(".fountain.*/put")):
            time.sleep(0.001)
        time.sleep(rng.random() * seconds / (8 if number % 4 else 1))
        os.killpg(ran.pid, (signal.SIGTERM, signal.SIGHUP, signal.SIGINT)[number % 3])
        ran.wait()
        if ran.returncode and contents(prefix) not in (before, whole):
            left = contents(prefix)
            names = sorted(name for name in {*before, *left} if before.get(name) != left.get(name) or (name in before) != (name in left))
            yield f"./install that is broken off ends with {ran.returncode} and changes {names[:5]}"
        if contents(prefix) != before:
            shutil.rmtree(prefix)
            for name in (OLD, "bin/fountain", "bin/fountain-pdf"):
                put(prefix / name, "old")


def main():
    if not PROGRAM.exists():
        return tell("install", "nothing was installed", ["the program isn't built"])
    checks = [installing, refusals, over_old, broken_off]
    faults = []
    for check in checks:
        with tempfile.TemporaryDirectory() as folder:
            faults += list(check(pathlib.Path(folder)))
    return tell("install", f"{len(checks)} ways", faults)


if __name__ == "__main__":
    sys.exit(main())

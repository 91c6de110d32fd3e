"""Makes the Debian package and looks into it: its version and changes, fields, sums, modes and compressed files, the program without
symbols, the copyright of what stands in it, and documents whose names of files lead somewhere. The program and the scripts are run from there,
bash, zsh and fish complete what is typed at them, and lintian looks for errors; what isn't installed is skipped, and that is told."""

import gzip
import hashlib
import os
import pathlib
import pty
import re
import select
import sys
import tempfile
import time

from install import below, call, works
from program import PROGRAM, SECONDS, TOP
from report import tell
from tools import lacks

DOC = "usr/share/doc/fountain"
# What ldd tells of a program that needs the C library alone.
OF_LIBC = {"linux-vdso.so.1", "libc.so.6", "libm.so.6", "/lib64/ld-linux-x86-64.so.2"}
# Names of files in a document, and ways to run things that only the repository has.
NAMED = re.compile(r"(?<![\w/.-])(?:(?:docs|examples|checks|bench|crates|scripts|completions)/[\w./-]*\w|[A-Z]+\.md)")
SHOWN = re.compile(r"\]\((?!https:)(.*?)\)")
IN_REPOSITORY = re.compile(r"\./(?:run|try|check|install|package)\b|<!--")
MARKS = ("<!-- in the repository -->", "<!-- everywhere -->")
# How each shell is started so that it finds the completions of the package alone.
BASH = """. /usr/share/bash-completion/bash_completion 2>/dev/null || for file in "$SHARE"/bash-completion/completions/*; do . "$file"; done"""
SHELLS = {
    "bash": (["--norc", "--noprofile", "-i"], f"bind 'set bell-style none'; {BASH}"),
    "zsh": (["-f", "-i"], "fpath=($SHARE/zsh/vendor-completions $fpath); autoload -U compinit; compinit -u -D; unsetopt beep"),
    "fish": (["-i"], "true"),
}
# Stands for each command, and writes down its words; what completions ask of the program it passes on.
WRITES = """#!/bin/sh
case ${0##*/}/$1/$# in fountain/cast/2 | fountain/outline/2) exec "$PROGRAM" "$@" ;; esac
{ printf '%s\\n' "${0##*/}" "$@"; echo end; } >>"$RECORD"
"""
DRAFT = "# One\n\n= A mill.\n\nINT. MILL - DAY #1#\n\nOLD MAN'S SON\nHere.\n\nEXT. WEIR - DAY #B12#\n\nANNA\nThere.\n"


class Package:
    """The package and what is in it."""

    def __init__(self, folder, deb):
        self.folder, self.deb, self.there = folder, deb, folder / "there ü"
        self.there.mkdir()
        call("dpkg-deb", "-x", deb, self.there)
        self.files = [path for path in self.there.rglob("*") if path.is_file()]

    def field(self, name):
        return call("dpkg-deb", "-f", self.deb, name).stdout.strip()


def versions(package):
    """The newest changes are those of the version that the manual pages have, and of the package; each version is above those before."""
    changes = (TOP / "docs/changelog").read_text()
    told = re.findall(r"^fountain \((.*?)\) ", changes, re.M)
    if [package.field("Version")] != told[:1]:
        yield f"the package has the version {package.field('Version')}, and docs/changelog begins with {told[:1]}"
    numbers = [[int(part) for part in version.split(".")] for version in told]
    if any(above <= other for above, other in zip(numbers, numbers[1:])):
        yield f"the versions {told} of docs/changelog don't rise"
    for path in sorted((TOP / "docs").glob("*.1")):
        version = re.search(r'^\.TH \S+ 1 \S+ "fountain (.*?)"', path.read_text(), re.M)[1]
        if version != told[0]:
            yield f"docs/{path.name} has the version {version}, and docs/changelog begins with {told[0]}"
    if gzip.decompress((package.there / DOC / "changelog.gz").read_bytes()).decode() != changes:
        yield "the package has other changes than docs/changelog"


def fields(package):
    if not re.fullmatch(r"libc6 \(>= [\d.]+\), python3 \(>= [\d.]+\)", package.field("Depends")):
        yield f"the package depends on {package.field('Depends')}"
    libraries = {line.split()[0] for line in call("ldd", package.there / "usr/bin/fountain").stdout.splitlines()}
    if libraries - OF_LIBC:
        yield f"the packaged program needs {sorted(libraries - OF_LIBC)}, which aren't in libc6"
    sizes = sum(path.stat().st_size for path in package.files) // 1024
    if not sizes <= int(package.field("Installed-Size")) <= sizes + 1024:
        yield f"the package takes {package.field('Installed-Size')} KiB, and its files {sizes}"


def sums(package):
    control = package.folder / "control"
    call("dpkg-deb", "-e", package.deb, control)
    told = dict(reversed(line.split("  ", 1)) for line in (control / "md5sums").read_text().splitlines())
    real = {str(path.relative_to(package.there)): hashlib.md5(path.read_bytes()).hexdigest() for path in package.files}
    if told != real:
        yield f"md5sums differ for {sorted(name for name in {*told, *real} if told.get(name) != real.get(name))[:5]}"


def modes(package):
    for line in call("dpkg-deb", "-c", package.deb).stdout.splitlines():
        mode, owner, name = line.split()[0], line.split()[1], line.split()[-1]
        runs = name.startswith(("./usr/bin/", f"./{DOC}/examples/clients/"))
        if owner != "root/root" or mode != ("drwxr-xr-x" if name.endswith("/") else "-rwxr-xr-x" if runs else "-rw-r--r--"):
            yield f"{name} is {mode} of {owner}"
    for path in (package.there / "usr/bin").glob("fountain-*"):
        if not path.read_text().startswith("#!/usr/bin/python3\n"):
            yield f"{path.name} asks for another Python than Debian's"


def compressed(package):
    """By gzip -9n: without a name and a time, and as small as can be."""
    pages = sorted((package.there / "usr/share/man/man1").iterdir())
    if [path.name for path in pages] != sorted(f"{path.name}.gz" for path in (TOP / "docs").glob("*.1")):
        yield f"the package has the manual pages {pages}"
    for path in [*pages, package.there / DOC / "changelog.gz"]:
        head = path.read_bytes()[:9]
        if head[:2] != b"\x1f\x8b" or head[3:] != b"\0\0\0\0\0\2":
            yield f"{path.name} begins with {head.hex()}"


def symbols(package):
    if call("nm", package.there / "usr/bin/fountain").stdout:
        yield "the packaged program has symbols"


def copyright_of(package):
    """The licences of the files are told, and each crate of the toolchain that the program uses."""
    text = (package.there / DOC / "copyright").read_text()
    parts = [dict(re.findall(r"^([A-Z][\w-]*): ?(.*(?:\n .*)*)", part, re.M)) for part in text.split("\n\n")]
    if not parts[0].get("Format", "").startswith("https://www.debian.org/doc/packaging-manuals/copyright-format/1.0/"):
        yield "copyright isn't in Debian's format"
    told = {part["License"].split("\n")[0] for part in parts if "\n" in part.get("License", "")}
    for part in (part for part in parts if "Files" in part):
        if "Copyright" not in part or set(part["License"].split("\n")[0].split(" and ")) - told:
            yield f"copyright doesn't tell of {part['Files']} who has it, or under which terms"
    used = re.search(r"The program uses (.*?) of the toolchain's crates", (TOP / "README.md").read_text(), re.S)[1]
    named = set(re.findall(r"`(\w+)`", used))
    needs = dict(re.findall(r"^(\w+):(.*)", (TOP / "crates.txt").read_text(), re.M))
    listed = {crate for crates in needs.values() for crate in crates.split()} - set(needs)
    for crate in sorted(listed - named):
        if not crate.startswith("ucd_"):
            yield f"README.md doesn't tell of {crate}"
    for crate in sorted(named | listed):
        if not re.search(rf"\b{crate}\b", text):
            yield f"copyright doesn't tell of {crate}"


def documents(package):
    """What the documents name is there, and they tell of nothing that only the repository has."""
    for path in sorted(package.there.rglob("*.md")):
        text, name = path.read_text(), path.relative_to(package.there / DOC)
        for found in sorted({*NAMED.findall(text)}):
            if not (package.there / DOC / found).exists() and not (path.parent / found).exists():
                yield f"{name} as it is installed names {found}, which isn't there"
        for found in SHOWN.findall(text):
            if not (path.parent / found).exists():
                yield f"{name} as it is installed shows {found}, which isn't there"
        for found in IN_REPOSITORY.findall(text):
            yield f"{name} as it is installed has {found}"
        marks = [line for line in (TOP / name).read_text().split("\n") if line in MARKS]
        if marks != [*MARKS] * (len(marks) // 2):
            yield f"{name} opens and closes what only the repository has as {marks}"


def runs(package):
    yield from works(package.there / "usr", package.folder)


def lintian(package):
    if not lacks("package", "nobody looks for errors of the package", "lintian"):
        said = call("lintian", "--allow-root", package.deb, env={**os.environ, "LC_ALL": "C.UTF-8"})
        yield from (line for line in (said.stdout + said.stderr).splitlines() if line.startswith(("E:", "lintian:", "internal error")))


def typed(home):
    """What is typed, and the words that are run then: each word and option of a command without its last letter, and names of files."""
    forms = re.search(r"fountain: usage: (.*?)`", (TOP / "docs/RULES.md").read_text())[1].split(", ")
    for form in forms:
        word = form.split()[0]
        yield f"fountain {word[:-1]}\t", ["fountain", word]
    yield "fountain print dr\t", ["fountain", "print", "draft two.fountain"]
    yield "fountain collate draft\t old\t", ["fountain", "collate", "draft two.fountain", "old"]
    yield "fountain-take-in --base=ol\t x y", ["fountain-take-in", "--base=old", "x", "y"]
    for text, words in (("--name OL\t", ["--name", "OLD MAN'S SON"]), ("--name A\t", ["--name", "ANNA"]), ("--scene B\t", ["--scene", "B12"])):
        yield f"fountain-pick-sheets dr\t {text} x", ["fountain-pick-sheets", "draft two.fountain", *words, "x"]
        yield f"fountain-pick-sheets ~/dr\t {text} x", ["fountain-pick-sheets", f"{home}/draft two.fountain", *words, "x"]
    for script in sorted((TOP / "scripts").glob("fountain-*")):
        yield f"{script.name} dr\t", [script.name, "draft two.fountain"]
        told = call(script, "--help").stdout
        for option in sorted({*re.findall(r"--[a-z0-9-]+=?", told), "--help"}):
            # Behind an option that takes a value in the same word no space is put.
            begin = f"{script.name} {option.rstrip('=')[:-1]}\t"
            yield (f"{begin}x", [script.name, f"{option}x"]) if "=" in option else (f"{begin} x", [script.name, option, "x"])


class Terminal:
    """A shell in a terminal."""

    def __init__(self, words, folder, env):
        self.said = b""
        self.pid, self.place = pty.fork()
        if not self.pid:
            os.chdir(folder)
            os.execvpe(words[0], words, env)

    def type(self, text):
        os.write(self.place, text.encode())

    def wait_for(self, is_done):
        end = time.monotonic() + SECONDS
        while not is_done() and time.monotonic() < end:
            if select.select([self.place], [], [], 0.05)[0]:
                try:
                    self.said += os.read(self.place, 65536)
                except OSError:
                    return

    def close(self):
        os.close(self.place)
        os.waitpid(self.pid, 0)


def completed_by(shell, package):
    """What a shell runs for what is typed, by stand-ins for all commands."""
    words, settle = SHELLS[shell]
    home, record = package.folder / shell, package.folder / f"{shell}.record"
    commands = home / "bin"
    commands.mkdir(parents=True)
    # Without this folder fish makes completions of all manual pages, and goes on behind its end.
    (home / ".local/share/fish/generated_completions").mkdir(parents=True)
    record.write_text("")
    for name in ["fountain", *(path.name for path in (TOP / "scripts").glob("fountain-*")), "settled"]:
        (commands / name).write_text(WRITES)
        (commands / name).chmod(0o755)
    for name in ("draft two.fountain", "old"):
        (home / name).write_text(DRAFT)
    share = package.there / "usr/share"
    env = {"HOME": home, "PATH": f"{commands}:/usr/bin:/bin", "TERM": "dumb", "LC_ALL": "C.UTF-8", "SHARE": share, "XDG_DATA_DIRS": share}
    own = {"RECORD": record, "PROGRAM": PROGRAM}
    terminal = Terminal([shell, *words], home, {name: str(value) for name, value in {**env, **own}.items()})
    runs_of = lambda: record.read_text().split("end\n")[:-1]
    terminal.type(f"{settle}\rsettled\r")
    terminal.wait_for(runs_of)
    for number, (text, expected) in enumerate(typed(home), 2):
        terminal.type(f"{text}\r")
        terminal.wait_for(lambda: len(runs_of()) >= number)
        found = runs_of()[-1].split("\n")[:-1]
        if len(runs_of()) != number or found != expected:
            yield f"{shell} completes {text!r} as {found}: {terminal.said[-300:]!r}"
            break
    terminal.close()


def completions(package):
    for shell in SHELLS:
        if not lacks("package", f"{shell} completes nothing", shell):
            yield from completed_by(shell, package)


def main():
    if not PROGRAM.exists():
        return tell("package", "nothing was packaged", ["the program isn't built"])
    if lacks("package", "no package is made", "dpkg-deb", "strip"):
        return 0
    checks = [versions, fields, sums, modes, compressed, symbols, copyright_of, documents, runs, lintian, completions]
    with tempfile.TemporaryDirectory() as place:
        folder = pathlib.Path(place) / "a folder ü"
        folder.mkdir()
        ran = call(TOP / "package", folder)
        deb = pathlib.Path(ran.stdout.strip())
        if ran.returncode or below(folder) != [deb.name]:
            return tell("package", "nothing was packaged", [f"./package ends with {ran.returncode}, {ran.stderr!r}, and leaves {below(folder)}"])
        package = Package(folder, deb)
        faults = [fault for check in checks for fault in check(package)]
    return tell("package", f"{len(checks)} checks", faults)


if __name__ == "__main__":
    sys.exit(main())

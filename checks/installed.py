"""The scripts over the desk as they stand once installed, with the built program, and a folder with scripts for them. What sheets must be
is told by a layout of its own, of scripts whose scenes have a page each and lines of action alone."""

import hashlib
import json
import os
import pathlib
import resource
import shutil
import signal
import subprocess
import time

from program import PROGRAM, SECONDS, TOP, lines_of

# The most seconds that a script works for 200,000 lines.
MOST_SECONDS = 40
LOCKS = [{"do": "lock_scenes"}, {"do": "lock_pages"}, {"do": "next_round"}, {"do": "save"}]


def text_by_rules(raw):
    """A script as it is written once it was read: cut at its line ends, and then without what no page shows."""
    text = raw.decode().replace("\r\n", "\n").replace("\r", "\n")
    lines = text.split("\n")
    if lines[-1] == "":
        del lines[-1]
    is_dropped = lambda it: it != "\t" and (ord(it) < 32 or 127 <= ord(it) < 160) or it == "\ufeff"
    return "".join("".join(it for it in line if not is_dropped(it)) + "\n" for line in lines).encode()


class Place:
    """A folder with the installed scripts beside it."""

    def __init__(self, folder):
        prefix = pathlib.Path(folder) / "a prefix ü"
        self.bin, self.folder = prefix / "bin", pathlib.Path(folder) / "a script's folder"
        (prefix / "share/fountain").mkdir(parents=True)
        self.bin.mkdir()
        self.folder.mkdir()
        (self.bin / "fountain").symlink_to(PROGRAM)
        for path in (*(TOP / "scripts").iterdir(), TOP / "examples/clients/fountain_client.py"):
            if path.is_file():
                shutil.copy(path, prefix / "share/fountain" if path.suffix == ".py" else self.bin)

    def put(self, name, text):
        path = self.folder / name
        path.write_bytes(text if isinstance(text, bytes) else text.encode())
        return path

    def start(self, script, *words, **how):
        pipes = {"stdin": subprocess.DEVNULL, "stdout": subprocess.PIPE, "stderr": subprocess.PIPE}
        return subprocess.Popen([self.bin / script, *words], cwd=self.folder, **{**pipes, **how})

    def run(self, script, *words, **how):
        """The status of a script or of the program, what it wrote and what it told."""
        ran = self.start(script, *words, **how)
        try:
            out, said = ran.communicate(timeout=4 * SECONDS)
        except subprocess.TimeoutExpired:
            # Its desk ends with it.
            ran.kill()
            raise
        return ran.returncode, out.decode(), said.decode()

    def desk(self, *commands, file="s"):
        """The replies of a session over a script."""
        ran = subprocess.run([self.bin / "fountain", "desk", file], cwd=self.folder, input=lines_of(*commands), capture_output=True, timeout=SECONDS)
        return [json.loads(line) for line in ran.stdout.splitlines()]

    def sheets(self, file="s"):
        return self.run("fountain", "print", file)[1]

    def records(self, file="s"):
        return json.loads((self.folder / f"{file}.desk").read_bytes())

    def lock(self, text, name="s"):
        """Puts a script there whose scenes and pages are locked, at the beginning of the Blue round."""
        self.put(name, text)
        return self.desk(*LOCKS, file=name)

    def fill(self, what):
        """Has the next save of `s` fail at its text or at its records, by files that saves which were killed left where this one writes. The
        records have a folder of their own, to which a link leads."""
        folder = self.folder / "records"
        if what == "records":
            folder.mkdir()
            (self.folder / "s.desk").rename(folder / "s.desk")
            (self.folder / "s.desk").symlink_to("records/s.desk")
        for number in range(100):
            ((folder if what == "records" else self.folder) / f".fountain-saving-{number}").write_bytes(b"")

    def pass_saves(self, before=":", behind=":", replies="cat"):
        """Has a shell do this before and behind each save that a desk gets from here on, and hand its replies on so."""
        program = self.bin / "fountain"
        program.unlink()
        program.write_text(
            f"""#!/bin/sh
            [ "$1" = desk ] || exec "{PROGRAM}" "$@"
            while IFS= read -r line; do
                case $line in
                    *'"save"'*) {before}; printf '%s\\n' "$line"; {behind} ;;
                    *) printf '%s\\n' "$line" ;;
                esac
            done | "{PROGRAM}" "$@" | {replies}
            """
        )
        program.chmod(0o755)

    def files(self):
        """All that the folder has, each file with its bytes."""
        return {str(it.relative_to(self.folder)): it.read_bytes() if it.is_file() else None for it in self.folder.rglob("*")}

    def clear(self):
        shutil.rmtree(self.folder)
        self.folder.mkdir()


def differs(what, found, expected):
    if found != expected:
        yield f"{what}: {str(found)[:300]!r} in place of {str(expected)[:300]!r}"


def refuses(what, place, status, said, *words, **how):
    """A script ends with this status and this one line, and leaves all as it was."""
    before = place.files()
    ran = place.run(*words, **how)
    yield from differs(f"{what} ends", ran, (status, "", f"{words[0]}: {said}\n"))
    if place.files() != before:
        changed = {name for name in {*before, *place.files()} if before.get(name) != place.files().get(name)}
        yield f"{what} changes {sorted(changed)}"


def surroundings(place):
    return {**os.environ, "PATH": f"{place.bin}:{os.environ['PATH']}", "HOME": str(place.folder)}


def shell(place, text):
    """Runs lines of the guide as they stand."""
    return subprocess.run(["sh", "-e"], input=text, cwd=place.folder, capture_output=True, text=True, env=surroundings(place))


def of_guide(begin):
    """The indented lines of docs/GUIDE.md from one that begins so on, up to an empty one."""
    rest = (TOP / "docs/GUIDE.md").read_text().split(f"\n    {begin}", 1)[1].split("\n\n")[0]
    return "\n".join(line.removeprefix("    ") for line in f"{begin}{rest}".split("\n")) + "\n"


def crash(place, *commands):
    """Gives commands to a desk as the guide says, and kills it, with its terminal, once they are answered."""
    pipes = {"stdin": subprocess.PIPE, "stdout": subprocess.PIPE}
    tee = subprocess.Popen(["sh", "-c", of_guide("tee -a log")], cwd=place.folder, start_new_session=True, env=surroundings(place), **pipes)
    tee.stdin.write(lines_of(*commands))
    tee.stdin.flush()
    replies = [json.loads(tee.stdout.readline()) for _ in commands]
    os.killpg(tee.pid, signal.SIGKILL)
    tee.communicate()
    return replies


def seconds_of_children():
    """How long the processors worked for what was run and has ended, so that what runs beside makes no difference."""
    used = resource.getrusage(resource.RUSAGE_CHILDREN)
    return used.ru_utime + used.ru_stime


def digest(text):
    return hashlib.sha256(text).hexdigest()


def children_of(pid):
    """The processes that one has begun."""
    found = []
    for stat in pathlib.Path("/proc").glob("[0-9]*/stat"):
        try:
            if int(stat.read_text().rsplit(")", 1)[1].split()[1]) == pid:
                found.append(int(stat.parent.name))
        except (OSError, IndexError):
            pass
    return found


def ended_anywhere(place, rng, seconds, number, *words):
    """Ends a run of a script within these seconds: kills it, alone or with the desk that it holds, or interrupts it. An interrupt leaves
    no file of its work beside."""
    before = set(place.files())
    ran = place.start(*words)
    time.sleep(rng.random() * seconds)
    how = (signal.SIGKILL, signal.SIGKILL, signal.SIGINT, signal.SIGTERM)[number % 4]
    for pid in (ran.pid, *(children_of(ran.pid) if number % 4 == 1 else [])):
        try:
            os.kill(pid, how)
        except ProcessLookupError:
            pass
    ran.communicate(timeout=SECONDS)
    # A desk that lost its script ends behind the command that it answers.
    time.sleep(0.3)
    left = [name for name in set(place.files()) - before if pathlib.Path(name).name.startswith(".")]
    if left and how != signal.SIGKILL:
        yield f"a run that was interrupted leaves {left}"


# Sheets, told without the program


class Scene:
    """A scene with a page of its own: what stands in its lines, and which of them have a star."""

    def __init__(self, heading, lines):
        self.heading, self.lines, self.stars = heading, list(lines), set()

    def script(self):
        return "\n\n".join([self.heading, *self.lines]) + "\n"


def script_of(scenes):
    return "\n===\n\n".join(scene.script() for scene in scenes)


def header(label, colour):
    """Columns count from 0: the colour begins at 15, and the label ends at 75."""
    begin = " " * 15 + colour if colour else ""
    return begin.ljust(75 - len(label) - 1) + label + ".\n\n"


def row(text, is_starred):
    return (text.ljust(80) + "*" if is_starred else text) + "\n"


def sheet(label, colour, number, scene):
    """The sheet of a scene: its number stands at 7 and 76, its lines at 15, and stars at 80."""
    rows = [row((" " * 7 + number.ljust(8) + scene.heading).ljust(76) + number, scene.heading in scene.stars)]
    rows += ["\n" + row(" " * 15 + line, line in scene.stars) for line in scene.lines]
    return header(label, colour) + "".join(rows) + "\f"


def omitted(label, colour):
    return header(label, colour) + " " * 15 + "OMITTED\n\f"

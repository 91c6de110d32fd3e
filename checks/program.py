"""The built program, and sessions of it that are asked one command after the other."""

import json
import os
import pathlib
import select
import shutil
import subprocess

TOP = pathlib.Path(__file__).resolve().parent.parent
# Another program can be tried in place of the built one, as a model of the rules.
PROGRAM = pathlib.Path(os.environ.get("PROGRAM", TOP / "crates/fountain_cli/out/fountain_cli")).absolute()
SECONDS = 60
SAVE = {"do": "save"}
LABELS = {"do": "labels"}
UNDO = {"do": "undo"}
REDO = {"do": "redo"}
LOCKS = [{"do": "lock_scenes"}, {"do": "lock_pages"}, {"do": "next_round"}]


def lines_of(*commands):
    """Commands as lines: values as JSON, and bytes as they are."""
    return b"".join((command if isinstance(command, bytes) else json.dumps(command).encode()) + b"\n" for command in commands)


def output_of(form, script):
    return subprocess.run([PROGRAM, form, script], capture_output=True, check=True).stdout.decode()


def sheets_of(script):
    """The sheets of a script, each without its form feed."""
    return output_of("print", script).split("\f")[:-1]


def faults_of(title, folder, form, commands, replies):
    """Where a session of a form over `script` of a folder is answered in another way than it is written."""
    ran = subprocess.run([PROGRAM, form, "script"], cwd=folder, input="".join(f"{command}\n" for command in commands).encode(), capture_output=True)
    told = ran.stdout.decode().splitlines()
    if ran.returncode or len(told) != len(replies):
        yield f"{title} ends with {ran.returncode} after {len(told)} replies of {len(replies)}"
    for command, expected, reply in zip(commands, replies, told):
        if reply != expected:
            yield f"{title}: {command} is answered {reply}"


def scripts_in(folder):
    """The scripts, put where they find the program that was built."""
    scripts = folder / "share/fountain"
    if not scripts.exists():
        (folder / "bin").mkdir()
        (folder / "bin/fountain").symlink_to(PROGRAM)
        shutil.copytree(TOP / "scripts", scripts)
        shutil.copy(TOP / "examples/clients/fountain_client.py", scripts)
    return scripts


class Session:
    """A session of `desk` over a script of a folder."""

    def __init__(self, folder, script="f", program=PROGRAM, **how):
        pipes = {"stdin": subprocess.PIPE, "stdout": subprocess.PIPE, "stderr": subprocess.PIPE}
        self.process = subprocess.Popen(["fountain", "desk", script], executable=program, cwd=folder, **pipes, **how)

    def send(self, data):
        self.process.stdin.write(data)
        self.process.stdin.flush()

    def answers_soon(self, seconds=SECONDS):
        return bool(select.select([self.process.stdout], [], [], seconds)[0])

    def reply(self):
        """The next reply; none where it doesn't come, or the session has ended."""
        return json.loads(self.process.stdout.readline() or "null") if self.answers_soon() else None

    def ask(self, command):
        self.send(lines_of(command))
        return self.reply()

    def end(self):
        """The status and what was told, once the input has ended; what was written behind the last reply is left."""
        try:
            self.process.stdin.close()
        except BrokenPipeError:
            pass
        status = self.process.wait(SECONDS)
        said = self.process.stderr.read().decode()
        self.process.stdout.close()
        self.process.stderr.close()
        return status, said

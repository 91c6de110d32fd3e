"""What the scripts over the program share: what they tell and how they end, their words, the program, and scripts and their records."""

import contextlib
import fcntl
import functools
import json
import os
import pathlib
import re
import shlex
import shutil
import signal
import subprocess
import sys

import fountain_client

COLOURS = ("White", "Blue", "Pink", "Yellow", "Green", "Goldenrod", "Buff", "Salmon", "Cherry", "Tan")
ORDINALS = {1: "st", 2: "nd", 3: "rd"}
INTERRUPTS = (signal.SIGINT, signal.SIGTERM, signal.SIGHUP)
# The most lines and bytes of a text, and the most bytes of one of its lines and of a command line.
LINES, BYTES, LINE, COMMAND = 200_000, 16_777_216, 4096, 1_048_576


def say(what):
    print(f"{pathlib.Path(sys.argv[0]).name}: {what}", file=sys.stderr)


def stop(why, status=1):
    say(why)
    sys.exit(status)


def on_signals(handler):
    """Has a handler take the signals that end a script. Those that are ignored, as by nohup, stay so."""
    for number in INTERRUPTS:
        if signal.getsignal(number) != signal.SIG_IGN:
            signal.signal(number, handler)


@contextlib.contextmanager
def uninterrupted():
    """Keeps an interrupt waiting until what is done in it is done whole."""
    before = signal.pthread_sigmask(signal.SIG_BLOCK, INTERRUPTS)
    try:
        yield
    finally:
        signal.pthread_sigmask(signal.SIG_SETMASK, before)


def run(main, status=1):
    """Calls a script's main with its words, and ends as it says; by this status where a file fails. Interrupted it ends as where it stops,
    so that nothing is left behind."""
    on_signals(lambda number, _: sys.exit(128 + number))
    try:
        # UTF-8, as the program writes; names of files may be none.
        for stream in (sys.stdout, sys.stderr):
            stream.reconfigure(encoding="utf-8", errors="backslashreplace")
        ended = main(sys.argv[1:])
        sys.stdout.flush()
        sys.exit(ended)
    except BrokenPipeError:
        # Nobody reads what is told; what was done is done.
        close_output()
        sys.exit(status)
    except OSError as fault:
        stop(f"{fault.filename}: {fault.strerror}" if fault.filename else fault.strerror, status)


def close_output():
    """Drops what standard output still has, so that its end fails no more."""
    os.dup2(os.open(os.devnull, os.O_WRONLY), sys.stdout.fileno())


def write_out(text, status=1):
    try:
        sys.stdout.buffer.write(text.encode(errors="surrogateescape"))
        sys.stdout.flush()
    except OSError:
        close_output()
        stop("writing failed", status)


def many(count, what):
    return f"{count} {what}{'' if count == 1 else 's'}"


# Words


def is_utf8(word):
    try:
        word.encode()
        return True
    except UnicodeEncodeError:
        return False


def is_option(word):
    return word.startswith("-") and word != "-"


def parse(about, words, count):
    """The options of a script, each with its value, and its other words, of which there are as many as `count` says for these options;
    `-` is such a word. Tells what a script does where it is asked for help, and its usage where its words are none. `about` begins with the
    usage."""
    if "--help" in words:
        print(about)
        sys.exit()
    if not all(map(is_utf8, words)):
        stop("a word isn't UTF-8", 2)
    usage = about.split(": ")[0].replace("\n", " ")
    known = dict(re.findall(r"(--[a-z0-9-]+)(=?)", usage))
    options, others = {}, []
    for word in words:
        name, sign, value = word.partition("=")
        if known.get(name) == sign and bool(value) == bool(sign):
            options[name] = value
        else:
            others.append(word)
    if len(others) != count(options) or any(map(is_option, others)):
        stop(f"usage: {usage} (--help tells more)", 2)
    return options, others


# The program


@functools.cache
def find_program(status=1):
    """The program. That of the repository is built where it isn't yet, which takes a while and is told as it goes."""
    program = fountain_client.find_program() or stop("fountain isn't on the path", status)
    if pathlib.Path(program).name == "run":
        ran = subprocess.run([program, "print"], stdin=subprocess.DEVNULL, stdout=subprocess.DEVNULL)
        if ran.returncode:
            sys.exit(max(ran.returncode, status))
    return program


def said_by(errors):
    """What the program tells of its end."""
    return errors.decode(errors="replace").strip().removeprefix("fountain: ")


def fault_of(errors):
    """What the program tells of its end, with a line counted from 1."""
    return re.sub(r"^line (\d+) ", lambda found: f"line {int(found[1]) + 1} ", said_by(errors))


def refusal_of(name, status, errors):
    """Why the program ended over a script, in words for people."""
    said = fault_of(errors)
    if status == 8:
        what = f"{name} was changed by another program since it was saved"
        if said.startswith("bad records"):
            what = f"{name}.desk is no record file ({said.removeprefix('bad records, ')})"
        return f"{what}; fountain-take-in --recover {shlex.quote(str(name))} mends that"
    return said if status == 3 else f"{name}: {said or 'the program ended'}"


def output_of(*words, told="fountain", **how):
    """What the program writes; where it refuses, that is told of a name."""
    ran = subprocess.run([find_program(2), *words], capture_output=True, **how)
    if ran.returncode:
        stop(refusal_of(told, ran.returncode, ran.stderr))
    return ran.stdout


def line_of(value):
    """A line of JSON, as the program writes it."""
    return json.dumps(value, ensure_ascii=False, separators=(",", ":"), sort_keys=True).encode() + b"\n"


def round_name(number):
    """The name of a round: those from 10 on begin with the number of their turn."""
    if number < 10:
        return COLOURS[number]
    turn, colour = 2 + (number - 10) // 9, COLOURS[1 + (number - 10) % 9]
    return f"{turn}{'th' if turn in (11, 12, 13) else ORDINALS.get(turn % 10, 'th')} {colour}"


# Scripts and their records


def read(path):
    """The bytes of a file; none where there is no such file."""
    try:
        with open(path, "rb") as file:
            return file.read()
    except FileNotFoundError:
        return None


def read_input(name, status=1):
    """The bytes of a file, or of standard input for `-`."""
    try:
        data = sys.stdin.buffer.read() if name == "-" else read(name)
    except OSError as fault:
        stop(f"{name}: {fault.strerror}", status)
    return data if data is not None else stop(f"no file {name}", status)


def file_of(name, work):
    """A script by its name; for standard input and pipes, which can be read but once, a file in a folder with what they have."""
    if name != "-" and not name.startswith("/dev/") and not pathlib.Path(name).is_fifo():
        return name
    file = work / "script"
    file.write_bytes(read_input(name))
    return file


def records_of(file):
    """What the record file of a script has; nothing where there is none, or where it is none."""
    try:
        records = json.loads(read(f"{file}.desk") or b"{}")
    except (ValueError, RecursionError):
        return {}
    return records if isinstance(records, dict) else {}


def copy_of(script, folder):
    """A copy of a script in a folder, with its records."""
    copy = pathlib.Path(folder, "copy")
    shutil.copyfile(script, copy)
    if os.path.exists(f"{script}.desk"):
        shutil.copyfile(f"{script}.desk", f"{copy}.desk")
    return copy


@contextlib.contextmanager
def turn_at(file):
    """Waits until no other script is at work in the folder of a file, and keeps others waiting; where there is no such folder, neither."""
    try:
        folder = os.open(pathlib.Path(file).resolve().parent, os.O_RDONLY)
    except FileNotFoundError:
        yield
        return
    try:
        # Some file systems of a network have no such locks.
        with contextlib.suppress(OSError):
            fcntl.flock(folder, fcntl.LOCK_EX)
        yield
    finally:
        os.close(folder)

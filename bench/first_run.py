"""Measures first runs: `./run print FILE` in a fresh clone of what is committed, by a copy of the toolchain beside which nothing is kept.

`python3 bench/first_run.py 4 2` has one run on four processors and then one on two, each from nothing; without numbers it takes all
processors once. The lines of ./run go to standard error. A table comes at the end, a row for each run: when it began, on which machine, on
how many processors, with which load before, how many crates there were, minutes by the clock until the sheets came, minutes of the
processors, and when a third and two thirds were proved. `--crates NAME ..` takes these crates and those below them alone, with a small
program above them: that tries this and ./run, and measures no first run.
"""

import argparse
import os
import pathlib
import re
import resource
import shutil
import subprocess
import sys
import tempfile
import time

from gate import surroundings, with_those_below

TOP = pathlib.Path(__file__).resolve().parent.parent
KIT = pathlib.Path(shutil.which("rt") or sys.exit("first_run: there is no rt on the path")).resolve().parent.parent
# A program that stands in for fountain.
PROGRAM = """#![tactic(auto)]

use std::io;

fn main(rt: HostRuntime) -> io::Result<()> {
    println!(rt; "proved")?;
    Ok(())
}
"""


def copy_of_toolchain(folder):
    """A toolchain of the same files: rt keeps what it proves beside the one that it is part of."""
    (folder / "kit").mkdir(parents=True)
    for part in KIT.iterdir():
        if part.name == "bin":
            shutil.copytree(part, folder / "kit/bin")
        else:
            (folder / "kit" / part.name).symlink_to(part)
    return folder / "kit/bin"


def cut_down(clone, names):
    """Leaves these crates and those below them, and a program above them."""
    kept = with_those_below(names)
    lines = [line for line in (clone / "crates.txt").read_text().splitlines() if re.split("[ :]", line)[0] in kept]
    (clone / "crates.txt").write_text("\n".join([*lines, f"fountain_cli: {' '.join(kept)}", ""]))
    program = clone / "crates/fountain_cli"
    shutil.rmtree(program)
    (program / "src").mkdir(parents=True)
    (program / "src/main.rt").write_text(PROGRAM)
    (program / "stdout").write_text("proved\n")


def processor_seconds():
    used = resource.getrusage(resource.RUSAGE_CHILDREN)
    return used.ru_utime + used.ru_stime


def measure(folder, names):
    """The row of a first run on the processors that this process may use."""
    clone = folder / "clone"
    subprocess.run(["git", "clone", "-q", TOP, clone], check=True)
    if names:
        cut_down(clone, names)
    env = {**os.environ, "PATH": f"{copy_of_toolchain(folder / 'toolchain')}:{os.environ['PATH']}"}
    where, begun, used = surroundings(), time.monotonic(), processor_seconds()
    words = [clone / "run", "print", clone / "examples/hello.fountain"]
    proved = []
    with subprocess.Popen(words, env=env, stdin=subprocess.DEVNULL, stdout=subprocess.PIPE, stderr=subprocess.PIPE, text=True) as run:
        for line in run.stderr:
            sys.stderr.write(line)
            if " is proved (" in line:
                proved.append((time.monotonic() - begun) / 60)
        sheets = run.stdout.read()
    minutes = (time.monotonic() - begun) / 60
    if run.returncode or not sheets:
        sys.exit(f"first_run: ./run ended with {run.returncode} after {minutes:.1f} minutes")
    parts = [proved[max(len(proved) * part // 3, 1) - 1] for part in (1, 2)]
    taken = [minutes, (processor_seconds() - used) / 60, *parts]
    return [*where, str(len(proved)), *(f"{part:.1f}" for part in taken)]


def main():
    processors = sorted(os.sched_getaffinity(0))
    words = argparse.ArgumentParser(description="Measures first runs from nothing.")
    words.add_argument("processors", nargs="*", type=int, default=[len(processors)], metavar="N", help="a run on so many processors")
    words.add_argument("--crates", nargs="+", default=[], metavar="NAME", help="these crates and those below them alone")
    given = words.parse_args()
    if not all(0 < number <= len(processors) for number in given.processors):
        words.error(f"there are {len(processors)} processors")
    rows = []
    for number in given.processors:
        os.sched_setaffinity(0, processors[:number])
        with tempfile.TemporaryDirectory() as folder:
            rows.append(measure(pathlib.Path(folder), given.crates))
    print("| began | machine | processors | load before | crates | minutes | processor minutes | a third | two thirds |")
    print("|" + "---|" * 9)
    for row in rows:
        print("| " + " | ".join(row) + " |")


if __name__ == "__main__":
    main()

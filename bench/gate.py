"""Runs the proofs and edits of the gate and says how many processor seconds each crate took: for its proof, builds included, for the checks
of the crate as it stands with which the toolchain begins and ends its edits, and for the edits that must fail, with how many checks of edits
there were and what one took. Below it tells how many checks there were, what those took that found nothing to prove, how long the longest
edit took, and what the gate took with all that it does beside. A check is last looked at up to half a second before it ends. A line above
the table says when that was, on which machine, on how many processors, and with which load before.

`python3 bench/gate.py WORDS..` runs `rt ci WORDS..`, hands its lines on to standard error, and prints a table at the end, and the longest
chain of crates one above the other, in processor time and by the clock. What an earlier run passed isn't proved again, so the table is whole
only with `--anew` or on a machine without one. `taskset -c 0,1 python3 bench/gate.py --anew` measures it on two processors.
"""

import collections
import functools
import os
import pathlib
import re
import resource
import subprocess
import sys
import threading
import time

TICKS = os.sysconf("SC_CLK_TCK")
PHASES = ["proof", "around edits", "edits"]


def surroundings():
    """The hour, the machine, how many of its processors may be used, and the load so far."""
    names = re.findall(r"^model name\s*: (.*)", pathlib.Path("/proc/cpuinfo").read_text(), re.M)
    memory = os.sysconf("SC_PAGE_SIZE") * os.sysconf("SC_PHYS_PAGES") / 2**30
    machine = f"{names[0] if names else os.uname().machine}, {memory:.0f} GiB"
    return [time.strftime("%Y-%m-%d %H:%M UTC", time.gmtime()), machine, f"{len(os.sched_getaffinity(0))} of {os.cpu_count()}", f"{os.getloadavg()[0]:.1f}"]


def parent(number):
    return pathlib.Path(f"/proc/{number}/stat").read_text().rsplit(")", 1)[1].split()[1]


def comes_from(number, first):
    """Whether a process was begun by another, or by one that it began."""
    while number not in ("0", "1"):
        if number == first:
            return True
        number = parent(number)
    return False


def processes(first):
    """The processes of the prover that another began: number, words, folder, and the processor seconds that each took by itself so far."""
    for folder in pathlib.Path("/proc").iterdir():
        if not folder.name.isdigit():
            continue
        try:
            words = (folder / "cmdline").read_bytes().decode(errors="replace").split("\0")
            fields = (folder / "stat").read_text().rsplit(")", 1)[1].split()
            place = os.readlink(folder / "cwd")
            if "--crate-name" not in words or not comes_from(folder.name, first):
                continue
        except (OSError, IndexError):
            continue
        yield folder.name, words, place, sum(int(field) for field in fields[11:13]) / TICKS


def phase_of(words, place):
    if "/rt-edit-" in place:
        return "around edits" if any(word.endswith("/seed") for word in words) else "edits"
    return "proof"


class Meter:
    """The processor seconds of each crate and phase, and when the proof of each was first and last at work, as far as they were seen."""

    def __init__(self):
        self.seen = {}
        self.spans = {}
        self.ended = threading.Event()

    def look(self, gate):
        now = time.monotonic()
        for number, words, place, seconds in processes(gate):
            crate = words[words.index("--crate-name") + 1]
            phase = phase_of(words, place)
            self.seen[number, crate, phase] = seconds
            if phase == "proof":
                self.spans.setdefault(crate, [now, now])[1] = now

    def watch(self, gate):
        while not self.ended.wait(0.5):
            self.look(gate)

    def table(self):
        sums = {}
        for (_, crate, phase), seconds in self.seen.items():
            sums.setdefault(crate, dict.fromkeys(PHASES, 0.0))[phase] += seconds
        return sums

    def edits(self):
        """How many checks of each crate's edits were seen."""
        return collections.Counter(crate for _, crate, phase in self.seen if phase == "edits")


def run_gate(words, meter):
    run = subprocess.Popen(["rt", "ci", *words], stdout=subprocess.PIPE, stderr=subprocess.STDOUT, text=True)
    watcher = threading.Thread(target=meter.watch, args=[str(run.pid)])
    watcher.start()
    try:
        for line in run.stdout:
            sys.stderr.write(line)
        return run.wait()
    finally:
        meter.ended.set()
        watcher.join()


def print_table(meter, minutes):
    sums, counts = meter.table(), meter.edits()
    print("| crate | proof s | around edits s | edits s | all s | edits | s an edit |")
    print("|" + "---|" * 7)
    for crate, row in sorted(sums.items(), key=lambda item: -sum(item[1].values())):
        count = counts.get(crate, 0)
        each = f"{row['edits'] / count:.1f}" if count else ""
        print("| " + " | ".join([crate, *(f"{row[phase]:.0f}" for phase in PHASES), f"{sum(row.values()):.0f}", str(count or ""), each]) + " |")
    whole = [sum(row[phase] for row in sums.values()) / 60 for phase in PHASES]
    print("| all, in minutes | " + " | ".join([*(f"{part:.1f}" for part in [*whole, sum(whole)]), str(sum(counts.values())), ""]) + " |")
    print(f"\n{minutes:.1f} minutes by the clock")


def crates_below():
    """The crates that each stands on."""
    top = pathlib.Path(__file__).resolve().parent.parent
    lines = [line.split("#")[0] for line in (top / "crates.txt").read_text().splitlines()]
    parts = [line.partition(":") for line in lines if line.strip()]
    return {name.strip(): below.split() for name, _, below in parts}


def with_those_below(names):
    """These crates and all that they stand on."""
    below, found = crates_below(), list(names)
    for name in found:
        found += [it for it in below[name] if it in below and it not in found]
    return found


def print_chain(taken, measure):
    """The crates one above the other whose proofs took longest together, by the seconds that each took."""
    below = crates_below()

    @functools.cache
    def way(name):
        seconds, names = max((way(it) for it in below[name] if it in below), default=(0.0, ()))
        return seconds + taken.get(name, 0.0), (*names, name)

    seconds, names = max(map(way, below))
    print(f"\nlongest chain of proofs, {seconds / 60:.1f} minutes {measure}: {' '.join(names)}")


def print_readings(meter):
    """How many checks there were, and what those took that found nothing to prove: the gate tries a crate with two or more edits once more
    behind them, over what the check before them proved."""
    over = {}
    for (_, crate, phase), seconds in meter.seen.items():
        if phase == "around edits":
            over.setdefault(crate, []).append(seconds)
    empty = [parts[-1] for parts in over.values() if len(parts) > 1]
    if empty:
        print(f"\n{len(meter.seen)} checks and builds; {len(empty)} checks that found nothing to prove took {sum(empty) / len(empty):.1f} s on the average")


def print_longest_edit(meter):
    edits = [(seconds, crate) for (_, crate, phase), seconds in meter.seen.items() if phase == "edits"]
    if edits:
        seconds, crate = max(edits)
        print(f"\n{len(edits)} checks of edits, the longest one of {crate}, {seconds:.1f} s")


def print_whole():
    used = resource.getrusage(resource.RUSAGE_CHILDREN)
    print(f"\n{(used.ru_utime + used.ru_stime) / 60:.1f} minutes of processor time with all that the gate does beside these checks")


def main():
    meter = Meter()
    where, begun = surroundings(), time.monotonic()
    status = run_gate(sys.argv[1:], meter)
    print("began {}, {}, processors {}, load before {}\n".format(*where))
    print_table(meter, (time.monotonic() - begun) / 60)
    print_readings(meter)
    print_longest_edit(meter)
    print_whole()
    print_chain({crate: row["proof"] for crate, row in meter.table().items()}, "of processor time")
    print_chain({crate: end - first for crate, (first, end) in meter.spans.items()}, "by the clock")
    return status


if __name__ == "__main__":
    sys.exit(main())

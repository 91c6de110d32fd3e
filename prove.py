"""Proves the crates of the repository that it is called in and builds its program, as `rt ci` does and sooner; ./run calls it in a copy.

What is proved, what refuses it, what is kept of it, and each line that tells of it are the toolchain's own. Its crates are found below each
other once, those with the longest way up come first and get more processors (`in_lanes`), and the program is built by LLVM alone, in the
run of the prover that proves it. With RT_JOBS the toolchain's own order is kept. A toolchain that hasn't these parts runs its `rt ci`.
"""

import concurrent.futures
import functools
import importlib.machinery
import importlib.util
import os
import shutil
import sys

# Nothing is written into the toolchain.
sys.dont_write_bytecode = True
PARTS = {"rtlib", "Crate", "Kept", "KIT", "in_lanes", "processors", "free", "ending", "main"}
# How much of the memory that the toolchain reckons for a check is kept for it, and for each job beside the first: checks over statements alone
# took 0.26 to 0.44 of it.
SHARE, SHARE_BESIDE = 0.5, 0.15


def toolchain():
    """The toolchain's command as a module, or nothing where it isn't one with these parts."""
    loader = importlib.machinery.SourceFileLoader("rt", os.path.realpath(shutil.which("rt")))
    rt = importlib.util.module_from_spec(importlib.util.spec_from_loader("rt", loader))
    try:
        loader.exec_module(rt)
    except (SyntaxError, UnicodeDecodeError):
        return None
    return rt if PARTS <= {*dir(rt)} else None


def build_program(rt, made, crate, flags, tests):
    """Proves a program and compiles what is proved by LLVM; any other crate, and tests, are the toolchain's."""
    if tests or not crate.is_program:
        return made(crate, flags, tests)
    program = f"out/{crate.name}"
    words = [*crate.words(flags, keeps=False), "--toolchain", f"{rt.KIT}/toolchain", "--backend", "llvm", "-o", f"{program}.o"]
    return crate.prove(["build", *words]) or crate.link(f"{program}.o", program)


def is_whole(made, kept, crate, tests, files):
    """Whether these are all the files that are kept of a crate: of a program the build by LLVM is enough here, and a gate wants both."""
    return made(kept, crate, tests, files) or (crate.is_program and not tests and files == [crate.name])


def ways_up(tasks):
    """The lines of the longest way up from each task, itself included. A task stands behind those that it waits for."""
    ways = dict.fromkeys(tasks, 0)
    for key in reversed([*tasks]):
        ways[key] += tasks[key][1]
        for below in tasks[key][0]:
            ways[below] = max(ways[below], ways[key])
    return ways


def step_back():
    """Lets what this thread begins wait where processors are short."""
    os.setpriority(os.PRIO_PROCESS, 0, min(os.getpriority(os.PRIO_PROCESS, 0) + 2, 19))


def in_lanes(rt, tasks):
    """Runs tasks side by side and gives what each gave. A task is what it waits for, its lines, its memory, and a call of what was given so
    far and a number of jobs. One of no lines has nothing to prove, and is done at once.

    As many are at work as there are processors, where memory holds them, those of the longest ways up first. Each has a share of the
    processors that are idle when it begins, by those that could begin too. One that no task left has a longer way up than is what all wait
    for in the end: it has half of all processors at least, and the others step back for it."""
    processors, memory, ways = rt.processors(), 0.85 * rt.free(), ways_up(tasks)
    left, running, given = sorted(tasks, key=lambda key: -ways[key]), {}, {}
    pool = concurrent.futures.ThreadPoolExecutor
    with rt.ending(), pool(processors) as first, pool(processors, initializer=step_back) as others:
        while left or running:
            ready = [key for key in left if all(below in given for below in tasks[key][0])]
            for key in [key for key in ready if not tasks[key][1]]:
                given[key] = tasks[key][3](given, 1)
                ready.remove(key)
                left.remove(key)
            while ready and len(running) < processors:
                key = ready.pop(0)
                _, _, needs, call = tasks[key]
                is_first = ways[key] == ways[left[0]]
                jobs = max((processors - len(running)) // (1 + len(ready)), processors // 2 if is_first else 0)
                room = memory - sum(taken for _, taken in running.values())
                jobs = max(1, min(jobs, 1 + int((room / needs - SHARE) / SHARE_BESIDE)))
                taken = needs * (SHARE + SHARE_BESIDE * (jobs - 1))
                if not running or taken <= room:
                    left.remove(key)
                    running[(first if is_first else others).submit(call, given, jobs)] = key, taken
            for ended in concurrent.futures.wait(running, return_when=concurrent.futures.FIRST_COMPLETED).done:
                given[running.pop(ended)[0]] = ended.result()
    return given


def main():
    rt = toolchain()
    if rt is None:
        os.execvp("rt", ["rt", "ci"])
    rt.rtlib.Crate.below = functools.cache(rt.rtlib.Crate.below)
    ci, whole = rt.Crate.ci, rt.Kept.is_whole
    rt.Crate.ci = lambda *given: build_program(rt, ci, *given)
    rt.Kept.is_whole = lambda *given: is_whole(whole, *given)
    if "RT_JOBS" not in os.environ:
        rt.in_lanes = functools.partial(in_lanes, rt)
    return rt.main(["ci"])


if __name__ == "__main__":
    sys.exit(main())

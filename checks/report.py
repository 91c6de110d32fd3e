"""How checks tell what they found, and how signals come to them and to what they run."""

import pathlib
import signal
import subprocess
import tempfile

# As at a terminal, also where a check was begun in the background or by nohup.
for number, handler in ((signal.SIGINT, signal.default_int_handler), (signal.SIGTERM, signal.SIG_DFL), (signal.SIGHUP, signal.SIG_DFL)):
    if signal.getsignal(number) == signal.SIG_IGN:
        signal.signal(number, handler)


def found_by(check, place):
    """The faults that a check yields over a place, each behind its name, and where it breaks off."""
    try:
        for fault in check(place):
            yield f"{check.__name__}: {fault}"
    except (subprocess.SubprocessError, OSError, TypeError, KeyError, IndexError) as broken:
        yield f"{check.__name__} breaks off: {broken!r}"


def faults_by(checks, place=pathlib.Path):
    """The faults of checks, each over a place made of a folder of its own."""
    faults = []
    for check in checks:
        with tempfile.TemporaryDirectory() as folder:
            faults += found_by(check, place(folder))
    return faults


def tell(name, what, faults):
    """Prints each fault and how many there are, and gives the exit status: 1 where there is one."""
    for fault in faults:
        print(f"{name}: {fault}")
    print(f"{name}: {what}, {len(faults)} faults")
    return 1 if faults else 0

"""Times `print` on scripts of 1, 2, 4, 8 and 16 MiB, beside `fold -s -w 60 FILE | pr -l 57` on the same file in the same run,
and on scripts of 25,000 to 200,000 lines that a careless reader is slow on; and sessions of `desk` on scripts of 2,000 to
200,000 lines: the opening, a splice and an undo; of many edits and undos of 200,000 lines and of 152,001 with a long title page, of
33 to 1,000 lines that go and come, and the large sample, beside `print` of them; of locks, rounds and saves; and `cast`, `collate` beside
`cat`, and a room beside `desk`.

For each kind of script and each size it prints the time of `print`, MB/s, the peak memory over the size of the input, how
much longer it took than at half the size, the ratio to `fold | pr`, and that of `html` to `print`. Each time is the least of several runs.

    python3 bench/bench.py [--kind NAME] [--runs N] [--most MIB]
"""

import argparse
import concurrent.futures
import json
import os
import pathlib
import random
import subprocess
import tempfile
import time

TOP = pathlib.Path(__file__).resolve().parent.parent
PROGRAM = TOP / "crates/fountain_cli/out/fountain_cli"
MIB = 1 << 20
PRINT = '"$PROGRAM" print < "$FILE" > /dev/null'
HTML = '"$PROGRAM" html "$FILE" > /dev/null'
DESK = '"$PROGRAM" desk "$FILE" < "$FILE.commands" > /dev/null'
# How many splices follow one another in a session before as many undos, and how often they do.
SPLICES = 20
TURNS = 200
# How many edits of a room are late.
EDITS = 200
# How many edits and undos of 200,000 lines are timed beside `print`, and how many below a long title page.
EDITED = 2_000
BELOW = 10_000
# How many bytes are typed into one line.
TYPED = 10_000
# How many lines go and come at one place, and how often they do.
STRETCHES = (33, 100, 1_000)
STRETCHED = 1_000
# How many pages of a line a script has whose pages are locked, how many of them go, and how many come in each of so many rounds.
PAGES = 48_000
PAGES_OUT = 100
PAGES_IN = 40
ROUNDS = 40
# How many rooms the large sample has.
ROOMS = 2_000
# A script has at most 16,777,216 bytes with a line end behind its last line.
MOST_BYTES = 16_777_215

WORDS = (
    "the lamp burns low and nobody in the house has noticed that it is almost morning while the rain goes on against the "
    "window where two strangers wait for a train that left an hour ago"
).split()
ACCENTED = "été naïve façade Ångström e\u0301te\u0301 n\u0303andu\u0301 字幕 日本語 한국어 🎬 👩‍👩‍👧 señor Übermut".split()


def prose(rng, words, size, opening):
    """Lines of 90 to 400 characters, each behind the opening."""
    lines, total = [], 0
    while total < size:
        length, line = rng.randint(90, 400), []
        while sum(map(len, line)) + len(line) < length:
            line.append(rng.choice(words))
        text = opening + " ".join(line)
        lines.append(text)
        total += len(text.encode()) + 1
    return cut("\n".join(lines), size)


def scenes(rng, size):
    """Scenes of a script: headings, action, dialogue, notes, boneyards, sections, emphasis and page breaks."""
    def text(low, high):
        length, words = rng.randint(low, high), []
        while sum(map(len, words)) + len(words) < length:
            word = rng.choice(WORDS)
            words.append(rng.choice(("*{}*", "_{}_", "**{}**")).format(word) if rng.random() < 0.01 else word)
        return " ".join(words)

    blocks = (
        (2, lambda: f"{rng.choice(('INT.', 'EXT.'))} {rng.choice(WORDS).upper()} - DAY #{rng.randint(1, 999)}#"),
        (8, lambda: text(120, 700)),
        (9, lambda: f"{rng.choice(('ANNA', 'BERT (O.S.)'))}\n{text(100, 400)}"),
        (2, lambda: f"ANNA\n(softly)\n{text(100, 300)}"),
        (1, lambda: f"{text(60, 200)} [[{text(20, 60)}]] {text(60, 200)}"),
        (1, lambda: f"/*\n{text(100, 300)}\n{text(100, 300)}\n*/"),
        (1, lambda: "> CUT TO:"),
        (1, lambda: f"# {text(5, 30)}\n\n= {text(30, 90)}"),
        (0.2, lambda: "==="),
    )
    weights, makers = zip(*blocks)
    made, total = [], 0
    while total < size:
        block = rng.choices(makers, weights)[0]()
        made.append(block)
        total += len(block) + 2
    return cut("\n\n".join(made), size)


def cut(text, size):
    """At most so many bytes of the text, and whole characters."""
    return text.encode()[: min(size, MOST_BYTES)].decode(errors="ignore").encode()


KINDS = {
    "ascii": lambda rng, size: prose(rng, WORDS, size, "!"),
    "unicode": lambda rng, size: prose(rng, WORDS + ACCENTED * 3, size, "!"),
    "script": scenes,
}

# Scripts of so many lines: one stanza, stanzas of one line, and what a reader may look for to the end of the text.
LINES = {
    "stanza": lambda lines: "some words in a line\n" * lines,
    "stanzas": lambda lines: "some words in a line\n\n" * (lines // 2),
    "empty": lambda lines: "\n" * lines,
    "speech": lambda lines: "ANNA\n" + "some words in a line\n" * (lines - 1),
    "cues": lambda lines: "ANNA\n" * lines,
    "breaks": lambda lines: "===\n" * lines,
    "pages": lambda lines: "some words in a line\n===\n" * (lines // 2),
    "boneyard": lambda lines: "/*\n" + "some words in a line\n" * (lines - 1),
    "notes": lambda lines: "some [[ words in a line\n" * lines,
    "title": lambda lines: "Title: some words in a line\n" * lines,
}


# Short scenes, one behind the other.
SCENE = "INT. ROOM - DAY\n\nThe lamp is lit.\n\nANNA\n(to BERT)\nI have counted the lamps.\n\nBERT\nCount them again.\n\n"


def session(lines, texts, turns):
    """Splices of these texts into an action in the middle of so many lines and as many undos, so many times."""
    line = lines // 2 // 11 * 11 + 2
    edits = [{"do": "splice", "line": line, "from": 0, "to": 0, "text": text} for text in texts]
    return "".join(json.dumps(command) + "\n" for command in turned(edits) * turns)


def turned(edits):
    """These edits, and as many undos."""
    return edits + UNDO * len(edits)


def apart(count):
    """Splices of lines that are far from one another, one after another, as in row after row of a script of short actions."""
    return [{"do": "splice", "line": 100 * k, "from": 2, "to": 2, "text": "b"} for k in range(count)]


def anywhere(lines, count):
    """Splices of actions at random places of short scenes."""
    rng = random.Random(count)
    return [{"do": "splice", "line": rng.randrange(lines // 11) * 11 + 2, "from": 0, "to": 0, "text": "Now. "} for _ in range(count)]


def longer(lines, count):
    """Actions of short scenes, at random places, get a line more each, which an undo takes away again."""
    return [{"do": "replace", "first": edit["line"] + 1, "count": 0, "lines": ["Now."]} for edit in anywhere(lines, count)]


def typed(line, place, letters):
    """One byte of a line in the place of another, again and again."""
    return [{"do": "splice", "line": line, "from": place, "to": place + 1, "text": letters[k % len(letters)]} for k in range(TYPED)]


def stretches(first, count, form):
    """So many lines go out at a place, or others come in there, and an undo takes that back, many times."""
    lines = (["!b", ""] * count)[:count]
    edit = {"out": {"count": count, "lines": []}, "in": {"count": 0, "lines": lines}}[form]
    return turned([{"do": "replace", "first": first} | edit]) * STRETCHED


# A title page of 150,000 lines, and 1,000 short actions below it.
TITLED = "Title: x\n" + "    a\n" * 149_999 + "\n" + "!a\n\n" * 1_000


def below(count):
    """Splices of the actions below the long title page, in turn."""
    return [{"do": "splice", "line": 150_001 + 2 * (k % 1_000), "from": 2, "to": 2, "text": "b"} for k in range(count)]


UNDO = [{"do": "undo"}]
LOCKS = [{"do": "lock_scenes"}, {"do": "lock_pages"}, {"do": "next_round"}]


def seats(lines, behind, form):
    """1,000 splices of the first lines, and then some near the end of so many lines, by ten seats in turn that are each so many versions
    behind; `desk` is asked the same."""
    commands = [{"do": "splice", "line": i % 10, "from": 0, "to": 0, "text": "a"} for i in range(1000)]
    commands += [{"do": "splice", "line": lines - 1 - i, "from": 0, "to": 0, "text": "a"} for i in range(EDITS)]
    if form == "room":
        for i, command in enumerate(commands):
            command |= {"seat": f"seat {i % 10}", "seen": i - behind if i >= 1000 else i}
    return "".join(json.dumps(command) + "\n" for command in commands)


LOCKED = {"pages": "!a\n===\n", "scenes": ".A\n\n"}


def lock_steps():
    """What is timed where pages and scenes are locked, one step after another."""
    splice = [{"do": "splice", "line": 0, "from": 2, "to": 2, "text": "b"}]
    return [("lock_scenes", [{"do": "lock_scenes"}]), ("lock_pages", [{"do": "lock_pages"}]), ("next_round", [{"do": "next_round"}]), ("splice", splice), ("undo", [{"do": "undo"}]), ("save", [{"do": "save"}])]


def least(command, path, runs):
    """The least time of some runs of a shell command."""
    times = []
    for _ in range(runs):
        start = time.perf_counter()
        subprocess.run(command, shell=True, check=True, env={**os.environ, "FILE": str(path), "PROGRAM": str(PROGRAM)})
        times.append(time.perf_counter() - start)
    return min(times)


def resident_peak(process):
    """The most memory that a process has held so far, in bytes; 0 once it has ended."""
    try:
        status = pathlib.Path(f"/proc/{process.pid}/status").read_text()
    except OSError:
        return 0
    return next((int(line.split()[1]) * 1024 for line in status.splitlines() if line.startswith("VmHWM")), 0)


def peak_memory(path):
    """The peak memory of one `print` in bytes: asked for before each piece of its output is read."""
    peak = 0
    with open(path, "rb") as script:
        with subprocess.Popen([PROGRAM, "print"], stdin=script, stdout=subprocess.PIPE) as process:
            while process.stdout.read1(1 << 16):
                peak = max(peak, resident_peak(process))
    return peak


def session_peak(path, commands):
    """The peak memory of one session in bytes: asked for once all is answered, before the session ends."""
    asked = commands.read_bytes()
    with subprocess.Popen([PROGRAM, "desk", path], stdin=subprocess.PIPE, stdout=subprocess.PIPE) as process:
        with concurrent.futures.ThreadPoolExecutor(1) as pool:
            sent = pool.submit(lambda: (process.stdin.write(asked), process.stdin.flush()))
            for _ in asked.splitlines():
                process.stdout.readline()
            sent.result()
            return resident_peak(process)


def main():
    others = {
        "session": time_sessions, "edits": time_edits, "pages": time_pages, "stretches": time_stretches, "sample": time_sample, "locks": time_locks, "cast": time_cast, "collate": time_collate, "room": time_rooms,
    }
    parser = argparse.ArgumentParser()
    parser.add_argument("--kind", choices=sorted([*KINDS, *LINES, *others]), action="append")
    parser.add_argument("--runs", type=int, default=5)
    parser.add_argument("--most", type=int, default=16)
    options = parser.parse_args()
    subprocess.run([TOP / "run", "print"], stdin=subprocess.DEVNULL, check=True)
    kinds = options.kind or [*KINDS, *LINES, *others]
    with tempfile.TemporaryDirectory() as folder:
        folder = pathlib.Path(folder)
        if sizes := [kind for kind in kinds if kind in KINDS]:
            time_sizes(folder, sizes, options)
        if lines := [kind for kind in kinds if kind in LINES]:
            time_lines(folder, lines, options)
        for kind, time_kind in others.items():
            if kind in kinds:
                time_kind(folder, options)


def growth(before, seconds):
    return f"{seconds / before:7.2f}" if before else "      -"


def time_sizes(folder, kinds, options):
    """Times scripts by their size, and prints a row for each."""
    print(f"{'kind':10} {'MiB':>4} {'print s':>9} {'MB/s':>7} {'memory':>7} {'growth':>7} {'/ fold|pr':>9} {'html / print':>12}")
    for kind in kinds:
        before = None
        for size in (1, 2, 4, 8, 16):
            if size > options.most:
                break
            path = folder / f"{kind}{size}"
            path.write_bytes(KINDS[kind](random.Random(size), size * MIB))
            seconds = least(PRINT, path, options.runs)
            other = least('fold -s -w 60 "$FILE" | pr -l 57 > /dev/null', path, options.runs)
            html = least(HTML, path, options.runs)
            count = path.stat().st_size
            memory = peak_memory(path) / count
            print(f"{kind:10} {size:4} {seconds:9.4f} {count / 1e6 / seconds:7.1f} {memory:7.2f} {growth(before, seconds)} {seconds / other:9.2f} {html / seconds:12.2f}", flush=True)
            before = seconds
            path.unlink()


def time_lines(folder, kinds, options):
    """Times scripts by their number of lines, and prints a row for each."""
    print(f"{'kind':10} {'lines':>7} {'print s':>9} {'growth':>7}")
    for kind in kinds:
        before = None
        for lines in (25_000, 50_000, 100_000, 200_000):
            path = folder / f"{kind}{lines}"
            path.write_text(LINES[kind](lines))
            seconds = least(PRINT, path, options.runs)
            print(f"{kind:10} {lines:7} {seconds:9.4f} {growth(before, seconds)}", flush=True)
            before = seconds
            path.unlink()


def time_sessions(folder, options):
    """Times the opening, and a splice or an undo: of some splices in turn, of one alone by which rows stay, and of one by which a row
    comes; by the number of lines, and prints a row for each."""
    kinds = {"in turn": ["Now. "] * SPLICES, "rows stay": ["Now. "], "a row comes": ["Now. " * 12]}
    print(f"{'kind':10} {'lines':>7} {'open s':>9} " + " ".join(f"{kind + ' s':>13}" for kind in kinds))
    for lines in (2_000, 20_000, 200_000):
        path = folder / f"session{lines}"
        path.write_text(SCENE * (lines // 11))
        times = []
        for texts in [[], *kinds.values()]:
            turns = TURNS * SPLICES // len(texts) if texts else 0
            (folder / f"{path.name}.commands").write_text(session(lines, texts, turns))
            times.append(least(DESK, path, options.runs))
        opened, *edited = times
        print(f"{'session':10} {lines:7} {opened:9.4f} " + " ".join(f"{(seconds - opened) / (2 * SPLICES * TURNS):13.7f}" for seconds in edited), flush=True)


def time_edits(folder, options):
    """Times many edits of 200,000 lines, or below a long title page, and their undos beside `print` of the same script in the same run, and
    prints the memory that they add."""
    print(f"{'kind':24} {'print s':>9} {'session s':>9} {'/ print':>8} {'an edit s':>9} {'an undo s':>9} {'more MB':>8}")
    actions, scenes = "!a\n\n" * 100_000, SCENE * (200_000 // 11)
    for kind, text, before, edits in (
        ("lines far apart", actions, [], apart(EDITED)),
        ("random places", scenes, [], anywhere(200_000, EDITED)),
        ("random, lines come", SCENE * (190_000 // 11), [], longer(190_000, EDITED)),
        ("below a title page", TITLED, [], below(BELOW)),
        ("lines apart, locked", actions, LOCKS, apart(EDITED)),
        ("random places, locked", scenes, LOCKS, anywhere(200_000, EDITED)),
        ("typed into a heading", ".H\n\n" + "!a\n\n" * 99_000, [], typed(0, 1, "BH")),
        ("typed into a speech", "BOB\nHi.\n\n" + "!a\n\n" * 99_000, [], typed(1, 0, "JH")),
        ("typed into a name", "ANNA\nx\n\n" + "!a\n\n" * 90_000 + "ANNA\ny\n", [], typed(0, 3, "EA")),
    ):
        path = folder / "edits"
        commands = folder / "edits.commands"
        path.write_text(text)
        printed = least('"$PROGRAM" print "$FILE" > /dev/null', path, options.runs)
        times, peaks = [], []
        # A refused undo is answered, so that there is a reply to ask for the memory before.
        for session in (before + UNDO, before + edits, before + turned(edits)):
            commands.write_text("".join(json.dumps(command) + "\n" for command in session))
            times.append(least(DESK, path, options.runs))
            peaks.append(session_peak(path, commands))
        opened, edited, undone = times
        print(
            f"{kind:24} {printed:9.4f} {undone:9.4f} {undone / printed:8.2f} {(edited - opened) / len(edits):9.6f} {(undone - edited) / len(edits):9.6f} {(peaks[2] - peaks[0]) / 1e6:8.1f}",
            flush=True,
        )


def pages_out():
    """Pages that are far from one another go, each with its page break."""
    return [{"do": "replace", "first": 4 * (PAGES // PAGES_OUT - 1) * k, "count": 4, "lines": []} for k in range(PAGES_OUT)]


def pages_in():
    """Pages come far from one another, some in each round."""
    page = {"do": "replace", "count": 0, "lines": ["!b", "", "===", ""]}
    for number in range(ROUNDS):
        yield from ({**page, "first": 4 * (PAGES // PAGES_IN * k + number)} for k in range(PAGES_IN))
        yield {"do": "next_round"}


def time_pages(folder, options):
    """Times edits of many locked pages of a line beside `print` of the same script in the same run, and prints the memory that they add."""
    print(f"{'kind':24} {'print s':>9} {'session s':>9} {'/ print':>8} {'more MB':>8}")
    path = folder / "pages"
    commands = folder / f"{path.name}.commands"
    path.write_text("!a\n\n===\n\n" * PAGES)
    printed = least('"$PROGRAM" print "$FILE" > /dev/null', path, options.runs)
    peaks = []
    for kind, edits in (
        ("locked", UNDO),
        ("pages out, each undone", [step for edit in pages_out() for step in (edit, *UNDO)]),
        ("pages out, then undone", turned(pages_out())),
        ("pages in, by rounds", [*pages_in()]),
    ):
        commands.write_text("".join(json.dumps(command) + "\n" for command in LOCKS + edits))
        seconds = least(DESK, path, options.runs)
        peaks.append(session_peak(path, commands))
        print(f"{kind:24} {printed:9.4f} {seconds:9.4f} {seconds / printed:8.2f} {(peaks[-1] - peaks[0]) / 1e6:8.1f}", flush=True)


def time_stretches(folder, options):
    """Times lines that go out in the middle of 198,000 and come back, and others that come in and go again, by their number, beside `print` of
    the same script in the same run, and prints the memory that they add."""
    print(f"{'kind':10} {'lines':>7} {'print s':>9} {'session s':>9} {'/ print':>8} {'a command s':>11} {'a line s':>11} {'more MB':>8}")
    path = folder / "stretches"
    commands = folder / f"{path.name}.commands"
    path.write_text("!a\n\n" * 99_000)
    printed = least('"$PROGRAM" print "$FILE" > /dev/null', path, options.runs)
    # A refused undo is answered, so that there is a reply to ask for the memory before.
    commands.write_text("".join(json.dumps(command) + "\n" for command in UNDO))
    opened, peak = least(DESK, path, options.runs), session_peak(path, commands)
    for form in ("out", "in"):
        for count in STRETCHES:
            commands.write_text("".join(json.dumps(command) + "\n" for command in stretches(99_000, count, form)))
            seconds = least(DESK, path, options.runs)
            each = (seconds - opened) / (2 * STRETCHED)
            more = session_peak(path, commands) - peak
            print(f"{'lines ' + form:10} {count:7} {printed:9.4f} {seconds:9.4f} {seconds / printed:8.2f} {each:11.7f} {each / count:11.9f} {more / 1e6:8.1f}", flush=True)


def sample_script():
    """The script of the large sample (docs/RULES.md, "The sample")."""
    cues = ("BERT ^", "BERT", "BERT", "BERT", "BERT")
    return "".join(
        f"INT. ROOM {n} - DAY\n\nThe lamp in room {n} is lit.\n\nANNA\n(to BERT)\nI have counted {n} lamps today. They are all lit.\n\n{cues[n % 5]}\nCount them again.\n\n"
        for n in range(1, ROOMS + 1)
    )


def time_sample(folder, options):
    """Times the large sample beside `print` of its script."""
    path = folder / "sample"
    path.write_text(sample_script())
    printed = least('"$PROGRAM" print "$FILE" > /dev/null', path, options.runs)
    sampled = least(f'"$PROGRAM" sample {ROOMS} > /dev/null', path, options.runs)
    print(f"{'kind':10} {'print s':>9} {'sample s':>9} {'/ print':>8}\n{'sample':10} {printed:9.4f} {sampled:9.4f} {sampled / printed:8.2f}", flush=True)


def time_cast(folder, options):
    """Times the sides of speeches by many names, and of one name in many scenes, by the number of lines."""
    scripts = {
        "names": lambda speeches: "".join(f"@NAME {i % (speeches // 10)}\n\n" for i in range(speeches)),
        "scenes": lambda speeches: "".join(".A\n\n@ANNA\n\n" for _ in range(speeches // 2)),
    }
    print(f"{'kind':10} {'lines':>7} {'cast s':>9} {'growth':>7} {'/ print':>8}")
    for kind, text in scripts.items():
        before = None
        for speeches in (12_500, 25_000, 50_000, 100_000):
            path = folder / f"cast{kind}{speeches}"
            path.write_text(text(speeches))
            seconds = least('"$PROGRAM" cast "$FILE" > /dev/null', path, options.runs)
            other = least(PRINT, path, options.runs)
            print(f"{kind:10} {2 * speeches:7} {seconds:9.4f} {growth(before, seconds)} {seconds / other:8.2f}", flush=True)
            before = seconds
            path.unlink()


def sheets_of(count, letter):
    """So many printed sheets, each with a label and 53 rows."""
    for number in range(1, count + 1):
        label = f"{number}{letter}."
        yield " " * (75 - len(label)) + label + "\n\n" + (" " * 15 + f"row of sheet {label} with some words".ljust(60, "x") + "\n") * 53 + "\f"


def time_collate(folder, options):
    """Times the collation of two files of sheets whose labels lie between each other's, beside `cat` of both, into a file."""
    print(f"{'kind':10} {'MB each':>7} {'collate s':>9} {'growth':>7} {'/ cat':>8}")
    before = None
    for megabytes in (12.5, 25, 50, 100):
        path = folder / "old"
        for name, letter in (("old", ""), ("new", "A")):
            (folder / name).write_text("".join(sheets_of(int(megabytes * 245), letter)))
        seconds = least('"$PROGRAM" collate "$FILE" "${FILE%old}new" > "$FILE.out"', path, options.runs)
        other = least('cat "$FILE" "${FILE%old}new" > "$FILE.out"', path, options.runs)
        print(f"{'collate':10} {megabytes:7} {seconds:9.4f} {growth(before, seconds)} {seconds / other:8.2f}", flush=True)
        before = seconds


def time_rooms(folder, options):
    """Times edits of a room that are up to date, that are 1,000 versions behind, and the same of a desk, by the number of lines."""
    print(f"{'kind':10} {'lines':>7} {'desk s':>9} {'room s':>9} {'/ desk':>7} {'an edit s':>9} {'behind s':>9} {'ratio':>7}")
    for lines in (2_000, 20_000, 200_000):
        path = folder / f"room{lines}"
        path.write_text("!a\n\n" * (lines // 2))
        commands = folder / f"{path.name}.commands"
        times = []
        for form, behind in (("desk", 0), ("room", 0), ("room", 1000)):
            commands.write_text(seats(lines, behind, form))
            times.append(least(f'"$PROGRAM" {form} "$FILE" < "$FILE.commands" > /dev/null', path, 1 if lines == 200_000 else options.runs))
        desk, room, behind = times
        edit = room / (1000 + EDITS)
        late = edit + (behind - room) / EDITS
        print(f"{'room':10} {lines:7} {desk:9.4f} {room:9.4f} {room / desk:7.2f} {edit:9.6f} {late:9.6f} {late / edit:7.2f}", flush=True)


def time_locks(folder, options):
    """Times locks, a round, an edit, its undo and a save by the number of lines, and the opening of what was saved."""
    names = [name for name, _ in lock_steps()]
    print(f"{'kind':10} {'lines':>7} {'open s':>9} " + " ".join(f"{name:>11}" for name in names) + f" {'reopen s':>9}")
    for kind, text in LOCKED.items():
        for lines in (25_000, 50_000, 100_000, 200_000):
            path = folder / f"locks{kind}{lines}"
            commands = folder / f"{path.name}.commands"
            path.write_text(text * (lines // 2))
            commands.write_text("")
            opened = before = least(DESK, path, options.runs)
            done, times = [], []
            for _, step in lock_steps():
                done += step
                commands.write_text("".join(json.dumps(command) + "\n" for command in done))
                pathlib.Path(f"{path}.desk").unlink(missing_ok=True)
                seconds = least(f'rm -f "$FILE.desk"; {DESK}', path, options.runs)
                times.append(seconds - before)
                before = seconds
            commands.write_text("")
            reopened = least(DESK, path, options.runs)
            print(f"{kind:10} {lines:7} {opened:9.4f} " + " ".join(f"{time:11.4f}" for time in times) + f" {reopened:9.4f}", flush=True)


if __name__ == "__main__":
    main()

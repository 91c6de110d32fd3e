"""Holds what lines, stanzas, a script and a desk lend over an edit of them: the toolchain has to refuse each such call, for the borrow alone, and
to take it where what is lent is let go before the edit.

It needs `rt`, which reads the sources of the crates of a desk twice for this, and proves nothing. It takes a minute of processor time.
"""

import pathlib
import re
import shutil
import subprocess
import sys
import tempfile

from program import TOP
from report import tell

USES = """\
//! What is lent, and edits.
#![tactic(auto)]

use sp_blocks::PlacedBlock;
use sp_desk::Desk;
use sp_kit::Counter;
use sp_print::{CellText, PageView, RowView, SheetLabel};
use sp_records::Records;
use sp_reread::{Stanzas, Swapped, placed_blocks};
use sp_state::{Entry, Script};
use sp_text::{Displaced, Edit, Lines};
use sp_wire::Command;
use std::alloc::{AllocError, Global};

fn rows(page: &Option<PageView<'_>>) -> usize {
    match page {
        Some(page) => page.rows(),
        None => 0,
    }
}

fn first_row(script: &Script) -> Option<RowView<'_>> {
    match script.sheet(0) {
        Some(page) => Some(page.row(0)),
        None => None,
    }
}

fn cells(row: &Option<RowView<'_>>) -> usize {
    match row {
        Some(row) => row.cells(),
        None => 0,
    }
}

fn first_text(desk: &Desk) -> &str {
    match desk.sheet(0) {
        None => "",
        Some(page) => match page.row(0).cell(0).text {
            CellText::Slice(text) => text,
            CellText::Label(_) => "",
        },
    }
}

fn first_label(script: &Script) -> Option<SheetLabel<'_>> {
    match script.sheet(0) {
        Some(page) => page.label(),
        None => None,
    }
}

fn steps_in(label: &Option<SheetLabel<'_>>) -> usize {
    match label {
        Some(label) => label.first.path.len(),
        None => 0,
    }
}

fn count(blocks: &Result<Vec<PlacedBlock<'_>>, AllocError>) -> usize {
    match blocks {
        Ok(blocks) => blocks.len(),
        Err(_) => 0,
    }
}
"""
SCRIPT, DESK = "script: &mut Script, alloc: Global", "desk: &mut Desk, alloc: Global, command: Command, steps: &mut Counter"
COMMAND = "desk.apply(alloc, command, steps)"
# What is held over what: parameters, what is lent, what sees it, and the edit.
CASES = {
    "line_over_change": ("lines: &mut Lines, edit: Edit", "lines.line(0).text", "lent.len()", "lines.change(edit, 0)"),
    "line_over_restore": ("lines: &mut Lines, back: Displaced", "lines.line(0)", "lent.text.len()", "lines.restore(back)"),
    "stanza_over_update": (
        "lines: &Lines, stanzas: &mut Stanzas, steps: &mut Counter",
        "stanzas.stanza(0)",
        "lent.blocks.len()",
        "stanzas.update(lines, 0, 0, 0, steps)",
    ),
    "blocks_over_put_back": (
        "alloc: Global, stanzas: &mut Stanzas, back: Swapped",
        "placed_blocks(alloc, stanzas)",
        "count(&lent)",
        "stanzas.put_back(back)",
    ),
    "sheet_over_edit": (f"{SCRIPT}, edit: Edit, steps: &mut Counter", "script.sheet(0)", "rows(&lent)", "script.edit(alloc, edit, steps)"),
    "row_over_edit": (f"{SCRIPT}, edit: Edit, steps: &mut Counter", "first_row(script)", "cells(&lent)", "script.edit(alloc, edit, steps)"),
    "view_over_turn": (f"{SCRIPT}, entry: Entry", "script.view()", "lent.body_sheets().len()", "script.turn(alloc, entry)"),
    "label_over_round": (SCRIPT, "first_label(script)", "steps_in(&lent)", "script.next_round(alloc)"),
    "sheet_over_command": (DESK, "desk.sheet(0)", "rows(&lent)", COMMAND),
    "text_over_command": (DESK, "first_text(desk)", "lent.len()", COMMAND),
    "lines_over_command": (DESK, "desk.lines()", "lent.len()", COMMAND),
    "records_over_command": (DESK, "desk.records()", "lent.round as usize", COMMAND),
}
HELD = "    let lent = {lent};\n    let done = {edit};\n    drop(done);\n    {seen}\n"
LET_GO = "    let seen = {{\n        let lent = {lent};\n        {seen}\n    }};\n    let done = {edit};\n    drop(done);\n    seen\n"
# Of the line of an edit, for what is lent on the line before it.
REFUSAL = re.compile(r"src/main\.rt:(\d+):\d+: error\[borrow-e0502\].*: the borrow is at src/main\.rt:(\d+):")


def program(body):
    """A program with each case, which calls none, and the line of each edit in it."""
    text, edits = USES, {}
    for name, (takes, lent, seen, edit) in CASES.items():
        text += f"\npub fn {name}({takes}) -> usize {{\n" + body.format(lent=lent, seen=seen, edit=edit) + "}\n"
        edits[text[: text.rindex(f"= {edit};")].count("\n") + 1] = name
    return text + "\nfn main(rt: HostRuntime) {\n}\n", edits


def tried(folder, text):
    """Begins to try a program over copies of the sources."""
    listed = (TOP / "crates.txt").read_text()
    names = re.findall(r"^(\w+)\b.*:", listed, re.M)
    for name in names:
        shutil.copytree(TOP / "crates" / name / "src", folder / "crates" / name / "src")
    used = [name for name in names if re.search(rf"\b{name}::", text)]
    (folder / "crates.txt").write_text(f"{listed}\nlent: {' '.join(used)}\n")
    main = folder / "crates/lent/src/main.rt"
    main.parent.mkdir(parents=True)
    main.write_text(text)
    return subprocess.Popen(["rt", "try", "--steps", "1"], cwd=main.parent.parent, stdout=subprocess.PIPE, stderr=subprocess.STDOUT, text=True)


def refused_among(said, edits):
    """The cases whose edit is refused for the borrow, and each line that tells another error."""
    cases, others = set(), []
    for line in said.splitlines():
        at, lent = map(int, found.groups()) if (found := REFUSAL.match(line)) else (0, 0)
        if at in edits and lent == at - 1:
            cases.add(edits[at])
        elif "error" in line:
            others.append(line)
    return cases, others


def faults():
    (held, edits), (let_go, _) = program(HELD), program(LET_GO)
    with tempfile.TemporaryDirectory() as one, tempfile.TemporaryDirectory() as other:
        refused, taken = tried(pathlib.Path(one), held), tried(pathlib.Path(other), let_go)
        said, (told, _) = refused.communicate()[0], taken.communicate()
    cases, others = refused_among(said, edits)
    yield from (f"{name} isn't refused" for name in CASES if name not in cases)
    yield from (f"refused, but not for the borrow: {line}" for line in others)
    if taken.returncode:
        yield f"what is let go before the edit isn't taken: {told}"


def main():
    return tell("borrows", f"{len(CASES)} views are held over an edit", list(faults()))


if __name__ == "__main__":
    sys.exit(main())

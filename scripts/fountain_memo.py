"""What a round of revisions changed, told for people: the sheets that have to be handed out anew, and the scenes."""

from fountain_common import records_of, round_name
from fountain_desk import BLOCKS, LABELS, OUTLINE, PACKET, Desk
from fountain_kept import begun
from fountain_sheets import UNPRINTED, scenes_of


class Scene:
    """A scene: its label, its heading, the sheet that it begins on, and what is printed of it; where it is gone its label alone."""

    def __init__(self, label, sheet, heading):
        self.label, self.sheet, self.heading = label, sheet, heading
        self.is_gone = sheet == "-"
        self.blocks = []

    def shown(self):
        return [(block["kind"], block["dual"], block["lines"]) for block in self.blocks]

    def has_mark(self, marks, number):
        return any(number in marks[block["first"] : block["last"] + 1] for block in self.blocks)


def all_scenes(desk):
    """The scenes of a script whose scenes are locked, in order."""
    scenes = [Scene(*row) for row in scenes_of(desk.ask(OUTLINE)["outline"])]
    there = iter([scene for scene in scenes if not scene.is_gone])
    scene = Scene("", "", "")
    for block in desk.ask(BLOCKS)["blocks"]:
        if block["kind"] == "heading":
            scene = next(there)
        if block["kind"] not in UNPRINTED:
            scene.blocks.append(block)
    return scenes


def all_sheets(desk):
    return desk.ask_all([{"do": "sheet", "index": at} for at in range(len(desk.ask(LABELS)["labels"]))])


class Sheets:
    """All sheets of a script and their places in its packet."""

    def __init__(self, desk):
        self.all = all_sheets(desk)
        self.packet = desk.ask(PACKET)["sheets"]
        self.texts = [sheet["text"] for sheet in self.all]
        self.by_label = {sheet["label"]: sheet["text"] for sheet in self.all if sheet["label"]}


class Memo:
    """What changed in the round that a script is in. Where no copy of it as the round began is kept, the marks of lines alone tell that."""

    def __init__(self, file, desk):
        self.records = records_of(file)
        self.round = self.records["round"]
        self.sheets, self.scenes = Sheets(desk), all_scenes(desk)
        self.old_sheets = self.old_scenes = None
        copy = begun(file, self.records)
        if copy:
            with Desk(copy) as old:
                self.old_sheets, self.old_scenes = Sheets(old), {scene.label: scene for scene in all_scenes(old)}
        self.handed = self.sheets_to_hand_out()

    def sheets_to_hand_out(self):
        """Those of the packet. That these bring the old ones up to date is proved where each session opens what the one before saved; any
        other that isn't as it was goes with them."""
        changed = (at for at, sheet in enumerate(self.sheets.all) if self.old_sheets and self.is_new(sheet))
        return [self.sheets.all[at] for at in sorted({*self.sheets.packet, *changed})]

    def is_empty(self):
        """Whether no sheet differs from what was handed out before."""
        if self.old_sheets:
            return self.sheets.texts == self.old_sheets.texts
        return not any(map(self.is_new, self.handed))

    def is_new(self, sheet):
        """Whether a sheet isn't as it was, or nothing tells that it is: a title sheet that lost lines has no mark."""
        if not self.old_sheets:
            return sheet["round"] == self.round or not sheet["label"]
        if not sheet["label"]:
            return sheet["text"] not in self.old_sheets.texts
        return self.old_sheets.by_label.get(sheet["label"]) != sheet["text"]

    def sheet_rows(self):
        locked = {page[0] for page in self.records["pages"]}
        for sheet in self.handed:
            if not self.is_new(sheet):
                what = "as it was"
            elif is_omitted(sheet):
                what = "OMITTED"
            elif self.old_sheets and rows_of(self.old_sheets.by_label.get(sheet["label"])) == rows_of(sheet["text"]):
                what = "no row changed"
            else:
                what = "changed" if not sheet["label"] or sheet["label"] in locked else "new"
            yield sheet["label"] or "title page", round_name(sheet["round"]), what

    def scene_rows(self):
        locked = {scene[0] for scene in self.records["scenes"]}
        for scene in self.scenes:
            old = self.old_scenes.get(scene.label) if self.old_scenes else None
            if scene.is_gone:
                if not self.old_scenes:
                    yield scene.label, "OMITTED", "in this round or before"
                elif not old.is_gone:
                    yield scene.label, "OMITTED", old.heading
            elif scene.label not in locked:
                yield scene.label, "new", f"{scene.heading}, sheet {scene.sheet}"
            elif scene.has_mark(self.records["marks"], self.round) or old and old.shown() != scene.shown():
                yield scene.label, "changed", f"{scene.heading}, sheet {scene.sheet}"

    def text(self, name):
        out = [f"Change memo: {name}, {round_name(self.round)}", "", "Sheets to hand out:", *columns(self.sheet_rows())]
        out += ["", "Scenes, each with the sheet that it begins on:", *columns(self.scene_rows())]
        if not self.old_scenes:
            out += ["", "No copy of the script as this round began is kept, so a scene that only lost lines isn't told."]
        return "\n".join(out) + "\n"


def rows_of(text):
    """A sheet without its header."""
    return text and text.split("\n", 1)[1]


def is_omitted(sheet):
    return sheet["text"].split("\n")[2] == " " * 15 + "OMITTED"


def columns(rows):
    rows = list(rows)
    if not rows:
        return ["  none"]
    widths = [max(len(row[at]) for row in rows) for at in (0, 1)]
    return [f"  {row[0]:{widths[0]}}  {row[1]:{widths[1]}}  {row[2]}" for row in rows]

"""What changed from one list of lines to another: which lines are other ones now, which went and which came. Lines that stayed are never
named, and of all lines that print something as many stay as `diff` finds."""

import bisect
import pathlib
import re
import shutil
import subprocess
import tempfile
import typing

from fountain_common import stop

# Up to so many lines `diff` finds the least change, and up to so many pairs of lines are compared by their letters.
LEAST, PAIRS = 20_000, 1_000_000
# Lines are alike where they share this much of their triples of characters.
ALIKE = 0.6


class Change(typing.NamedTuple):
    """So many old lines from `first` on go, and the lines from `at` on come in their place. Where it is paired they are as many, and
    each is the old one, changed."""

    first: int
    count: int
    at: int
    lines: list
    is_paired: bool

    def is_loose(self):
        return not self.is_paired and not (self.count and self.lines)

    def joins(self, other):
        """Whether both only take lines away, or both only put some."""
        return other.is_loose() and bool(self.count) == bool(other.count)


def is_empty(line):
    return not line.strip(" \t")


def is_blank(line):
    """Whether a line prints nothing: an empty one, or a page break. There are many, so they don't tell where a line of before stands now."""
    return not line.strip(" \t=")


def same_ends(old, new):
    """How many items of two lists are the same at their beginning, and of the others at their end."""
    most = min(len(old), len(new))
    front = next((at for at in range(most) if old[at] != new[at]), most)
    back = next((at for at in range(most - front) if old[-1 - at] != new[-1 - at]), most - front)
    return front, back


def common_places(old, new):
    """Pairs of places of equal items, rising on both sides, as many as `diff` finds; where that can be, those of items that stand once on
    both sides are among them."""
    plain = matched(old, new)
    once = once_pairs(old, new)
    held = matched(numbered(old, [i for i, _ in once]), numbered(new, [j for _, j in once]))
    return held if len(held) >= len(plain) else plain


def numbered(items, places):
    """Each item with how many of these places stand before it."""
    return [(bisect.bisect_left(places, at), item) for at, item in enumerate(items)]


def matched(old, new):
    front, back = same_ends(old, new)
    pairs = [(at, at) for at in range(front)]
    both = set(old[front : len(old) - back]) & set(new[front : len(new) - back])
    sides = [[at for at in range(front, len(side) - back) if side[at] in both] for side in (old, new)]
    if all(sides):
        pairs += [(sides[0][i], sides[1][j]) for i, j in diffed([old[at] for at in sides[0]], [new[at] for at in sides[1]])]
    return pairs + [(len(old) - at, len(new) - at) for at in range(back, 0, -1)]


def diffed(old, new):
    """Pairs of places of equal items, by `diff`."""
    if not shutil.which("diff"):
        stop("diff isn't on the path: it comes with the Debian package diffutils")
    numbers = {}
    with tempfile.TemporaryDirectory() as folder:
        for name, side in (("old", old), ("new", new)):
            text = "".join(f"{numbers.setdefault(item, len(numbers))}\n" for item in side)
            pathlib.Path(folder, name).write_text(text)
        words = ["diff", *(["--minimal"] if len(old) + len(new) <= LEAST else [])]
        words += [f"--{kind}-group-format=" for kind in ("old", "new", "changed")]
        words += ["--unchanged-group-format=%df %dF %dn\n", "old", "new"]
        told = subprocess.run(words, cwd=folder, capture_output=True, text=True)
    if told.returncode > 1:
        stop(told.stderr.strip().split("\n")[0])
    for line in told.stdout.splitlines():
        i, j, count = map(int, line.split())
        yield from ((i - 1 + at, j - 1 + at) for at in range(count))


# Lines that changed


def triples(line):
    line = f" {line.strip()} "
    return {line[at : at + 3] for at in range(len(line) - 2)}


def likeness(one, other):
    """How much two lines share of their triples, from 0 to 1; 0 where they aren't alike."""
    most, least = max(len(one), len(other)), min(len(one), len(other))
    shared = len(one & other) if least >= ALIKE * most else 0
    return shared / most if shared >= ALIKE * most else 0


def likenesses(old, new):
    """For pairs of places of lines that are alike, how much. Triples are held of the side with fewer lines alone."""
    is_turned = len(old) > len(new)
    few, many = (new, old) if is_turned else (old, new)
    held, found = [triples(line) for line in few], {}
    for at, line in enumerate(many):
        those = triples(line)
        for place, these in enumerate(held):
            alike = likeness(these, those)
            if alike:
                found[(at, place) if is_turned else (place, at)] = alike
    return found


def best_pairs(weights, rows, columns):
    """Pairs of places, rising on both sides, of the greatest weight in all; of several such the last, since a heading goes with what stands
    behind it."""
    best = [[0] * (columns + 1) for _ in range(rows + 1)]
    for i in reversed(range(rows)):
        row, below = best[i], best[i + 1]
        for j in reversed(range(columns)):
            weight = weights.get((i, j))
            row[j] = max(below[j], row[j + 1], below[j + 1] + weight if weight else 0)
    i = j = 0
    while i < rows and j < columns:
        if best[i][j] == best[i + 1][j]:
            i += 1
        elif best[i][j] == best[i][j + 1]:
            j += 1
        else:
            yield i, j
            i, j = i + 1, j + 1


def letters(line):
    return re.sub(r"[\W_]+", "", line).casefold()


def once_pairs(old, new):
    """Pairs of places of items that stand once on both sides, the most that rise on both."""
    where = [{}, {}]
    for places, side in zip(where, (old, new)):
        for at, item in enumerate(side):
            places[item] = None if item in places else at
    pairs = [(i, where[1][item]) for item, i in where[0].items() if item and i is not None and where[1].get(item) is not None]
    tails, ends, before = [], [], []
    for at, (_, j) in enumerate(pairs):
        place = bisect.bisect(tails, j)
        before.append(ends[place - 1] if place else None)
        tails[place : place + 1], ends[place : place + 1] = [j], [at]
    chain, at = [], ends[-1] if ends else None
    while at is not None:
        chain.append(pairs[at])
        at = before[at]
    return chain[::-1]


class Changes:
    """The changes from old lines to new ones; `old_headings` and `new_headings` are the places of headings."""

    def __init__(self, old, new, old_headings=(), new_headings=()):
        self.old, self.new = old, new
        self.headings = set(old_headings), set(new_headings)
        self.left = PAIRS
        self.found = []
        self.find()

    def is_kin(self, i, j):
        return (i in self.headings[0]) == (j in self.headings[1])

    def find(self):
        old, new = self.full(self.old, 0, len(self.old)), self.full(self.new, 0, len(self.new))
        kept = [(old[i], new[j]) for i, j in common_places([self.old[at] for at in old], [self.new[at] for at in new])]
        gaps, i, j = [], 0, 0
        for k, m in [*kept, (len(self.old), len(self.new))]:
            if self.old[i:k] != self.new[j:m]:
                gaps.append((self.full(self.old, i, k), self.full(self.new, j, m), (i, k, j, m)))
            i, j = k + 1, m + 1
        # The small ones first, so that a large one uses up no more than what they leave.
        for old, new, gap in sorted(gaps, key=lambda gap: len(gap[0]) * len(gap[1])):
            self.fill(gap, self.pairs(old, new))
        self.sort()
        self.settle()
        self.pair_neighbours()

    def sort(self):
        self.found.sort(key=lambda change: (change.first, change.at))

    def pairs(self, old, new):
        """Which of the old lines at these places are which of the new ones, changed."""
        size = len(new) * sum(1 + len(self.old[at]) // 64 for at in old)
        if size <= self.left:
            self.left -= size
            weights = likenesses([self.old[at] for at in old], [self.new[at] for at in new])
            weights = {(i, j): alike if self.is_kin(old[i], new[j]) else alike / 2 for (i, j), alike in weights.items()}
            return [(old[i], new[j]) for i, j in best_pairs(weights, len(old), len(new))]
        sure = once_pairs([letters(self.old[at]) for at in old], [letters(self.new[at]) for at in new])
        if sure:
            pairs, i, j = [], 0, 0
            for k, m in [*sure, (len(old), len(new))]:
                pairs += self.pairs(old[i:k], new[j:m])
                pairs += [(old[k], new[m])] if k < len(old) else []
                i, j = k + 1, m + 1
            return pairs
        return list(zip(old, new)) if len(old) == len(new) else []

    def fill(self, gap, pairs):
        """Finds the changes of a gap, where these lines are paired."""
        i, k, j, m = gap
        for first, at in pairs:
            self.exchange(i, first, j, at)
            self.pair(first, at)
            i, j = first + 1, at + 1
        self.exchange(i, k, j, m)

    def pair(self, i, j):
        if self.old[i] != self.new[j]:
            self.found.append(Change(i, 1, j, [self.new[j]], True))

    def full(self, side, first, end):
        return [at for at in range(first, end) if not is_blank(side[at])]

    def before_heading(self, side, first, end):
        return next((at for at in range(first, end) if at in self.headings[side]), end)

    def exchange(self, i, k, j, m):
        """Finds the changes between places of both sides where no line is paired. One line in place of one is that line, changed, unless
        just one of them is a heading. What comes before a heading has the place of what went before one."""
        front, back = same_ends(self.old[i:k], self.new[j:m])
        i, k, j, m = i + front, k - back, j + front, m - back
        old, new = self.full(self.old, i, k), self.full(self.new, j, m)
        ends = self.before_heading(0, i, k), self.before_heading(1, j, m)
        if i < k and j < m and (i, j) != ends != (k, m):
            self.exchange(i, ends[0], j, ends[1])
            self.exchange(ends[0], k, ends[1], m)
        elif len(old) == len(new) == 1 and self.is_kin(old[0], new[0]):
            self.fill((i, k, j, m), [(old[0], new[0])])
        elif (i, j) != (k, m):
            self.found.append(Change(i, k - i, j, self.new[j:m], False))

    def settle(self):
        """Moves changes that only take lines away, or only put some, as far as equal lines let them: to the next one of their kind, of which
        they become part, or else to where they begin with a heading or behind an empty line."""
        left, done = self.found[::-1], []
        while left:
            change = left.pop()
            if not change.is_loose():
                done.append(change)
                continue
            before = done[-1] if done else Change(0, 0, 0, [], True)
            after = left[-1] if left else Change(len(self.old), 0, len(self.new), [], True)
            up, down = self.reach(change, change.first - before.first - before.count, after.first - change.first - change.count)
            if change.joins(before) and self.moved(change, up).first == before.first + before.count:
                left.append(self.as_one(done.pop(), change))
            elif change.joins(after) and self.moved(change, down).first + change.count == after.first:
                left.append(self.as_one(self.moved(change, down), left.pop()))
            else:
                done.append(max((self.moved(change, by) for by in range(up, down + 1)), key=self.rank))
        self.found = done

    def side_of(self, change):
        """The lines that a change takes away, or those that it puts: their side, the headings there, their first place and their number."""
        if change.count:
            return self.old, self.headings[0], change.first, change.count
        return self.new, self.headings[1], change.at, len(change.lines)

    def reach(self, change, up, down):
        """How far a change can move up, as a number below 0, and down, by no more than these."""
        side, _, first, size = self.side_of(change)
        by = [0, 0]
        while -by[0] < up and side[first + by[0] - 1] == side[first + by[0] + size - 1]:
            by[0] -= 1
        while by[1] < down and side[first + by[1]] == side[first + by[1] + size]:
            by[1] += 1
        return by

    def rank(self, change):
        side, headings, first, _ = self.side_of(change)
        return first in headings, not is_empty(side[first]) and (not first or is_empty(side[first - 1])), first

    def moved(self, change, by):
        at = change.at + by
        return change._replace(first=change.first + by, at=at, lines=self.new[at : at + len(change.lines)])

    def as_one(self, one, other):
        """Two changes of a kind, where the second is moved up to the first."""
        size = len(one.lines) + len(other.lines)
        return Change(one.first, one.count + other.count, one.at, self.new[one.at : one.at + size], False)

    def pair_neighbours(self):
        """Finds what changed anew where lines go and lines come with none that stays between them."""
        left, self.found = self.found[::-1], []
        while left:
            group = [left.pop()]
            while left and left[-1].first == group[-1].first + group[-1].count:
                group.append(left.pop())
            first, last = group[0], group[-1]
            i, k, j, m = first.first, last.first + last.count, first.at, last.at + len(last.lines)
            loose = [change for change in group if change.is_loose()]
            if any(change.count for change in loose) and any(change.lines for change in loose):
                self.fill((i, k, j, m), self.pairs(self.full(self.old, i, k), self.full(self.new, j, m)))
            else:
                self.found += group
        self.sort()


# Texts


def joined(changes):
    """Changes in order, with neighbours that are paired as one."""
    out = []
    for change in changes:
        last = out[-1] if out else None
        if last and change.is_paired and last.is_paired and (last.first + last.count, last.at + last.count) == (change.first, change.at):
            last.lines.extend(change.lines)
            out[-1] = last._replace(count=last.count + change.count)
        else:
            out.append(change)
    return out


def changes_of(old, new, old_headings=(), new_headings=()):
    return joined(Changes(old, new, old_headings, new_headings).found)


def merged(mine, old, yours):
    """What is `yours` with what `mine` changed of `old`; and where both changed the same lines, each in its way, the place of the first of
    them in `mine`."""
    own, theirs = Changes(old, mine).found, Changes(old, yours).found
    both = {(change.first, change.count, tuple(change.lines)) for change in theirs}
    ends, moved = [change.first + change.count for change in theirs], [0]
    for change in theirs:
        moved.append(moved[-1] + len(change.lines) - change.count)
    out, at = [], 0
    for change in own:
        if (change.first, change.count, tuple(change.lines)) in both:
            continue
        before = bisect.bisect_right(ends, change.first)
        if before < len(theirs) and theirs[before].first < change.first + change.count:
            return None, change.at
        place = change.first + moved[before]
        out += yours[at:place] + change.lines
        at = place + change.count
    return out + yours[at:], None

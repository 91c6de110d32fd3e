"""The commands of the desk that make changes of fountain_changes."""

import json

from fountain_common import BYTES, COMMAND, LINES

# More bytes than a command has beside its lines.
HEAD = 200


def parted(lines):
    """Lines in parts that each fit a command."""
    part, size = [], 0
    for line in lines:
        length = len(json.dumps(line, ensure_ascii=False).encode()) + 1
        if part and size + length > COMMAND - HEAD:
            yield part
            part, size = [], 0
        part.append(line)
        size += length
    yield part


def replaced(first, count, lines=()):
    return {"do": "replace", "first": first, "count": count, "lines": list(lines)}


def paired(first, lines):
    """Commands that put a line in the place of each from the first on."""
    for part in parted(lines):
        yield replaced(first, len(part), part)
        first += len(part)


def inserted(first, lines):
    """Commands that put lines in at a place, the last ones first."""
    return [replaced(first, 0, part) for part in parted(lines)][::-1]


def commands_of(old, changes):
    """The commands that make the changes, and for each the change that it is of. They go from the end to the front, so earlier places hold.
    What comes goes in before what it takes the place of goes, so that a locked page that began there begins with it."""
    put = [line for change in changes for line in change.lines]
    more = sum(len(change.lines) for change in changes if not change.is_paired)
    if len(old) + more > LINES or sum(len(line.encode()) + 1 for line in old + put) > BYTES:
        return roomy_commands(old, changes)
    commands = []
    for change in reversed(changes):
        if change.is_paired:
            commands += ((command, change) for command in paired(change.first, change.lines))
            continue
        if change.lines:
            commands += ((command, change) for command in inserted(change.first + change.count, change.lines))
        if change.count:
            commands.append((replaced(change.first, change.count), change))
    return commands


def roomy_commands(old, changes):
    """The same where not all that comes fits beside what goes: first what makes the text shorter."""
    shrinking, going, coming, gone = [], [], [], 0
    for change in changes:
        if change.is_paired:
            for at, line in enumerate(change.lines, change.first):
                if len(line.encode()) <= len(old[at].encode()):
                    shrinking.append((replaced(at, 1, [line]), change))
                else:
                    coming.append((replaced(at - gone, 1, [line]), change))
            continue
        if change.count:
            going.append((replaced(change.first, change.count), change))
        if change.lines:
            coming += ((command, change) for command in reversed(inserted(change.first - gone, change.lines)))
        gone += change.count
    return shrinking + going[::-1] + coming[::-1]

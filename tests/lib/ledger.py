"""A ledger of random edits on two sides, and the judgement of what a bridge made of them."""
import collections
import json

from bridging import expect

SCALARS = ("description", "project", "priority", "due", "wait", "scheduled", "until")
KEPT = ("uuid", "status", "entry", "modified", "start", "end", "tags", "annotations", "depends", "mask", "imask", "parent", "recur", "rtype", "id", "urgency")

# Taskwarrior has these as numbers, which are texts on a board where they have a fraction.
NUMBERS = ("cost",)


def is_template(task):
    return task["status"] == "recurring" or "recur" in task and "parent" not in task


def as_text(value):
    """A value as it is compared: numbers by their digits."""
    if isinstance(value, bool):
        return str(value).lower()
    if isinstance(value, (int, float)):
        return str(int(value)) if value == int(value) else str(round(value, 6))
    return value


def shown(task, known):
    """What both sides have to say alike of a task."""
    status = task["status"] if task["status"] in ("completed", "deleted") else "open"
    said = {name: as_text(float(value) if name in NUMBERS else value) for name, value in task.items() if name not in KEPT and value is not None and value != ""}
    said.update(status=status, started=status == "open" and "start" in task)
    said["tags"] = sorted(task.get("tags", []))
    said["notes"] = sorted(note["description"] for note in task.get("annotations", []))
    said["links"] = sorted(link for link in task.get("depends", []) if link in known)
    return said


def all_shown(left, right):
    """Both sides in one form; templates are the board's alone, and so are tasks that were deleted before the other side had them."""
    left = {uuid: task for uuid, task in left.items() if not is_template(task)}
    right = {uuid: task for uuid, task in right.items() if task["status"] != "recurring"}
    one_sided = {uuid for uuid in {*left} ^ {*right} if (left.get(uuid) or right[uuid])["status"] == "deleted"}
    known = ({*left} | {*right}) - one_sided
    return tuple({uuid: shown(task, known) for uuid, task in side.items() if uuid not in one_sided} for side in (left, right))


def expect_alike(name, left, right):
    """Ends the test where the sides differ; what both say."""
    lefts, rights = all_shown(left, right)
    expect(f"{name}: which tasks there are", sorted(lefts), sorted(rights))
    for uuid, said in lefts.items():
        expect(f"{name}: {uuid}", said, rights[uuid])
    return lefts


class Ledger:
    """What was edited since both sides were alike. An edit is lost where its value is neither there, nor was seen by a later edit, nor is
    kept as a note that names its side; but nobody can know what a side had at first, nor of a value that comes back between two looks."""

    def __init__(self, line):
        # It knows how often the bridge has looked at both sides.
        self.line = line
        self.values, self.added, self.removed, self.count = collections.defaultdict(list), set(), set(), 0
        self.conflicts = 0

    def set(self, side, uuid, name, before, value, noted=None):
        """An edit on a side, by somebody who saw the value that was there before; `noted` is what a note says of it, where that is
        another text."""
        if before == value:
            return
        self.count += 1
        look = self.line.looks
        for edit in self.values[uuid, name]:
            edit["seen"] = edit["seen"] or edit["value"] == before and (edit["side"] == side or edit["look"] < look)
        # What was removed before the first look comes again from the side that has it.
        is_unknown = value is None and look == 0
        self.values[uuid, name].append({"side": side, "look": look, "before": before, "value": value, "seen": is_unknown, "noted": noted or value})

    def add(self, uuid, kind, value):
        self.count += 1
        self.added.add((uuid, kind, value))

    def remove(self, uuid, kind, value):
        self.count += 1
        if self.line.looks:
            self.removed.add((uuid, kind, value))
        else:
            self.added.discard((uuid, kind, value))

    @staticmethod
    def saw(edits, side, values, look):
        """Whether an edit after a look, on the side other than this, saw one of the values, and not as its own."""
        own = None
        for it in [it for it in edits if it["side"] != side]:
            if it["look"] > look and it["before"] in values and own != it["before"]:
                return True
            own = it["value"]
        return False

    def came_back(self, edits, at):
        """Whether an edit gives its side the value again that the bridge knows there. A killed run may have looked meanwhile, if nobody on
        the other side saw another value of this side after that."""
        edit, was, between = edits[at], edits[at]["before"], set()
        for other in reversed([it for it in edits[:at] if it["side"] == edit["side"]]):
            if other["value"] != was or set(range(other["look"] + 1, edit["look"] + 1)) - self.line.cut:
                return False
            between.add(was)
            if other["before"] == edit["value"]:
                return other["look"] == edit["look"] or not self.saw(edits, edit["side"], between, other["look"])
            was = other["before"]
        return False

    def judge(self, said):
        """Ends the test where an edit was lost without a word."""
        # (a task that was deleted before the other side had it is there alone)
        for (uuid, name), edits in [item for item in self.values.items() if item[0][0] in said]:
            final, notes = said[uuid].get(name), said[uuid]["notes"]
            for at, edit in enumerate(edits):
                was = "was removed" if edit["noted"] is None else "was " + json.dumps(edit["noted"], ensure_ascii=False)
                is_noted = f"sync: {name} {was} {edit['side']}" in notes
                self.conflicts += is_noted and edit["value"] != final
                is_elsewhere = any(other["side"] != edit["side"] and other["value"] == final for other in edits)
                if not (edit["seen"] or edit["value"] == final or is_noted or is_elsewhere and self.came_back(edits, at)):
                    expect(f"{uuid} {name} of {edits}", edit["value"], (final, notes))
        for uuid, kind, value in [it for it in self.added - self.removed if it[0] in said and (it[1] != "links" or it[2] in said)]:
            if said[uuid][kind].count(value) != 1:
                expect(f"{uuid}: {kind} with {value}", 1, said[uuid][kind].count(value))
        for uuid, kind, value in [it for it in self.removed if it[0] in said]:
            expect(f"{uuid}: {kind} without {value}", 0, said[uuid][kind].count(value))
        self.values.clear()
        self.added.clear()
        self.removed.clear()

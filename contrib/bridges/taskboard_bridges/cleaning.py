"""What Taskwarrior exported as a board's import takes it: respelled, in order, and what can't be taken left out. Nothing is kept here."""
import re

from taskboard_bridges.circles import circles
from taskboard_bridges.json_texts import Whole, has_controls, is_writable, objects_of, written
from taskboard_bridges.judging import dropped_from, fault_in_text, faults_in, is_instance, is_text, links_of, makes_instances, place_of, status_of
from taskboard_bridges.steps import respelled

# What one call takes, and a board.
MOST_AT_ONCE, MOST_BODY, MOST_TASKS = 1000, 1048576, 10000
SHORT = 80


class Entry:
    """A task of the text: as a board takes it, what was changed for that, and why it can't be taken."""

    def __init__(self, given, text):
        self.changes = ["control characters are written as JSON has them"] if has_controls(text) else []
        self.task = {name: kept for name, value in given.items() for kept in self.cleaned(name, value)}
        self.faults = faults_in(self.task)
        self.id = str(self.task.get("uuid")).lower()
        self.line = written(self.task) if not self.faults else ""
        fault = fault_in_text(self.line, MOST_BODY - 2)
        self.faults += [f"its JSON has {fault}"] if fault else []
        self.is_double = False

    def cleaned(self, name, value):
        """The value of a member as a board takes it, in a list; none where it can't be written."""
        if isinstance(value, Whole):
            self.changes.append(f"{name} {value.text} is {int(value)}")
            return [int(value)]
        if name == "imask" and is_text(value) and (place := whole_place(value)) is not None:
            self.changes.append(f"imask {value} is {place}")
            return [place]
        step = respelled(value) if name == "recur" and is_text(value) else None
        if step and step != value:
            self.changes.append(f"recur {value} is {step}")
            return [step]
        if not is_text(value) and not is_writable(value):
            self.changes.append(f"{one_line(name)} is left out: it can't be written as JSON")
            return []
        return [value]

    def parent(self):
        """The template of an instance; None of another task."""
        parent = self.task.get("parent")
        return parent.lower() if is_instance(self.task) and parent else None

    def name(self):
        return named(self.task)


def whole_place(text):
    """The place that a text with a fraction of zeros has among a template's instances, or None."""
    found = re.fullmatch(r"([0-9]+)\.0+", text)
    return int(found[1]) if found and int(found[1]) < 2**32 else None


def one_line(text):
    """A text on one line that a terminal shows as it is, shortened."""
    text = re.sub(r"[\x00-\x20\x7f-\x9f\ud800-\udfff]+", " ", text)
    return text if len(text) <= SHORT else text[: SHORT - 2] + ".."


def named(task):
    """The uuid and the description of a task, as it is told."""
    uuid, description = (one_line(it) if is_text(it) else "?" for it in (task.get("uuid"), task.get("description")))
    return f'{uuid} "{description}"'


def links_among(entries, with_parents):
    """For each task the others among these that it depends on, and its template."""
    by_id = {entry.id: entry for entry in entries}
    links = {it: [link for link in links_of(entry.task) if link in by_id] for it, entry in by_id.items()}
    if with_parents:
        for it, entry in by_id.items():
            links[it] += [entry.parent()] if entry.parent() in by_id else []
    return links


def in_order(entries):
    """The tasks with templates before their instances, and those that others depend on before these. Where a template waits for its own instances, it goes first."""
    by_id, links = {entry.id: entry for entry in entries}, links_among(entries, True)
    for part in map(set, circles(by_id, links.__getitem__)):
        for it in part:
            if makes_instances(by_id[it].task):
                links[it] = [link for link in links[it] if link not in part]
    begun, ordered = set(), []
    for root in by_id:
        path = [] if root in begun else [(root, iter(links[root]))]
        begun.add(root)
        while path:
            link = next((link for link in path[-1][1] if link not in begun), None)
            if link is None:
                ordered.append(by_id[path.pop()[0]])
            else:
                begun.add(link)
                path.append((link, iter(links[link])))
    return ordered


def text_of(entries):
    """The text of the tasks, one on a line."""
    return "[\n" + ",\n".join(entry.line for entry in entries) + ("\n]\n" if entries else "]\n")


def parts_of(entries):
    """The number of the call in which `taskboard import --all` brings each task of their text."""
    sizes = [len(entry.line.encode()) + 2 for entry in entries]
    if len(entries) + 3 <= MOST_AT_ONCE and sum(sizes) + 3 <= MOST_BODY:
        return [0] * len(entries)
    parts, part, lines, size = [], 0, 0, 0
    for at, more in enumerate(sizes):
        # (the last line has no comma)
        more -= at == len(sizes) - 1
        if lines == MOST_AT_ONCE or size + more > MOST_BODY:
            part, lines, size = part + 1, 0, 0
        lines, size = lines + 1, size + more
        parts.append(part)
    return parts


class Cleaning:
    """The tasks of a text: those that a board takes, in order, those that it doesn't, and what it drops of the first."""

    def __init__(self, given):
        self.entries = [Entry(task, text) for task, text in objects_of(given)]
        self.leave_doubles()
        self.leave_circles()
        self.leave_instances()
        self.leave_rest()
        self.taken = in_order(self.sound())
        self.refused = [entry for entry in self.entries if entry.faults]
        self.doubles = [entry for entry in self.entries if entry.is_double]
        self.find_losses()

    def sound(self):
        return [entry for entry in self.entries if not entry.faults and not entry.is_double]

    def leave_doubles(self):
        """Of tasks with the same uuid the first counts."""
        seen = set()
        for entry in self.sound():
            entry.is_double = entry.id in seen
            seen.add(entry.id)

    def leave_circles(self):
        """Tasks that would wait for themselves are refused."""
        by_id, links = {entry.id: entry for entry in self.sound()}, links_among(self.sound(), False)
        for part in circles(by_id, links.__getitem__):
            for it in part:
                others = [by_id[other].name() for other in part if other != it]
                what = f", over {others[0]}" if others else ""
                by_id[it].faults.append(f"it depends on itself{what}{f' and {len(others) - 1} more' if len(others) > 1 else ''}")

    def leave_instances(self):
        """The instances of a template that can't be taken go with it."""
        sound = {entry.id for entry in self.sound()}
        refused = {entry.id: entry for entry in self.entries if entry.faults and entry.id not in sound and status_of(entry.task) == "recurring"}
        for entry in self.sound():
            if entry.parent() in refused:
                entry.faults.append(f"its template can't be taken: {refused[entry.parent()].name()}")

    def leave_rest(self):
        """A board takes so many tasks and no more."""
        for entry in self.sound()[MOST_TASKS:]:
            entry.faults.append(f"a board takes {MOST_TASKS} tasks, and this is one more")

    def find_losses(self):
        """What an import drops of the tasks that it takes."""
        self.dropped: dict = {}
        self.orphans, self.unlinked = [], []
        places: set = set()
        templates = {entry.id: entry for entry in self.taken if makes_instances(entry.task)}
        parts = dict(zip((entry.id for entry in self.taken), parts_of(self.taken)))
        for entry in self.taken:
            for member in dropped_from(entry.task).items():
                self.dropped[member] = self.dropped.get(member, 0) + 1
            if is_instance(entry.task):
                self.find_orphan(entry, templates.get(entry.parent()), places)
            for link in links_of(entry.task):
                if link not in parts:
                    self.unlinked.append((entry, f"the task {link} that it depends on isn't there"))
                elif parts[link] > parts[entry.id]:
                    self.unlinked.append((entry, f"the task {link} that it depends on comes in a later part, as they wait for each other over a template"))

    def find_orphan(self, entry, template, places):
        """An instance has its place in its template's mask, and no two have the same."""
        place = place_of(entry.task)
        if template is None:
            why = "it has no template here"
        elif place is None:
            why = "it has no place (imask) among its template's instances"
        elif place >= len(template.task.get("mask") or ""):
            why = "its template's mask has no place for it"
        elif (template.id, place) in places:
            why = "another instance has its place"
        else:
            places.add((template.id, place))
            return
        self.orphans.append((entry, f"{why}, so it becomes a plain task"))

    def told(self, is_left_out):
        """What there is to say, a line each, and the counts."""
        lines = [f"can't be taken: {entry.name()}: {'; '.join(entry.faults)}" for entry in self.refused]
        lines += [f"left out: {entry.name()}: its uuid was there before" for entry in self.doubles]
        lines += [f"changed: {entry.name()}: {'; '.join(entry.changes)}" for entry in self.taken if entry.changes]
        lines += [f"orphan: {entry.name()}: {why}" for entry, why in self.orphans]
        lines += [f"link dropped: {entry.name()}: {why}" for entry, why in self.unlinked]
        lines += [f"will be dropped: {one_line(name)} of {counted(count, 'task')}: {why}" for (name, why), count in sorted(self.dropped.items())]
        refused = f"{len(self.refused)} can't be taken{' and are left out' if is_left_out and self.refused else ''}"
        counts = [f"{counted(len(self.taken), 'task')} can be taken", refused, f"{sum(bool(entry.changes) for entry in self.taken)} changed"]
        counts += [f"{counted(len(self.doubles), 'double')} left out"] if self.doubles else []
        losses = f"{counted(len(self.unlinked), 'link')} and {counted(sum(self.dropped.values()), 'member')} dropped"
        return [*lines, ", ".join([*counts, counted(len(self.orphans), "orphan"), losses])]


def counted(number, what):
    return f"{number} {what}{'' if number == 1 else 's'}"

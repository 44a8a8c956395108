"""Taskwarrior's side of a bridge: its tasks by `task export`, and its changes by `task import`. Nothing is kept here."""
import json
import os
import re
import subprocess

from taskboard_bridges.fault import Fault
from taskboard_bridges.forms import Either, fits
from taskboard_bridges.board_tasks import MOST_BYTES, SETTABLE, added, is_template, now, view_of
from taskboard_bridges.days import MIDNIGHT, day_alone, day_of, midnight
from taskboard_bridges.merging import LINK, NOTE, STARTED, STATUS, TAG, UNFIT, VALUE, number_of, plain
from taskboard_bridges.steps import respelled as respelled_step

# No hook runs, nothing is asked, no recurring task makes instances, and no number of a task changes under its user's hands.
SETTINGS = ("rc.hooks=off", "rc.confirmation=off", "rc.verbose=nothing", "rc.json.array=on", "rc.json.depends.array=on", "rc.gc=off", "rc.recurrence=off",
            "rc.recurrence.confirmation=no", "rc.bulk=0", "rc.color=off", "rc.dependency.confirmation=off")
# Taskwarrior 2.6 reads these days and no others, and crashes on the rest.
FIRST, LAST = "19800101T000000Z", "99990101T000000Z"
MOMENT = re.compile(r"\d{8}T\d{6}Z")
# What each task that it exports has, and may have.
TASK = {
    **dict.fromkeys(("uuid", "status", "entry", "description"), str),
    **dict.fromkeys(("modified?", "due?", "wait?", "scheduled?", "until?", "end?", "start?", "project?", "priority?", "recur?", "parent?"), str),
    "tags?": [str], "depends?": Either(str, [str]), "annotations?": [{"entry": str, "description": str}],
}
# Where Taskwarrior has its tasks, and words of a filter that has the same tasks as long as none changes.
DATA = ("pending.data", "completed.data")
TIMELESS = re.compile(r"pro(ject)?:[^ ]+|[+-][a-z][^ ]*")
# How many tasks an import brings at once.
MOST_AT_ONCE = 500
# How many tasks are asked for by their names.
FEW = 20
DATES = ("due", "wait", "scheduled", "until")
# Dates that are days where they have no time: midnight in UTC on a board, and here in Taskwarrior.
DAYS = ("due", "scheduled")
PRIORITIES = ("H", "M", "L")


class Task:
    """A task of Taskwarrior: what it exports, how that is seen, and whether the filter has it."""

    def __init__(self, raw, is_wanted):
        self.raw, self.is_wanted = raw, is_wanted
        self.modified = raw.get("modified", "")
        shown = {name: value for name, value in raw.items() if value != ""}
        shown["status"] = raw["status"] if raw["status"] in ("completed", "deleted") else "pending"
        if isinstance(shown.get("depends"), str):
            shown["depends"] = shown["depends"].split(",")
        self.view = view_of(shown)

    def moments(self):
        """What a new task of the board takes along as it is."""
        kept = {name: self.raw[name] for name in ("entry", "end", "start") if name in self.raw}
        notes = [{"description": note["description"], "entry": note["entry"]} for note in self.raw.get("annotations", ())]
        return {**kept, "annotations": notes} if notes else kept


class Template:
    """A task that repeats, and what it made that the board lacks."""

    def __init__(self, task, it, made, right):
        self.task, self.it, self.made, self.right = task, it, made, right
        self.step = respelled_step(it.raw.get("recur", ""))

    def name(self):
        """Its description, as it is told."""
        return json.dumps(self.it.raw["description"][:60], ensure_ascii=False)

    def why_not(self, left):
        """Why the board can't take it over; None where it can. `left` is the board's task of this uuid."""
        if left:
            return None if is_template(left) or left["status"] == "deleted" else "the board has its uuid for another task, so make another one on the board"
        if not self.step:
            return f"boards know no step {json.dumps(self.it.raw.get('recur', ''), ensure_ascii=False)}, so make it on the board in another way"
        return None if "due" in self.it.raw else "it has no due date"

    def parts(self):
        """It and what it made, as an import takes it, in parts: it goes first, and the board makes none anew that its mask has."""
        first = {**self.body(self.it), "recur": self.step, "status": "recurring", "mask": self.it.raw.get("mask", "")}
        made = [{**self.body(it), "recur": self.step, "parent": self.task, "imask": int(number)} for it in self.made if (number := number_of(it.raw.get("imask"))) is not None]
        all_of_it = [first, *made]
        return [all_of_it[at : at + MOST_AT_ONCE] for at in range(0, len(all_of_it), MOST_AT_ONCE)]

    def body(self, it):
        """A task as the board holds it, without its links."""
        view = {key: self.right.to_left(key, value, None) for key, value in it.view.items() if key[0] != LINK}
        return added(it.raw["uuid"], {key: value for key, value in view.items() if value is not None and value is not UNFIT}, it.moments()).body


class Taskwarrior:
    """The Taskwarrior of this user, as its own settings have it, and the tasks that a filter has."""

    name, where = "Taskwarrior", "in Taskwarrior"

    def __init__(self, words, marks, program="task"):
        self.words, self.marks, self.program = words, marks, program
        self.types, self.folder = {}, ""

    @staticmethod
    def place():
        """Where the tasks are, for the user."""
        return "Taskwarrior"

    def ask(self, *words):
        """What a command prints."""
        try:
            return subprocess.run([self.program, *SETTINGS, *words], stdin=subprocess.DEVNULL, stdout=subprocess.PIPE, stderr=subprocess.PIPE)
        except OSError as fault:
            raise Fault(f"{self.program} can't be run: {fault}") from None

    def exported(self, *words):
        """The tasks that a filter has."""
        ran = self.ask(*words, "export")
        try:
            if ran.returncode:
                raise ValueError(ran.stderr.decode("utf-8", "replace").strip() or f"status {ran.returncode}")
            # Taskwarrior writes control characters as they are.
            tasks = json.loads(ran.stdout.decode("utf-8", "replace"), strict=False)
            if not fits(tasks, [TASK]):
                raise ValueError("it prints something else than tasks")
        except (ValueError, RecursionError) as fault:
            raise Fault(f"task {' '.join(words)} export: {fault}") from None
        return tasks

    def begin(self):
        """Where the tasks are, and the types of the user's attributes: one of another type than a value breaks Taskwarrior's own export."""
        shown = self.ask("_show").stdout.decode("utf-8", "replace")
        self.types = dict(re.findall(r"(?m)^uda\.([^=\n]+)\.type=(\w+)$", shown))
        found = re.search(r"(?m)^data\.location=(.*)$", shown)
        self.folder = os.path.realpath(os.path.expanduser(os.environ.get("TASKDATA") or (found[1] if found else "~/.task")))

    def prepare(self, _run):
        """Nothing has to be done before it is read."""

    def identity(self):
        """What tells this Taskwarrior from others."""
        return self.folder

    def files(self):
        """The files in which all stands; none where the filter may have other tasks tomorrow though no task changed."""
        settings = os.path.expanduser(os.environ.get("TASKRC") or "~/.taskrc")
        return [settings, *(os.path.join(self.folder, name) for name in DATA)] if all(map(TIMELESS.fullmatch, self.words)) else []

    def read(self, run, lefts):
        """The tasks by their uuids, and the templates that the board can take over. `lefts` are the board's tasks."""
        wanted = {task["uuid"] for task in self.exported(*self.words)} if self.words else None
        found = {raw["uuid"]: Task(raw, wanted is None or raw["uuid"] in wanted) for raw in self.exported()}
        tasks = {task: it for task, it in found.items() if it.raw["status"] != "recurring"}
        templates = {}
        for task, it in found.items():
            if task not in tasks and it.is_wanted:
                template = Template(task, it, [other for other in tasks.values() if other.raw.get("parent") == task and other.raw["uuid"] not in lefts], self)
                refused = {} if run.options.again else run.state.tasks.get(task, {}).get("refused", {})
                why = template.why_not(lefts.get(task)) or refused.get("template")
                if why is None:
                    templates[task] = template
                elif run.state.tell_once(f"{task} template"):
                    run.say(f"not taken: {template.name()} is a template of Taskwarrior's: {why}", True)
        return tasks, templates

    def end(self, template):
        """Deletes a template; whether Taskwarrior did it. It makes nothing from then on, and what it made stays."""
        raw = {**without_reckoned(template.it.raw), "status": "deleted", "end": now()}
        return bool(self.bring({template.task: json.dumps(raw, ensure_ascii=False)})[0])

    @staticmethod
    def takes(left):
        """A task of the board that was deleted before Taskwarrior had it stays where it is."""
        return left["status"] != "deleted"

    def seen(self, view):
        """A view of a board's task without what Taskwarrior has no name for."""
        return {key: value for key, value in view.items() if is_nameable(key) and value != ""}

    def to_right(self, key, value, like):
        """A value as Taskwarrior holds it."""
        if value is None or key in (STATUS, STARTED) or key[0] == LINK:
            return value
        if key[0] == TAG:
            # (it reads a tag a:status back as a status, and then none of its tasks)
            return UNFIT if re.search("[,:]", key[1:]) or respelled(key) != key else value
        if key[0] == NOTE:
            return UNFIT if key == NOTE or respelled(key) != key else value
        name, kind = key[1:], self.types.get(key[1:])
        if name in DATES or kind == "date":
            if name in DAYS and value != like and value.endswith(MIDNIGHT):
                value = midnight(value, None)
            is_fit = isinstance(value, str) and MOMENT.fullmatch(value) and FIRST <= value < LAST and (name != "until" or value > now())
            return value if is_fit else UNFIT
        if kind == "numeric":
            return UNFIT if number_of(value) is None else value
        return respelled(plain(value)) if name not in SETTABLE else respelled(value)

    def to_left(self, key, value, like):
        """A value as a board holds it: numbers with a fraction are texts there."""
        if value is None or key[0] != VALUE:
            return UNFIT if key[0] == TAG and re.search(r"[ \t\r\n]", key) else value
        if key == "=priority":
            return value if value in PRIORITIES else UNFIT
        if key[1:] in DAYS:
            return day_alone(value, None) if MOMENT.fullmatch(value) and day_of(value, None) else value
        if isinstance(like, bool) and value in ("true", "false"):
            return value == "true"
        number = number_of(value)
        if number is not None and number == int(number) and abs(number) < 2**53 and (isinstance(like, int) or not isinstance(value, str)):
            return int(number)
        text = plain(value)
        return text if len(text.encode("utf-8", "replace")) <= MOST_BYTES else UNFIT

    @staticmethod
    def target(merged, view):
        """What a task is written from: what it has, and what changes."""
        return {key: value for key, value in {**view, **merged.right}.items() if value is not None}

    @staticmethod
    def read_back(_task, view):
        """What is written is read so."""
        return view

    def write(self, changes):
        """Brings tasks to what they have to be, but for those that changed since they were read; which were written, and which Taskwarrior refused."""
        # The last look is short where it can be.
        present = {raw["uuid"]: raw for raw in self.exported(*(named(changes) if len(changes) <= FEW else ()))}
        texts = {}
        for task, change in changes.items():
            raw = present.get(task)
            if without_reckoned(raw or {}) == without_reckoned(change.read.raw if change.read else {}):
                texts[task] = json.dumps(written(raw, change), ensure_ascii=False)
        return self.bring(texts)

    def bring(self, texts):
        """Imports tasks at once; where Taskwarrior takes none of them, by halves, until those are found that it refuses."""
        if not texts:
            return set(), {}
        ran = self.marks.run(texts, [self.program, *SETTINGS, "import", "-"], ("[\n" + ",\n".join(texts.values()) + "\n]\n").encode("utf-8", "replace"))
        if ran.returncode == 0:
            return set(texts), {}
        if len(texts) == 1:
            why = ran.stderr.decode("utf-8", "replace").strip() or f"task import ended with {ran.returncode}"
            return set(), dict.fromkeys(texts, why)
        items, middle = list(texts.items()), len(texts) // 2
        done, refused = self.bring(dict(items[:middle]))
        more, others = self.bring(dict(items[middle:]))
        return done | more, {**refused, **others}


def named(tasks):
    """Tasks as words of Taskwarrior name them. Without `uuid:` it reads some as sums: `0000000d-..` as a duration of no days, less another."""
    return " or ".join(f"uuid:{task}" for task in tasks).split()


def is_nameable(key):
    """Whether Taskwarrior has a place for a key: it keeps some names for itself."""
    name = key[1:]
    return key[0] != VALUE or bool(re.fullmatch(r"[\w.-]+", name)) and not re.match(r"(tags?|dep|annotation)_", name)


def respelled(text):
    """A text as Taskwarrior gives it back."""
    return text.replace("&open;", "[").replace("&close;", "]")


def without_reckoned(raw):
    """A task without what Taskwarrior reckons for each export."""
    return {name: value for name, value in raw.items() if name not in ("id", "urgency")}


def moment_in_range(moment):
    """The nearest moment that Taskwarrior reads."""
    return min(max(moment, FIRST), "99981231T235959Z")


def written(raw, change):
    """The JSON of a task that has the view of its target; whatever else Taskwarrior has of it stays."""
    left, target = change.left, change.target
    task = without_reckoned(raw or {})
    if not raw:
        task = {"uuid": change.task, "entry": moment_in_range(left["entry"]), "modified": moment_in_range(left.get("modified", left["entry"]))}
    for key in change.keys:
        if key[0] == VALUE:
            task.pop(key[1:], None)
            if key in target:
                task[key[1:]] = target[key] if not isinstance(target[key], bool) else plain(target[key])
    put_status(task, left, target)
    for name, kind in (("tags", TAG), ("depends", LINK)):
        if any(key[0] == kind for key in change.keys):
            changed = {key[1:] for key in change.keys if key[0] == kind}
            kept = [it for it in task.get(name, ()) if it not in changed]
            task[name] = sorted([*kept, *(it for it in changed if kind + it in target)])
    if any(key[0] == NOTE for key in change.keys):
        task["annotations"] = noted(task.get("annotations", []), left.get("annotations", ()), target)
    return {name: value for name, value in task.items() if value != []}


def put_status(task, left, target):
    """Puts status, end and start, with the board's moments where Taskwarrior has none."""
    status = target[STATUS]
    if status == "open":
        task["status"] = "pending"
        task.pop("end", None)
    elif task.get("status") != status:
        task["status"] = status
        task["end"] = moment_in_range(left.get("end", now()))
    if status != "open" or STARTED not in target:
        task.pop("start", None)
    elif "start" not in task:
        task["start"] = moment_in_range(left.get("start", now()))


def noted(before, others, target):
    """The notes of a task: those that stay, and then the new ones with the moments that they have on the board."""
    wanted = {key[1:]: count for key, count in target.items() if key[0] == NOTE}
    kept = []
    for note in before:
        if wanted.get(note["description"], 0) > 0:
            wanted[note["description"]] -= 1
            kept.append(note)
    for text, count in wanted.items():
        moments = [note["entry"] for note in others if note["description"] == text][-count:] if count else []
        kept += [{"description": text, "entry": moment_in_range(moment)} for moment in [*moments, *[now()] * (count - len(moments))]]
    return kept

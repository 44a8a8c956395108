"""todo.txt's side of a bridge: a file of lines, and the file to which its done lines are archived. Nothing is kept but these files."""
import collections
import contextlib
import datetime
import json
import os
import re
import uuid

from taskboard_bridges.fault import Fault
from taskboard_bridges.board_tasks import is_template
from taskboard_bridges.days import day_alone, moved
from taskboard_bridges.keeping import clear_up, sync_folder, write_beside
from taskboard_bridges.lines import Line, is_blank, made_by_import, replaced, spell
from taskboard_bridges.merging import STATUS, TAG, UNFIT

SHOWN = (STATUS, "=description", "=project", "=priority", "=due")
# How often a file that others change meanwhile is read anew.
MOST_TRIES = 5


class Task:
    """A task of a line: where it stands and how it is seen. A file says when it was changed, and not which of its lines."""

    is_wanted = True

    def __init__(self, file, raw, line):
        self.file, self.raw, self.line, self.modified = file, raw, line, file.modified
        self.view = view_of(line)

    def moments(self):
        """What a new task of the board takes along as it is."""
        found = {"entry": self.line.creation, "end": self.line.completion}
        return {name: moment for name, moment in found.items() if moment}


class File:
    """A file as it was read: its bytes, the mark of their order that some editors put first, its lines with what ends them, and when it
    was changed."""

    def __init__(self, path, may_lack):
        self.path, self.data, self.modified, self.mark = os.path.realpath(path), b"", "", ""
        try:
            with open(self.path, "rb") as file:
                self.data = file.read()
                changed = os.fstat(file.fileno()).st_mtime
            self.modified = datetime.datetime.fromtimestamp(changed, datetime.timezone.utc).strftime("%Y%m%dT%H%M%SZ")
            text = self.data.decode()
            self.mark = text[:1] if text.startswith("\ufeff") else ""
            self.lines = re.findall(r"[^\n]*\n|[^\n]+", text.removeprefix(self.mark))
        except FileNotFoundError:
            if not may_lack:
                raise Fault(f"there is no file {path}: make it, or write its name right") from None
            self.lines = []
        except UnicodeDecodeError:
            raise Fault(f"{path} isn't UTF-8 text. Nothing was changed: save it as UTF-8") from None

    def read(self):
        """Each line that isn't blank: its place, and its text without what ends it."""
        for at, raw in enumerate(self.lines):
            text = raw.removesuffix("\n").removesuffix("\r") if raw.endswith("\n") else raw
            if not is_blank(text):
                yield at, text

    def end(self):
        """What ends a line here."""
        return "\r\n" if self.lines and self.lines[0].endswith("\r\n") else "\n"


class TodoTxt:
    """A file of todo.txt and its archive. Its days are those of a zone."""

    name, where = "todo.txt", "in todo.txt"

    def __init__(self, path, archive, marks, state, zone=None):
        self.path, self.archive, self.marks, self.is_first, self.zone = path, archive, marks, state.is_new, zone

    def place(self):
        """Where the tasks are, for the user."""
        return self.path

    def identity(self):
        """What tells the file from others, whatever it is called."""
        return os.path.realpath(self.path)

    def files(self):
        """The files in which all stands."""
        return [os.path.realpath(self.path), os.path.realpath(self.archive)]

    def begin(self):
        """Nothing has to be known before."""

    # Reading.

    def prepare(self, run):
        """Gives each line without an identifier one, before anything is done with it: what is edited later is the same task."""
        clear_up(os.path.realpath(self.path))
        clear_up(os.path.realpath(self.archive))
        known = {task["uuid"] for task in run.boards.tasks(run.board)} if self.is_first else set()
        for _ in range(MOST_TRIES):
            file = File(self.path, False)
            before: collections.Counter[str] = collections.Counter()
            lines, taken = list(file.lines), {Line(text).uuid for _, text in file.read()}
            for at, text in file.read():
                if Line(text).uuid is None:
                    task = made_by_import(run.board, text, before[text])
                    if task not in known - taken:
                        task = str(uuid.uuid4())
                    taken.add(task)
                    lines[at] = f"{text} uuid:{task}{file.lines[at][len(text):]}"
                before[text] += 1
            if lines == file.lines or self.replace(file, lines, ()):
                return
        raise Fault(f"{self.path} is changed again and again by others: run it again")

    def read(self, run, _lefts):
        """The tasks of both files, by their identifiers, and no templates. What stands in the file itself counts before what was archived."""
        tasks = {}
        archive = File(self.archive, True)
        for _, text in archive.read():
            line = Line(text)
            if line.uuid:
                tasks[line.uuid] = Task(archive, text, line)
        file, seen = File(self.path, False), set()
        for at, text in file.read():
            line = Line(text)
            if line.uuid in seen:
                run.not_taken += 1
                run.say(f"not taken: line {at + 1} has the identifier of a line before it; without the word uuid:.. it is a task of its own: {json.dumps(text[:80], ensure_ascii=False)}", True)
            else:
                task = line.uuid or str(uuid.uuid4())
                seen.add(task)
                tasks[task] = Task(file, text, line)
        return tasks, {}

    # What a line can hold.

    @staticmethod
    def takes(left):
        """An open task gets a line; one that was completed before it had one gets none."""
        return left["status"] in ("pending", "waiting") and not is_template(left)

    @staticmethod
    def seen(view):
        """A view of a board's task without what a line doesn't say."""
        return {key: value for key, value in view.items() if key in SHOWN or key[0] == TAG}

    def to_right(self, key, value, _like):
        """A value as a line holds it: days without a time, and no spaces in a project."""
        if value is None or key not in SHOWN or key == STATUS:
            return value
        if key == "=due":
            return day_alone(value, self.zone)
        if key == "=project":
            return replaced(value, "_").replace(" ", "_")
        return " ".join(re.findall("[^ ]+", replaced(value, " "))) or value if key == "=description" else value

    def to_left(self, key, value, like):
        """A value as a board holds it; a due date that is put off keeps its time."""
        if key == "=due" and value is not None:
            return moved(like, value, self.zone)
        return value if key in SHOWN or key[0] == TAG or value is None else UNFIT

    @staticmethod
    def target(merged, _view):
        """What a line is written from: what the board has."""
        return {key: pair[0] for key, pair in merged.base.items() if pair[0] is not None}

    def read_back(self, task, view):
        """How a line is read that was written from a view: words of a description may be marks."""
        return {} if view[STATUS] == "deleted" else view_of(Line(self.spelled(task, view, "19700101T000000Z", None)))

    # Writing.

    def write(self, changes):
        """Brings lines to what they have to be, but for those that changed since they were read; which were written."""
        done = self.write_file(changes, False)
        return done | self.write_file({task: change for task, change in changes.items() if task not in done or is_moved(change, self)}, True), {}

    def write_file(self, changes, is_archive):
        """Writes the lines of one of the two files; which tasks were written. It is read anew where others changed it meanwhile."""
        path = self.archive if is_archive else self.path
        for _ in range(MOST_TRIES):
            file = File(path, is_archive)
            lines, written = list(file.lines), set()
            # Of lines with one identifier the first counts, and in the archive the last, as they are read.
            found = list(file.read()) if is_archive else list(file.read())[::-1]
            places = {Line(text).uuid: (at, text) for at, text in found}
            for task, change in changes.items():
                at, text = places.get(task, (None, None))
                if self.write_line(file, lines, at, text, task, change, is_archive):
                    written.add(task)
            lines = [line for line in lines if line is not None]
            if lines == file.lines or self.replace(file, lines, written):
                return written
        return set()

    def write_line(self, file, lines, at, text, task, change, is_archive):
        """Puts a task's line in its place; whether that is done in this file. The line is as it was read, or isn't touched."""
        is_here = change.read is not None and change.read.file.path == file.path
        if is_archive and is_moved(change, self):
            # It stands in the file itself again.
            if at is not None and text == change.read.raw:
                lines[at] = None
            return False
        if change.is_new or is_moved(change, self):
            if is_archive or at is not None or change.target[STATUS] == "deleted":
                return False
            if lines and lines[-1] and not lines[-1].endswith("\n"):
                lines[-1] += file.end()
            lines.append(self.line_of(task, change) + file.end())
            return True
        if not is_here or at is None or text != change.read.raw:
            return False
        lines[at] = None if change.target[STATUS] == "deleted" else self.line_of(task, change) + file.lines[at][len(text):]
        return True

    def line_of(self, task, change):
        """A task's line, which keeps a letter that no priority stands for."""
        letter = change.read.line.letter if change.read else None
        return self.spelled(task, change.target, change.left["entry"], change.left.get("end"), letter if letter and letter > "C" else None)

    def spelled(self, task, view, entry, end, letter=None):
        """The line of a view, with the days of its moments in the zone."""
        view = {**view, **({"=due": day_alone(view["=due"], self.zone)} if "=due" in view else {})}
        said = Line(view["=description"])
        if said.is_bare:
            # What a text of marks alone says isn't said twice.
            view = {key: value for key, value in view.items() if key in (STATUS, "=description") or said.view().get(key) != value}
        return spell(task, view, day_alone(entry, self.zone), end and day_alone(end, self.zone), letter)

    def replace(self, file, lines, written):
        """Puts lines in the place of a file, unless it isn't as it was read; whether it was done."""
        folder = os.path.dirname(file.path)
        new, before = write_beside(file.path, (file.mark + "".join(lines)).encode()), write_beside(file.path, file.data)
        try:
            os.chmod(new, os.stat(file.path).st_mode & 0o7777)
            ran = self.marks.run(written, ["sh", "-c", 'cmp -s "$1" "$2" && mv "$3" "$2"', "sh", before, file.path, new])
            sync_folder(folder)
            return ran.returncode == 0
        finally:
            for path in (new, before):
                with contextlib.suppress(FileNotFoundError):
                    os.unlink(path)


def view_of(line):
    """The keys of a line's task. The text of a line of marks alone is these marks, without the word that names the task."""
    words = [word for word in re.findall(r"[^ \t]+", line.body) if word.lower() != f"uuid:{line.uuid}"] if line.is_bare else []
    return {**line.view(), **({"=description": " ".join(words)} if words else {})}


def is_moved(change, right):
    """Whether a task that was archived is open again, and so goes back into the file."""
    return change.read is not None and change.read.file.path == os.path.realpath(right.archive) and change.target[STATUS] == "open"

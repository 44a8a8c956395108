"""A week between a board and a file of todo.txt: syncing_todotxt.py PROGRAM PORT TASKS DAYS, in a folder of its own.

The file is edited as by an editor and by the real todo.txt program, the board by calls; runs of the bridge are stopped at random messages,
and the server is killed. What a line says is what the server makes of it, on a board of its own."""
import json
import os
import re
import shutil
import subprocess
import sys
import time
import uuid as uuids

from bridging import BRIDGES, STOPS, Editor, Line, Runs, Server, expect, in_turn, moment, run_whole
from drawing import seeded
from ledger import Ledger, is_template

PROGRAM, PORT, TASKS, DAYS = sys.argv[1], int(sys.argv[2]), int(sys.argv[3]), int(sys.argv[4])
SEED, RANDOM = seeded()
TODO = next((shutil.which(name) for name in ("todo-txt", "todo.sh") if shutil.which(name)), None)
WORDS = "Call Mom about the \"report\" [draft] back naïve 東京 😀 it's {a} #5 pri:D a:b t:2026-01-01 % ; < > | ~ 1/2".split(" ")
# The sides, as notes name them.
LEFT, RIGHT = "on the board", "in todo.txt"
LETTERS = {"A": "H", "B": "M", "C": "L"}
numbers = iter(range(10**9))


def words():
    return " ".join([f"n{next(numbers)}", *RANDOM.sample(WORDS, RANDOM.randint(1, 5))])


def day():
    return moment(RANDOM)[:8] + "T000000Z"


class File:
    """todo.txt and done.txt, as an editor and the todo.txt program change them."""

    def __init__(self):
        with open("config", "w") as file:
            file.write(f'export TODO_DIR="{os.getcwd()}"\nexport TODO_FILE="$TODO_DIR/todo.txt"\nexport DONE_FILE="$TODO_DIR/done.txt"\nexport REPORT_FILE="$TODO_DIR/report.txt"\n')

    def lines(self, name="todo.txt"):
        with open(name) as file:
            return file.read().split("\n")

    def write(self, lines):
        with open("new", "w") as file:
            file.write("\n".join(lines))
        os.rename("new", "todo.txt")

    def todo(self, *more):
        ran = subprocess.run([TODO, "-d", "config", "-f", "-a", *more], capture_output=True, text=True, timeout=300)
        if ran.returncode:
            sys.exit(f"todo {more}: {ran.stdout}{ran.stderr}")

    def at(self, uuid):
        return next((at for at, line in enumerate(self.lines()) if f"uuid:{uuid}" in line), None)


def line_of(task):
    """A line with marks in any order."""
    parts = [task["description"], *(f"@{tag}" for tag in task.get("tags", []))]
    parts += [f"+{task['project']}"] if task.get("project") else []
    parts += [f"due:{task['due'][:4]}-{task['due'][4:6]}-{task['due'][6:8]}"] if task.get("due") else []
    parts += [f"uuid:{task['uuid']}"] if task.get("uuid") else []
    first, rest = parts[0], parts[1:]
    RANDOM.shuffle(rest)
    letter = next((it for it, priority in LETTERS.items() if priority == task.get("priority")), task.get("letter"))
    return (f"({letter}) " if letter else "") + ("2026-01-02 " if RANDOM.random() < 0.5 else "") + " ".join([first, *rest])


def new_task(for_board):
    task = {"description": words(), "tags": [f"t{next(numbers)}" for _ in range(RANDOM.randint(0, 2))]}
    if RANDOM.random() < 0.5:
        task["project"] = RANDOM.choice(("Office", "Home", f"P{next(numbers)}"))
    if RANDOM.random() < 0.4:
        task["priority"] = RANDOM.choice("HML")
    if RANDOM.random() < 0.4:
        task["due"] = moment(RANDOM) if for_board else day()
    if not for_board:
        task.update({"letter": RANDOM.choice("DEZ")} if RANDOM.random() < 0.2 else {})
    elif RANDOM.random() < 0.2:
        task.update(wait=moment(RANDOM, 2090), annotations=[{"description": words(), "entry": moment(RANDOM, 2024, 2025)}], assignee="ann")
    return task


class Week:
    def __init__(self):
        with open("key", "w", opener=lambda path, flags: os.open(path, flags, 0o600)) as file:
            file.write("ann-key-1\n")
        self.server, self.file = Server(PROGRAM, PORT), File()
        self.line, self.editor, self.boards = Line(self.server), Editor(PORT), 1
        self.line.edit = lambda: self.edit(3)
        command = [f"{BRIDGES}/todotxt-sync", "--key", "key", "--for", "60", "--state", "state.json", f"127.0.0.1:{self.line.port}", "ann", "1", "todo.txt"]
        self.runs = Runs(command, self.line, dict(os.environ))
        self.ledger, self.gone, self.kinds = Ledger(self.line), set(), in_turn(RANDOM, STOPS)

    # What both sides say.

    def said_by_lines(self, lines):
        """What the server makes of lines, on a board of their own."""
        self.boards += 1
        expect("a board for lines", self.boards, self.editor.ask("POST", "/boards", {"title": "Lines"})[1]["board"])
        other = Editor(PORT, self.boards)
        for start in range(0, len(lines), 1000):
            self.bring(other, lines[start : start + 1000])
        return other.tasks()

    @staticmethod
    def bring(editor, lines):
        """Imports lines, as the server does it by itself."""
        fields = {"x-member": "ann", "x-key": "ann-key-1", "x-request-id": str(uuids.uuid4())}
        editor.ask("GET", "/me")
        editor.connection.request("POST", f"/boards/{editor.board}/import-todo", "".join(f"{line}\n" for line in lines).encode(), fields)
        answer = editor.connection.getresponse()
        expect(f"import of lines: {answer.read()}", 200, answer.status)

    @staticmethod
    def shown(task, by_day):
        said = {name: task.get(name) for name in ("description", "project", "priority")}
        said["description"] = " ".join(said["description"].split(" "))
        said["due"] = task["due"][:8] + "T000000Z" if by_day and "due" in task else task.get("due")
        return {**said, "tags": sorted(task.get("tags", [])), "status": task["status"] if task["status"] in ("completed", "deleted") else "open"}

    def all_lines(self):
        """The lines that count: of done.txt those whose task has none in todo.txt."""
        lines = [line for line in self.file.lines() if line.strip(" \t")]
        ids = {word for line in lines for word in line.split(" ") if word.startswith("uuid:")}
        done = [line for line in self.file.lines("done.txt") if line.strip(" \t")] if os.path.exists("done.txt") else []
        return lines + [line for line in done if not ids & set(line.split(" "))]

    def expect_alike(self, name):
        """Both sides say the same; each task is there once; a further run has nothing to do."""
        left = {uuid: task for uuid, task in self.editor.tasks().items() if not is_template(task)}
        lines = self.all_lines()
        right = self.said_by_lines(lines)
        expect(f"{name}: lines of the same task", len(lines), len(right))
        open_ones = {uuid for uuid, task in left.items() if task["status"] in ("pending", "waiting")}
        expect(f"{name}: open tasks without a line", set(), open_ones - {*right} - self.gone)
        expect(f"{name}: lines without a task", set(), {*right} - {*left})
        for uuid, task in right.items():
            expect(f"{name}: {uuid}", self.shown(left[uuid], True), self.shown(task, True))
        texts = [task["description"].split(" ")[0] for task in left.values() if task["status"] != "deleted"]
        expect(f"{name}: tasks that are there twice", [], sorted({it for it in texts if texts.count(it) > 1 and not it.startswith("Round")}))
        before = self.line.posts, lines
        expect(f"{name}: a further run", "", self.runs.complete())
        expect(f"{name}: what a further run did", before, (self.line.posts, self.all_lines()))
        self.ledger.judge({uuid: {**self.shown(task, True), "notes": [note["description"] for note in task.get("annotations", [])], "links": []} for uuid, task in left.items()})
        return left

    # Edits.

    def edit_line(self, left, one=None):
        lines = self.file.lines()
        places = {uuid: at for uuid in left for at, line in enumerate(lines) if f"uuid:{uuid}" in line} if one is None else {one: self.file.at(one)}
        places = {uuid: at for uuid, at in places.items() if at is not None}
        if not places:
            return
        uuid = RANDOM.choice(list(places))
        at, line = places[uuid], lines[places[uuid]]
        task = next(iter(self.said_by_lines([line]).values()))
        kind = RANDOM.choice(("description", "description", "project", "due", "priority", "tag", "untag", "status", "status"))
        if kind == "status":
            self.line_status(uuid, at, line, task)
        elif task["status"] != "completed":
            self.line_value(uuid, at, task, kind)

    def line_status(self, uuid, at, line, task):
        before = "completed" if task["status"] == "completed" else "open"
        self.ledger.set(RIGHT, uuid, "status", before, "open" if before == "completed" else "completed")
        if before == "completed":
            lines = self.file.lines()
            lines[at] = line_of(task)
            self.file.write(lines)
        else:
            # The program takes the letter away with that.
            self.ledger.set(RIGHT, uuid, "priority", task.get("priority"), None)
            self.file.todo("do", str(at + 1))

    def line_value(self, uuid, at, task, kind):
        if kind == "tag":
            task["tags"] = [*task.get("tags", []), f"t{next(numbers)}"]
            self.ledger.add(uuid, "tags", task["tags"][-1])
            self.file.todo("append", str(at + 1), "@" + task["tags"][-1])
            return
        if kind == "priority":
            letter = RANDOM.choice("ABC")
            self.ledger.set(RIGHT, uuid, "priority", task.get("priority"), LETTERS[letter])
            self.file.todo("pri", str(at + 1), letter)
            return
        if kind == "untag":
            if not task.get("tags"):
                return
            self.ledger.remove(uuid, "tags", task["tags"].pop())
        else:
            value = {"description": words, "project": lambda: RANDOM.choice((None, f"P{next(numbers)}")), "due": lambda: RANDOM.choice((None, day()))}[kind]()
            self.ledger.set(RIGHT, uuid, kind, task.get(kind), value)
            task[kind] = value
        lines = self.file.lines()
        lines[at] = line_of({name: value for name, value in task.items() if value is not None})
        self.file.write(lines)

    def edit_board(self, left, one=None):
        uuid = one or RANDOM.choice([it for it in left if it not in self.gone])
        task = self.editor.ask("GET", f"/boards/1/tasks/{uuid}")[1]
        kind = RANDOM.choice(("description", "description", "project", "due", "priority", "tag", "untag", "status", "note"))
        is_open = task["status"] in ("pending", "waiting")
        if kind == "status" or not is_open:
            action, status = ("reopen", "open") if not is_open else RANDOM.choice((("done", "completed"), ("done", "completed"), ("delete", "deleted")))
            self.ledger.set(LEFT, uuid, "status", "open" if is_open else task["status"], status)
            self.editor.change(uuid, action)
        elif kind == "note":
            self.editor.change(uuid, "annotate", {"description": words()})
        elif kind == "tag":
            self.ledger.add(uuid, "tags", f"t{next(numbers)}")
            self.editor.change(uuid, "modify", {"tags": [*task.get("tags", []), max(self.ledger.added, key=lambda it: int(it[2][1:]))[2]]})
        elif kind == "untag":
            if task.get("tags"):
                self.ledger.remove(uuid, "tags", task["tags"][0])
                self.editor.change(uuid, "modify", {"tags": task["tags"][1:]})
        else:
            value = {"description": words, "project": lambda: RANDOM.choice((None, f"P{next(numbers)}")), "due": lambda: RANDOM.choice((None, moment(RANDOM))),
                     "priority": lambda: RANDOM.choice(("H", "M", "L", None))}[kind]()
            in_line = value and kind == "due" and value[:8] + "T000000Z"
            before = task.get(kind) and kind == "due" and task[kind][:8] + "T000000Z"
            self.ledger.set(LEFT, uuid, kind, before or task.get(kind), in_line or value, value)
            self.editor.change(uuid, "modify", {kind: value})

    def edit(self, count):
        left = {uuid: task for uuid, task in self.editor.tasks().items() if not is_template(task)}
        for _ in range(count):
            one = RANDOM.choice([None, RANDOM.choice(list(left))])
            one = None if one in self.gone else one
            if RANDOM.random() < 0.5:
                self.edit_board(left, one)
            if RANDOM.random() < 0.5:
                self.edit_line(left, one)

    def add(self):
        for _ in range(3):
            self.editor.call("tasks", new_task(True))
            self.file.todo("add", line_of(new_task(False)))

    def remove(self):
        """A line that is removed completes nothing, and is told once."""
        left = self.editor.tasks()
        uuid = next(it for it, task in left.items() if task["status"] == "pending" and self.file.at(it) is not None and it not in self.gone)
        self.file.todo("del", str(self.file.at(uuid) + 1))
        told = self.runs.complete()
        expect(f"a line that is gone: {told}", True, re.search(r"gone from todo.txt: \d+ ", told) is not None)
        expect("its task", "pending", self.editor.tasks()[uuid]["status"])
        self.gone.add(uuid)

    def elsewhere(self):
        """A file that is in step with a board isn't poured into another by mistake."""
        board = self.editor.ask("POST", "/boards", {"title": "Another"})[1]["board"]
        self.boards = board
        words, number = self.runs.words, next(at for at, word in enumerate(self.runs.words) if word == "1")
        self.runs.words = [word.replace("state.json", "another.json") for word in words]
        self.runs.words[number] = str(board)
        told, before = self.runs.complete(statuses=(1,)), self.file.lines()
        expect(f"another board: {told}", (True, {}), ("is in step with board 1 at" in told, Editor(PORT, board).tasks()))
        expect("the file", before, self.file.lines())
        self.runs.words = words

    def run(self):
        begun = time.monotonic()
        lines = [line_of(new_task(False)) for _ in range(TASKS // 2)]
        # Some of them came by an import before: they are found again.
        self.bring(self.editor, lines[:5])
        self.file.write([*lines, "", "x 2026-01-03 2026-01-02 Done long ago", "(A) Call Mom +Family @phone due:2026-02-03", ""])
        first = new_task(True)
        self.editor.call("tasks", first)
        for _ in range(TASKS // 2 - 1):
            self.editor.call("tasks", new_task(True))
        due = time.strftime("%Y%m%dT%H%M%SZ", time.gmtime(time.time() - 86400 * 9))
        self.editor.call("tasks", {"description": "Round", "due": due, "recur": "weekly"})
        self.stop()
        self.runs.complete()
        self.expect_alike("the first run")
        for at in range(DAYS):
            self.add()
            for _ in range(3):
                self.edit(max(TASKS // 30, 5))
                self.stop()
            self.runs.complete()
            self.expect_alike(f"day {at + 1}")
            self.remove()
        self.saved_meanwhile()
        self.same_identifier()
        self.mentioned_identifier()
        self.opened_again()
        self.elsewhere()
        left = self.expect_alike("the end")
        self.delete_missing()
        expect("what stopped runs left", [], [name for name in os.listdir() if "taskboard-" in name])
        checked = json.dumps(self.server.checked())
        print(f"seed {SEED}: {len(left)} tasks, {self.ledger.count} edits on both sides in {DAYS} days, {self.line.edits * 3} while a run went on, {self.ledger.conflicts} values kept as notes; "
              f"{self.runs.stopped} runs stopped, the server killed {self.server.kills} times, {self.runs.whole} whole runs; {checked}; {time.monotonic() - begun:.0f} s")

    def stop(self):
        self.runs.stop(int(RANDOM.choice((2, 4, 8, 40)) * RANDOM.random() ** 2) + 2, next(self.kinds))

    def saved_meanwhile(self):
        """A file that is saved right before it is replaced keeps what was saved: the run reads it again."""
        os.mkdir("bin")
        with open("bin/cmp", "w") as file:
            file.write(f"#!/bin/sh\nif [ -e saved ]; then rm saved; echo 'Saved meanwhile' >>todo.txt; fi\nexec {shutil.which('cmp')} \"$@\"\n")
        os.chmod("bin/cmp", 0o755)
        open("saved", "w").close()
        uuid = next(it for it, task in self.editor.tasks().items() if task["status"] == "pending" and self.file.at(it) is not None)
        self.editor.change(uuid, "modify", {"description": "Changed meanwhile"})
        path, self.runs.environment["PATH"] = self.runs.environment["PATH"], f"{os.getcwd()}/bin:{self.runs.environment['PATH']}"
        self.runs.complete()
        self.runs.environment["PATH"] = path
        expect("it was saved", False, os.path.exists("saved"))
        lines = self.file.lines()
        expect("both are there", (1, 1), (sum("Changed meanwhile" in line for line in lines), sum(line.startswith("Saved meanwhile") for line in lines)))
        self.runs.complete()
        expect("it came", 1, sum(task["description"] == "Saved meanwhile" for task in self.editor.tasks().values()))

    def same_identifier(self):
        """Of two lines with one identifier the first is the task, and the other is left as it is: each run says so, and ends with 1."""
        uuid = next(it for it, task in self.editor.tasks().items() if task["status"] == "pending" and self.file.at(it) is not None)
        lines = self.file.lines()
        self.file.write([*lines[:-1], f"A copy uuid:{uuid}", lines[-1]])
        self.editor.change(uuid, "modify", {"description": "The first of two"})
        for _ in range(2):
            told = self.runs.complete(statuses=(1,))
            expect(f"what is told: {told}", True, "has the identifier of a line before it" in told)
        lines = self.file.lines()
        expect("both lines", (1, 1), (sum("The first of two" in line for line in lines), lines.count(f"A copy uuid:{uuid}")))
        lines.remove(f"A copy uuid:{uuid}")
        self.file.write(lines)

    def mentioned_identifier(self):
        """A task whose text names an identifier has a line of its own, and no other task is made of that name."""
        name = "aaaaaaaa-aaaa-4aaa-8aaa-aaaaaaaaaaaa"
        self.editor.call("tasks", {"description": f"Look at uuid:{name} again"})
        self.runs.complete()
        expect("a further run", "", self.runs.complete())
        tasks = self.editor.tasks()
        found = [it for it, task in tasks.items() if name in task["description"]]
        expect("which tasks there are", (False, 1, f"Look at uuid:{name} again"), (name in tasks, len(found), tasks[found[0]]["description"]))

    def opened_again(self):
        """A deleted task loses its line, and gets one again once it is opened, whether a run came between or not."""
        uuid = next(it for it, task in self.editor.tasks().items() if task["status"] == "pending" and self.file.at(it) is not None)
        for runs in (1, 2):
            self.editor.change(uuid, "delete")
            for _ in range(runs):
                self.runs.complete()
            expect("the line of a deleted task", None, self.file.at(uuid))
            self.editor.change(uuid, "reopen")
            self.runs.complete()
            expect("its line once it is opened", True, self.file.at(uuid) is not None)

    def delete_missing(self):
        uuid = next(it for it, task in self.editor.tasks().items() if task["status"] == "pending" and self.file.at(it) is not None)
        self.file.todo("del", str(self.file.at(uuid) + 1))
        self.runs.complete("--delete-missing")
        expect("what is gone with --delete-missing", "deleted", self.editor.tasks()[uuid]["status"])


if __name__ == "__main__":
    run_whole(Week(), SEED)

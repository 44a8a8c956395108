"""A week between a board and a real Taskwarrior: syncing.py PROGRAM PORT TASKS DAYS, in a folder of its own.

Both sides are edited at random, runs of the bridge are stopped at random messages and before and after `task import`, and the server is
killed. At the end of each day both sides have to say the same, with each task once and no edit lost without a word."""
import json
import os
import shutil
import subprocess
import sys
import time
import uuid as uuids

from bridging import BRIDGES, STOPS, Editor, Line, Runs, Server, expect, in_turn, moment, run_whole, text
from drawing import seeded
from ledger import Ledger, expect_alike, is_template

PROGRAM, PORT, TASKS, DAYS = sys.argv[1], int(sys.argv[2]), int(sys.argv[3]), int(sys.argv[4])
SEED, RANDOM = seeded()
REAL = shutil.which("task")
RC = """data.location={0}/data
confirmation=off
news.version=2.6.2
uda.cost.type=numeric
uda.assignee.type=string
uda.review.type=date
uda.estimate.type=duration
uda.origin.type=string
"""
# Kills the run before or after an import, once, where a file of that name asks for it.
WRAPPER = """#!/bin/sh
case " $* " in *" import "*)
    if [ -e "{0}/stop before" ]; then rm "{0}/stop before"; kill -9 "$(cat "{0}/run")"; exit 1; fi
    "{1}" "$@"; status=$?
    if [ -e "{0}/stop after" ]; then rm "{0}/stop after"; kill -9 "$(cat "{0}/run")"; fi
    exit $status ;;
esac
exec "{1}" "$@"
"""
IMPORTS = ("stop before", "stop after")
# The sides, as notes name them.
LEFT, RIGHT = "on the board", "in Taskwarrior"
numbers = iter(range(10**9))


def random_uuid():
    return str(uuids.UUID(int=RANDOM.getrandbits(128), version=4))


class User:
    """Who edits Taskwarrior, by its own commands, and by imports where a text is hard to say on a command line."""

    def task(self, *words, text=None):
        ran = subprocess.run([REAL, "rc.verbose=nothing", "rc.recurrence.confirmation=no", *words], input=text, capture_output=True, text=True, timeout=300)
        if ran.returncode:
            sys.exit(f"task {words}: {ran.returncode} {ran.stdout}{ran.stderr}")
        return ran.stdout

    def tasks(self):
        return {task["uuid"]: task for task in json.loads(self.task("rc.gc=off", "rc.recurrence=off", "export"), strict=False)}

    def bring(self, *tasks):
        self.task("import", "-", text=json.dumps([{name: value for name, value in task.items() if name not in ("id", "urgency")} for task in tasks], ensure_ascii=False))


def new_task(uuid, links=()):
    """A task of any kind that both sides hold."""
    number = next(numbers)
    task = {"uuid": uuid, "description": text(RANDOM, number), "origin": f"o{number}", "entry": moment(RANDOM, 2020, 2025)}
    for name in ("due", "scheduled", "wait", "until"):
        if RANDOM.random() < 0.2:
            task[name] = moment(RANDOM, 2030 if name == "until" else 2021)
    if RANDOM.random() < 0.5:
        task["project"] = RANDOM.choice(("Office", "Office.Mail", "Home", text(RANDOM, number)))
    if RANDOM.random() < 0.4:
        task["priority"] = RANDOM.choice("HML")
    task["tags"] = [f"t{next(numbers)}" for _ in range(RANDOM.randint(0, 3))]
    task["annotations"] = [{"description": text(RANDOM, next(numbers)), "entry": moment(RANDOM, 2024, 2025)} for _ in range(RANDOM.choice((0, 0, 1, 2)))]
    task["depends"] = RANDOM.sample(links, min(len(links), RANDOM.choice((0, 0, 0, 1, 2))))
    extras = {"cost": RANDOM.randint(-50, 50) / 4, "assignee": RANDOM.choice(("ann", "bob")), "review": moment(RANDOM), "estimate": "PT2H", "brainpower": "low"}
    task.update((name, value) for name, value in extras.items() if RANDOM.random() < 0.2)
    status = RANDOM.choice(("pending",) * 6 + ("completed", "completed", "deleted"))
    if status != "pending":
        task.update(status=status, end=moment(RANDOM, 2024, 2025))
    elif "wait" not in task and RANDOM.random() < 0.1:
        task["start"] = moment(RANDOM, 2024, 2025)
    return task


def for_board(task):
    """The same as a board takes it: no number with a fraction, and nothing empty."""
    return {name: (str(value) if isinstance(value, float) else value) for name, value in task.items() if value != []}


def first_tasks(user, editor):
    """Both sides begin with half of the tasks each, a tenth of which are known to both already; templates on both."""
    uuids_here = [random_uuid() for _ in range(TASKS)]
    half, both = TASKS // 2, TASKS // 10
    tasks = []
    for at, uuid in enumerate(uuids_here):
        tasks.append(new_task(uuid, uuids_here[:at] if at < half else uuids_here[half:at]))
    user.bring(*tasks[:half])
    for start in range(half - both, TASKS, 500):
        editor.call("import", [for_board(task) for task in tasks[start : start + 500]])
    user.task("add", "recur:weekly", "due:2098-01-05", "until:2099-12-31", "Taskwarrior's own template")
    for number in range(4):
        add_template(editor, number)


def add_template(editor, number):
    due = time.strftime("%Y%m%dT%H%M%SZ", time.gmtime(time.time() - 86400 * 5 * (number % 3)))
    editor.call("tasks", {"description": f"Round {number}", "due": due, "recur": RANDOM.choice(("daily", "weekly", "weekdays")), "project": "Office"})


def status_of(task):
    return task["status"] if task["status"] in ("completed", "deleted") else "open"


def is_waiting(task):
    return task.get("wait", "") > time.strftime("%Y%m%dT%H%M%SZ", time.gmtime())


class Week:
    def __init__(self):
        os.makedirs("data")
        os.makedirs("bin")
        here = os.getcwd()
        with open("rc", "w") as file:
            file.write(RC.format(here))
        with open("bin/task", "w") as file:
            file.write(WRAPPER.format(here, REAL))
        os.chmod("bin/task", 0o755)
        with open("key", "w", opener=lambda path, flags: os.open(path, flags, 0o600)) as file:
            file.write("ann-key-1\n")
        os.environ["TASKRC"] = f"{here}/rc"
        self.server = Server(PROGRAM, PORT)
        self.line, self.user, self.editor = Line(self.server), User(), Editor(PORT)
        self.line.edit = lambda: self.edit(3)
        self.words = [f"{BRIDGES}/taskwarrior-sync", "--key", "key", "--for", "20", "--state", "state.json", f"127.0.0.1:{self.line.port}", "ann", "1"]
        self.runs = Runs(self.words, self.line, {**os.environ, "PATH": f"{here}/bin:{os.environ['PATH']}"})
        self.ledger, self.gone = Ledger(self.line), set()
        self.closed_edits, self.kinds = 0, in_turn(RANDOM, (*STOPS, *IMPORTS))

    # Edits of the user of Taskwarrior.

    def edit_right(self, tasks, one=None):
        uuid = one or RANDOM.choice([uuid for uuid, task in tasks.items() if task["status"] != "recurring"])
        task = tasks[uuid]
        kind = RANDOM.choice(("text", "text", "project", "due", "priority", "tag", "untag", "note", "unnote", "status", "start", "link", "cost"))
        if status_of(task) != "open" and kind in ("start", "link", "cost", "due", "untag"):
            kind = "status"
        getattr(self, f"right_{kind}")(uuid, task, tasks)
        tasks[uuid] = json.loads(self.user.task("rc.gc=off", uuid, "export"), strict=False)[0]

    def right_set(self, uuid, task, name, value):
        self.closed_edits += status_of(task) != "open"
        self.ledger.set(RIGHT, uuid, name, task.get(name), value)
        self.user.bring({**{key: it for key, it in task.items() if key != name}, **({} if value is None else {name: value})})

    def right_text(self, uuid, task, _):
        self.right_set(uuid, task, "description", text(RANDOM, next(numbers)))

    def right_project(self, uuid, task, _):
        value = RANDOM.choice((None, f"P{next(numbers)}"))
        self.ledger.set(RIGHT, uuid, "project", task.get("project"), value)
        self.user.task(uuid, "modify", f"project:{value or ''}")

    def right_due(self, uuid, task, _):
        self.right_set(uuid, task, "due", RANDOM.choice((None, moment(RANDOM), moment(RANDOM))))

    def right_priority(self, uuid, task, _):
        value = RANDOM.choice(("H", "M", "L"))
        self.ledger.set(RIGHT, uuid, "priority", task.get("priority"), value)
        self.user.task(uuid, "modify", f"priority:{value}")

    def right_cost(self, uuid, task, _):
        value = RANDOM.choice((RANDOM.randint(1, 10**6) / 8, RANDOM.randint(1, 10**6)))
        self.user.task(uuid, "modify", f"cost:{value}")

    def right_tag(self, uuid, task, _):
        tag = f"t{next(numbers)}"
        self.ledger.add(uuid, "tags", tag)
        self.user.task(uuid, "modify", f"+{tag}")

    def right_untag(self, uuid, task, _):
        if task.get("tags"):
            tag = RANDOM.choice(task["tags"])
            self.ledger.remove(uuid, "tags", tag)
            self.user.task(uuid, "modify", f"-{tag}")

    def right_note(self, uuid, task, _):
        note = f"note {next(numbers)}"
        self.ledger.add(uuid, "notes", note)
        self.user.task(uuid, "annotate", note)

    def right_unnote(self, uuid, task, _):
        notes = [note["description"] for note in task.get("annotations", ()) if not note["description"].startswith("sync:")]
        if notes:
            note = RANDOM.choice(notes)
            self.ledger.remove(uuid, "notes", note)
            self.user.bring({**task, "annotations": [it for it in task["annotations"] if it["description"] != note]})

    def right_status(self, uuid, task, tasks):
        before = status_of(task)
        status = RANDOM.choice([it for it in ("open", "completed", "deleted") if it != before])
        self.ledger.set(RIGHT, uuid, "status", before, status)
        if before == "open" and not any(uuid in other.get("depends", ()) for other in tasks.values()) and not task.get("depends"):
            self.user.task(uuid, "done" if status == "completed" else "delete")
        else:
            more = {"status": "pending"} if status == "open" else {"status": status, "end": time.strftime("%Y%m%dT%H%M%SZ", time.gmtime())}
            self.user.bring({**{name: value for name, value in task.items() if name not in ("end", "start")}, **more})

    def right_start(self, uuid, task, _):
        if not is_waiting(task):
            self.user.task(uuid, "stop" if "start" in task else "start")

    def right_link(self, uuid, task, tasks):
        self.link(uuid, task, tasks, lambda other, word: self.user.bring(
            {**task, "depends": sorted({*task.get("depends", ()), other} - ({other} if word == "undepend" else set()))}))

    def link(self, uuid, task, tasks, change):
        """Links go from a later origin to an earlier one, so that they close no circle."""
        links = [it for it in task.get("depends", ()) if it in tasks]
        if links and RANDOM.random() < 0.3:
            other, word = RANDOM.choice(links), "undepend"
            self.gone.add((uuid, other))
            self.ledger.remove(uuid, "links", other)
        else:
            mine = int(task.get("origin", "o0")[1:])
            others = [it for it, told in tasks.items() if "origin" in told and int(told["origin"][1:]) < mine and (uuid, it) not in self.gone and it not in links]
            if not others:
                return
            other, word = RANDOM.choice(others), "depend"
            self.ledger.add(uuid, "links", other)
        change(other, word)

    # Edits on the board.

    def edit_left(self, tasks, one=None):
        uuid = one or RANDOM.choice([uuid for uuid, task in tasks.items() if not is_template(task)])
        task = tasks[uuid]
        kind = RANDOM.choice(("text", "text", "project", "due", "priority", "tag", "untag", "note", "unnote", "status", "start", "link"))
        if status_of(task) != "open" and kind not in ("note", "unnote"):
            kind = "status"
        getattr(self, f"left_{kind}")(uuid, task, tasks)
        tasks[uuid] = self.editor.ask("GET", f"/boards/1/tasks/{uuid}")[1]

    def left_set(self, uuid, task, name, value):
        self.ledger.set(LEFT, uuid, name, task.get(name), value)
        self.editor.change(uuid, "modify", {name: value})

    def left_text(self, uuid, task, _):
        self.left_set(uuid, task, "description", text(RANDOM, next(numbers)))

    def left_project(self, uuid, task, _):
        self.left_set(uuid, task, "project", RANDOM.choice((None, f"P{next(numbers)}")))

    def left_due(self, uuid, task, _):
        self.left_set(uuid, task, "due", RANDOM.choice((None, moment(RANDOM))))

    def left_priority(self, uuid, task, _):
        self.left_set(uuid, task, "priority", RANDOM.choice(("H", "M", "L", None)))

    def left_tag(self, uuid, task, _):
        tag = f"t{next(numbers)}"
        self.ledger.add(uuid, "tags", tag)
        self.editor.change(uuid, "modify", {"tags": [*task.get("tags", ()), tag]})

    def left_untag(self, uuid, task, _):
        if task.get("tags"):
            tag = RANDOM.choice(task["tags"])
            self.ledger.remove(uuid, "tags", tag)
            self.editor.change(uuid, "modify", {"tags": [it for it in task["tags"] if it != tag]})

    def left_note(self, uuid, task, _):
        note = text(RANDOM, next(numbers))
        self.ledger.add(uuid, "notes", note)
        self.editor.change(uuid, "annotate", {"description": note})

    def left_unnote(self, uuid, task, _):
        notes = [note["description"] for note in task.get("annotations", ()) if not note["description"].startswith("sync:")]
        if notes:
            note = RANDOM.choice(notes)
            self.ledger.remove(uuid, "notes", note)
            self.editor.change(uuid, "denotate", {"description": note})

    def left_status(self, uuid, task, _):
        before = status_of(task)
        status = "open" if before != "open" else RANDOM.choice(("completed", "deleted"))
        self.ledger.set(LEFT, uuid, "status", before, status)
        self.editor.change(uuid, {"open": "reopen", "completed": "done", "deleted": "delete"}[status])

    def left_start(self, uuid, task, _):
        if not is_waiting(task):
            self.editor.change(uuid, "stop" if "start" in task else "start")

    def left_link(self, uuid, task, tasks):
        plain = {it: told for it, told in tasks.items() if not is_template(told)}
        self.link(uuid, task, plain, lambda other, word: self.editor.change(uuid, word, {"on": other}))

    # A day.

    def edit(self, count):
        left, right = self.editor.tasks(), self.user.tasks()
        shared = [uuid for uuid in left if uuid in right and not is_template(left[uuid])]
        for _ in range(count):
            if RANDOM.random() < 0.5:
                # Some tasks are edited on both sides.
                one = RANDOM.choice(shared)
                self.edit_left(left, one)
                self.edit_right(right, one)
            else:
                RANDOM.choice((lambda: self.edit_left(left), lambda: self.edit_right(right)))()

    def add(self, day):
        """New tasks on both sides, and a template on the board."""
        left, right = list(self.editor.tasks()), [uuid for uuid, task in self.user.tasks().items() if task["status"] != "recurring"]
        for at in range(4):
            self.editor.call("tasks", for_board({name: value for name, value in new_task(None, left).items() if name != "uuid"}))
            self.user.bring(new_task(random_uuid(), right))
        add_template(self.editor, day)

    def stop(self):
        """A run that is stopped at a random message, or before or after an import."""
        name = next(self.kinds)
        if name in IMPORTS:
            open(name, "w").close()
            self.runs.finish(self.runs.start(), (0, -9))
            if os.path.exists(name):
                os.remove(name)
            else:
                self.runs.stopped += 1
        else:
            self.runs.stop(int(RANDOM.choice((2, 4, 8, 40)) * RANDOM.random() ** 2) + 2, name)

    def expect_alike(self, name):
        """Both sides say the same, each task is there once, and a further run has nothing to do."""
        said = expect_alike(name, self.editor.tasks(), self.user.tasks())
        origins = [task["origin"] for task in said.values() if "origin" in task]
        expect(f"{name}: tasks that are there twice", [], sorted({it for it in origins if origins.count(it) > 1}))
        before = self.line.posts
        expect(f"{name}: a further run", "", self.runs.complete())
        expect(f"{name}: calls of a further run", before, self.line.posts)
        self.ledger.judge(said)
        return said

    def twice_at_once(self):
        """Two runs at once over one state, and then one over an older copy of it, as of a machine that was restored: nothing is done twice."""
        both = [self.runs.start(), self.runs.start()]
        for run in both:
            self.runs.finish(run)
        self.edit(10)
        shutil.copy("state.json", "other.json")
        words = [word if word != "state.json" else "other.json" for word in self.words]
        self.runs.finish(self.runs.start())
        before = self.line.posts
        self.runs.finish(self.runs.start(words=words))
        expect("calls of a run over an older state", before, self.line.posts)

    def run(self):
        begun = time.monotonic()
        first_tasks(self.user, self.editor)
        self.stop()
        self.runs.complete()
        self.expect_alike("the first run")
        for day in range(DAYS):
            self.add(day)
            for _ in range(4):
                self.edit(max(TASKS // 40, 6))
                self.stop()
            self.runs.complete()
            self.expect_alike(f"day {day + 1}")
        self.twice_at_once()
        self.runs.complete()
        said = self.expect_alike("two runs at once")
        expect("what stopped runs left", [], [name for name in os.listdir() if "taskboard-" in name])
        checked = self.server.checked()
        print(f"seed {SEED}: {len(said)} tasks, {self.ledger.count} edits on both sides in {DAYS} days, {self.closed_edits} of them of closed tasks, "
              f"{self.line.edits * 3} while a run went on, {self.ledger.conflicts} values kept as notes; {self.runs.stopped} runs stopped, the server killed {self.server.kills} times, "
              f"{self.runs.whole} whole runs; {checked}; {time.monotonic() - begun:.0f} s")


if __name__ == "__main__":
    run_whole(Week(), SEED)

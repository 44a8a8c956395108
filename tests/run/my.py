"""A day with `tb`: my.py PROGRAM PORT, in a folder that is its own, against a server on the port over a file whose first person is ann, by
the key ann-key-1. What a board holds afterwards is read by `send`."""
import calendar
import collections
import datetime
import json
import os
import re
import shutil
import stat
import subprocess
import sys
import unicodedata
import uuid

from drawing import seeded

PROGRAM, PORT = os.path.abspath(sys.argv[1]), int(sys.argv[2])
HOME = os.path.join(os.getcwd(), "home")
FOLDER = os.path.join(HOME, ".config/taskboard")
NAMES = [name for name in os.environ if name.startswith("TASKBOARD_")] + ["TZ", "COLUMNS", "NO_COLOR"]
BARE = {name: value for name, value in os.environ.items() if name not in NAMES} | {"HOME": HOME}
WEEKDAYS = "monday tuesday wednesday thursday friday saturday sunday".split()
wrong = []


def fail(text):
    wrong.append(text)
    print(f"wrong: {text}", flush=True)


def run(*words, **more):
    return subprocess.run([PROGRAM, *words], capture_output=True, text=True, timeout=90, **({"env": BARE} | more))


def tb(*words, **more):
    return run("my", *words, env=BARE | more)


def send(*words, member="ann", key="ann-key-1"):
    ran = run("send", f"127.0.0.1:{PORT}", member, key, *words)
    if ran.returncode:
        fail(f"send {words}: {ran}")
    return ran.stdout


def tasks(board=1):
    return json.loads(send("export", str(board)))


def expect(words, status, out="", told="", **more):
    """The command ends with the status, prints this text, and tells a line that begins so."""
    ran = tb(*words, **more)
    if (ran.returncode, ran.stdout) != (status, out) or not ran.stderr.startswith(told) or bool(ran.stderr) != bool(told):
        fail(f"{words}: {ran.returncode}, {ran.stdout!r}, {ran.stderr!r}, and not {status}, {out!r}, {told!r}")


def expect_task(place, **members):
    """A task's members; a member that is None isn't there."""
    task = tasks()[place - 1]
    differs = {name: task.get(name) for name, value in members.items() if task.get(name) != value}
    if differs:
        fail(f"task {place} has {differs}, and not {members}")


def expect_added(words, description, board=1, **more):
    """A task is added, and told with the number that it has on the board."""
    before = {task["uuid"] for task in tasks(board)}
    ran = tb("add", *words, **more)
    new = [place for place, task in enumerate(tasks(board), 1) if task["uuid"] not in before and "parent" not in task]
    if (ran.returncode, ran.stdout, ran.stderr) != (0, f"Added {new[0] if len(new) == 1 else new}: {description}\n", ""):
        fail(f"add {words}: {ran}, and the new tasks are {new}")


def write(name, text, mode=0o600):
    path = os.path.join(FOLDER, name)
    with open(path, "w") as file:
        file.write(text)
    os.chmod(path, mode)
    return path


def at(days):
    """The first second of the day so many days from today, as JSON has it."""
    return (datetime.datetime.now(datetime.timezone.utc) + datetime.timedelta(days=days)).strftime("%Y%m%dT000000Z")


def boards():
    """What `tb boards` tells."""
    return "".join(f"{it['board']}  {it['role']}  {it['title']}\n" for it in json.loads(send("me"))["boards"])


def ahead(weekday):
    """How many days it is to the next of a weekday, which is never today."""
    return (weekday - datetime.datetime.now(datetime.timezone.utc).weekday() - 1) % 7 + 1


def settings():
    """What is told while settings are missing or wrong, and which go before."""
    expect([], 2, told="Which server? Write a line as `server = 127.0.0.1:8080`")
    expect([], 2, told="Who are you?", TASKBOARD_SERVER=f"127.0.0.1:{PORT}")
    unboarded = {"TASKBOARD_SERVER": f"127.0.0.1:{PORT}", "TASKBOARD_NAME": "ann"}
    for words in ([], ["list"], ["add", "x"], ["done", "1"], ["people"], ["import", "-"]):
        expect(words, 2, told="Which board? `tb boards` lists yours", **unboarded)
    os.makedirs(FOLDER)
    def config(server=f"127.0.0.1:{PORT}", board="1"):
        return f"# whom to ask\n\nserver = {server}\n  name=ann\r\nboard =\t{board}\n"

    write("config", config() + "colour = red\n")
    expect([], 2, told='"colour = red" is no line of the settings.')
    write("config", config(server=f"http://127.0.0.1:{PORT}/"))
    expect([], 2, told="The server has another form than ADDRESS:PORT")
    write("config", config(board=""))
    expect([], 2, told="A board is named by its number or its title")
    write("config", config(), 0o644)
    expect([], 2, told="~/.config/taskboard/config can't be read, or others may read or write it: chmod 600")
    write("config", config())
    ran = tb()
    if ran.returncode != 1 or not ran.stderr.startswith("taskboard: NoKey\n"):
        fail(f"without a key: {ran}")
    write("key", "ann-key-1\n")
    write("config", "")
    for words in (["boards"], ["--board", "1", "boards"]):
        expect(words, 0, boards(), **unboarded)
    expect(["undo"], 1, told="There is nothing to take back.", **unboarded)
    write("config", config())
    expect_added(["Call", "bank"], "Call bank")
    for board in ("0", "00", "01", "4294967296"):
        expect(["--board", board, "list"], 1, told=f'"{board}" is no board of yours.')
        expect(["list"], 1, told=f'"{board}" is no board of yours.', TASKBOARD_BOARD=board)
    path = write("another", "ann-key-1\n")
    expect(["start", "1"], 0, "Started: Call bank\n", TASKBOARD_KEY_FILE=path)
    expect(["stop", "1"], 0, "Stopped: Call bank\n", TASKBOARD_KEY_FILE="~/.config/taskboard/another")
    os.chmod(path, 0o640)
    expect(["start", "1"], 2, told="The file of the key can't be read", TASKBOARD_KEY_FILE=path)
    expect(["list"], 1, told="The server knows nobody of this name and key.", TASKBOARD_NAME="bob")
    expect(["list"], 1, told="You have no role on this board", TASKBOARD_BOARD="77")


def a_day():
    """Each word, and what the board holds then."""
    expect_added(["Buy", "milk", "due:tomorrow", "pri:H", "+Home", "@shop", "@early", "for:bob"], "Buy milk")
    expect_task(2, description="Buy milk", due=at(1), priority="H", project="Home", tags=["early", "shop"], assignee="bob", status="pending")
    expect_added(["Paint the door", "project:", "wait:2099-12-01", "scheduled:2w", "until:+3d", "rec:weekly", "due:3d"], "Paint the door")
    expect_task(3, description="Paint the door", status="recurring", recur="weekly", due=at(3), until=at(3), wait="20991201T000000Z", scheduled=at(14))
    expect(["change", "2", "due:2w", "@phone", "-@shop", "-@early", "for:", "pri:", "Buy", "oat milk"], 0, "Changed: Buy milk\n")
    expect_task(2, description="Buy oat milk", due=at(14), priority=None, project="Home", tags=["phone"], assignee=None)
    expect(["change", "2", "-@phone", "project:", "due:"], 0, "Changed: Buy oat milk\n")
    expect_task(2, description="Buy oat milk", due=None, project=None, tags=None)
    expect(["note", "1", "call", "after six"], 0, "Noted: Call bank\n")
    if [note["description"] for note in tasks()[0]["annotations"]] != ["call after six"]:
        fail("the note isn't there")
    expect(["unnote", "1", "call after", "six"], 0, "Note removed: Call bank\n")
    expect(["unnote", "1", "call", "after", "six"], 1, told="That note or dependency isn't there")
    expect(["needs", "1", "2"], 0, "Call bank needs Buy oat milk\n")
    entries = send("history", "1")
    expect(["needs", "1", "2"], 1, told="Call bank needs Buy oat milk already, so nothing is left to do.")
    if send("history", "1") != entries:
        fail("a link that is there was asked for")
    expect(["needs", "2", "1"], 1, told="The tasks would wait for each other in a circle.")
    expect(["free", "1", "2"], 0, "Call bank no longer needs Buy oat milk\n")
    ids = [task["uuid"] for task in tasks()]
    expect(["done", "1", ids[1]], 0, "Done: Call bank\nDone: Buy oat milk\n")
    expect(["done", "1", "4"], 1, f"Done: {tasks()[3]['description']}\n", "The task's status doesn't allow it")
    expect(["reopen", "1", "2", "4"], 0, "Open again: Call bank\nOpen again: Buy oat milk\nOpen again: Paint the door\n")
    expect(["delete", "3"], 0, "Deleted: Paint the door\n")
    shown = tb("show", "2")
    if "Buy oat milk" not in shown.stdout or ids[1] not in shown.stdout:
        fail(f"show 2: {shown}")
    expect(["boards"], 0, boards())
    expect(["people"], 0, "".join(f"{it['name']}  {it['role']}\n" for it in json.loads(send("people", "1"))["people"]))
    expect_added(["a\x1b[31m\x07b"], "a [31m b")


def refused():
    """Wrong words change nothing, and say what to write."""
    before = send("export", "1")
    count = len(json.loads(before))
    for words in (["frobnicate"], ["tomorrow", "x"]):
        expect(words, 2, told=f'"{words[0]}" is none of my words.')
    for words in (["boards", "x"], ["people", "1"], ["export", "x"], ["todo", "x"], ["undo", "x"], ["setup", "x"]):
        expect(words, 2, told="This word takes nothing after it.")
    for words in (["list", "--sort"], ["list", "--sort", "age"]):
        expect(words, 2, told="After `list` belong")
    for words in (["list", "--jsn"], ["add", "--jsn", "x"], ["change", "1", "--jsn"], ["done", "--jsn"], ["done", "1", "--jsn"], ["note", "1", "--jsn"], ["show", "--jsn"], ["copy", "--jsn"]):
        expect(words, 2, told='"--jsn" is no option of this word.')
    for filter in ("foo:bar", "-x", "Due:today", "status:x", "not:done:today", "not:status:waiting"):
        expect(["list", filter], 2, told=f'"{filter.removeprefix("not:")}" is no filter.')
    for word in ("Due:friday", "sch:friday", "estimate:2h", "mailto:a@b"):
        expect(["add", "x", word], 2, told=f'"{word}" is no attribute.')
        expect(["change", "1", word], 2, told=f'"{word}" is no attribute.')
    for step in ("hourly", "0d", "x"):
        expect(["add", "x", "due:today", f"rec:{step}"], 2, told=f'"{step}" is no step of recurrence.')
    for words in (["add", "x", "depends:99999"], ["change", "1", "depends:99999"]):
        expect(words, 1, told="There is no task 99999 on board 1")
    expect(["list", "due:frday"], 2, told='"frday" is no day.')
    expect(["use"], 2, told="One board belongs after `use`")
    expect(["import"], 2, told="One file belongs after `import`")
    expect(["add"], 2, told="What is to be done belongs after `add`")
    expect(["add", "+Home", "due:today"], 2, told="What is to be done belongs after `add`")
    for words in (["change"], ["change", "1"]):
        expect(words, 2, told="A task and what changes belong after `change`")
    for word in ("done", "delete", "reopen", "start", "stop"):
        expect([word], 2, told="Tasks belong after this word")
    for words in (["note"], ["note", "1"], ["unnote", "1"]):
        expect(words, 2, told="A task and the words of a note belong after this word")
    for words in (["needs", "1"], ["free", "1", "2", "3"]):
        expect(words, 2, told="Two tasks belong after this word")
    for words in (["show"], ["show", "1", "2"]):
        expect(words, 2, told="One task belongs after `show`")
    for place in ("0", "01", str(count + 1), "4294967296", "-1", "x", str(uuid.uuid4())):
        expect(["done", "1", place], 1, told=f"There is no task {place} on board 1 ({count} tasks).")
    for day in ("frday", "0d", "+d", "10000d", "2026-02-30", "2026-1-1", "1m", "++3d", "-3d", "T14:00", "todayT24:00", "todayT1:00", "todayT12:60", "todayT12:00:00", "13-01", "31.02.", "24.12", "in", "next", "fri25:00"):
        expect(["add", "x", f"due:{day}"], 2, told=f'"{day}" is no day.')
    for priority in ("h", "A", "HM"):
        expect(["change", "1", f"pri:{priority}"], 2, told=f'"{priority}" is no priority.')
    if send("export", "1") != before:
        fail("wrong words changed the board")


def later(months):
    """How many days it is to the same day so many months later, or to the last of that month."""
    today = datetime.datetime.now(datetime.timezone.utc).date()
    year, month = divmod(today.year * 12 + today.month - 1 + months, 12)
    return (datetime.date(year, month + 1, min(today.day, calendar.monthrange(year, month + 1)[1])) - today).days


def next_date(month, day):
    """How many days it is to the next such date."""
    today = datetime.datetime.now(datetime.timezone.utc).date()
    return min((it - today).days for it in (datetime.date(today.year, month, day), datetime.date(today.year + 1, month, day)) if it >= today)


def days(draw):
    """Days by their names are what Python's calendar says."""
    today = datetime.datetime.now(datetime.timezone.utc).date()
    names = {"today": 0, "tomorrow": 1, "yesterday": -1, "eod": 0, "TODAY": 0, "eow": 6 - today.weekday(), "next week": 7, "next month": later(1)}
    names["eom"] = calendar.monthrange(today.year, today.month)[1] - today.day
    names |= {form: ahead(number) for number, name in enumerate(WEEKDAYS) for form in (name, name[:3], name.capitalize(), name[:3].upper())}
    for _ in range(6):
        count = draw.randint(1, 600)
        weeks = count // 7 + 1
        month, day = draw.randint(1, 12), draw.randint(1, 28)
        names |= {f"{count}d": count, f"+{count}d": count, f"in {count} days": count, f"{count}days": count, f"{weeks}w": weeks * 7, f"{weeks} weeks": weeks * 7}
        names |= {f"{count % 40 + 1}mo": later(count % 40 + 1), f"{month:02}-{day:02}": next_date(month, day), f"{day:02}.{month:02}.": next_date(month, day)}
    tb("add", "a day")
    place = len(tasks())
    for name, count in names.items():
        # (a day that ends between the two looks counts as either)
        both = {at(count)}
        expect(["change", str(place), f"due:{name}"], 0, "Changed: a day\n")
        both |= {at(count), at(ahead(WEEKDAYS.index(name)) if name in WEEKDAYS else count)}
        if tasks()[place - 1]["due"] not in both:
            fail(f"due:{name} is {tasks()[place - 1]['due']}, and not {both}")
    expect(["change", str(place), "due:9999-12-31"], 0, "Changed: a day\n")
    expect_task(place, due="99991231T000000Z")
    for name, count in (("14:00", 0), ("fri14:00", ahead(4)), ("FridayT14:00", ahead(4)), ("sat14:00", ahead(5)), ("tomorrow14:00", 1)):
        expect(["change", str(place), f"due:{name}"], 0, "Changed: a day\n", TZ="UTC")
        expect_task(place, due=at(count).replace("T000000Z", "T140000Z"))
    before = datetime.datetime.now(datetime.timezone.utc).strftime("%Y%m%dT%H%M%SZ")
    tb("change", str(place), "due:now")
    if not before <= tasks()[place - 1]["due"] <= datetime.datetime.now(datetime.timezone.utc).strftime("%Y%m%dT%H%M%SZ"):
        fail(f"now is {tasks()[place - 1]['due']}, at {before}")


def several():
    """Words of several tasks change what they name, and no text."""
    send("board", "Several")
    board = json.loads(send("me"))["boards"][-1]["board"]
    here = {"TASKBOARD_BOARD": "Several"}
    for name in "abcdef":
        expect_added([name], name, board, **here)
    expect(["change", "1", "3", "5", "pri:H"], 0, "Changed: a\nChanged: c\nChanged: e\n", **here)
    expect(["change", "2-3,6", "+Home", "@x"], 0, "Changed: b\nChanged: c\nChanged: f\n", **here)
    told = [(task["description"], task.get("priority"), task.get("project")) for task in tasks(board)]
    if told != [("a", "H", None), ("b", None, "Home"), ("c", "H", "Home"), ("d", None, None), ("e", "H", None), ("f", None, "Home")]:
        fail(f"several tasks are {told}")
    before = send("export", str(board))
    for words in (["change", "3", "4", "eggs"], ["change", "1,2", "eggs"], ["change", "1-2", "3", "--", "eggs"]):
        expect(words, 2, told="A new description is for one task.", **here)
    expect(["change", "3", "400", "eggs"], 1, told="There is no task 400 on board ", **here)
    for words in (["done", "2-9"], ["done", "3-2"], ["done", "0-2"], ["done", "1,9"], ["done", "1,"], ["change", "9", "x"]):
        expect(words, 1, told=f"There is no task {words[1]} on board ", **here)
    for word in ("add", "change", "append", "copy", "note", "done", "list", "show", "log", "undo", "boards"):
        for words in ([word, "--help"], [word, "3", "--help"], ["help", word]):
            ran = tb(*words, **here)
            if ran.returncode or ran.stderr or not ran.stdout.startswith(f"tb {word}"):
                fail(f"{words}: {ran}")
    if send("export", str(board)) != before:
        fail("help or wrong words changed the board")
    expect(["change", "3", "--", "4 eggs", "due:fri", "--help"], 0, "Changed: c\n", **here)
    expect(["append", "3", "and", "milk", "pri:L"], 0, "Changed: 4 eggs due:fri --help\n", **here)
    expect(["prepend", "3", "--", "2", "x"], 0, "Changed: 4 eggs due:fri --help and milk\n", **here)
    if (tasks(board)[2]["description"], tasks(board)[2]["priority"]) != ("2 x 4 eggs due:fri --help and milk", "L"):
        fail(f"the texts are {tasks(board)[2]}")
    expect(["note", "1-2", "seen"], 0, "Noted: a\nNoted: b\n", **here)
    expect(["note", "1,1", "1-1", "--", "2", "eggs"], 0, "Noted: a\n", **here)
    if [[note["description"] for note in task.get("annotations", [])] for task in tasks(board)[:2]] != [["seen", "2 eggs"], ["seen"]]:
        fail(f"the notes are {tasks(board)[:2]}")
    expect(["copy", "3", "due:2099-01-01", "@y"], 0, "Added 7: 2 x 4 eggs due:fri --help and milk\n", **here)
    copied = tasks(board)[6]
    if (copied["due"], copied["tags"], copied["project"], copied["priority"]) != ("20990101T000000Z", ["x", "y"], "Home", "L"):
        fail(f"the copy is {copied}")
    expect(["start", "4-5"], 0, "Started: d\nStarted: e\n", **here)
    expect(["stop", "4,5"], 0, "Stopped: d\nStopped: e\n", **here)
    expect(["done", "4", "5,6"], 0, "Done: d\nDone: e\nDone: f\n", **here)
    expect(["reopen", "4-6"], 0, "Open again: d\nOpen again: e\nOpen again: f\n", **here)
    expect(["delete", "4-6"], 0, "Deleted: d\nDeleted: e\nDeleted: f\n", **here)


def spoken():
    """The words of `add` that others use, and what stays a text."""
    expect_added(["(B)", "Words", "priority:H", "project:Home", "recur:weekly", "due:2099-01-01", "tags:a,b", "@c", "assignee:me"], "Words")
    expect_task(next(place for place, task in enumerate(tasks(), 1) if task["description"] == "Words" and "parent" not in task), priority="H", project="Home", recur="weekly", tags=["a", "b", "c"], assignee="ann")
    expect_added(["(A)", "Marked"], "Marked")
    expect_task(len(tasks()), priority="H")
    expect_added(["(D)", "plain", "(A)"], "(D) plain (A)")
    expect_added(["Call the bank +Bank for:me pri:L"], "Call the bank")
    expect_task(len(tasks()), description="Call the bank", project="Bank", assignee="ann", priority="L")
    expect_added(["see", "https://example.org/x", "12:30", "Bob:", "--", "note:this", "+x", "--json", "(A)"], "see https://example.org/x 12:30 Bob: note:this +x --json (A)")
    expect_task(len(tasks()), project=None)
    expect_added(["needs", "some", "depends:1,2"], "needs some")
    expect_task(len(tasks()), depends=sorted(task["uuid"] for task in tasks()[:2]))
    here = str(len(tasks()))
    expect(["change", here, "depends:1,4"], 0, f"needs some needs {tasks()[3]['description']}\n")
    expect(["change", here, "depends:1"], 1, told="Nothing is to be changed")
    mine = tb("list", "mine", "--json", "--", "Call the bank")
    if mine.returncode or [task["description"] for task in json.loads(mine.stdout)] != ["Call the bank"]:
        fail(f"for:me isn't mine: {mine}")
    if tb("list", "for:me", "Marked").stdout != f"0 of {len(tasks())} tasks\n":
        fail("for:me finds another's")
    for words, told in ((["add", "as", "JSON", "--json"], "uuid"), (["show", "1", "--json"], "description"), (["log", "--json"], "entries"), (["log", "1", "--json"], "entries"), (["boards", "--json"], "boards"), (["people", "--json"], "people")):
        ran = tb(*words)
        if ran.returncode or ran.stderr or told not in json.loads(ran.stdout):
            fail(f"{words}: {ran}")
    if json.loads(tb("show", "1", "--json").stdout) != json.loads(send("task", "1", "1")):
        fail("show --json isn't the task")


# ---- finding

def day_number(moment):
    """The day of a moment in UTC, counted from 1970."""
    return int(datetime.datetime.strptime(moment, "%Y%m%dT%H%M%SZ").replace(tzinfo=datetime.timezone.utc).timestamp()) // 86400


def is_found(task, word, today, now, blocked):
    """Whether a task passes a word of the list, by its definition."""
    lowered = lambda text: "".join(c.lower() if "A" <= c <= "Z" else c for c in text)
    due = task.get("due")
    if word.startswith("+"):
        return task.get("project", "") == word[1:] or task.get("project", "").startswith(word[1:] + ".")
    if word.startswith("@"):
        return word[1:] in task.get("tags", [])
    if word.startswith(("not:", "-")):
        return not is_found(task, word.removeprefix("not:").removeprefix("-"), today, now, blocked)
    if word.startswith("pri:"):
        return task.get("priority", "") == word[4:]
    if word.startswith("project:"):
        return is_found(task, "+" + word[8:], today, now, blocked) if word[8:] else "project" not in task
    if word.startswith(("due:before:", "due:after:")):
        named = today + {"today": 0, "tomorrow": 1, "3d": 3}[word.split(":")[2]]
        return due is not None and (day_number(due) < named if "before" in word else day_number(due) > named)
    if word == "mine" or word.startswith("for:"):
        return task.get("assignee", "") == ("ann" if word == "mine" else word[4:])
    if word.startswith("due:"):
        first, last = {"today": (0, 0), "tomorrow": (1, 1), "week": (0, 6)}[word[4:]]
        return due is not None and today + first <= day_number(due) <= today + last
    if word.startswith("done:"):
        first, last = {"today": (0, 0), "week": (-6, 0)}[word[5:]]
        return today + first <= day_number(task["end"]) <= today + last
    if word == "overdue":
        return due is not None and (due < now if not due.endswith("T000000Z") else day_number(due) < today)
    if word == "blocked":
        return task["uuid"] in blocked
    if word == "waiting":
        return task["status"] == "waiting"
    return any(lowered(word) in lowered(text) for text in [task["description"], *(note["description"] for note in task.get("annotations", []))])


STANDINGS = {
    "done": ("completed",), "recurring": ("recurring",), "all": ("pending", "waiting", "recurring", "completed", "deleted"), "status:pending": ("pending",),
    "status:waiting": ("waiting",), "status:done": ("completed",), "status:completed": ("completed",), "status:deleted": ("deleted",),
}


def finding(draw):
    """The list shows exactly the tasks that pass its words, in the order that is asked for."""
    send("board", "Finding")
    board = json.loads(send("me"))["boards"][-1]["board"]
    now = datetime.datetime.now(datetime.timezone.utc)
    words = "milk Bank call DOOR paint e a".split()
    uuids = [str(uuid.UUID(int=draw.getrandbits(128), version=4)) for _ in range(60)]
    made = []
    for number, one in enumerate(uuids):
        task = {"uuid": one, "description": " ".join(draw.choices(words, k=2)), "entry": "20260101T000000Z", "status": draw.choice(["pending"] * 4 + ["completed", "deleted"])}
        if draw.random() < 0.6:
            task["project"] = draw.choice(["Home", "Home.garden", "Homes", "Work", "work"])
        if draw.random() < 0.6:
            task["tags"] = draw.sample(["shop", "phone", "next"], draw.randint(1, 2))
        if draw.random() < 0.5:
            task["assignee"] = draw.choice(["ann", "bob"])
        if draw.random() < 0.7:
            task["due"] = (now + datetime.timedelta(days=draw.randint(-3, 9))).strftime("%Y%m%dT" + draw.choice(["000000Z", "000000Z", "235900Z", "000100Z"]))
        if draw.random() < 0.3:
            task["priority"] = draw.choice("HML")
        if draw.random() < 0.2:
            task["annotations"] = [{"entry": "20260101T000000Z", "description": "a Note"}]
        if draw.random() < 0.3 and number:
            task["depends"] = [draw.choice(uuids[:number])]
        if task["status"] == "pending" and draw.random() < 0.2:
            task["wait"] = (now + datetime.timedelta(days=3)).strftime("%Y%m%dT000000Z")
        if task["status"] == "completed":
            task["end"] = (now - datetime.timedelta(days=draw.randint(0, 12))).strftime("%Y%m%dT000000Z")
        made.append(task)
    send("import", str(board), json.dumps(made))
    exported = tasks(board)
    places = {task["uuid"]: place for place, task in enumerate(exported, 1)}
    is_open = {task["uuid"] for task in exported if task["status"] in ("pending", "waiting", "recurring")}
    blocked = {task["uuid"] for task in exported if task["uuid"] in is_open and any(one in is_open for one in task.get("depends", []))}
    blocking = {one for task in exported if task["uuid"] in is_open for one in task.get("depends", []) if one in is_open and one != task["uuid"]}
    listed = [int(line.split()[0]) for line in send("list", str(board)).splitlines()[1:-1]]
    here = {"TASKBOARD_BOARD": str(board)}
    filters = "+Home +Work @shop @phone @next for:bob for:ann for: mine due:today due:tomorrow due:week overdue blocked waiting milk BANK nothing note".split()
    filters += "pri:H pri: project:Home project: -@shop -+Home not:mine not:milk not:due:week not:pri:M due:before:today due:before:3d due:after:tomorrow".split()
    count = 0
    for number in range(60):
        standing = draw.choice([None] * 4 + ["done:week", "done:today", *STANDINGS])
        asked = draw.sample(filters, draw.randint(0, 2)) + ([standing] if standing else [])
        sort = draw.choice([None, "urgency", "due", "project"])
        ran = tb("list", *asked, *(["--sort", sort] if sort else []), "--json", **here)
        told = json.loads(ran.stdout)
        today = int(now.timestamp()) // 86400
        status = STANDINGS.get(standing, ("completed",) if standing else ("pending", "waiting"))
        wanted = {task["uuid"] for task in exported if task["status"] in status and all(is_found(task, word, today, now.strftime("%Y%m%dT%H%M%SZ"), blocked) for word in asked if word not in STANDINGS)}
        if {task["uuid"] for task in told} != wanted or len(told) != len(wanted):
            fail(f"{asked} finds {len(told)} tasks, and not {len(wanted)}")
        first = {"due": lambda task: task.get("due", "~"), "project": lambda task: (0, task["project"].encode()) if "project" in task else (1, b"")}.get(sort, lambda task: 0)
        # (an urgency is told to three places, so of two that are told alike the one that is due first may be the greater)
        if told != sorted(told, key=lambda task: (first(task), -task["urgency"], task.get("due", "~"), task["place"])):
            fail(f"{asked} by {sort} isn't in order")
        for task in told:
            mine = {"place": places[task["uuid"]], "blocked": task["uuid"] in blocked, "blocking": task["uuid"] in blocking}
            rest = {name: value for name, value in task.items() if name not in (*mine, "urgency")}
            if {name: task[name] for name in mine} != mine or rest != exported[mine["place"] - 1]:
                fail(f"{task} isn't {mine} and {exported[mine['place'] - 1]}")
        if not asked and sort in (None, "urgency") and [task["place"] for task in told] != listed:
            fail(f"the list isn't the server's: {listed}")
        plain = tb("list", *asked, *(["--sort", sort] if sort else []), **here).stdout.splitlines()
        if [int(line.split()[0]) for line in plain[:-1]] != [task["place"] for task in told] or plain[-1] != f"{len(told)} of {len(exported)} tasks":
            fail(f"{asked}: the lines aren't the tasks: {plain}")
        count += len(told)
    if count < 100:
        fail(f"only {count} tasks were found")
    open_ones = [task for task in exported if task["status"] in ("pending", "waiting")]
    for word, names in (("projects", [[task["project"]] if "project" in task else [] for task in open_ones]), ("tags", [task.get("tags", []) for task in open_ones])):
        counts = collections.Counter(name for some in names for name in some)
        expect([word], 0, "".join(f"{counts[name]}  {name}\n" for name in sorted(counts, key=str.encode)), **here)
    expect(["tags", "done", "+Home"], 0, tb("tags", "status:completed", "project:Home", **here).stdout, **here)
    ready = {places[task["uuid"]] for task in open_ones if task["status"] == "pending" and task["uuid"] not in blocked}
    for words in (["next"], ["list", "not:waiting", "not:blocked"], ["ls", "not:blocked", "status:pending"]):
        listed = [int(line.split()[0]) for line in tb(*words, **here).stdout.splitlines()[:-1]]
        if set(listed) != ready:
            fail(f"{words} lists {listed}, and not {ready}")


VERBS = {
    "add": "added", "done": "completed", "delete": "deleted", "reopen": "reopened", "start": "started", "stop": "stopped", "modify": "changed",
    "annotate": "added a note to", "denotate": "removed a note from", "depend": "added a dependency to", "undepend": "removed a dependency from",
    "import": "imported tasks", "import-todo": "imported tasks", "role": "changed a role", "ahead": "changed how far the board looks ahead",
    "sweep": "had due tasks made", "take": "took over the board", "title": "renamed the board",
}


def without_controls(text):
    return "".join(" " if unicodedata.category(it) == "Cc" else it for it in text)


def log_line(entry, places):
    """What `tb log` says of an entry, in UTC."""
    moment = datetime.datetime.strptime(entry["moment"], "%Y%m%dT%H%M%SZ")
    days = (datetime.datetime.now(datetime.timezone.utc).date() - moment.date()).days
    day = {0: "today", 1: "yesterday"}.get(days, f"{moment:%Y-%m-%d}")
    task = f" {places[entry['task']]}" if "task" in entry else ""
    return f"{day} {moment:%H:%M}: {entry['member']} {VERBS[entry['what']]}{task}\n"


def log():
    """Who did what, on the board and on one task."""
    places = {task["uuid"]: f"{place} {without_controls(task['description'])}" for place, task in enumerate(tasks(), 1)}
    told = json.loads(send("history", "1"))["entries"]
    expect(["log"], 0, "".join(log_line(entry, places) for entry in told), TZ="UTC")
    uuid_of_first = next(iter(places))
    about = json.loads(send("history-of", "1", uuid_of_first))["entries"]
    if not 0 < len(about) < len(told):
        fail(f"{len(about)} of {len(told)} entries are about the first task")
    expect(["log", "1"], 0, "".join(log_line(entry, places) for entry in about), TZ="UTC")
    expect(["log", "1", "2"], 2, told="Nothing belongs after `log`, or one task")
    expect(["log", "999999"], 1, told="There is no task 999999 on board 1")


def lists():
    """Lines are as wide as what stands in them, and fit a terminal; colours are for terminals alone; days are words."""
    send("board", "Lists")
    here = {"TASKBOARD_BOARD": "Lists"}
    expect(["list"], 0, "0 of 0 tasks\n", **here)
    board = json.loads(send("me"))["boards"][-1]["board"]
    for words in (["Old", "due:2026-01-02"], ["Soon", "due:tomorrow", "+Home", "pri:H", "@x"], ["漢字 " * 40, "for:bob"], ["At noon", "due:todayT12:00"]):
        expect_added(words, words[0], board, **here)
    expect(["start", "2"], 0, "Started: Soon\n", **here)
    plain = tb("list", "--sort", "due", **here).stdout
    wanted = f"1      2026-01-02              Old\n4      today 12:00             At noon\n2  H*  tomorrow     Home       Soon @x\n3                         bob  {'漢字 ' * 40}\n4 of 4 tasks\n"
    if plain != wanted:
        fail(f"the list is {plain!r}, and not {wanted!r}")
    if shutil.which("script"):
        for columns, more in ((60, {}), (300, {"NO_COLOR": "1"})):
            typed = subprocess.run(["script", "-qec", f"{PROGRAM} my list", "/dev/null"], capture_output=True, text=True, env=BARE | here | {"COLUMNS": str(columns)} | more, timeout=60).stdout
            bare = re.sub("\x1b\\[[0-9]*m", "", typed)
            if ("\x1b[" in typed) == bool(more) or (not more and "\x1b[31m2026-01-02" not in typed):
                fail(f"colours at {columns} columns: {typed!r}")
            widths = [sum(2 if unicodedata.east_asian_width(c) in "WF" else 1 for c in line) for line in bare.replace("\r", "").splitlines()]
            if max(widths) > columns or ("…" in bare) != (columns < 150):
                fail(f"at {columns} columns: {widths}, {bare!r}")


def titles():
    """Boards by titles and numbers, in the settings, the environment and before the words."""
    for name in ("Lists", "1"):
        if tb("--board", name, "list").stdout != tb("list", TASKBOARD_BOARD=name).stdout:
            fail(f"--board {name}")
    expect(["list"], 1, told='"Nowhere" is no board of yours.', TASKBOARD_BOARD="Nowhere")
    expect(["use", "Nowhere"], 1, told='"Nowhere" is no board of yours.')
    expect(["use", "Lists"], 0, "From now on: board Lists\n")
    expect(["list", "Old"], 0, "1  2026-01-02  Old\n1 of 4 tasks\n")
    if stat.S_IMODE(os.stat(os.path.join(FOLDER, "config")).st_mode) != 0o600:
        fail("the settings can be read by others")
    expect(["use", "1"], 0, "From now on: board 1\n")
    if tb("list").stdout != tb("list", TASKBOARD_BOARD="1").stdout:
        fail("use 1")
    for _ in range(2):
        send("board", "Twice")
    for words in (["--board", "Twice", "add", "Lost"], ["use", "Twice"]):
        expect(words, 1, told='"Twice" is the title of more than one of your boards: take its number, which `tb boards` lists.')


def zones():
    """Days and times are those of the machine's zone; a day is its first second in UTC."""
    for zone, moment in (("Europe/Berlin", "20260701T120000Z"), ("America/New_York", "20260701T180000Z"), ("UTC", "20260701T140000Z"), ("CET-1CEST,M3.5.0,M10.5.0/3", "20260701T120000Z"), ("Asia/Kolkata", "20260701T083000Z")):
        if "," not in zone and "/" in zone and not os.path.exists(f"/usr/share/zoneinfo/{zone}"):
            continue
        expect_added(["in", zone, "due:2026-07-01T14:00", "wait:2099-12-01"], f"in {zone}", TZ=zone)
        expect_task(len(tasks()), due=moment, wait="20991201T000000Z")
        shown = tb("show", str(len(tasks())), TZ=zone).stdout
        if "2026-07-01 14:00" not in shown or "waits for  2099-12-01\n" not in shown:
            fail(f"in {zone}: {shown}")
    for zone, hours in (("XXX-14", 14), ("XXX12", -12)):
        there = (datetime.datetime.now(datetime.timezone.utc) + datetime.timedelta(hours=hours)).strftime("%Y%m%dT000000Z")
        expect_added(["today there", "due:today"], "today there", TZ=zone)
        expect_task(len(tasks()), due=there)


def undo():
    """Commands are taken back, the last one first, and what can't be is said."""
    expect_added(["One"], "One")
    expect_added(["Two"], "Two")
    one, two = str(len(tasks()) - 1), str(len(tasks()))
    for words, told, status in ((["done", one, two], "Taken back: Done: One\nTaken back: Done: Two\n", "pending"), (["delete", one], "Taken back: Deleted: One\n", "pending"), (["start", one], "Taken back: Started: One\n", "pending")):
        tb(*words)
        expect(["undo"], 0, told)
        expect_task(int(one), status=status, start=None)
    tb("change", one, "due:2099-01-01", "pri:L", "+Old", "@a", "@b", "for:bob", "wait:2099-01-01")
    before = tasks()[int(one) - 1]
    for words in (["Another", "text", "due:", "pri:H", "project:", "@c", "-@a", "for:"], ["-@a", "-@b"], ["scheduled:fri", "until:fri", "wait:"], ["--", "--help"]):
        expect(["change", one, *words], 0, "Changed: One\n")
        expect(["undo"], 0, "Taken back: Changed: One\n")
        after = tasks()[int(one) - 1]
        if after | {"modified": 0} != before | {"modified": 0}:
            fail(f"change {words} isn't taken back: {after}, and not {before}")
    tb("append", one, two, "more")
    expect(["undo"], 0, "Taken back: Changed: One\nTaken back: Changed: Two\n")
    expect_task(int(two), description="Two")
    for closing, verb, status in (("done", "Done", "completed"), ("delete", "Deleted", "deleted")):
        tb(closing, one)
        tb("reopen", one)
        expect(["undo"], 0, "Taken back: Open again: One\n")
        expect_task(int(one), status=status)
        expect(["undo"], 0, f"Taken back: {verb}: One\n")
        expect_task(int(one), status="waiting")
    expect_added(["Three"], "Three")
    expect(["undo"], 0, "Taken back: Added: Three\n")
    expect_task(len(tasks()), description="Three", status="deleted")
    for text in ("one\ttab", "two\nlines\r\n", "\x01A\x1b[31m\x1f", "c:\\tab\\n é漢 \x7f\x85"):
        tb("note", one, text)
        if [note["description"] for note in tasks()[int(one) - 1]["annotations"]] != [text]:
            fail(f"{text!r} isn't noted")
        expect(["undo"], 0, "Taken back: Noted: One\n")
        expect_task(int(one), annotations=None)
        tb("note", one, text)
        tb("unnote", one, text)
        expect(["undo"], 0, "Taken back: Note removed: One\n")
        if [note["description"] for note in tasks()[int(one) - 1]["annotations"]] != [text]:
            fail(f"{text!r} isn't noted again")
        tb("unnote", one, text)
    tb("needs", one, two)
    tb("needs", one, two)
    expect(["undo"], 0, "Taken back: One needs Two\n")
    expect_task(int(one), depends=None)
    tb("done", one)
    expect(["undo"], 1, told="There is nothing to take back.", TASKBOARD_SERVER=f"localhost:{PORT}")
    expect(["undo"], 0, "Taken back: Done: One\n")
    for number in range(60):
        tb("change", one, "--", f"text {number}")
    for number in range(59, 9, -1):
        expect(["undo"], 0, f"Taken back: Changed: {f'text {number - 1}'}\n")
    expect_task(int(one), description="text 9")
    expect(["undo"], 1, told="There is nothing to take back.")
    tb("change", one, "--", "One")
    ran = subprocess.run([PROGRAM, "my", "import", "-"], input="Brought +Home", capture_output=True, text=True, env=BARE, timeout=60)
    if ran.returncode:
        fail(f"import -: {ran}")
    expect(["undo"], 1, told="Can't be taken back: Imported: 1 new, 0 known before")
    expect(["undo"], 0, "Taken back: Changed: text 9\n")


def imports(draw):
    """Imports of any length from a file and from standard input, and both exports."""
    send("board", "Imports")
    here = {"TASKBOARD_BOARD": "Imports"}
    many = [{"uuid": str(uuid.UUID(int=draw.getrandbits(128), version=4)), "description": f"task {number}", "entry": "20260101T000000Z", "status": "pending"} for number in range(2500)]
    with open("many.json", "w") as file:
        file.write("[\n" + ",\n".join(json.dumps(task) for task in many) + "\n]\n")
    expect(["import", "many.json"], 0, "Imported: 1000 new, 0 known before\n" * 2 + "Imported: 500 new, 0 known before\n", **here)
    expect(["import", "many.json"], 0, "Imported: 0 new, 1000 known before\n" * 2 + "Imported: 0 new, 500 known before\n", **here)
    ran = subprocess.run([PROGRAM, "my", "import", "-"], input="x 2026-03-02 2026-03-01 Call Mom @phone\n\nBuy milk +Home", capture_output=True, text=True, env=BARE | here, timeout=60)
    if (ran.returncode, ran.stdout) != (0, "Imported: 2 new, 0 known before\n"):
        fail(f"import -: {ran}")
    for name, text in (("marked.json", json.dumps(many[:1])), ("marked.txt", "Sow peas +Garden\n")):
        with open(name, "w", encoding="utf-8-sig") as file:
            file.write(text)
    expect(["import", "marked.json"], 0, "Imported: 0 new, 1 known before\n", **here)
    expect(["import", "marked.txt"], 0, "Imported: 1 new, 0 known before\n", **here)
    board = str(next(it["board"] for it in json.loads(send("me"))["boards"] if it["title"] == "Imports"))
    if tasks(board)[-1]["description"] != "Sow peas":
        fail(f"a mark is imported: {tasks(board)[-1]}")
    expect(["import", "nowhere.json"], 1, told="That file can't be read", **here)
    for word in ("export", "todo"):
        if tb(word, **here).stdout != send(word, board):
            fail(f"{word} isn't that of send")


def setup():
    """The settings are asked for, and written for their owner alone."""
    home = os.path.join(os.getcwd(), "fresh")
    os.makedirs(home)
    ran = subprocess.run([PROGRAM, "my", "setup"], input=f"127.0.0.1:{PORT}\nann\n1\nann-key-1\n", capture_output=True, text=True, env=BARE | {"HOME": home}, timeout=60)
    modes = [stat.S_IMODE(os.stat(os.path.join(home, ".config/taskboard", name)).st_mode) for name in ("config", "key")]
    if ran.returncode or modes != [0o600, 0o600]:
        fail(f"setup: {ran}, {modes}")
    if run("my", "list", env=BARE | {"HOME": home}).stdout != tb("list").stdout:
        fail("the settings aren't those that were asked for")
    ran = subprocess.run([PROGRAM, "my", "setup"], input="http://x/\nann\n1\n", capture_output=True, text=True, env=BARE | {"HOME": home}, timeout=60)
    if ran.returncode != 2 or not ran.stderr.startswith("The server has another form"):
        fail(f"setup with a wrong server: {ran}")
    config = os.path.join(home, ".config/taskboard/config")
    with open(config, "a") as file:
        file.write("# mine\nkey-file = ~/.config/taskboard/moved\ncolour = red\n")
    os.rename(os.path.join(home, ".config/taskboard/key"), os.path.join(home, ".config/taskboard/moved"))
    ran = subprocess.run([PROGRAM, "my", "setup"], input=f"127.0.0.1:{PORT}\nann\n1\n", capture_output=True, text=True, env=BARE | {"HOME": home}, timeout=60)
    with open(config) as file:
        text = file.read()
    if ran.returncode or "key" in ran.stdout or text != f"# mine\nkey-file = ~/.config/taskboard/moved\nserver = 127.0.0.1:{PORT}\nname = ann\nboard = 1\n":
        fail(f"setup forgets where the key is: {ran}, {text!r}")
    if run("my", "list", env=BARE | {"HOME": home}).stdout != tb("list").stdout:
        fail("the key isn't read where the settings of before say")
    subprocess.run([PROGRAM, "my", "setup"], input=f"127.0.0.1:{PORT}\nann\n\n", capture_output=True, text=True, env=BARE | {"HOME": home}, timeout=60)
    ran = run("my", "boards", env=BARE | {"HOME": home})
    if ran.returncode or ran.stdout != tb("boards").stdout:
        fail(f"without a board, boards tells {ran}")
    if not run("my", "list", env=BARE | {"HOME": home}).stderr.startswith("Which board?"):
        fail("a list of no board")


def same_task():
    """A task's uuid is made of the identifier of the call that adds it."""
    expect_added(["by", "its", "call"], "by its call")
    if uuid.UUID(tasks()[-1]["uuid"]).version != 5:
        fail(f"{tasks()[-1]} has no uuid of its call")


def homeless():
    """Without a home there is no key."""
    ran = run("my", "list", env={name: value for name, value in BARE.items() if name != "HOME"} | {"HOME": "", "TASKBOARD_SERVER": f"127.0.0.1:{PORT}", "TASKBOARD_NAME": "ann", "TASKBOARD_BOARD": "1"})
    if ran.returncode != 1 or not ran.stderr.startswith("taskboard: NoKey\n"):
        fail(f"without a home: {ran}")


def others(draw):
    """A second person, on a board of their own and on the first, with random descriptions."""
    send("person", "bob", "bob-key-1")
    send("role", "1", "bob", "member")
    key = write("bob", "bob-key-1\n")
    bob = {"TASKBOARD_NAME": "bob", "TASKBOARD_KEY_FILE": key}
    first = len(tasks())
    for number in range(8):
        words = ["".join(draw.choice("abcxyz\"'\\{}[]éß漢") for _ in range(draw.randint(1, 9))) for _ in range(draw.randint(1, 4))]
        expect_added(["--", *words], " ".join(words), **bob)
        expect_task(first + number + 1, description=" ".join(words))
    send("role", "1", "bob", "reader")
    expect(["done", "1"], 1, told="Your role doesn't allow it.", **bob)


def silent():
    """Where nobody answers, a view ends at once, and a call after its time; both say where."""
    away = {"TASKBOARD_SERVER": "127.0.0.1:1"}
    for words in (["list"], ["--for", "3600", "boards"], ["done", "1"]):
        ran = tb(*words, **away)
        if (ran.returncode, ran.stdout) != (1, "") or not ran.stderr.startswith("127.0.0.1:1 doesn't answer.\ntaskboard: NoAnswer\n"):
            fail(f"{words} without a server: {ran}")
    for words in (["--for", "1", "add", "x"], ["--board", "1", "--for", "1", "add", "x"], ["--for", "1", "--board", "1", "add", "x"]):
        ran = tb(*words, **away)
        if (ran.returncode, ran.stdout) != (1, "") or not ran.stderr.startswith("127.0.0.1:1 doesn't answer; trying for 1 s.\ntaskboard: NoAnswer\n"):
            fail(f"{words} without a server: {ran}")
    for seconds in ("0", "x", "86401"):
        expect(["--for", seconds, "list"], 2, told=f'"{seconds}" is no number of seconds')


def main():
    _, draw = seeded()
    settings()
    a_day()
    refused()
    days(draw)
    several()
    spoken()
    others(draw)
    log()
    same_task()
    undo()
    finding(draw)
    lists()
    titles()
    zones()
    imports(draw)
    setup()
    homeless()
    silent()
    if wrong:
        sys.exit(f"{len(wrong)} wrong")
    print("a day with tb is as it should be")


main()

"""Days that go between a board and todo.txt or Taskwarrior in zones east and west: sync_days.py PROGRAM PORT, in a folder of its own.

A day is the same one everywhere, and a moment falls on its day in the zone and keeps its time, also over a change to summer time."""
import contextlib
import datetime
import io
import json
import os
import runpy
import subprocess
import sys
import time as clock
import zoneinfo

from bridging import BRIDGES, Editor, Server, expect

PROGRAM, PORT = sys.argv[1], int(sys.argv[2])
UTC = datetime.timezone.utc
# Each zone with a day on which its clocks are put forward, or any day where they never are.
ZONES = {"America/Los_Angeles": (2027, 3, 14), "Pacific/Auckland": (2027, 9, 26), "Asia/Kolkata": (2027, 3, 14), "Europe/Berlin": (2027, 3, 28)}
TIMES = ("00:00", "00:30", "01:59", "03:00", "09:00", "16:30", "23:59")
UUID = "dddddddd-dddd-4ddd-8ddd-{:012d}"
boards = iter(range(2, 100))


def utc(zone, day, time):
    """The moment of a day and a time in a zone."""
    hour, minute = map(int, time.split(":"))
    return f"{datetime.datetime.combine(day, datetime.time(hour, minute), zoneinfo.ZoneInfo(zone)).astimezone(UTC):%Y%m%dT%H%M%SZ}"


def alone(day):
    return f"{day:%Y%m%d}T000000Z"


def new_board():
    number = next(boards)
    expect("a new board", number, Editor(PORT).ask("POST", "/boards", {"title": "Days"})[1]["board"])
    return Editor(PORT, number)


def run_here(script, *words):
    """Runs a script within this process, which takes a tenth of the time; what it said, and its status."""
    said, sys.argv = io.StringIO(), [script, *words]
    with contextlib.redirect_stdout(said), contextlib.redirect_stderr(said):
        try:
            runpy.run_path(f"{BRIDGES}/{script}", run_name="__main__")
        except SystemExit as ended:
            return said.getvalue(), ended.code
    sys.exit(f"{script} has no status")


class Side:
    """A bridge between a board of its own and a folder of its own."""

    def __init__(self, script, zone, by_option=False):
        self.script, self.zone, self.editor = script, zone, new_board()
        self.folder = os.path.abspath(f"{script}-{self.editor.board}")
        os.mkdir(self.folder)
        with open(f"{self.folder}/rc", "w") as file:
            file.write(f"data.location={self.folder}\nconfirmation=off\nnews.version=2.6.2\nverbose=nothing\n")
        self.environment = {"TZ": "Pacific/Kiritimati" if by_option else zone, "TASKRC": f"{self.folder}/rc", "TASKBOARD_KEY": "ann-key-1"}
        self.more = ["--zone", zone] if by_option else []

    def path(self, name):
        return f"{self.folder}/{name}"

    def run(self, *words, status=0):
        os.environ.update(self.environment)
        clock.tzset()
        said, ended = run_here(self.script, *self.more, "--state", self.path("state.json"), f"127.0.0.1:{PORT}", "ann", str(self.editor.board), *words)
        expect(f"{self.script} in {self.zone}: {said[-2000:]}", status, ended)
        return said

    def dues(self):
        return {uuid: task.get("due") for uuid, task in self.editor.tasks().items()}

    def scheduled(self):
        return {uuid: task.get("scheduled") for uuid, task in self.editor.tasks().items()}


def first_dues(zone, day):
    """Dues by the numbers of their tasks, with the days on which they fall: a day alone and each time, on the days about one."""
    days = [day + datetime.timedelta(days=more) for more in (-1, 0, 1)]
    dues = [(alone(it), it) for it in days]
    dues += [(utc(zone, it, time), it) for it in days for time in TIMES]
    return {UUID.format(at): pair for at, pair in enumerate(dues) if pair[0] == alone(pair[1]) or not pair[0].endswith("T000000Z")}


def lines_of(side):
    with open(side.path("todo.txt")) as file:
        return file.read().splitlines()


def day_in(line):
    return next((word[4:] for word in line.split(" ") if word.startswith("due:")), None)


def line_with(side, uuid):
    return next(line for line in lines_of(side) if f"uuid:{uuid}" in line)


def write(side, lines):
    with open(side.path("todo.txt"), "w") as file:
        file.write("".join(f"{line}\n" for line in lines))


def look_at_lines(zone, day, by_option):
    """todo.txt: each due falls on its day, keeps its moment where the day stays, and its time where the day is another."""
    side = Side("todotxt-sync", zone, by_option)
    dues = first_dues(zone, day)
    written = {f"{it:%Y-%m-%d}": f"Written for the {it:%d}" for it in (day - datetime.timedelta(days=1), day, day + datetime.timedelta(days=1))}
    write(side, [f"{text} due:{it}" for it, text in written.items()])
    side.editor.call("import", [{"uuid": uuid, "description": f"Due {due}", "due": due, "entry": utc(zone, day, "23:30")} for uuid, (due, _) in dues.items()])
    side.run(side.path("todo.txt"))
    for uuid, (due, on) in dues.items():
        expect(f"{zone}: the day of {due}", f"{on:%Y-%m-%d}", day_in(line_with(side, uuid)))
        expect(f"{zone}: the day when it was made", f"{day:%Y-%m-%d}", line_with(side, uuid).split(" ")[0])
    came = {task["description"]: task["due"] for task in side.editor.tasks().values() if task["uuid"] not in dues}
    expect(f"{zone}: days of the file", {text: it.replace("-", "") + "T000000Z" for it, text in written.items()}, came)
    expect(f"{zone}: a further run", "", side.run(side.path("todo.txt")))
    before = side.dues()
    write(side, [line.replace("Due ", "Still due ").replace("Written ", "Still written ") for line in lines_of(side)])
    side.run(side.path("todo.txt"))
    expect(f"{zone}: dues after an edit of the texts", before, side.dues())
    for uuid in before:
        side.editor.change(uuid, "modify", {"project": "Office"})
    days = {day_in(line) for line in lines_of(side)}
    side.run(side.path("todo.txt"))
    expect(f"{zone}: days after an edit on the board", days, {day_in(line) for line in lines_of(side) if "+Office" in line})
    put_off(side, zone, dues)
    return len(before)


def put_off(side, zone, dues):
    """A due date that is put off by a week keeps its time of day."""
    later = {f"{on:%Y-%m-%d}": f"{on + datetime.timedelta(days=7):%Y-%m-%d}" for _, on in dues.values()}
    write(side, [line.replace(f"due:{day_in(line)}", f"due:{later[day_in(line)]}") for line in lines_of(side)])
    side.run(side.path("todo.txt"))
    found = side.dues()
    for uuid, (due, on) in dues.items():
        time = datetime.datetime.strptime(due, "%Y%m%dT%H%M%SZ").replace(tzinfo=UTC).astimezone(zoneinfo.ZoneInfo(zone))
        then = on + datetime.timedelta(days=7)
        expect(f"{zone}: {due} a week later", alone(then) if due == alone(on) else utc(zone, then, f"{time:%H:%M}"), found[uuid])
    expect(f"{zone}: a run after that", "", side.run(side.path("todo.txt")))


def look_at_the_ends(zone):
    """The first and the last moments that boards have fall on a day that a line can say."""
    side = Side("todotxt-sync", zone, True)
    write(side, [])
    dues = {UUID.format(at): due for at, due in enumerate(("19700101T000000Z", "19700101T000001Z", "19700101T235959Z", "99991231T000001Z", "99991231T235959Z"))}
    side.editor.call("import", [{"uuid": uuid, "description": "At an end", "due": due} for uuid, due in dues.items()])
    side.run(side.path("todo.txt"))
    expect(f"{zone}: dues at the ends", dues, side.dues())
    expect(f"{zone}: lines at the ends", 5, sum(day_in(line) is not None for line in lines_of(side)))
    expect(f"{zone}: a run after that", "", side.run(side.path("todo.txt")))


def look_at_taskwarrior(zone, day):
    """Taskwarrior: a day without a time is that day on both sides, and a moment the same one."""
    side = Side("taskwarrior-sync", zone)
    task = lambda *words: subprocess.run(["task", *words], env={**os.environ, **side.environment}, check=True, stdout=subprocess.PIPE, stderr=subprocess.DEVNULL, text=True).stdout.strip()
    task("add", f"due:{day}", f"scheduled:{day}", "A day of Taskwarrior")
    task("add", f"due:{day}T09:00", f"wait:{day}", "A moment of Taskwarrior")
    side.editor.call("import", [{"uuid": UUID.format(1), "description": "A day", "due": alone(day), "scheduled": alone(day)},
                                {"uuid": UUID.format(2), "description": "A moment", "due": utc(zone, day, "09:00")},
                                {"uuid": UUID.format(3), "description": "At midnight", "due": utc(zone, day, "00:00")}])
    side.run()
    there = {it["description"]: it for it in side.editor.tasks().values()}
    expect(f"{zone}: days of Taskwarrior", (alone(day), alone(day)), (there["A day of Taskwarrior"]["due"], there["A day of Taskwarrior"]["scheduled"]))
    expect(f"{zone}: moments of Taskwarrior", (utc(zone, day, "09:00"), utc(zone, day, "00:00")), (there["A moment of Taskwarrior"]["due"], there["A moment of Taskwarrior"]["wait"]))
    said = [task("_get", f"{UUID.format(at)}.due") for at in (1, 2, 3)]
    expect(f"{zone}: what Taskwarrior says", [f"{day}T00:00:00", f"{day}T09:00:00", f"{day}T00:00:00"], said)
    expect(f"{zone}: a further run", "", side.run())
    before = side.dues(), side.scheduled()
    task("rc.bulk=0", "status:pending", "modify", "+seen")
    side.run()
    expect(f"{zone}: dues after an edit", before, (side.dues(), side.scheduled()))
    task(UUID.format(1), "modify", f"due:{day + datetime.timedelta(days=1)}")
    side.editor.change(UUID.format(2), "modify", {"due": alone(day)})
    side.run()
    expect(f"{zone}: another day", alone(day + datetime.timedelta(days=1)), side.dues()[UUID.format(1)])
    expect(f"{zone}: a day in place of a moment", f"{day}T00:00:00", task("_get", f"{UUID.format(2)}.due"))
    expect(f"{zone}: no note", [], [it["annotations"] for it in json.loads(task("export")) if "annotations" in it])
    met_with_the_same(side, zone, day, task)


def met_with_the_same(side, zone, day, task):
    """What both sides have to the second when they first meet is no conflict, whatever day that is."""
    same = [{"uuid": UUID.format(at), "description": "The same", "entry": "20260101T000000Z", "status": "pending", "due": due} for at, due in ((7, alone(day)), (8, utc(zone, day, "00:00")))]
    side.editor.call("import", same)
    subprocess.run(["task", "import", "-"], env={**os.environ, **side.environment}, check=True, input=json.dumps(same).encode(), stdout=subprocess.DEVNULL, stderr=subprocess.DEVNULL)
    expect(f"{zone}: the same on both sides", "", side.run())


def main():
    count = 0
    for zone, date in ZONES.items():
        day = datetime.date(*date)
        count += look_at_lines(zone, day, False) + look_at_lines(zone, day, True)
        look_at_taskwarrior(zone, day)
    for zone in ("America/Los_Angeles", "Pacific/Auckland"):
        look_at_the_ends(zone)
    said, status = run_here("todotxt-sync", "--zone", "Nowhere/At_all", "127.0.0.1:1", "ann", "1", "todo.txt")
    expect("a zone that isn't there", (1, True), (status, "there is no time zone Nowhere/At_all" in said))
    print(f"{count} due dates in {len(ZONES)} zones, by TZ and by --zone, and days of Taskwarrior")


if __name__ == "__main__":
    server = Server(PROGRAM, PORT)
    try:
        main()
    finally:
        server.end()

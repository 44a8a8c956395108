"""Restores copies by the script taskboard-restore: python3 restore.py PROGRAM PORT, in a folder that has it and taskboard-backup in bin, and
spare-numbers in lib."""
import datetime
import json
import os
import pathlib
import re
import resource
import shutil
import subprocess
import sys
import threading
import time

from expecting import expecting
from talking import KNOWN, Server, adding, answer_to, body_of, description, identified, make_file, message, status_of

PROGRAM, PORT = sys.argv[1], int(sys.argv[2])
# How many tasks the copy has, and how many the file has when it's put aside.
COPIED, ADDED = 20, 30
# A user who isn't root.
NOBODY = 65534
# A program that renames, and kills the script that runs it after its call of a number.
DEADLY = """#!/bin/sh
echo >>{count}
if [ "$(wc -l <{count})" -eq {number} ]; then
    {mv} "$@"
    kill -9 $PPID
    exit 1
fi
exec {mv} "$@"
"""
# What closed tasks are called that keep the numbers of tasks that are gone.
GONE = "Gone when the boards were restored"
# What systemctl is here: it ends the process that was started as a unit, and notes what it's asked.
SYSTEMCTL = """#!/bin/sh
echo "$@" >>{here}/asked
[ "$1" != stop ] || kill $(cat {here}/shipper)
"""
CGROUPS = [path for path in map(pathlib.Path, ("/sys/fs/cgroup/systemd", "/sys/fs/cgroup/unified", "/sys/fs/cgroup")) if (path / "cgroup.procs").exists()]
HERE = pathlib.Path.cwd()
COPIES = pathlib.Path("copies")
ENVIRONMENT = {**os.environ, "TASKBOARD": PROGRAM}
expect = expecting("restore")


def ran(*words, **more):
    return subprocess.run(["sh", *map(str, words)], env=ENVIRONMENT | more.pop("env", {}), capture_output=True, text=True, **more)


def backed_up():
    done = ran("bin/taskboard-backup", "b.db", COPIES)
    expect(f"a copy was made: {done.stderr}", done.returncode == 0)
    return pathlib.Path(done.stdout.split(" ", 1)[0])


def restored(copy, file="b.db", words=(), **more):
    return ran("bin/taskboard-restore", *words, copy, file, **more)


def tasks_in(file):
    """How many tasks a file and its log have, but for those that keep numbers, looked at in another place."""
    return len([each for each in descriptions_in(file) if each != GONE])


def descriptions_in(file):
    place = pathlib.Path("looked-at")
    place.mkdir()
    for end in ("", "-wal"):
        if os.path.exists(f"{file}{end}"):
            shutil.copy(f"{file}{end}", place / f"it.db{end}")
    exported = subprocess.run([PROGRAM, "export", place / "it.db", "ann", "ann-key-1", "1"], check=True, stdout=subprocess.PIPE)
    shutil.rmtree(place)
    return [task["description"] for task in json.loads(exported.stdout)]


def all_there():
    """Each file and folder here, with its bytes."""
    return {str(path): path.read_bytes() if path.is_file() else None for path in sorted(pathlib.Path(".").rglob("*"))}


def refused(what, why, *words, **more):
    """That a restore ends with status 1, says why and that nothing has changed, which is so."""
    before = all_there()
    done = restored(*words, **more)
    expect(f"{what}: {done.returncode}, {done.stderr}", done.returncode == 1 and why in done.stderr and "Nothing has changed" in done.stderr)
    expect(f"{what} changes nothing", all_there() == before)


def add(client, numbers):
    for number in numbers:
        expect(f"task {number} is added", status_of(answer_to(client, adding(number))) == 200)


def fill():
    """Makes a file whose server is killed, and a copy from before that; while the file or its log is open, a restore is refused."""
    make_file(PROGRAM)
    COPIES.mkdir()
    with Server(PROGRAM, PORT, errors=subprocess.DEVNULL) as server:
        with server.connect() as client:
            add(client, range(1, COPIED + 1))
            copy = backed_up()
            add(client, range(COPIED + 1, ADDED + 1))
        refused("a file that is served", f"process {server.process.pid} (taskboard)", copy)
        refused("a copy of a file that is served", "b.db is in use", "b.db", "other.db")
    with open("b.db-wal", "rb"):
        refused("a log that another has open", f"process {os.getpid()} (python3", copy)
    expect("the log has what the copy lacks", tasks_in("b.db") == ADDED and tasks_in(copy) == COPIED)
    return copy


def unseen_is_refused(copy):
    """A file that a process of another user has, which only its lock shows."""
    if os.geteuid():
        return "skipped, since it needs root"
    place = pathlib.Path("nobodys")
    place.mkdir()
    for path, name in ((copy, "copy.db"), ("b.db", "b.db"), ("b.db-wal", "b.db-wal")):
        shutil.copy(path, place / name)
    HERE.chmod(0o755)
    for path in (place, *place.iterdir()):
        os.chown(path, NOBODY, NOBODY)
    nobody = {"user": NOBODY, "group": NOBODY, "extra_groups": []}
    with Server(PROGRAM, PORT, place / "b.db", errors=subprocess.DEVNULL):
        refused("a file of another user's process", "it is locked", place / "copy.db", place / "b.db", **nobody)
    done = restored(place / "copy.db", place / "b.db", **nobody)
    expect(f"its owner restores it: {done.stderr}", done.returncode == 0)
    shutil.rmtree(place)
    return "refused"


def refuses(copy):
    """What can't be restored from leaves all as it is."""
    pathlib.Path("b.txt").write_text("no database\n")
    broken = bytearray(copy.read_bytes())
    broken[5000:40000] = bytes(35000)
    pathlib.Path("broken.db").write_bytes(broken)
    refused("a copy that isn't there", "isn't a file that can be read", "missing.db")
    refused("no database", "fails the check", "b.txt")
    refused("a damaged copy", "fails the check", "broken.db")
    refused("the file itself", "can't be restored from", "b.db")
    refused("a folder that isn't there", "can't be restored from", copy, "nowhere/at/all/b.db")
    refused("a folder", "can't be restored from", copy, "copies")
    refused("a full disk", "can't be copied", copy, preexec_fn=lambda: resource.setrlimit(resource.RLIMIT_FSIZE, (8192, 8192)))
    expect("three words are none", ran("bin/taskboard-restore", copy, "b.db", "b.db").returncode == 2)


def moment_of(text):
    return datetime.datetime.strptime(text, "%Y-%m-%d %H:%M:%S")


def aside():
    """The files that were put aside."""
    return sorted(path for path in pathlib.Path(".").glob("b.db.before-*") if not path.name.endswith("-wal"))


def restores(copy):
    """The file is the copy, the old one lies aside with its log, and it's told which answers are gone."""
    last = max(int(os.stat(name).st_mtime) for name in ("b.db", "b.db-wal"))
    owner = os.geteuid() or NOBODY
    os.chown("b.db", owner, -1)
    done = restored(copy)
    expect(f"it is restored: {done.stderr}", done.returncode == 0 and not done.stderr)
    expect("no log is beside it", not os.path.exists("b.db-wal"))
    expect("it is its owner's alone", os.stat("b.db").st_mode & 0o777 == 0o600 and os.stat("b.db").st_uid == owner)
    expect("it is the copy", tasks_in("b.db") == COPIED)
    expect("and keeps the numbers that are gone", f"tasks {ADDED} faults 0" in done.stdout and f"board 1: {ADDED - COPIED} closed tasks keep" in done.stdout)
    expect("the old file has all", [tasks_in(path) for path in aside()] == [ADDED])
    since, until = map(moment_of, re.search(r"Answers since (.*) UTC are gone .* up to (.*) UTC", done.stdout).groups())
    expect(f"since when: {done.stdout}", since.strftime("b-%Y%m%dT%H%M%SZ.db") == copy.name)
    expect(f"until when: {done.stdout}", until == datetime.datetime.fromtimestamp(last, datetime.timezone.utc).replace(tzinfo=None))
    expect("the copy is marked", os.path.exists(f"{copy}.restored"))
    expect("nothing else is left", not list(pathlib.Path(".").glob(".b.db.*")))


def tells_of_other_copies(copy):
    """A copy without a moment in its name, and one that is newer than the file."""
    shutil.copy(copy, "plain.db")
    os.utime("plain.db", (1_700_000_000, 1_700_000_000))
    done = restored("plain.db", "new.db")
    expect(f"by when it was written: {done.stdout}", "There was no old file. Answers since 2023-11-14 22:13:20 UTC" in done.stdout and "no moment" in done.stdout)
    later = COPIES / "b-20990101T000000Z.db"
    shutil.copy(copy, later)
    done = restored(later, "new.db")
    expect(f"nothing is gone: {done.stdout}", "no answer is gone" in done.stdout)
    for path in (later, *COPIES.glob("*.restored"), *pathlib.Path(".").glob("new.db*")):
        path.unlink()


def kills(copy, pair):
    """Killed after each renaming, and run again: the copy is in place, and a file with its log aside has all."""
    deadly = pathlib.Path("deadly/mv")
    deadly.parent.mkdir()
    for number in (1, 2, 3):
        for path in pathlib.Path(".").glob("b.db*"):
            path.unlink()
        for name in pair:
            shutil.copy(f"pair/{name}", name)
        pathlib.Path("count").unlink(missing_ok=True)
        deadly.write_text(DEADLY.format(count=HERE / "count", number=number, mv=shutil.which("mv")))
        deadly.chmod(0o755)
        killed = restored(copy, env={"PATH": f"{deadly.parent.resolve()}:{os.environ['PATH']}"})
        expect(f"it is killed at {number}: {killed}", killed.returncode == -9)
        done = restored(copy)
        expect(f"killed at {number}, and run again: {done.stderr}", done.returncode == 0)
        expect(f"killed at {number}: the copy is in place", tasks_in("b.db") == COPIED)
        expect(f"killed at {number}: the old file has all", ADDED in [tasks_in(path) for path in aside()])
    return number


def adding_one(number, **task):
    return message(b"POST", b"/boards/1/tasks", json.dumps(task).encode(), identified(number))


def doing(number, uuid):
    return message(b"POST", b"/boards/1/tasks/%s/done" % uuid.encode(), b"", identified(number))


def clients_go_on(copy):
    """Calls that are sent again act once; who names a task that is gone meets no other one, whoever gave it its uuid."""
    mine = "aaaaaaaa-aaaa-4aaa-8aaa-aaaaaaaaaaaa"
    with Server(PROGRAM, PORT, errors=subprocess.DEVNULL) as server, server.connect() as client:
        named = answer_to(client, adding_one(501, description="Mine", uuid=mine))
        made = json.loads(body_of(answer_to(client, adding_one(502, description="Made here"))))["uuid"]
        expect("both are added", status_of(named) == 200)
    expect("it is restored again", restored(copy).returncode == 0)
    with Server(PROGRAM, PORT, errors=subprocess.DEVNULL) as server, server.connect() as client:
        other = json.loads(body_of(answer_to(client, adding_one(503, description="Another"))))["uuid"]
        expect("no other task gets a uuid that the server made", other != made)
        refused = answer_to(client, doing(506, made))
        expect(f"a call about the task that is gone is refused: {refused}", status_of(refused) == 409 and b"WrongStatus" in refused)
        expect("one of a client's own doesn't", status_of(answer_to(client, doing(504, mine))) == 404)
        expect("the call that is sent again acts", status_of(answer_to(client, adding_one(501, description="Mine", uuid=mine))) == 200)
        expect("and names its task", status_of(answer_to(client, doing(505, mine))) == 200)
        task = json.loads(body_of(answer_to(client, message(b"GET", b"/boards/1/tasks/%s" % mine.encode(), b"", KNOWN))))
        expect("which is that one", task["description"] == "Mine" and task["status"] == "completed")
    expect("it is restored a third time", restored(copy).returncode == 0)
    with Server(PROGRAM, PORT, errors=subprocess.DEVNULL) as server, server.connect() as client:
        add(client, range(1, ADDED + 1))
    found = sorted(each for each in descriptions_in("b.db") if each != GONE)
    expect(f"each is there once: {found}", found == sorted(map(description, range(1, ADDED + 1))))
    checked = subprocess.run([PROGRAM, "check", "b.db"], check=True, stdout=subprocess.PIPE, text=True).stdout
    expect(f"it's whole: {checked}", checked.rstrip().endswith("faults 0"))


def spares_numbers(copy):
    """Without an old file the next numbers of each board are kept, as many as it's told; a damaged old file is told."""
    new = pathlib.Path("spared.db")
    done = restored(copy, new, ("--spare", "7"))
    expect(f"numbers are kept: {done}", done.returncode == 0 and "board 1: 7 closed tasks keep" in done.stdout and tasks_in(new) == COPIED)
    expect("so many", descriptions_in(new).count(GONE) == 7)
    new.write_bytes(b"no database")
    done = restored(copy, new)
    expect(f"an old file that can't be read: {done}", done.returncode == 0 and "go to new tasks, since they can't be read" in done.stdout)
    expect("no number is kept", descriptions_in(new).count(GONE) == 0)
    for path in pathlib.Path(".").glob("spared.db*"):
        path.unlink()
    expect("a count that is none", restored(copy, new, ("--spare", "x")).returncode == 2)


def stops_shipping(copy):
    """A unit that ships the file is stopped, and started again; another unit that has it open is named."""
    if os.geteuid() or not CGROUPS:
        return "skipped, since it needs root and cgroups"
    programs = HERE / "programs"
    programs.mkdir()
    (programs / "systemctl").write_text(SYSTEMCTL.format(here=HERE))
    (programs / "systemctl").chmod(0o755)
    path = {"PATH": f"{programs}:{os.environ['PATH']}"}
    for unit in ("taskboard-ship@tried.service", "taskboard@tried.service"):
        group = CGROUPS[0] / unit
        group.mkdir(exist_ok=True)
        with open("b.db", "rb") as file, subprocess.Popen(["sleep", "1000"], stdin=file) as shipper:
            (group / "cgroup.procs").write_text(str(shipper.pid))
            (HERE / "shipper").write_text(str(shipper.pid))
            threading.Thread(target=shipper.wait, daemon=True).start()
            file.close()
            done = restored(copy, env=path)
            is_shipping = unit.startswith("taskboard-ship@")
            expect(f"{unit}: {done}", done.returncode == (0 if is_shipping else 1))
            expect(f"{unit} is named: {done}", is_shipping or f"(sleep) of {unit}. Stop it first: systemctl stop {unit}. Nothing has changed" in done.stderr)
            shipper.kill()
        group.rmdir()
    asked = (HERE / "asked").read_text().splitlines()
    expect(f"it is stopped and started: {asked}", asked == ["stop taskboard-ship@tried.service", "start taskboard-ship@tried.service"])
    return "stopped and started again"


def stays_when_thinned(copy):
    """Of old copies of one month the one stays that was restored from; of today all stay."""
    names = ["b-20200101T000000Z.db", "b-20200102T000000Z.db", "b-20200103T000000Z.db"]
    for name in (*names, *(f"b-{year}{month:02}15T000000Z.db" for year in (2021, 2022) for month in range(1, 13))):
        shutil.copy(copy, COPIES / name)
    expect("it is restored from an old copy", restored(COPIES / names[1]).returncode == 0)
    young = {copy.name, backed_up().name, backed_up().name}
    found = {path.name for path in COPIES.glob("b-*.db")}
    expect(f"what was restored from stays: {sorted(found)}", found & set(names) == {names[1]})
    expect(f"those of today stay: {sorted(young - found)}", young <= found)


def main():
    begun = time.monotonic()
    copy = fill()
    pair = ("b.db", "b.db-wal")
    pathlib.Path("pair").mkdir()
    for name in pair:
        shutil.copy(name, f"pair/{name}")
    unseen = unseen_is_refused(copy)
    refuses(copy)
    restores(copy)
    tells_of_other_copies(copy)
    clients_go_on(copy)
    spares_numbers(copy)
    shipping = stops_shipping(copy)
    killed = kills(copy, pair)
    stays_when_thinned(copy)
    print(f"a process of another user: {unseen}; shipping: {shipping}; killed {killed} times and run again; restored in {time.monotonic() - begun:.0f} s")


main()

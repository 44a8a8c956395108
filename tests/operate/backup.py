"""Copies a file of boards while clients add tasks to it, and restores a copy: python3 backup.py PROGRAM PORT BACKUP, in a folder that it
may write to. BACKUP is the script that copies."""
import datetime
import json
import os
import pathlib
import shutil
import sqlite3
import subprocess
import sys
import threading
import time

from expecting import expecting
from talking import Server, adding, answer_to, description, expect_each_once, is_whole, make_file, status_of

PROGRAM, PORT, BACKUP = sys.argv[1], int(sys.argv[2]), sys.argv[3]
CLIENTS, COPIES = 3, 3
# How many days, weeks and months have a copy that stays.
DAYS, WEEKS, MONTHS = 7, 4, 12
# How many messages a client sends, which is less than a connection carries.
MOST = 900
FOLDER = pathlib.Path("copies")
# A program that copies, and for its first six times waits behind it: the server empties its log meanwhile.
SLOW = """#!/bin/sh
{cp} "$@" || exit 1
echo >>count
[ "$(wc -l <count)" -gt 6 ] || sleep 0.15
"""
expect = expecting("backup")


class Sender(threading.Thread):
    """A client that adds one task after the other, and counts those that were answered."""

    def __init__(self, server, first):
        super().__init__(daemon=True)
        self.server, self.first, self.answered, self.goes_on, self.fault = server, first, 0, True, None

    def run(self):
        with self.server.connect() as client:
            while self.goes_on and self.fault is None and self.answered < MOST:
                answer = answer_to(client, adding(self.first + self.answered))
                if is_whole(answer) and status_of(answer) == 200:
                    self.answered += 1
                else:
                    self.fault = f"an answer: {answer[:80]}"

    def numbers(self):
        return range(self.first, self.first + self.answered)


def ran_backup(file, *more):
    path = f"{os.getcwd()}/slow:{os.environ['PATH']}"
    return subprocess.run(["sh", BACKUP, file, str(FOLDER), *more], env={**os.environ, "PATH": path, "TASKBOARD": PROGRAM}, capture_output=True, text=True)


def make_slow_copying():
    slow = pathlib.Path("slow/cp")
    slow.parent.mkdir()
    slow.write_text(SLOW.format(cp=shutil.which("cp")))
    slow.chmod(0o755)


def tasks_in(copy):
    exported = subprocess.run([PROGRAM, "export", copy, "ann", "ann-key-1", "1"], check=True, stdout=subprocess.PIPE)
    return [task["description"] for task in json.loads(exported.stdout)]


def copy_while_serving(senders):
    """Makes a copy, which has to hold each task once that was answered before, and gives its path and what it has."""
    before = {description(number) for sender in senders for number in sender.numbers()}
    before_names = names_there()
    done = ran_backup("b.db")
    expect(f"it ended with {done.returncode}: {done.stdout}{done.stderr}", done.returncode == 0)
    copy, checked = done.stdout.rstrip("\n").split(" ", 1)
    expect(f"the copy was checked: {checked}", checked.endswith("faults 0"))
    expect("it is for its owner alone", os.stat(copy).st_mode & 0o077 == 0)
    expect("it needs no log", not os.path.exists(copy + "-wal"))
    # It is looked at in another place, since each order leaves a log, and the next copy of the day removes it.
    aside = f"aside-{os.path.basename(copy)}"
    shutil.copy(copy, aside)
    found = tasks_in(aside)
    expect("no task is there twice", len(found) == len(set(found)))
    lost = before - set(found)
    expect(f"what was answered before is in it: lost {sorted(lost)[:5]}", not lost)
    shutil.copy(copy, aside)
    os.remove(aside + "-wal")
    expect_thinned(before_names | {os.path.basename(copy)})
    return aside, set(found)


def moment_in(name):
    """The moment of a copy of b.db by its name, where that has one."""
    try:
        return datetime.datetime.strptime(name, "b-%Y%m%dT%H%M%SZ.db")
    except ValueError:
        return None


def newest_of(moments, part_of, count):
    """The newest moment of each of the last parts, as days, that have one."""
    parts = {}
    for moment in sorted(moments):
        parts[part_of(moment)] = moment
    return set(sorted(parts.values())[-count:])


def expect_thinned(names):
    """Of the copies that were there, those stay that are the newest of their day, week or month, those of the last 24 hours and of
    later days than today, and what is no copy of b.db."""
    moments = {name: moment_in(name) for name in names}
    now = datetime.datetime.now(datetime.timezone.utc).replace(tzinfo=None)
    there = [moment for moment in moments.values() if moment and moment <= now]
    kept = newest_of(there, lambda moment: moment.date(), DAYS)
    kept |= newest_of(there, lambda moment: moment.isocalendar()[:2], WEEKS)
    kept |= newest_of(there, lambda moment: (moment.year, moment.month), MONTHS)
    wanted = {name for name in names if moments[name] is None or moments[name] in kept or moments[name] > now - datetime.timedelta(days=1)}
    found = names_there()
    expect(f"these should have stayed: {sorted(wanted - found)}, and these gone: {sorted(found - wanted)}", found == wanted)


def names_there():
    return {path.name for path in FOLDER.iterdir()}


def make_dated(moments):
    for moment in moments:
        (FOLDER / moment.strftime("b-%Y%m%dT%H%M%SZ.db")).write_text("a copy\n")


def thins():
    """Copies of made-up dates, of which the right ones stay: of many nights, of a few days far apart, and of a night long ago."""
    now = datetime.datetime.now(datetime.timezone.utc).replace(tzinfo=None, microsecond=0)
    # (half an hour off, so that none becomes a day old meanwhile)
    nights = [now - datetime.timedelta(days=days, hours=hours, minutes=30) for days in [*range(40), *range(40, 600, 6)] for hours in (0, 5)]
    apart = [now - datetime.timedelta(days=days) for days in range(40, 2000, 97)]
    for moments in (nights, apart, [datetime.datetime(2024, 2, 29, 3)]):
        for path in FOLDER.glob("b-*"):
            path.unlink()
        make_dated(moments)
        for name in ("b-20261399T030000Z.db", "b-2-20200101T030000Z.db", "b2-20200101T030000Z.db", "b-20200101T030000Z.db.old"):
            (FOLDER / name).write_text("no copy of b.db\n")
        before = names_there()
        done = ran_backup("b.db")
        expect(f"it ended with {done.returncode}: {done.stderr}", done.returncode == 0)
        expect_thinned(before | {os.path.basename(done.stdout.split(" ", 1)[0])})


def later_ones_count_for_nothing():
    """Copies of later days, by a clock that was wrong, stay and keep none of the others from staying."""
    now = datetime.datetime.now(datetime.timezone.utc).replace(tzinfo=None, microsecond=0)
    make_dated(now + datetime.timedelta(days=800 + days) for days in range(40))
    make_dated(now - datetime.timedelta(days=days, minutes=30) for days in range(1, 20))
    before = names_there()
    done = ran_backup("b.db")
    expect(f"it ended with {done.returncode}: {done.stderr}", done.returncode == 0)
    expect_thinned(before | {os.path.basename(done.stdout.split(" ", 1)[0])})


def sqlite_reads(copy):
    """Another program finds the copy whole."""
    with sqlite3.connect(copy) as other:
        expect("SQLite finds it whole", other.execute("PRAGMA integrity_check").fetchall() == [("ok",)])
    other.close()
    subprocess.run(["rm", "-f", copy + "-wal", copy + "-shm"], check=True)


def follows_links(senders):
    """The log beside the file is copied, and not looked for beside a link to it."""
    os.symlink("b.db", "link.db")
    done = ran_backup("link.db")
    expect(f"a link is followed: {done.stderr}", done.returncode == 0)
    copy = done.stdout.split(" ", 1)[0]
    expect("what the log had is in it", set(tasks_in(copy)) == {description(number) for sender in senders for number in sender.numbers()})
    for name in (copy, copy + "-wal", "link.db"):
        os.remove(name)


def refuses():
    """What can't be copied or checked leaves the copies as they are."""
    kept = sorted(FOLDER.iterdir())
    expect("a missing file is refused", ran_backup("missing.db").returncode == 1)
    expect("nothing was made", not os.path.exists("missing.db"))
    expect("a third word is refused", ran_backup("b.db", "7").returncode == 2)
    pathlib.Path("b.txt").write_text("no database\n")
    expect("what fails the check is refused", ran_backup("b.txt").returncode == 1)
    expect("the copies stay", sorted(FOLDER.iterdir()) == kept)


def restore(copy, found, senders):
    """Serves a copy in the place of the file, and sends again what it lacks and some that it has: nothing is lost or there twice."""
    for name in ("b.db", "b.db-wal"):
        os.rename(name, "old-" + name)
    shutil.copy(copy, "b.db")
    numbers = [number for sender in senders for number in sender.numbers()]
    again = [number for number in numbers if description(number) not in found or number % 10 == 1]
    with open("errors", "w") as errors, Server(PROGRAM, PORT, errors=errors) as server:
        for at in range(0, len(again), MOST):
            with server.connect() as client:
                for number in again[at : at + MOST]:
                    expect("an answer", status_of(answer_to(client, adding(number))) == 200)
    expect_each_once(PROGRAM, numbers)


def main():
    begun = time.monotonic()
    FOLDER.mkdir()
    make_slow_copying()
    make_file(PROGRAM)
    with open("errors", "w") as errors, Server(PROGRAM, PORT, errors=errors) as server:
        senders = [Sender(server, 1 + 1000 * at) for at in range(CLIENTS)]
        for sender in senders:
            sender.start()
        copies = [copy_while_serving(senders) for _ in range(COPIES)]
        for sender in senders:
            sender.goes_on = False
            sender.join()
            expect(sender.fault, sender.fault is None)
    tries = pathlib.Path("count").read_text().count("\n") // 2
    sqlite_reads(copies[-1][0])
    follows_links(senders)
    thins()
    later_ones_count_for_nothing()
    refuses()
    restore(*copies[-2], senders)
    sizes = ", ".join(str(len(found)) for _, found in copies)
    print(f"copies of {sizes} tasks, in {tries} tries, while {CLIENTS} clients added, thinned, one restored, in {time.monotonic() - begun:.0f} s")


main()

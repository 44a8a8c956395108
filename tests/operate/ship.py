"""Ships a file of boards under load, kills all at a random moment, and restores what is at the other place: python3 ship.py PROGRAM SHIP
TRIES JOBS, in a folder that it may write to. So many jobs go side by side, each over a file of its own."""
import calendar
import json
import os
import random
import re
import statistics
import subprocess
import sys
import time

from connecting import free_port
from drawing import seeded
from shipping import Load, Metronome, Place, Shipper, clear, clear_other_place, expect, wait_until
from talking import make_file

place = Place(sys.argv[1], free_port(), sys.argv[2])
TRIES, JOBS = int(sys.argv[3]), int(sys.argv[4])
# How many seconds may be lost, and how many more for each second for which the machine kept this test waiting.
MOST_LOST, STALLED = max(2.0, float(os.environ.get("LONGEST", 2))), 20
# Up to so many seconds the machine keeps nobody waiting.
CALM = 0.05
# How far the clock may be set within a try, in seconds.
CLOCK = 0.01
# A file has up to so many tasks before another is made.
MOST_TASKS = 5000
WAYS = ["plain", "receiver", "line", "room", "anew", "plain", "own room", "receiver", "line", "plain"]


class Run:
    """Tries over one file, which goes on as what was restored."""

    def __init__(self):
        self.first, self.present, self.lost, self.answered, self.seconds = 1, set(), [], 0, 0.0
        self.metronome = Metronome()
        make_file(place.program)

    def new_file(self):
        make_file(place.program)
        self.present = set()

    def fail(self, way, shipper):
        """Lets a part of the way fail for a while, in the way of this try. A line that was cut and a place that was full are let come back."""
        time.sleep(random.uniform(0.1, 1.2))
        if way == "receiver":
            for _ in range(random.randint(1, 3)):
                shipper.kill_receiver()
                time.sleep(random.uniform(0, 0.6))
        elif way in ("line", "room"):
            shipper.break_line(**({"cut": random.randint(1, 200_000)} if way == "line" else {"size": random.randint(1, 300_000)}))
            shipper.kill_receiver()
            time.sleep(random.uniform(0.2, 1.2))
            shipper.break_line()
            shipper.wait_whole()
        time.sleep(random.uniform(0, 1))

    def one_try(self, way):
        clear_other_place()
        limit = []
        if way == "own room" or len(self.present) > MOST_TASKS:
            self.new_file()
        if way == "own room":
            # (ulimit counts 512 bytes)
            limit = ["sh", "-c", 'ulimit -f "$0"; exec "$@"', str(random.randint(800, 3000))]
        words = ("--anew", "0s") if way == "anew" else ()
        with place.server(before=limit) as server, Shipper(place.ship, *words, line={}) as shipper:
            shipper.wait_whole()
            self.metronome.worst()
            load = Load(place.port, self.first)
            if way == "own room":
                wait_until("the server's end", lambda: not server.runs())
                shipper.wait_whole()
            else:
                self.fail(way, shipper)
                expect("the server runs", server.runs())
            killed, at = time.monotonic(), time.time()
            endings = [server.end, shipper.kill_all]
            random.shuffle(endings)
            for end in endings:
                end()
        load.end()
        self.first = load.next() + 1
        self.seconds += killed - load.begun
        self.judge(way, load, killed, at - killed)

    def judge(self, way, load, killed, clock):
        """What is restored is what the calls had led to some time before the kill, and no call behind one that's missing."""
        clear("b.db")
        said = place.restore("b.db")
        found = place.tasks_in("b.db")
        there = {int(task.split()[1]) for task in found}
        expect(f"{way}: no task is there twice", len(there) == len(found))
        expect(f"{way}: what was there stays: {sorted(self.present - there)[:5]}", self.present <= there)
        expect(f"{way}: nothing strange is there", there <= self.present | set(load.sent))
        missing = {number: when for number, when in load.answered.items() if number not in there}
        last = max((load.sent[number] for number in there & set(load.sent)), default=0)
        behind = [number for number, when in missing.items() if when < last]
        expect(f"{way}: tasks {behind[:5]} are missing, which were answered before one that's there was sent", not behind)
        first = min(missing.values(), default=killed)
        whole = re.search(r"answered by (\S+) is missing", said)
        early = seconds_of(whole[1]) - first - clock if whole and missing else 0
        expect(f"{way}: {said}, and of {len(missing)} that are missing one was answered {early * 1000:.1f} ms before", whole and early < CLOCK)
        stall = self.metronome.worst()
        most = 0 if way == "own room" else MOST_LOST + STALLED * stall
        expect(f"{way}: what was answered {killed - first:.1f} s before the end is missing, and may be {most:.1f} s at most", killed - first <= most)
        self.lost.append((killed - first, stall))
        self.answered += len(load.answered)
        self.present = there
        if os.environ.get("TELL"):
            print(f"{way}: {len(load.answered)} in {killed - load.begun:.1f} s, {killed - first:.2f} s lost of {most:.1f}, {early * 1000:.1f} ms early", file=sys.stderr, flush=True)


def seconds_of(moment):
    return calendar.timegm(time.strptime(moment[:15], "%Y%m%dT%H%M%S")) + int(moment[16:19]) / 1000


def one_job(first):
    """The tries of every so many numbers from the first on; prints what came of them."""
    seeded()
    run = Run()
    for number in range(first, TRIES, JOBS):
        run.one_try(WAYS[number % len(WAYS)])
    print(json.dumps([run.lost, run.answered, run.seconds]))


def all_jobs():
    jobs, (seed, _) = [], seeded()
    for first in range(min(JOBS, TRIES)):
        os.mkdir(f"job-{first}")
        words = [sys.executable, os.path.abspath(__file__), place.program, place.ship, str(TRIES), str(JOBS), str(first)]
        jobs.append(subprocess.Popen(words, cwd=f"job-{first}", env={**os.environ, "SEED": str(seed + first)}, stdout=subprocess.PIPE, text=True))
    told = [job.communicate()[0] for job in jobs]
    if any(job.returncode for job in jobs):
        sys.exit(1)
    ends = [json.loads(lines.splitlines()[-1]) for lines in told]
    lost = [max(0, one[0]) for end in ends for one in end[0]]
    calm = [max(0, one[0]) for end in ends for one in end[0] if one[1] < CALM]
    rate = sum(end[1] for end in ends) / sum(end[2] for end in ends)
    print(
        f"{len(lost)} times all was killed and the file lost, at {rate:.0f} calls a second: restored was the state after a prefix of them,"
        f" {statistics.median(lost):.2f} s short, at most {max(lost):.2f} s; {max(calm, default=0):.2f} s in the {len(calm)} tries in which the machine kept nobody waiting"
    )


if len(sys.argv) > 5:
    one_job(int(sys.argv[5]))
else:
    all_jobs()

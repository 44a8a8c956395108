"""What shipping costs a server: python3 ship_speed.py PROGRAM SHIP PAIRS, in a folder that it may write to.

Two servers get the same calls in turn, and one of them is shipped, so that other work of the machine slows both. Valgrind, where it is
there, counts the instructions that each executes, which no other work changes."""
import contextlib
import pathlib
import re
import shutil
import statistics
import subprocess
import sys
import time

from connecting import free_port
from shipping import PATIENCE, Place, Shipper, adding, clear, clear_other_place, expect
from talking import Server, answer_to, make_file, status_of

place = Place(sys.argv[1], free_port(), sys.argv[2])
PAIRS, CALLS, RATE = int(sys.argv[3]), 200, 400
# How much longer a call may take.
SLOWED = 1.05
# A server under valgrind handles so many connections, and ends.
COUNTED = 5


def add_tasks(client, first):
    """Sends CALLS calls, RATE of them a second; the median of the seconds to their answers."""
    took, due = [], time.monotonic()
    for number in range(first, first + CALLS):
        begun = time.monotonic()
        answer = answer_to(client, adding(number))
        took.append(time.monotonic() - begun)
        expect(f"task {number}: {answer[:100]}", status_of(answer) == 200)
        due = max(due + 1 / RATE, time.monotonic() - 0.1)
        time.sleep(max(0, due - time.monotonic()))
    return statistics.median(took)


def seconds_used(process):
    """The processor's time that a process and those that it started took."""
    threads = list(pathlib.Path(f"/proc/{process}/task").iterdir())
    own = sum(int((thread / "schedstat").read_text().split()[0]) for thread in threads) / 1e9
    return own + sum(seconds_used(int(child)) for thread in threads for child in (thread / "children").read_text().split())


def one_turn(server, first):
    """The seconds to the answer of a call, and those that the server took of a processor for it."""
    used = seconds_used(server.process.pid)
    with server.connect(PATIENCE) as client:
        took = add_tasks(client, first)
    return took, (seconds_used(server.process.pid) - used) / CALLS


def measure():
    """The two times of a call where the file is shipped and where it isn't, in pairs; prints what the shipper took of a processor."""
    clear_other_place()
    make_file(place.program)
    make_file(place.program, "alone.db")
    pairs = []
    with place.server() as shipped, Server(place.program, free_port(), "alone.db", errors=subprocess.DEVNULL) as alone, Shipper(place.ship) as shipper:
        shipper.wait_whole()
        before, used = time.monotonic(), seconds_used(shipper.process.pid)
        for number in range(PAIRS):
            turns = {server: one_turn(server, 1 + number * CALLS) for server in ((shipped, alone) if number % 2 else (alone, shipped))}
            pairs.append((turns[shipped], turns[alone]))
        shipper.wait_whole()
        used = seconds_used(shipper.process.pid) - used
        print(f"{2 * PAIRS * CALLS / (time.monotonic() - before):.0f} calls a second, half of them shipped, which takes {used / PAIRS / CALLS * 1000:.2f} ms of a processor a call")
    return pairs


def judge(what, pairs):
    """Prints the median of the pairs' quotients, which may be SLOWED at most."""
    low, ratio, high = statistics.quantiles((one / other for one, other in pairs), n=4)
    # (twice the standard error of a median, by the quartiles)
    error = 2 * 0.93 * (high - low) / PAIRS**0.5
    alone = statistics.median(other for _, other in pairs) * 1000
    print(f"{what} {alone:.2f} ms, and where the file is shipped {ratio:.3f} times that, give or take {error:.3f}, the median of {PAIRS} pairs")
    expect(f"{what} more than a twentieth longer where the file is shipped", ratio - error < SLOWED)


def count_instructions(ships):
    """The instructions that a server executes from its start to its end, by which it answered the same calls."""
    clear_other_place()
    clear("b.db")
    make_file(place.program)
    counts = pathlib.Path("counts")
    before = ["valgrind", "--tool=callgrind", f"--callgrind-out-file={counts}", "--quiet"]
    with contextlib.ExitStack() as ending:
        # (the first connection is the one by which a server is waited for)
        server = ending.enter_context(Server(place.program, free_port(), before=before, words=("--connections", str(1 + COUNTED)), errors=subprocess.DEVNULL))
        shipper = ending.enter_context(Shipper(place.ship)) if ships else None
        for number in range(COUNTED):
            with server.connect(PATIENCE) as client:
                add_tasks(client, 1 + number * CALLS)
                if shipper:
                    shipper.wait_whole()
        expect("the server's end", server.process.wait(PATIENCE) == 0)
    return int(re.search(r"^(?:totals|summary): (\d+)", counts.read_text(), re.MULTILINE)[1])


times = measure()
judge("an answer takes", [(one[0], other[0]) for one, other in times])
judge("a call takes of a processor", [(one[1], other[1]) for one, other in times])
if shutil.which("valgrind"):
    alone, shipped = (count_instructions(ships) for ships in (False, True))
    print(f"a server executes {alone / COUNTED / CALLS:,.0f} instructions a call, and where the file is shipped {shipped / alone:.4f} times as many")
    expect("a server executes more than a twentieth more instructions where the file is shipped", shipped / alone < SLOWED)
else:
    print("instructions of a shipped server: skipped, since valgrind isn't there")

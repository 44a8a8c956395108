"""One client beside 500 that send a byte each second, minute by minute against one alone: python3 beside.py PROGRAM PORT MINUTES LEAST, in a folder
that it may write to. It ends in failure where a task is lost, or the median of the minutes is below LEAST."""
import contextlib
import random
import resource
import statistics
import subprocess
import sys
import time

from crowding import Slow, burst
from talking import UNBOUNDED, Server, answer_to, end_by_signal, identified, make_file, message, status_of

PROGRAM, PORT, MINUTES, LEAST = sys.argv[1], int(sys.argv[2]), int(sys.argv[3]), float(sys.argv[4])
BESIDE = 500
# Each minute has so many pairs of bursts at random moments, of so many adds each: short ones, so that what else the machine does meets both.
PAIRS, ADDS = 200, 10
# How many pairs a board gets, so that boards stay small.
ON_A_BOARD = 100
FILES = ("alone.db", "b.db")


def make_board(server, number):
    """Makes the board of this number, on which the bursts add; its call has an identifier that no task has."""
    with server.connect() as client:
        answer = answer_to(client, message(b"POST", b"/boards", b'{"title":"Bursts"}', identified(10**11 + number)))
    if status_of(answer) != 200 or not answer.endswith(b'{"board":%d}' % number):
        sys.exit(f"board {number}: {answer}")


def seconds_of_pair(servers, number):
    """How long the same adds take on each of the servers, now the one and now the other first."""
    took, board = {}, 2 + number // ON_A_BOARD
    for server in servers if number % 2 else reversed(servers):
        if number % ON_A_BOARD == 0:
            make_board(server, board)
        rate, _ = burst(server, 1, 1 + number * ADDS, ADDS, board)
        took[server] = ADDS / rate
    return [took[server] for server in servers]


def minute(servers, number, slow):
    """Has the bursts of one minute come; gives how many times the adds of one alone were added in the same time."""
    begun, ended, sums = time.monotonic(), slow.ended, [0, 0]
    moments = sorted(random.uniform(0, 58) for _ in range(PAIRS))
    for pair, moment in enumerate(moments):
        time.sleep(max(begun + moment - time.monotonic(), 0))
        took = seconds_of_pair(servers, number * PAIRS + pair)
        sums = [one + more for one, more in zip(sums, took)]
    alone, beside = (PAIRS * ADDS / one for one in sums)
    rates = f"{beside:,.0f} adds a second beside {BESIDE}, {alone:,.0f} alone, {beside / alone:.2f} times"
    print(f"minute {number + 1}: {rates}; {slow.ended - ended} slow ones were ended", flush=True)
    time.sleep(max(begun + 60 - time.monotonic(), 0))
    return beside / alone


def main():
    most = resource.getrlimit(resource.RLIMIT_NOFILE)[1]
    resource.setrlimit(resource.RLIMIT_NOFILE, (most, most))
    end_by_signal()
    for name in FILES:
        make_file(PROGRAM, name)
    with contextlib.ExitStack() as ending:
        servers = [ending.enter_context(Server(PROGRAM, PORT + at, name, words=UNBOUNDED, errors=subprocess.DEVNULL)) for at, name in enumerate(FILES)]
        slow = Slow(servers[1], BESIDE)
        ending.callback(slow.end)
        ratios = [minute(servers, number, slow) for number in range(MINUTES)]
    pairs = MINUTES * PAIRS
    for name in FILES:
        checked = subprocess.run([PROGRAM, "check", name], check=True, capture_output=True, text=True).stdout
        if checked != f"boards {1 + pairs // ON_A_BOARD} tasks {pairs * ADDS} faults 0\n":
            sys.exit(f"{name}: {checked}")
    median = statistics.median(ratios)
    print(f"the median of {MINUTES} minutes: {median:.2f} times one alone, from {min(ratios):.2f} to {max(ratios):.2f}")
    sys.exit(median < LEAST)


main()

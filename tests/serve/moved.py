"""A server whose file or log is moved, removed or replaced ends, and answers no call any more: moved.py PROGRAM

What was answered is in the file that was open. While a client adds tasks, and with no client at all. SLACK is how many times longer than on an idle machine it may take."""
import json
import os
import pathlib
import subprocess
import sys
import tempfile
import time

sys.path.insert(0, str(pathlib.Path(__file__).resolve().parents[1] / "lib"))
from connecting import free_port
from talking import Server, adding, answer_to, is_whole, make_file, status_of

program = os.path.abspath(sys.argv[1])
SLACK = float(os.environ.get("LONGEST", 1))
# How soon a server ends, and after how long no call is answered, in seconds.
ENDS_WITHIN, ANSWERS_WITHIN = 1.5 * SLACK, 0.1 * SLACK
TOLD = "taskboard: b.db or its log was moved, removed or replaced while it was served: what was answered was written into the file that was open"


def replace():
    make_file(program, "new.db")
    os.replace("new.db", "b.db")


def replace_log():
    with open("new.log", "wb") as log:
        log.write(b"another log")
    os.replace("new.log", "b.db-wal")


WAYS = {
    "moved": lambda: os.rename("b.db", "other.db"),
    "removed": lambda: os.remove("b.db"),
    "replaced": replace,
    "log moved": lambda: os.rename("b.db-wal", "other.log"),
    "log removed": lambda: os.remove("b.db-wal"),
    "log replaced": replace_log,
}
# Where the file is then that was open, if it still has a name.
LEFT = {"moved": "other.db", "log moved": "b.db", "log removed": "b.db", "log replaced": "b.db"}


def expect_all(way, count):
    """All tasks that were answered are in the file that was open, without its log."""
    os.replace(LEFT[way], "left.db")
    listed = subprocess.run([program, "export", "left.db", "ann", "ann-key-1", "1"], capture_output=True, text=True, check=True).stdout
    if len(json.loads(listed)) < count:
        sys.exit(f"{way}: {count} tasks were answered, and {len(json.loads(listed))} are left")


def add_until(server, number, moment):
    """Adds tasks until a moment, one after the other. Returns the number of the next."""
    with server.connect() as client:
        while time.monotonic() < moment:
            if status_of(answer_to(client, adding(number))) != 200:
                sys.exit("a task isn't added")
            number += 1
    return number


def last_answer(server, number):
    """When the last call was begun that was answered 200, as long as the server answers."""
    begun = answered = time.monotonic()
    try:
        with server.connect() as client:
            while True:
                begun = time.monotonic()
                answer = answer_to(client, adding(number))
                if not is_whole(answer):
                    return answered
                answered, number = begun, number + 1
    except OSError:
        return answered


def try_way(way, change, is_busy):
    make_file(program)
    with open("errors", "w") as errors, Server(program, free_port(), errors=errors) as server:
        number = add_until(server, 0, time.monotonic() + 0.2)
        change()
        moment = time.monotonic()
        if is_busy and (late := last_answer(server, number) - moment) > ANSWERS_WITHIN:
            sys.exit(f"{way}: a call that was begun {late:.3f} s later was answered")
        try:
            status = server.process.wait(ENDS_WITHIN)
        except subprocess.TimeoutExpired:
            sys.exit(f"{way}: the server hasn't ended within {ENDS_WITHIN} s")
        took = time.monotonic() - moment
    with open("errors") as errors:
        said = errors.read()
    if status != 1 or TOLD not in said:
        sys.exit(f"{way}: status {status}, and on standard error: {said}")
    if way in LEFT:
        expect_all(way, number)
    return took


def main():
    with tempfile.TemporaryDirectory() as folder:
        os.chdir(folder)
        slowest = max(try_way(way, change, is_busy) for way, change in WAYS.items() for is_busy in (True, False))
    print(f"a server whose file or log was moved, removed or replaced ended within {slowest:.2f} s")


main()

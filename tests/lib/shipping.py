"""What the tests of contrib/ship/taskboard-ship share: a server with its shipper, many clients, and what is restored from the other place."""
import contextlib
import json
import os
import pathlib
import shutil
import signal
import socket
import sqlite3
import subprocess
import sys
import threading
import time

from expecting import expecting
from talking import Server, answer_to, identified, is_whole, message, status_of

# How long a state is waited for, in seconds; a machine that has other work too may take longer.
PATIENCE = 60 * float(os.environ.get("LONGEST", 2))
TO = pathlib.Path("to")
expect = expecting("ship")


def wait_until(what, is_so, patience=PATIENCE):
    last = time.monotonic() + patience
    while not is_so():
        expect(f"{what}: not in {patience:.0f} seconds", time.monotonic() < last)
        time.sleep(0.02)


def description(number):
    """One in 40 is long, so that some commits write many pages."""
    return f"Task {number} of many" + ("x" * 9000 if number % 40 == 0 else "")


def adding(number):
    body = json.dumps({"description": description(number)}).encode()
    return message(b"POST", b"/boards/1/tasks", body, identified(number))


class Client(threading.Thread):
    """Adds a task so often, each once the one before it was answered, until the connection ends; notes when each was sent and answered."""

    def __init__(self, port, first, step, pause):
        super().__init__(daemon=True)
        self.port, self.next, self.step, self.pause = port, first, step, pause
        self.sent, self.answered, self.goes_on, self.refused = {}, {}, True, None

    def run(self):
        due = time.monotonic()
        with contextlib.suppress(OSError), socket.create_connection(("127.0.0.1", self.port), timeout=PATIENCE) as connection:
            while self.goes_on:
                number, self.next = self.next, self.next + self.step
                self.sent[number] = time.monotonic()
                answer = answer_to(connection, adding(number))
                if not is_whole(answer):
                    return
                if status_of(answer) == 500:
                    return
                self.refused = self.refused or status_of(answer) != 200 and answer
                self.answered[number] = time.monotonic()
                due = max(due + self.pause, time.monotonic() - 0.1)
                time.sleep(max(0, due - time.monotonic()))


class Metronome(threading.Thread):
    """Finds out how long the machine keeps a program waiting that wants to run: other work may take it for seconds."""

    def __init__(self):
        super().__init__(daemon=True)
        self.stall = 0.0
        self.start()

    def run(self):
        last = time.monotonic()
        while True:
            time.sleep(0.02)
            self.stall, last = max(self.stall, time.monotonic() - last - 0.02), time.monotonic()

    def worst(self):
        """The longest stall since this was last asked."""
        stall, self.stall = self.stall, 0.0
        return stall


class Load:
    """Clients that together add so many tasks a second."""

    def __init__(self, port, first, rate=400, clients=8):
        self.clients = [Client(port, first + at, clients, clients / rate) for at in range(clients)]
        self.begun = time.monotonic()
        for client in self.clients:
            client.start()

    def end(self):
        for client in self.clients:
            client.goes_on = False
        for client in self.clients:
            client.join()
            expect(f"a refusal: {client.refused}", not client.refused)
        self.sent = {number: when for client in self.clients for number, when in client.sent.items()}
        self.answered = {number: when for client in self.clients for number, when in client.answered.items()}

    def count(self):
        return sum(len(client.answered) for client in self.clients)

    def next(self):
        return max(client.next for client in self.clients)


class Shipper:
    """The command as it ships b.db, into the folder or over a line that breaks as told."""

    def __init__(self, ship, *words, line=None, to=str(TO)):
        self.ids = pathlib.Path("control.ids")
        self.ids.unlink(missing_ok=True)
        if line is not None:
            self.break_line(**line)
            cutting = pathlib.Path(__file__).with_name("cutting.py")
            words, to = (*words, "--ssh", f"{sys.executable} {cutting} control"), f"other:{TO.absolute()}"
        path = f"{os.path.dirname(ship)}:{os.environ['PATH']}"
        with open("shipped.log", "a") as errors:
            self.process = subprocess.Popen([ship, "--status", "status", *words, "b.db", to], stderr=errors, env={**os.environ, "PATH": path})

    def __enter__(self):
        return self

    def __exit__(self, *_):
        self.kill()

    @staticmethod
    def break_line(**ways):
        pathlib.Path("control.next").write_text(json.dumps(ways))
        os.replace("control.next", "control")

    def line_ids(self):
        """The processes of the line and of the receiver, once they are there."""
        wait_until("a line", self.ids.exists)
        return [int(word) for word in self.ids.read_text().split()]

    def kill_receiver(self):
        with contextlib.suppress(ProcessLookupError):
            os.kill(self.line_ids()[1], signal.SIGKILL)

    def kill(self):
        self.process.kill()
        self.process.wait()

    def kill_all(self):
        """Kills it, its line and its receiver at once."""
        ids = [int(word) for word in self.ids.read_text().split()] if self.ids.exists() else []
        self.process.kill()
        for each in ids:
            with contextlib.suppress(ProcessLookupError):
                os.kill(each, signal.SIGKILL)
        self.process.wait()
        wait_until("the receiver's end", lambda: not any(runs(each) for each in ids))

    def is_whole_since(self, moment):
        expect(f"the shipper ended: {pathlib.Path('shipped.log').read_text()[-2000:]}", self.process.poll() is None)
        try:
            status = json.loads(pathlib.Path("status").read_text())
        except (OSError, ValueError):
            return False
        return status["whole"] is not None and status["whole"] > moment

    def wait_whole(self):
        """Waits until all that was committed by now is at the other place."""
        moment = now()
        wait_until("all is shipped", lambda: self.is_whole_since(moment))


def runs(process):
    try:
        with open(f"/proc/{process}/stat") as line:
            return line.read().rpartition(")")[2].split()[0] != "Z"
    except OSError:
        return False


def now():
    seconds = time.time()
    return time.strftime("%Y%m%dT%H%M%S", time.gmtime(seconds)) + f".{int(seconds * 1000) % 1000:03d}Z"


def cut_log(path):
    """Cuts the last committed frame off a log, as a disk may lose it."""
    sys.path.insert(0, str(pathlib.Path(__file__).resolve().parent.parent.parent / "contrib/ship"))
    from taskboard_ship import log

    with open(path, "r+b") as file:
        place = log.look(file.fileno(), log.Place(log.header_in(file.fileno()))).place
        file.truncate(place.offset(place.frames - 1))


class Place:
    """The programs, and the port that the server has."""

    def __init__(self, program, port, ship):
        self.program, self.port, self.ship = os.path.abspath(program), int(port), os.path.abspath(ship)
        self.errors = open("errors", "a")

    def server(self, before=()):
        return Server(self.program, self.port, before=before, errors=self.errors)

    def run_ship(self, *words):
        return subprocess.run([self.ship, *words], capture_output=True, text=True, env={**os.environ, "TASKBOARD": self.program})

    def restore(self, file="restored.db", *words):
        """Restores, and gives what was said; the file has to pass the check."""
        clear(file)
        done = self.run_ship("--restore", str(TO), file, *words)
        expect(f"restoring ended with {done.returncode}: {done.stdout}{done.stderr}", done.returncode == 0)
        expect(f"it passed the check: {done.stdout}", done.stdout.splitlines()[0].endswith("faults 0"))
        return done.stdout

    def tasks_in(self, file):
        copy_both(file, "looked.db")
        exported = subprocess.run([self.program, "export", "looked.db", "ann", "ann-key-1", "1"], check=True, stdout=subprocess.PIPE)
        clear("looked.db")
        return [task["description"].rstrip("x") for task in json.loads(exported.stdout)]

    def rows_of(self, file):
        """All rows of a file and its log, as text."""
        copy_both(file, "looked.db")
        subprocess.run([self.program, "check", "looked.db"], check=True, stdout=subprocess.DEVNULL)
        with contextlib.closing(sqlite3.connect("looked.db")) as other:
            rows = list(other.iterdump())
        clear("looked.db")
        return rows

    def expect_same(self, what):
        """What is restored has the same rows as the file."""
        self.restore()
        expect(f"{what}: the same rows", self.rows_of("restored.db") == self.rows_of("b.db"))


def clear(file):
    for end in ("", "-wal", "-shm"):
        with contextlib.suppress(FileNotFoundError):
            os.remove(file + end)


def copy_both(file, to):
    """Copies a file and its log, which a server that rests may have open."""
    for end in ("", "-wal"):
        if os.path.exists(file + end):
            shutil.copy(file + end, to + end)


def clear_other_place():
    shutil.rmtree(TO, ignore_errors=True)
    TO.mkdir()
    with contextlib.suppress(FileNotFoundError):
        os.remove("status")


def series():
    return sorted(TO.glob("b-*.series"))


def send_all(server, numbers):
    """Adds these tasks, each answered 200."""
    with server.connect(PATIENCE) as client:
        for number in numbers:
            answer = answer_to(client, adding(number))
            expect(f"task {number}: {answer[:200]}", is_whole(answer) and status_of(answer) == 200)

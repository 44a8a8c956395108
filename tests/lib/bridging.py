"""What the tests of bridges share: a server that is killed, a line to it that stops a run at a message, and a client that edits a board."""
import contextlib
import http.client
import itertools
import json
import os
import re
import socket
import subprocess
import sys
import threading
import uuid

from connecting import connected
from listening import Listener
from talking import end_by_signal, make_file

BRIDGES = os.path.join(os.path.dirname(os.path.abspath(__file__)), "..", "..", "contrib", "bridges")
# What happens at a message: the run or the server is killed, before the message goes on or once it was answered; or somebody edits both
# sides before a view. (An edit between a look at a task and the call on it isn't seen by any client, so none is made there.)
STOPS = ("run before", "run after", "server before", "server after", "edit")
LENGTH = re.compile(rb"(?i)content-length: *(\d+)")


class Server:
    """The program as it serves b.db, killed and started again."""

    def __init__(self, program, port):
        end_by_signal()
        self.words, self.port, self.kills = [program, "serve", "b.db", "--port", str(port), "--forever"], port, 0
        make_file(program)
        self.start()

    def start(self):
        self.process = subprocess.Popen(self.words, stderr=subprocess.DEVNULL)
        connected(self.port, 10).close()

    def kill(self):
        self.process.kill()
        self.process.wait()
        self.kills += 1

    def end(self):
        self.process.kill()
        self.process.wait()

    def checked(self):
        """What `check` prints of the file, once the server has ended. It may count no fault."""
        self.end()
        checked = subprocess.run([self.words[0], "check", "b.db"], capture_output=True, text=True).stdout.strip()
        expect("check", "0", checked.split()[-1])
        return checked


class Line(Listener):
    """Passes messages on to the server one by one, and does what is asked for at the message of a number."""

    def __init__(self, server):
        self.server, self.run, self.at, self.stop, self.count, self.posts = server, None, None, None, 0, 0
        self.edit, self.edits = None, 0
        # After how many bytes the answer to a message is cut; None where it isn't.
        self.cuts = lambda _message, _answer: None
        # How often a run looked at both sides, whether one has the board's tasks and did nothing since, and the looks of runs that were killed.
        self.looks, self.asked, self.cut, self.before = 0, False, set(), 0
        self.lock = threading.Lock()
        super().__init__()

    def stop_at(self, at, stop):
        self.at, self.stop, self.count = at, stop, 0

    def serve(self, client):
        with client, contextlib.suppress(OSError):
            while message := whole(client):
                answer = self.pass_on(message)
                if answer is None:
                    return
                client.sendall(answer)
                if not is_whole(answer):
                    return

    def count_look(self):
        """Counts a look of a run that has the board's tasks and goes on. One that asks for them again at once only named lines."""
        self.looks += self.asked
        self.asked = False

    def end_run(self, is_killed):
        """Counts the last look of a run, and remembers those of one that was killed."""
        self.count_look()
        self.cut |= set(range(self.before + 1, self.looks + 1)) if is_killed else set()
        self.before = self.looks

    def pass_on(self, message):
        """The answer to a message; None where it is lost."""
        with self.lock:
            self.count += 1
            self.posts += message.startswith(b"POST")
            asks = message.startswith(b"GET") and b"/export " in message.partition(b"\r")[0]
            if asks:
                self.asked = False
            else:
                self.count_look()
            stop = self.stop if self.count == self.at else None
            if stop == "run before":
                self.run.kill()
                return None
            if self.stop == "edit" and self.count >= self.at and message.startswith(b"GET"):
                self.stop = None
                self.edit()
                self.edits += 1
            if stop == "server before":
                self.server.kill()
                self.server.start()
            with socket.create_connection(("127.0.0.1", self.server.port), timeout=300) as server:
                server.sendall(message)
                answer = whole(server)
            if stop == "run after":
                self.run.kill()
                return None
            if stop == "server after":
                self.server.kill()
                self.server.start()
                return None
            self.asked = asks
            return answer[: self.cuts(message, answer)]


def is_whole(got):
    """Whether a message or an answer has its head and its body."""
    head, end, body = got.partition(b"\r\n\r\n")
    length = LENGTH.search(head)
    return bool(end) and len(body) >= (int(length[1]) if length else 0)


def whole(connection):
    """A message or an answer with its body; nothing where the connection ends before."""
    got = b""
    while True:
        if is_whole(got):
            return got
        more = connection.recv(1 << 16)
        if not more:
            return b""
        got += more


class Editor:
    """Ann, who edits a board: each call under an identifier of its own."""

    def __init__(self, port, board=1):
        self.port, self.board, self.connection = port, board, None

    def ask(self, method, path, body=None):
        fields = {"x-member": "ann", "x-key": "ann-key-1"} | ({"x-request-id": str(uuid.uuid4())} if method == "POST" else {})
        for _ in range(3):
            try:
                self.connection = self.connection or http.client.HTTPConnection("127.0.0.1", self.port, timeout=300)
                self.connection.request(method, path, None if body is None else json.dumps(body).encode(), fields)
                answer = self.connection.getresponse()
                text = answer.read()
                if answer.will_close:
                    self.connection.close()
                return answer.status, json.loads(text)
            except (OSError, http.client.HTTPException):
                self.connection.close()
                self.connection = None
        sys.exit("the server is away")

    def call(self, path, body):
        status, answer = self.ask("POST", f"/boards/{self.board}/{path}", body)
        if status != 200:
            sys.exit(f"{path} {body}: {status} {answer}")
        return answer

    def change(self, task, action, body=None):
        return self.call(f"tasks/{task}/{action}", body or {})

    def tasks(self):
        return {task["uuid"]: task for task in self.ask("GET", f"/boards/{self.board}/export")[1]}


class Runs:
    """Runs of a bridge, some of which are stopped; what they said is kept."""

    def __init__(self, words, line, environment):
        self.words, self.line, self.environment = words, line, environment
        self.said, self.stopped, self.whole = [], 0, 0

    def start(self, *more, words=None):
        process = subprocess.Popen([*(words or self.words), *more], stdout=subprocess.PIPE, stderr=subprocess.STDOUT, env=self.environment, text=True)
        self.line.run = process
        with open("run", "w") as file:
            file.write(str(process.pid))
        return process

    def finish(self, process, statuses=(0,)):
        said = process.communicate(timeout=600)[0]
        self.line.end_run(process.returncode == -9)
        self.said += said.splitlines()
        if process.returncode not in statuses:
            sys.exit(f"a run ended with {process.returncode}: {said[-2000:]}")
        return said

    def complete(self, *more, statuses=(0,)):
        """One run that nobody stops; what it said."""
        self.line.stop_at(None, None)
        self.whole += 1
        return self.finish(self.start(*more), statuses)

    def stop(self, at, stop):
        """One run that is stopped, or whose server is, at the message of a number; whether it came so far."""
        self.line.stop_at(at, stop)
        self.finish(self.start(), (0, 1, -9) if stop.startswith("run") else (0, 1))
        came = self.line.count >= at
        self.stopped += came and stop.startswith("run")
        self.line.stop_at(None, None)
        return came


def run_whole(sides, seed):
    """Has the two sides run, and ends their server. Before a fault it prints the seed and the last lines that runs said."""
    try:
        sides.run()
    except BaseException:
        print(f"with SEED={seed}, after:\n" + "\n".join(sides.runs.said[-15:]), file=sys.stderr)
        raise
    finally:
        sides.server.end()


def in_turn(generator, kinds):
    """The kinds in a random order, one after the other, again and again."""
    return itertools.cycle(generator.sample(kinds, len(kinds)))


def expect(name, wanted, found):
    if wanted != found:
        sys.exit(f"{name}: wanted {str(wanted)[:1500]}, but got {str(found)[:1500]}")


def moment(generator, first=2026, last=2099):
    return f"{generator.randint(first, last):04d}{generator.randint(1, 12):02d}{generator.randint(1, 28):02d}T{generator.randint(0, 23):02d}{generator.randint(0, 59):02d}{generator.randint(0, 59):02d}Z"


WORDS = "Call Mom about the \"report\" [draft] \\ back / forth naïve 東京 😀 it's 100% {a} #5 &amp; a:b due:soon +x @y -- % ; < > | ~".split(" ")


def text(generator, number):
    """A text that is unlike each other one, and that is hard to spell."""
    return " ".join([f"n{number}", *generator.sample(WORDS, generator.randint(1, 5))])

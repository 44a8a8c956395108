"""Refuses each allocation in turn: python3 memory.py PROGRAM PORT LIBRARY STEP EXAMPLE.., in a folder that it may write to.

Each line of a worked script is sent as a message to a server at the line's moment, while the server's first allocation from then on is refused,
then its second, and so on, until one isn't come to. An answer that there was no memory leaves the boards as they were, and the same server is
asked again. So it goes with the script over lists, and, for the last example, with what a server does before it listens, which are thousands
of allocations: one of STEP of these; and of an order that opens a file of version 1."""
import collections
import datetime
import itertools
import json
import lzma
import mmap
import os
import pathlib
import re
import socket
import struct
import subprocess
import sys
import time

from connecting import connected
from talking import Caller, body_of, message, status_of

PROGRAM, PORT, LIBRARY, STEP, EXAMPLES = os.path.abspath(sys.argv[1]), int(sys.argv[2]), os.path.abspath(sys.argv[3]), int(sys.argv[4]), sys.argv[5:]
TESTS = pathlib.Path(__file__).resolve().parents[1]
DATA = TESTS.parent / "crates/tests/data"
ROOT = b"x-member: root\r\nx-key: root-key-1\r\n"
REFUSED = '{"name":"Memory"}'
FAILED = '{"name":"Store"}'
FILES = ("b.db", "b.db-wal")


class Wrong(Exception):
    """What a refused allocation must not bring about."""


class Orders:
    """What the library is told: which allocation to refuse, and the time. Processes that are started behind `before` hear it."""

    def __init__(self):
        with open("orders", "wb") as file:
            file.write(bytes(16))
        with open("orders", "r+b") as file:
            self.seen = mmap.mmap(file.fileno(), 16)
        self.before = ("env", f"LD_PRELOAD={LIBRARY}", f"REFUSALS={os.path.abspath('orders')}")

    def refuse(self, number):
        self.seen[:8] = struct.pack("q", number)

    def was_refused(self):
        """Whether it came to that allocation; from now on none is refused."""
        left = struct.unpack("q", self.seen[:8])[0]
        self.refuse(0)
        return left == 0

    def tell_time(self, moment):
        then = datetime.datetime.strptime(moment, "%Y%m%dT%H%M%SZ").replace(tzinfo=datetime.timezone.utc)
        self.seen[8:] = struct.pack("q", int(then.timestamp()))

    def run(self, *words, text=b""):
        return subprocess.run([*self.before, PROGRAM, *words], input=text, capture_output=True, timeout=60)


class Line:
    """A line of a script, as a message."""

    def __init__(self, line):
        self.moment, name, key, identifier, word, *rest = line.split("\t")
        fields = f"x-member: {name}\r\nx-key: {key}\r\n".encode()
        self.is_view = word in ("list", "export", "todo", "task")
        method, target, body = self.request(word, rest)
        if not self.is_view:
            fields += f"x-request-id: {identifier}\r\n".encode()
        self.sent = message(method, target.encode(), body.encode(), fields)

    @staticmethod
    def request(word, rest):
        if word in ("list", "export", "todo"):
            return b"GET", f"/boards/{rest[0]}/{word}", ""
        if word == "task":
            return b"GET", f"/boards/{rest[0]}/tasks/{rest[1]}", ""
        if word == "add":
            return b"POST", f"/boards/{rest[0]}/tasks", rest[1]
        if word in ("sweep", "import", "import-todo"):
            return b"POST", f"/boards/{rest[0]}/{word}", "\n".join(rest[1:])
        if word == "ahead":
            return b"POST", f"/boards/{rest[0]}/ahead", json.dumps({"ahead": int(rest[1])})
        if word == "done":
            return b"POST", f"/boards/{rest[0]}/tasks/{rest[1]}/done", ""
        raise ValueError(f"no message for {word}")

    def told(self, answer):
        """An answer as the script has it."""
        status, body = status_of(answer), body_of(answer).decode()
        if self.is_view and status == 200:
            return body if body.endswith("\n") else body + "\n"
        return f"{status} {json.loads(body).get('refused', 0)} {body}\n"


class Server:
    """The program as it serves b.db behind the library."""

    def __init__(self):
        words = ["serve", "b.db", "--port", str(PORT), "--forever"]
        self.process = subprocess.Popen([*orders.before, PROGRAM, *words], stdout=subprocess.DEVNULL, stderr=subprocess.PIPE)
        self.caller = Caller(PORT)

    def __enter__(self):
        connected(PORT, 10).close()
        return self

    def __exit__(self, *_):
        self.caller.disconnect()
        self.process.kill()
        self.process.communicate()

    def ask(self, line):
        """One answer to a line at its moment, or none."""
        orders.tell_time(line.moment)
        return self.caller.one_try(line.sent)

    def state(self):
        return [self.caller.one_try(sent) for sent in LOOKS]

    def expect_end(self):
        """It says why it ends, and that there was an error."""
        told = self.process.communicate(timeout=10)[1].decode()
        if self.process.returncode != 1 or not re.search(r"(^|\n)taskboard: (Memory|Store)\n.+\n$", told):
            raise Wrong(f"it ends with {self.process.returncode} and tells {told!r}")


LOOKS = [message(b"GET", target, fields=ROOT) for target in (b"/boards/1/export", b"/boards/1/todo")]


def new_file():
    orders.refuse(0)
    for name in FILES:
        if os.path.exists(name):
            os.remove(name)
    if orders.run("init", "b.db", "root", "root-key-1").returncode:
        raise Wrong("no file is made")


def expect(what, wanted, got):
    if wanted != got:
        raise Wrong(f"{what}: wanted {str(wanted)[:400]}, got {str(got)[:400]}")


def script_of(name):
    """The lines of a script or a case, and what they have to be answered."""
    for folder in (DATA, TESTS / "data"):
        script = folder / f"{name}.script"
        if script.exists():
            return script.read_bytes(), script.with_suffix(".answers").read_bytes()
    lines = (DATA / f"{name}.steps").read_text().split("\n")
    sent = [at for at, line in enumerate(lines) if "\t" in line]
    return "".join(lines[at] + "\n" for at in sent).encode(), "".join(lines[at + 1][2:] + "\n" for at in sent).encode()


class Example:
    """A worked script, and what a server answers to it where no memory is refused, which is what it says."""

    def __init__(self, name):
        self.name, self.counts = name, collections.Counter()
        self.script, self.written = script_of(name)
        self.lines = [Line(line) for line in self.script.decode().splitlines()]
        new_file()
        self.answers, self.states = [], []
        with Server() as server:
            self.states.append(server.state())
            for line in self.lines:
                self.answers.append(server.ask(line))
                self.states.append(server.state())
        told = "".join(line.told(answer) for line, answer in zip(self.lines, self.answers))
        expect(f"{name} without a refusal", self.written.decode(), told)

    def file_before(self, at):
        """A file to which the lines before this one were sent."""
        new_file()
        with Server() as server:
            for line, wanted in zip(self.lines[:at], self.answers):
                expect("an answer without a refusal", wanted, server.ask(line))

    def refuse_in_line(self, at):
        """Refuses each allocation of a server that is sent a line; a line that stands is sent to a file in which it doesn't."""
        number = 1
        while True:
            self.file_before(at)
            with Server() as server:
                number, refused = self.refuse_until_it_stands(server, at, number)
                if not refused:
                    return number - 1
            self.stands_again(at)

    def refuse_until_it_stands(self, server, at, number):
        """Refuses an allocation after the other while the answer is that there was no memory. Gives the next number, and whether the last one was come to."""
        line = self.lines[at]
        while True:
            orders.refuse(number)
            answer = server.ask(line)
            refused = orders.was_refused()
            number += 1
            if answer and body_of(answer).decode() == REFUSED and status_of(answer) == 503 and refused:
                self.counts["Memory"] += 1
                expect("the boards after Memory", self.states[at], server.state())
                continue
            if answer == self.answers[at]:
                self.counts["answered"] += refused
                expect("the boards after the answer", self.states[at + 1], server.state())
            elif refused and (not answer or body_of(answer).decode() == FAILED and status_of(answer) == 500):
                self.counts["Store" if answer else "no answer"] += 1
                if answer or server.process.poll() is not None:
                    server.expect_end()
            else:
                raise Wrong(f"{answer[:300]}")
            return number, refused

    def stands_again(self, at):
        """On a server that is refused nothing the boards are those before or behind the line, and the line has its answer."""
        with Server() as server:
            if server.state() not in self.states[at : at + 2]:
                raise Wrong(f"the boards are {server.state()}")
            expect("the line sent again", self.answers[at], server.ask(self.lines[at]))
            expect("the boards after it", self.states[at + 1], server.state())

    def refuse_in_opening(self):
        """Refuses an allocation of STEP of a server before it listens."""
        self.file_before(len(self.lines))
        for count in itertools.count():
            orders.refuse(1 + count * STEP)
            server = Server()
            try:
                while server.process.poll() is None and not can_connect():
                    pass
                if server.process.poll() is not None:
                    server.expect_end()
                    self.counts["Memory"] += 1
                elif not orders.was_refused():
                    return count
                elif b"" in (seen := server.state()):
                    server.expect_end()
                    self.counts["Memory"] += 1
                else:
                    self.counts["answered"] += 1
                    expect("the boards", self.states[-1], seen)
            finally:
                server.__exit__()
            orders.refuse(0)

    def refuse_over_lists(self):
        """Refuses each allocation of the script over lists: a front of what it says is answered, and then why it ends."""
        number = 0
        while True:
            number += 1
            orders.refuse(number)
            done = orders.run("run", text=self.script)
            refused = orders.was_refused()
            if (done.returncode, done.stdout) == (0, self.written):
                if not refused:
                    return number - 1
                self.counts["answered"] += 1
            elif refused and (done.returncode, done.stderr.partition(b"\n")[0]) == (1, b"taskboard: Memory") and self.written.startswith(done.stdout):
                self.counts["Memory"] += 1
            else:
                raise Wrong(f"over lists: {done}")

    def refuse(self):
        """Refuses each allocation in each way, and prints a line."""
        ways = [(f"line {at + 1}", lambda at=at: self.refuse_in_line(at)) for at in range(len(self.lines))]
        ways += [("lists", self.refuse_over_lists)]
        ways += [("opening", self.refuse_in_opening)] * (self.name == EXAMPLES[-1])
        numbers = []
        for what, way in ways:
            try:
                numbers.append(way())
            except (Wrong, OSError, subprocess.SubprocessError) as fault:
                wrong.append(f"{self.name}, {what}: {type(fault).__name__} {fault}")
        told = ", ".join(f"{count} {what}" for what, count in sorted(self.counts.items()))
        print(f"{self.name}: {sum(numbers)} allocations refused: {told}", flush=True)


def old_file():
    for name in FILES:
        pathlib.Path(name).write_bytes(lzma.decompress((TESTS / f"data/version_1/{name}.xz").read_bytes()))


def audited():
    """How an order looks through a file, and how often it says that the file has become one of version 2."""
    done = orders.run("check", "b.db")
    return done, done.stderr.count(b"taskboard: b.db is now of version 2\n")


def refuse_in_migration():
    """Refuses an allocation of STEP of an order that makes a file of version 1 one of version 2. The next order finds all there, and makes nothing anew."""
    counts = collections.Counter()
    for count in itertools.count():
        old_file()
        orders.refuse(1 + count * STEP)
        done, told = audited()
        if not orders.was_refused():
            break
        fault = re.search(rb"(?m)^taskboard: (Memory|Store)$", done.stderr)
        if (done.returncode, bool(fault)) not in ((0, False), (1, True)):
            raise Wrong(f"check of a file of version 1: {done}")
        counts[fault[1].decode() if fault else "answered"] += 1
        again, told_again = audited()
        expect("check behind it", (0, b"boards 3 tasks 62 faults 0\n"), (again.returncode, again.stdout))
        if told + told_again > 1:
            raise Wrong(f"a file became one of version 2 twice: {done}, {again}")
    print(f"a file of version 1: {count} allocations refused: {', '.join(f'{many} {what}' for what, many in sorted(counts.items()))}", flush=True)


def can_connect():
    try:
        socket.create_connection(("127.0.0.1", PORT), timeout=10).close()
        return True
    except (ConnectionRefusedError, ConnectionResetError):
        time.sleep(0.001)
        return False


orders, wrong = Orders(), []
for name in EXAMPLES:
    Example(name).refuse()
try:
    refuse_in_migration()
except (Wrong, OSError, subprocess.SubprocessError) as fault:
    wrong.append(f"a file of version 1: {type(fault).__name__} {fault}")
for told in wrong[:20]:
    print(f"wrong: {told[:1000]}")
sys.exit(1 if wrong else 0)

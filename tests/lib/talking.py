"""What the tests that open connections of their own share: messages, their answers, a server, and what it stored."""
import collections
import json
import re
import signal
import socket
import subprocess
import sys

from connecting import connected

LENGTH = re.compile(rb"content-length: (\d+)")
KNOWN = b"x-member: ann\r\nx-key: ann-key-1\r\n"


def message(method, target, body=b"", fields=KNOWN):
    return b"%s %s HTTP/1.1\r\nhost: a\r\n%scontent-length: %d\r\n\r\n%s" % (method, target, fields, len(body), body)


def description(number):
    return f"Task {number} of many"


def identified(number):
    """The fields of a call of ann's under the identifier of this number."""
    return KNOWN + b"x-request-id: 00000000-0000-4000-8000-%012d\r\n" % number


def adding(number, board=1):
    """The message that adds the task of this number; sent again it's the same."""
    body = json.dumps({"description": description(number)}).encode()
    return message(b"POST", b"/boards/%d/tasks" % board, body, identified(number))


def is_whole(answer):
    head, end, body = answer.partition(b"\r\n\r\n")
    return bool(end) and len(body) == int(LENGTH.search(head)[1])


def status_of(answer):
    return int(answer[9:12])


def body_of(answer):
    return answer.partition(b"\r\n\r\n")[2]


def without_moments(text):
    """The text with each moment taken out, which the machine's clock gave."""
    return re.sub(rb"\d{8}T\d{6}Z", b"MOMENT", text)


def answer_to(client, sent):
    """The answer to one message; what came of it where the connection ends before it's whole."""
    client.sendall(sent)
    answer = b""
    while not is_whole(answer):
        more = client.recv(65536)
        if not more:
            break
        answer += more
    return answer


class Caller:
    """A client of a server that may end at any time: where its connection ends it makes a new one."""

    def __init__(self, port, patience=10):
        self.port, self.patience, self.connection = port, patience, None

    def connect(self):
        self.connection = self.connection or socket.create_connection(("127.0.0.1", self.port), timeout=self.patience)

    def disconnect(self):
        if self.connection:
            self.connection.close()
        self.connection = None

    def one_try(self, sent):
        """What is answered to a message; nothing where no whole answer came. One that doesn't come in time is a TimeoutError."""
        try:
            self.connect()
            answer = answer_to(self.connection, sent)
        except ConnectionError:
            answer = b""
        if not is_whole(answer) or b"connection: close" in answer:
            self.disconnect()
        return answer if is_whole(answer) else b""


def has_ended(client):
    """Whether the server ended the connection and sent nothing on it."""
    client.setblocking(False)
    try:
        return client.recv(1) == b""
    except BlockingIOError:
        return False
    except ConnectionResetError:
        return True
    finally:
        client.setblocking(True)


# What a server is told whose clients write much.
UNBOUNDED = ("--connections", "1000000", "--growth", "0")


class Server:
    """The program as it serves a file."""

    def __init__(self, program, port, file="b.db", before=(), words=("--connections", "1000000"), errors=None):
        self.port = port
        line = [*before, program, "serve", file, "--port", str(port), *words]
        self.process = subprocess.Popen(line, stderr=errors)
        connected(port, 10).close()

    def __enter__(self):
        return self

    def __exit__(self, *_):
        self.end()

    def end(self):
        self.process.kill()
        self.process.wait()

    def runs(self):
        return self.process.poll() is None

    def connect(self, timeout=10):
        return connected(self.port, timeout)

    def status_line(self, name):
        """A size in KiB that the system tells of it."""
        with open(f"/proc/{self.process.pid}/status") as lines:
            return int(next(line for line in lines if line.startswith(name + ":")).split()[1])

    def resident(self):
        """Its memory in MiB."""
        return self.status_line("VmRSS") / 1024

    def seconds_used(self):
        """The processor's time that it took."""
        with open(f"/proc/{self.process.pid}/stat") as line:
            fields = line.read().rpartition(")")[2].split()
        return (int(fields[11]) + int(fields[12])) / 100


def end_by_signal():
    """Has a signal that ends this test end its servers too."""
    signal.signal(signal.SIGTERM, lambda number, _: sys.exit(128 + number))


def make_file(program, file="b.db"):
    for name in (file, file + "-wal"):
        subprocess.run(["rm", "-f", name], check=True)
    subprocess.run([program, "init", file, "ann", "ann-key-1"], check=True)


def expect_each_once(program, numbers, file="b.db"):
    """Ends the test where a task of these numbers is lost, or another is there."""
    exported = subprocess.run([program, "export", file, "ann", "ann-key-1", "1"], check=True, stdout=subprocess.PIPE)
    found = collections.Counter(task["description"] for task in json.loads(exported.stdout))
    wanted = collections.Counter(description(number) for number in numbers)
    if found != wanted:
        sys.exit(f"lost: {wanted - found}; doubled or strange: {found - wanted}")
    checked = subprocess.run([program, "check", file], check=True, stdout=subprocess.PIPE, text=True)
    if not checked.stdout.rstrip().endswith("faults 0"):
        sys.exit(f"check: {checked.stdout}")

"""Runs `taskboard` against a server behind TLS: a port of this machine takes the messages of the program, and what they are answered comes
by TLS. The program's own listener is that port's: no other user can listen there as long as the program runs. Nothing is kept here."""
from __future__ import annotations

import errno
import hashlib
import os
import re
import select
import signal
import socket
import ssl
import sys
import threading
import time
from collections.abc import Callable, Sequence

from taskboard_bridges.fault import Fault
from taskboard_bridges.places import Place, place_of, trusting
from taskboard_bridges.wire import MOST_HEAD, PART, Head, NoAnswer, Wire

SETTING = re.compile(r"(?m)^[ \t]*server[ \t]*=[ \t]*(.*?)\s*$")
TARGET = re.compile(rb"[A-Z]+ [!-~]+ HTTP/1\.1")
# What a server of boards answers in; a proxy in front of it that lets the program try again answers otherwise.
TYPES = (b"application/json", b"text/plain")
AWAY = (500, 502, 503, 504)
TOO_OFTEN = 429
# How many seconds nothing may come of an answer, or of a message.
TIMEOUT = 60
# How many seconds go by between two looks at what other commands wait for.
PAUSE = 0.01
# How many ports are tried where other users listen.
MOST_PORTS = 16
# Words that ask no server: it isn't looked for before they run.
ALONE = ("--help", "-h", "help", "--version", "--check")


class Tunnel:
    """A port of this machine and the server to which it leads. Connections to the server are used again."""

    def __init__(self, place: Place, context: ssl.SSLContext) -> None:
        self.place, self.context = place, context
        self.listener = listening(place)
        host, port = self.listener.getsockname()
        self.address = f"{host}:{port}"
        self.wires: list[Wire] = []
        self.clients: set[socket.socket] = set()
        self.child = 0
        self.fault: Fault | None = None

    def look_for_server(self) -> None:
        """Connects to the server before anything is asked, and ends the program where it isn't there or isn't trusted."""
        try:
            self.wires.append(Wire(self.place, self.context, TIMEOUT))
        except ssl.SSLCertVerificationError as fault:
            raise Fault(f"the certificate of https://{self.place.name} isn't trusted: {fault.verify_message}. Nothing was sent") from None
        except ssl.SSLError as fault:
            raise Fault(f"https://{self.place.name} speaks no TLS that is safe ({fault.reason or fault}). Nothing was sent") from None
        except OSError as fault:
            raise Fault(f"https://{self.place.name} can't be reached: {fault.strerror or fault}. Nothing was sent: try it again") from None

    def accept(self) -> None:
        """Serves each connection, as long as the program runs."""
        while True:
            try:
                client, _ = self.listener.accept()
            except OSError:
                return
            self.clients.add(client)
            threading.Thread(target=self.serve, args=(client,), daemon=True).start()

    def serve(self, client: socket.socket) -> None:
        """Passes on the message of a connection of this user's, and its answer; where no whole one came the connection ends without."""
        with client:
            try:
                client.settimeout(TIMEOUT)
                if is_of_this_user(client):
                    client.sendall(self.answer_to(self.with_host(taken(client))))
            except Fault as fault:
                self.fault = fault
                os.kill(self.child, signal.SIGKILL)
            except (OSError, NoAnswer):
                pass
            self.clients.discard(client)

    def finish(self) -> None:
        """Accepts no more once the program has ended; other commands of this user's whose messages came here get their answers."""
        self.listener.shutdown(socket.SHUT_RDWR)
        while any(is_open(client) for client in list(self.clients)):
            time.sleep(PAUSE)

    def with_host(self, message: bytes) -> bytes:
        """A message as the server takes it: it names the server, and leaves the connection open."""
        head, _, body = message.partition(b"\r\n\r\n")
        first, *lines = head.split(b"\r\n")
        others = [line for line in lines if not line.lower().startswith((b"host:", b"connection:"))]
        return b"\r\n".join([first, b"host: " + self.place.name.encode(), *others, b"", b""]) + body

    def answer_to(self, message: bytes) -> bytes:
        """The bytes of the whole answer to a message."""
        try:
            wire = self.wires.pop()
        except IndexError:
            wire = Wire(self.place, self.context, TIMEOUT)
        head, body = wire.ask(message)
        if wire.is_open:
            self.wires.append(wire)
        self.look_at(head)
        fields = [b"%s: %s" % field for field in head.fields.items() if field[0] != b"connection"]
        return b"\r\n".join([head.first, *fields, b"connection: close", b"", b""]) + body


    def look_at(self, head: Head) -> None:
        """Ends the program where another server answers, before it takes that for an answer."""
        if head.status == TOO_OFTEN:
            # The program tries again, as where no answer came.
            raise NoAnswer
        kind = head.fields.get(b"content-type", b"")
        if head.status not in AWAY and not kind.startswith(TYPES):
            raise Fault(f"https://{self.place.name} answers {head.status} with something that no server of boards says ({kind.decode('ascii', 'replace') or 'of no type'}): "
                        "look at the address, and at what is in front of the server")


def listening(place: Place) -> socket.socket:
    """A listener that only programs of this user share. Its address is the same each time, since the program keeps what it did by that; it
    is another where the user is, the server, or whom she trusts."""
    trusted = [os.environ.get(name, "") for name in ("SSL_CERT_FILE", "SSL_CERT_DIR")]
    for attempt in range(MOST_PORTS):
        digest = hashlib.sha256(repr((os.geteuid(), place.name, trusted, attempt)).encode()).digest()
        listener = socket.socket(socket.AF_INET, socket.SOCK_STREAM)
        try:
            # (The system lets sockets of one user alone share a port so.)
            listener.setsockopt(socket.SOL_SOCKET, socket.SO_REUSEPORT, 1)
            listener.bind((f"127.{digest[0]}.{digest[1]}.{1 + digest[2] % 254}", 10_000 + int.from_bytes(digest[3:5], "big") % 20_000))
            listener.listen()
        except OSError as fault:
            listener.close()
            if fault.errno == errno.EADDRINUSE:
                continue
            raise
        os.set_inheritable(listener.fileno(), True)
        return listener
    raise Fault("other programs listen on each port of this machine that could lead to the server. Nothing was sent")


def is_of_this_user(client: socket.socket) -> bool:
    """Whether the other end of a connection within this machine is a socket of this user's."""
    ends = [as_listed(*end) for end in (client.getpeername(), client.getsockname())]
    with open("/proc/net/tcp", encoding="ascii") as file:
        rows = (line.split() for line in file)
        return any(row[1:3] == ends and row[7] == str(os.geteuid()) for row in rows)


def is_open(client: socket.socket) -> bool:
    """Whether the other end of a connection waits for its answer."""
    try:
        return not select.select([client], [], [], 0)[0] or client.recv(1, socket.MSG_PEEK) != b""
    except (OSError, ValueError):
        return False


def as_listed(host: str, port: int) -> str:
    """An end of a connection as the system's table has it."""
    return f"{int.from_bytes(socket.inet_aton(host), sys.byteorder):08X}:{port:04X}"


def taken(client: socket.socket) -> bytes:
    """A whole message of the program's."""
    got = bytearray()
    while (end := got.find(b"\r\n\r\n")) < 0:
        if len(got) > MOST_HEAD:
            raise NoAnswer
        receive(client, got)
    lines = bytes(got[:end]).split(b"\r\n")
    if not TARGET.fullmatch(lines[0]):
        raise NoAnswer
    lengths = [int(line[15:]) for line in lines if re.fullmatch(rb"content-length: [0-9]{1,10}", line)]
    while len(got) < end + 4 + sum(lengths):
        receive(client, got)
    return bytes(got)


def receive(client: socket.socket, got: bytearray) -> None:
    """Takes what came of a message."""
    part = client.recv(PART)
    if not part:
        raise NoAnswer
    got += part


class Rewriter:
    """Passes on what the program says, with the server's address in place of that of the port."""

    def __init__(self, pairs: Sequence[tuple[str, str]], write: Callable[[bytes], object]) -> None:
        self.pairs, self.write = [(old.encode(), new.encode()) for old, new in pairs], write

    def copy(self, source: int) -> None:
        """Passes on all that comes from a descriptor, as soon as it comes."""
        held = b""
        while part := os.read(source, PART):
            text = held + part
            for old, new in self.pairs:
                text = text.replace(old, new)
            size = max(self.begun(text, old) for old, _ in self.pairs)
            held = text[len(text) - size :]
            self.write(text[: len(text) - size])
        self.write(held)

    @staticmethod
    def begun(text: bytes, old: bytes) -> int:
        """How many bytes at the end of a text may be the beginning of what is replaced."""
        return next((size for size in range(min(len(text), len(old) - 1), 0, -1) if text.endswith(old[:size])), 0)


def write_all(data: bytes) -> None:
    """Writes to standard error, where anybody reads it."""
    try:
        while data:
            data = data[os.write(2, data) :]
    except OSError:
        pass


def run(program: str, words: Sequence[str], environment: dict[str, str], tunnel: Tunnel, pairs: Sequence[tuple[str, str]]) -> int:
    """Runs the program, which has the listener, beside the tunnel; what it ended with."""
    reading, writing = os.pipe()
    child = os.posix_spawn(program, [program, *words], environment, file_actions=[(os.POSIX_SPAWN_DUP2, writing, 2)], setsigdef=[signal.SIGPIPE, signal.SIGXFSZ])
    os.close(writing)
    tunnel.child = child
    for number in (signal.SIGINT, signal.SIGQUIT):
        # The terminal tells both.
        signal.signal(number, lambda *_: None)
    for number in (signal.SIGTERM, signal.SIGHUP):
        signal.signal(number, lambda which, _: os.kill(child, which))
    threading.Thread(target=tunnel.accept, daemon=True).start()
    Rewriter(pairs, write_all).copy(reading)
    _, status = os.waitpid(child, 0)
    if tunnel.fault:
        raise tunnel.fault
    if not os.WIFSIGNALED(status):
        tunnel.finish()
    return os.waitstatus_to_exitcode(status)


def place_in_words(words: Sequence[str]) -> int:
    """Where `send` has its address: after its options."""
    at = 1
    while at < len(words) and words[at] in ("--id", "--for"):
        at += 2
    return at


def server_in_settings() -> str:
    """The server that the environment names, or the file of the settings."""
    if "TASKBOARD_SERVER" in os.environ:
        return os.environ["TASKBOARD_SERVER"]
    try:
        with open(os.path.expanduser("~/.config/taskboard/config"), encoding="utf-8") as file:
            found = [line[1] for line in SETTING.finditer(file.read())]
    except (OSError, UnicodeDecodeError):
        return ""
    return found[-1] if found else ""


def words_over(words: list[str], environment: dict[str, str]) -> int:
    """Runs the words of `tb` by TLS where they, or the settings, name a server that has it."""
    program, *words = words
    at = place_in_words(words) if words[:1] == ["send"] else None
    server = words[at] if at is not None and at < len(words) else "" if at is not None else server_in_settings()
    if not server.startswith("https://"):
        os.execve(program, [program, *(words if at is not None else ["my", *words])], environment)
    place = place_of(server)
    tunnel = Tunnel(place, trusting())
    if not set(words) & set(ALONE):
        tunnel.look_for_server()
    pairs = [(tunnel.address, f"https://{place.name}")]
    if at is None:
        return run(program, ["my", *words], {**environment, "TASKBOARD_SERVER": tunnel.address}, tunnel, pairs)
    return run(program, [*words[:at], tunnel.address, *words[at + 1 :]], environment, tunnel, [*pairs, ("taskboard send ", "tb send ")])


def main(words: list[str]) -> None:
    """Ends as the program ends."""
    try:
        status = words_over(words, dict(os.environ))
    except Fault as fault:
        sys.exit(f"tb: {fault}.")
    except OSError as fault:
        sys.exit(f"tb: {fault.filename or 'the system'}: {fault.strerror}. Nothing was sent.")
    if status < 0:
        signal.signal(-status, signal.SIG_DFL)
        os.kill(os.getpid(), -status)
    sys.exit(status)

"""HTTP messages over one connection. An answer is whole, with as many bytes as its head says, or there is none. Nothing is kept here."""
from __future__ import annotations

import re
import socket
import ssl
from collections.abc import Mapping

from taskboard_bridges.places import Place

STATUS_LINE = re.compile(rb"HTTP/1\.[01] ([1-5][0-9]{2})( [^\r\n]*)?")
FIELD = re.compile(rb"([!#$%&'*+.^_`|~0-9A-Za-z-]+):[ \t]*([^\r\n]*?)[ \t]*")
LENGTH = re.compile(rb"[0-9]{1,10}")
MOST_HEAD = 65_536
# Bytes that are taken at once.
PART = 1 << 18


class NoAnswer(Exception):
    """No whole answer came: nothing is known of the message."""


class Head:
    """The head of an answer: its first line, its status, its fields by their names in small letters, and how many bytes its body has."""

    def __init__(self, first: bytes, status: int, fields: Mapping[bytes, bytes], length: int) -> None:
        self.first, self.status, self.fields, self.length = first, status, fields, length


def read_head(data: bytes) -> Head:
    """The head that bytes up to an empty line say, if they say how long the body is."""
    first, *lines = data.split(b"\r\n")
    status = STATUS_LINE.fullmatch(first)
    found = [FIELD.fullmatch(line) for line in lines]
    if not status or not all(found):
        raise NoAnswer
    fields = [(field[1].lower(), field[2]) for field in found if field]
    lengths = [value for name, value in fields if name == b"content-length"]
    if len(lengths) != 1 or not LENGTH.fullmatch(lengths[0]) or any(name == b"transfer-encoding" for name, _ in fields):
        raise NoAnswer
    return Head(first, int(status[1]), dict(fields), int(lengths[0]))


def message(method: str, target: str, fields: Mapping[str, str], body: bytes | None) -> bytes:
    """The bytes of a message."""
    lengths = {} if body is None else {"content-length": str(len(body))}
    lines = [f"{method} {target} HTTP/1.1", *(f"{name}: {value}" for name, value in {**fields, **lengths}.items())]
    return "\r\n".join([*lines, "", ""]).encode("ascii") + (body or b"")


class Wire:
    """A connection to a server, by TLS where there is a context for it. Faults of the network are OSError."""

    def __init__(self, place: Place, context: ssl.SSLContext | None, timeout: float) -> None:
        self.got, self.is_open = bytearray(), True
        plain = socket.create_connection((place.host, place.port), timeout=timeout)
        try:
            plain.setsockopt(socket.IPPROTO_TCP, socket.TCP_NODELAY, 1)
            self.socket = context.wrap_socket(plain, server_hostname=place.host) if context else plain
        except BaseException:
            plain.close()
            raise

    def ask(self, sent: bytes) -> tuple[Head, bytes]:
        """The whole answer to a message. The connection is closed where it can't be used again."""
        try:
            self.socket.sendall(sent)
            head = self.head()
            body = self.body(head.length)
        except BaseException:
            self.close()
            raise
        if b"close" in head.fields.get(b"connection", b"").lower() or self.got:
            self.close()
        return head, body

    def head(self) -> Head:
        """The head of the next answer."""
        while (end := self.got.find(b"\r\n\r\n")) < 0:
            if len(self.got) > MOST_HEAD:
                raise NoAnswer
            self.receive(PART)
        head = read_head(bytes(self.got[:end]))
        del self.got[: end + 4]
        return head

    def body(self, length: int) -> bytes:
        """The next bytes, as many as there have to be."""
        while len(self.got) < length:
            self.receive(min(length - len(self.got), PART))
        body = bytes(self.got[:length])
        del self.got[:length]
        return body

    def receive(self, most: int) -> None:
        """Takes what came."""
        part = self.socket.recv(most)
        if not part:
            raise NoAnswer
        self.got += part

    def close(self) -> None:
        """Ends the connection."""
        self.is_open = False
        self.socket.close()

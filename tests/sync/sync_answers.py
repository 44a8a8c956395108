"""Answers that are cut, or that no server of boards gives, to what asks in a bridge: sync_answers.py. A server of the test's own gives them."""
import os
import sys

sys.path.insert(0, os.path.join(os.path.dirname(os.path.abspath(__file__)), "..", "..", "contrib", "bridges"))
sys.dont_write_bytecode = True
from bridging import expect
from listening import Listener
from taskboard_bridges.asking import Boards
from taskboard_bridges.fault import Fault

BODY = b'{"name":"IdReused","refused":2}'
WHOLE = b"HTTP/1.1 409 Conflict\r\ncontent-type: application/json\r\ncontent-length: 31\r\nconnection: keep-alive\r\n\r\n" + BODY
CALL = ("00000000-0000-4000-8000-000000000001", "/boards/1/tasks", b"{}")


class Teller(Listener):
    """Answers each message with the same bytes, and ends the connection after them where it is told to."""

    at_once = False

    def __init__(self):
        self.answer, self.ends, self.heard = b"", True, []
        super().__init__()

    def serve(self, client):
        with client:
            while got := client.recv(65536):
                self.heard.append(got)
                client.sendall(self.answer)
                if self.ends:
                    break

    def boards(self):
        return Boards(f"127.0.0.1:{self.port}", "ann", "ann-key-1", patience=0)


def fault_of(ask):
    """What a fault says that ends the asking; None where there is none."""
    try:
        ask()
    except Fault as fault:
        return str(fault)
    return None


def cut(teller):
    """An answer that is cut after any of its bytes is none, and a whole one is what it is."""
    for at in range(len(WHOLE)):
        teller.answer = WHOLE[:at]
        expect(f"cut after {at} bytes", None, teller.boards().one_try("GET", "/me", None, {}))
        expect(f"cut after {at} bytes, of a call", True, "doesn't answer" in (fault_of(lambda: teller.boards().was_used(*CALL)) or ""))
    teller.answer = WHOLE
    expect("whole", (409, BODY), (lambda answer: (answer.status, answer.body))(teller.boards().one_try("GET", "/me", None, {})))
    expect("an identifier that was used", True, teller.boards().was_used(*CALL))
    for name, answer in {
        "no length": b"HTTP/1.1 200 OK\r\ncontent-type: application/json\r\n\r\n{}",
        "two lengths": b"HTTP/1.1 200 OK\r\ncontent-length: 2\r\ncontent-length: 2\r\n\r\n{}",
        "a length that is none": b"HTTP/1.1 200 OK\r\ncontent-length: 2x\r\n\r\n{}",
        "a coding": b"HTTP/1.1 200 OK\r\ncontent-length: 2\r\ntransfer-encoding: chunked\r\n\r\n{}",
        "another protocol": b"220 mail.example.org ESMTP\r\n\r\n",
    }.items():
        teller.answer = answer
        expect(name, None, teller.boards().one_try("GET", "/me", None, {}))


def kept(teller):
    """A connection that stays open is used again, and one that ended between two messages is made anew."""
    teller.answer, teller.ends = WHOLE.replace(b"409 Conflict", b"200 OK"), False
    boards = teller.boards()
    for _ in range(3):
        expect("an answer on a kept connection", 200, boards.one_try("GET", "/me", None, {}).status)
    expect("one connection", 3, boards.messages)
    teller.ends = True
    boards.disconnect()
    expect("before the connection ends", 200, boards.one_try("GET", "/me", None, {}).status)
    expect("no answer on a connection that ended", None, boards.one_try("GET", "/me", None, {}))
    expect("a new connection", 200, boards.one_try("GET", "/me", None, {}).status)


def strange(teller):
    """What no server of boards says ends the run in words: no call counts as made or not made, and nothing is shown."""
    page = b"<html>Sign in to the network</html>"
    for status in (b"200 OK", b"403 Forbidden", b"404 Not Found", b"409 Conflict"):
        teller.answer = b"HTTP/1.1 %s\r\ncontent-length: %d\r\n\r\n%s" % (status, len(page), page)
        for ask in (lambda: teller.boards().was_used(*CALL), lambda: teller.boards().call(*CALL), lambda: teller.boards().tasks(1), lambda: teller.boards().role(1)):
            expect(f"{status} of another server", True, "no server of boards says" in (fault_of(ask) or ""))
    for body in (b"[" * 20_000, b"\xff", b"1e999999", b"null", b'{"boards":5}', b'[{"uuid":5}]', b'[{"uuid":"a","status":"b","entry":"c","description":"d","tags":"e"}]', b"{}"):
        teller.answer = b"HTTP/1.1 200 OK\r\ncontent-length: %d\r\n\r\n%s" % (len(body), body)
        for ask in (lambda: teller.boards().tasks(1), lambda: teller.boards().role(1), lambda: teller.boards().people(1)):
            expect(f"{body[:40]} is no view", True, fault_of(ask) is not None)
    for body, told in ((b'{"name":"BadBody"}', "isn't known whether"), (b'{"name":"NoTask","refused":5}', None)):
        teller.answer = b"HTTP/1.1 404 Not Found\r\ncontent-length: %d\r\n\r\n%s" % (len(body), body)
        found = fault_of(lambda: teller.boards().was_used(*CALL))
        expect(f"{body} of a call", True, found is None if told is None else told in (found or ""))


def main():
    teller = Teller()
    cut(teller)
    kept(teller)
    strange(teller)
    print(f"an answer is none after any of its first {len(WHOLE) - 1} bytes; what no server of boards says ends in words")


main()

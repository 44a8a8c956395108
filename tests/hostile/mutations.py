"""Sends messages that were made from good ones by cutting, doubling, swapping and changing bytes: python3 mutations.py PROGRAM PORT COUNT SEED, in a folder
that it may write to.

Each is sent on a connection of its own to one server. What comes has to be answers of the tables of docs/HTTP.md, with the status and the end of the connection
that stand there; a board may be another behind it only where a call was accepted; and the server runs on."""
import collections
import contextlib
import json
import os
import pathlib
import random
import re
import socket
import subprocess
import sys

from connecting import connected
from scenes import files_of_scenes, scenes_of
from talking import Caller, Server, body_of, message

PROGRAM, PORT, COUNT, SEED = os.path.abspath(sys.argv[1]), int(sys.argv[2]), int(sys.argv[3]), int(sys.argv[4])
TABLES = (pathlib.Path(__file__).resolve().parents[2] / "docs/HTTP.md").read_text()
# The status of each name, and of those that a message is answered by its name alone whether the connection is closed.
REFUSALS = {name: int(status) for name, status in re.findall(r"(?m)^\| \d+ (\w+) \| (\d{3}) \|", TABLES)}
FAULTS = {name: (int(status), end == "is closed") for name, status, end in re.findall(r"(?m)^\| (\w+) \| (\d{3}) \| .* \| (is closed|stays open) \|$", TABLES)}
ANSWER = re.compile(
    rb"HTTP/1\.1 (\d{3}) [A-Z][A-Za-z ]+\r\ncontent-type: (application/json|text/plain; charset=utf-8)\r\ncontent-length: (\d+)\r\n"
    rb"(allow: [A-Z]+\r\n)?connection: (keep-alive|close)\r\n\r\n"
)
LOOKS = [message(b"GET", b"/boards/%d/export" % board, fields=b"x-member: root\r\nx-key: root-key-1\r\n") for board in (1, 2)]
# A longer message makes the same mistakes, more slowly.
LONGEST = 3000
# How many are sent to the same boards: soon nobody may do anything on these.
AT_ONCE = 100


class Wrong(Exception):
    """What no bytes may bring about."""


def good_messages():
    """The bytes of connections that are answered 200."""
    connections = [connection for path in files_of_scenes() for page, scene in scenes_of(path) if not page for connection in scene]
    return sorted({sent for sent, wanted, taken in connections if taken is None and wanted.startswith(b"HTTP/1.1 200") and len(sent) <= LONGEST})


def piece_of(text):
    """Where a piece of some bytes begins and ends: a line, or a few bytes."""
    if random.random() < 0.3:
        ends = [0, *(found.end() for found in re.finditer(rb"\n", text)), len(text)]
        at = random.randrange(len(ends) - 1)
        return ends[at], ends[at + 1]
    begin = random.randrange(len(text) + 1)
    return begin, min(len(text), begin + random.choice((1, 1, 2, 4, 16, 64)))


def cut(text):
    begin, end = piece_of(text)
    return text[:begin] if random.random() < 0.1 else text[:begin] + text[end:]


def double(text):
    begin, end = piece_of(text)
    return text[:end] + text[begin:end] * random.choice((1, 1, 1, 2, 40)) + text[end:]


def swap(text):
    (begin, middle), (after, end) = sorted((piece_of(text), piece_of(text)))
    after = max(middle, after)
    return text[:begin] + text[after:end] + text[middle:after] + text[begin:middle] + text[max(after, end) :]


def change(text):
    at = random.randrange(len(text) + 1)
    new = random.choice((bytes([random.randrange(256)]), random.choice((b"0", b"1", b"9", b" ", b"\t", b"\r", b"\n", b":", b'"', b"{", b"[", b"\\", b"/", b"-", b"\0"))))
    return text[:at] + new + text[at + random.randrange(2) :]


def mutated(text):
    """A message that was made from this one, mostly under an identifier of its own."""
    if random.random() < 0.8:
        number = b"%012d" % random.randrange(10**6)
        text = re.sub(rb"(?i)(x-request-id: [0-9a-f-]{24})\d{12}", lambda found: found[1] + number, text)
    for _ in range(random.choice((1, 1, 1, 2, 3, 5))):
        text = random.choice((cut, double, swap, change))(text)
    return text


def told_to(sent):
    """All that is told to these bytes, up to the end of the connection; and whether the server ended it before all was sent."""
    told = b""
    with connected(PORT, 20) as client:
        try:
            client.sendall(sent)
            client.shutdown(socket.SHUT_WR)
            while piece := client.recv(65536):
                told += piece
        except (BrokenPipeError, ConnectionResetError):
            pass
    return told


def read_answers(told):
    """The answers that were told, each as the tables have it."""
    answers = []
    while told:
        head = ANSWER.match(told)
        if not head or len(told) < head.end() + int(head[3]):
            raise Wrong(f"no answer: {told[:300]}")
        if answers and answers[-1][2]:
            raise Wrong(f"told behind the last answer: {told[:300]}")
        body, told = told[head.end() : head.end() + int(head[3])], told[head.end() + int(head[3]) :]
        answers.append((int(head[1]), body, head[5] == b"close", head[2]))
        expect_of_the_tables(*answers[-1][:3], head[4])
    return answers


def expect_of_the_tables(status, body, is_closed, allow):
    if status == 200:
        return
    told = json.loads(body)
    name = told["name"]
    if "refused" in told:
        if status != REFUSALS.get(name):
            raise Wrong(f"{status} {body}")
    elif name not in FAULTS or status != FAULTS[name][0] or FAULTS[name][1] and not is_closed:
        raise Wrong(f"{status} {body}, closed: {is_closed}")
    if (allow is not None) != (name == "NoMethod"):
        raise Wrong(f"{status} {body} with {allow}")
    names[name] += 1


def is_call(status, body, kind):
    """Whether an answer accepts a call, which may change a board."""
    if status != 200 or kind != b"application/json":
        return False
    told = json.loads(body)
    return isinstance(told, dict) and ("added" in told or "person" in told or "board" in told)


def state(looker):
    return [body_of(looker.one_try(sent)) for sent in LOOKS]


def send(server, looker, sent, before):
    """Sends bytes, and gives the boards behind them."""
    answers = read_answers(told_to(sent))
    after = state(looker)
    if not server.runs():
        raise Wrong("the server has ended")
    counts["closed without an answer"] += not answers
    counts["answers"] += len(answers)
    counts["calls accepted"] += sum(is_call(status, body, kind) for status, body, _, kind in answers)
    if after != before and not any(is_call(status, body, kind) for status, body, _, kind in answers):
        raise Wrong(f"the boards are {after}, and were {before}")
    return after


def send_to_new_boards(count):
    """Sends so many messages to a server over a new file."""
    make_root(PROGRAM)
    with Server(PROGRAM, PORT, errors=subprocess.DEVNULL) as server:
        looker = Caller(PORT)
        seen = state(looker)
        for _ in range(count):
            sent = mutated(random.choice(goods))
            try:
                seen = send(server, looker, sent, seen)
            except (Wrong, OSError, ValueError, KeyError, AttributeError) as fault:
                wrong.append(f"{sent[:500]}: {type(fault).__name__} {fault}")
                break
        looker.disconnect()
    checked = subprocess.run([PROGRAM, "check", "b.db"], capture_output=True, text=True)
    if checked.returncode or not checked.stdout.endswith(" faults 0\n"):
        wrong.append(f"check: {checked}")


def make_root(program):
    for name in ("b.db", "b.db-wal"):
        with contextlib.suppress(FileNotFoundError):
            os.remove(name)
    subprocess.run([program, "init", "b.db", "root", "root-key-1"], check=True)


random.seed(SEED)
names, counts, goods, wrong = collections.Counter(), collections.Counter(), good_messages(), []
for begun in range(0, COUNT, AT_ONCE):
    send_to_new_boards(min(AT_ONCE, COUNT - begun))
print(f"{COUNT} messages of seed {SEED}, made from {len(goods)} good ones: " + ", ".join(f"{count} {what}" for what, count in counts.items()))
print(", ".join(f"{count} {name}" for name, count in names.most_common()))
for told in wrong[:10]:
    print(f"wrong: {told[:1500]}")
sys.exit(bool(wrong))

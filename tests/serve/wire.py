"""Plays the connections of the wire examples against a real server, and compares the bytes that it answers: wire.py PROGRAM [NAME ..]

What a real socket and clock can't be told to do is left out: scenes with moments of their own, readers that fail, writers that fail at
each byte or stall, and connections at once in every order. A writer that fails behind some bytes is a client that goes away behind them.
Moments in answers are those of the machine's clock, so they are only compared as moments.
`crates/tests/data/README.md` says what the lines mean."""
import os
import pathlib
import socket
import struct
import subprocess
import sys
import tempfile
import time

sys.path.insert(0, str(pathlib.Path(__file__).resolve().parents[1] / "lib"))
from connecting import connected, free_port
from scenes import files_of_scenes, scenes_of
from talking import without_moments

program, port = os.path.abspath(sys.argv[1]), free_port()
BEHIND = b"GET /boards/1/list HTTP/1.1\r\nHost: a\r\nx-member: root\r\nx-key: root-key-1\r\nConnection: close\r\n\r\n"


def written(page, room):
    """The words of an order that serves a page of these files, which are written into the folder `page` of a room."""
    if not page:
        return []
    for name, text in page.items():
        path = pathlib.Path(room, "page", name)
        path.parent.mkdir(parents=True, exist_ok=True)
        path.write_bytes(text)
    return ["--page", "page"]


def answered(sent, taken=None):
    """What is answered to these bytes, up to the end of the connection, or the bytes that are taken before the client resets it."""
    with connected(port, 60) as client:
        try:
            client.sendall(sent)
            client.shutdown(socket.SHUT_WR)
        except (BrokenPipeError, ConnectionResetError):
            pass
        got = b""
        while len(got) != taken and (piece := client.recv(65536 if taken is None else taken - len(got))):
            got += piece
        if taken is not None:
            client.setsockopt(socket.SOL_SOCKET, socket.SO_LINGER, struct.pack("ii", 1, 0))
    return got


def difference(scene):
    """How a new server goes otherwise than a scene is written, or no word; and whether the clock's second changed before that."""
    page, connections = scene
    with tempfile.TemporaryDirectory() as room:
        subprocess.run([program, "init", "b.db", "root", "root-key-1"], cwd=room, check=True)
        words = ["--port", str(port), "--connections", str(len(connections)), *written(page, room)]
        server = subprocess.Popen([program, "serve", "b.db", *words], cwd=room, stderr=subprocess.DEVNULL)
        second = int(time.time())
        try:
            for sent, wanted, taken in connections:
                got = answered(sent, taken)
                if without_moments(got) != without_moments(wanted):
                    return f"wanted {wanted[:600]!r}, got {got[:600]!r}", int(time.time()) != second
            status = server.wait(timeout=30)
            return status and f"the server ends with {status}", False
        finally:
            server.kill()
            server.wait()


def is_played(name, scene):
    """Whether a scene is answered as it is written. A listing shows a second of age, so one within which the second changed is played again."""
    for _ in range(10):
        told, has_changed = difference(scene)
        if not has_changed:
            break
    if told:
        print(f"{name}: {told}")
    return not told


def bytes_behind_are_dropped():
    """A client that sends more behind its last message can still read the answer."""
    with tempfile.TemporaryDirectory() as room:
        subprocess.run([program, "init", "b.db", "root", "root-key-1"], cwd=room, check=True)
        server = subprocess.Popen([program, "serve", "b.db", "--port", str(port), "--connections", "1"], cwd=room, stderr=subprocess.DEVNULL)
        try:
            return answered(BEHIND + b"a" * 100_000).startswith(b"HTTP/1.1 200 OK\r\n")
        finally:
            server.kill()
            server.wait()


played, left = [], 0
for path in files_of_scenes():
    if sys.argv[2:] and path.stem not in sys.argv[2:]:
        continue
    scenes = scenes_of(path)
    left += not scenes
    played += [is_played(path.stem, scene) for scene in scenes]
if not played or not all(played) or not bytes_behind_are_dropped():
    sys.exit(1)
print(f"{len(played)} scenes are answered as written; {left} files are of ends, moments or orders that a real server can't be given")

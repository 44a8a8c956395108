"""A change of the own key that is stopped: own_key.py PROGRAM PORT TRIES, in a folder with a file b.db of ann, whose key is ann-key-1,
which is served on the port. TRIES is how often the client is killed twice, at random."""
import concurrent.futures
import contextlib
import os
import random
import shutil
import subprocess
import sys

from bridging import whole
from connecting import connected, whole_answer
from listening import Listener
from drawing import seeded
from tracing import counted, injected

PROGRAM, PORT, TRIES = os.path.abspath(sys.argv[1]), int(sys.argv[2]), int(sys.argv[3])
HOME = os.path.join(os.getcwd(), "home")
FOLDER = os.path.join(HOME, ".config/taskboard")
KEY, NEW, NEXT = (os.path.join(FOLDER, name) for name in ("key", "key.new", "key.next"))
BARE = {name: value for name, value in os.environ.items() if name != "TASKBOARD_KEY"} | {"HOME": HOME}
CHANGED, UNKNOWN = '{"person":"ann"}\n', '{"name":"UnknownCaller","refused":1}\n'
KILLED_AT = ("openat", "write", "fsync", "rename", "renameat", "renameat2", "unlink", "unlinkat", "flock", "connect", "sendto", "recvfrom", "read", "close")
wrong = []


class Line(Listener):
    """A line to the server: `mode` says what becomes of the next message that changes something, and of its answer."""

    at_once = False

    def __init__(self):
        self.loses, self.left, self.longest = False, None, 0
        super().__init__(PORT + 1)

    def serve(self, client):
        with client, contextlib.suppress(OSError):
            self.pass_on(client)

    def pass_on(self, client):
        message = whole(client)
        if not message or message.startswith(b"POST") and self.loses:
            return
        answer = whole_answer(PORT, message)
        if message.startswith(b"POST"):
            self.longest = len(answer)
            if self.left is not None:
                answer = answer[: self.left]
        client.sendall(answer)


def send(*words, before=(), key="-", member="ann", options=(), **more):
    """An order over the line, behind some words."""
    line = [*before, PROGRAM, "send", *options, f"127.0.0.1:{PORT + 1}", member, key, *words]
    return subprocess.run(line, capture_output=True, text=True, timeout=60, **({"env": BARE} | more))


def fail(text):
    wrong.append(text)
    print(f"wrong: {text}", flush=True)


def expect(name, ran, status, out, fault=""):
    first = ran.stderr.split("\n")[0]
    if (ran.returncode, ran.stdout, first) != (status, out, fault):
        fail(f"{name}: status {ran.returncode}, {ran.stdout!r}, {ran.stderr!r}")


def text_of(path):
    with contextlib.suppress(FileNotFoundError), open(path) as file:
        return file.read()
    return ""


def write(path, text):
    with open(path, "w") as file:
        file.write(text)
    os.chmod(path, 0o600)


def keys_there():
    """Each key in a file of the folder."""
    return {text.split("\n")[0] for text in map(text_of, (KEY, NEW, NEXT)) if text}


def is_known(key):
    ran = send("me", key=key)
    if ran.returncode and ran.stdout != UNKNOWN:
        fail(f"me by a key of a file: {ran}")
    return ran.returncode == 0


def judge(name, keys, changes=None):
    """The next order gets in; then the key in the file is known and no other of these is, and the change stands no longer beside it. Where
    `changes` says whether the key changes, it did or not."""
    before = text_of(KEY).strip()
    keys = keys | keys_there()
    ran = send("me")
    if ran.returncode:
        fail(f"{name}: the next order doesn't get in: {ran}")
    after = text_of(KEY).strip()
    known = {key for key in keys | {after} if is_known(key)}
    if known != {after}:
        fail(f"{name}: known are {known}, and the file has {after}")
    if os.path.exists(NEW):
        fail(f"{name}: the change isn't finished")
    if changes is not None and changes != (before != after):
        fail(f"{name}: the key {'changed' if before != after else 'is the old one'}")
    if os.stat(KEY).st_mode & 0o777 != 0o600:
        fail(f"{name}: others may look at the key")


def changing(before=()):
    return send("own-key", before=before)


def plainly():
    """A change, which prints what the server answered; and what isn't done without a key in a file."""
    keys = keys_there()
    expect("a change", changing(), 0, CHANGED)
    if text_of(KEY).strip() in keys or os.path.exists(NEW) or os.path.exists(NEXT):
        fail("a change left the old key, or files")
    judge("a change", keys, False)
    kept = text_of(KEY)
    expect("a key of the environment", send("own-key", env=BARE | {"TASKBOARD_KEY": kept.strip()}), 1, "", "taskboard: NoKey")
    expect("a key among the words", send("own-key", key=kept.strip()), 2, "", "taskboard: Bad")
    os.chmod(KEY, 0o644)
    expect("a key that others may read", changing(), 1, "", "taskboard: NoKey")
    os.chmod(KEY, 0o600)
    expect("no home", send("own-key", env=BARE | {"HOME": "/nowhere"}), 1, "", "taskboard: NoKey")
    if (text_of(KEY), os.path.exists(NEW)) != (kept, False):
        fail("what was refused changed the files")
    judge("what was refused", set(), False)


def kills():
    """The client is killed at each of its system calls that matter, and some twice."""
    if subprocess.run(["strace", "-qq", "-o", "/dev/null", "true"], stderr=subprocess.DEVNULL).returncode:
        print("kills: skipped, since strace may not trace")
        return
    counts = counted(changing)
    ways = [injected((call,), "signal=SIGKILL", count) for call in KILLED_AT for count in range(1, counts[call] + 1)]
    for way in ways:
        keys = keys_there()
        changing(way)
        judge(f"killed at {way[-1]}", keys)
    twice = [(random.choice(ways), random.choice(ways)) for _ in range(TRIES)]
    for first, second in twice:
        keys = keys_there()
        changing(first)
        keys |= keys_there()
        send("me", before=second)
        judge(f"killed at {first[-1]}, and finishing at {second[-1]}", keys)
    print(f"killed at each of {len(ways)} system calls, and {len(twice)} times twice")


def cuts(line):
    """No answer comes, since the server got nothing, or since the line was cut after each byte of its answer."""
    line.loses = True
    ran = send("own-key", options=["--for", "1"])
    expect("no message came", ran, 1, "", "taskboard: NoAnswer")
    keys = keys_there()
    if f"taskboard send 127.0.0.1:{PORT + 1} ann - own-key" not in ran.stderr or any(key in ran.stderr for key in keys):
        fail(f"no message came: {ran.stderr!r} doesn't say how to go on, or shows a key")
    expect("another order meanwhile", send("sweep", "1", options=["--for", "1"]), 1, "", "taskboard: NoAnswer")
    line.loses = False
    judge("no message came", keys, True)
    for left in {0, 1, line.longest // 2, line.longest - 1}:
        line.left, keys = left, keys_there()
        expect(f"cut after {left} bytes", send("own-key", options=["--for", "1"]), 1, "", "taskboard: NoAnswer")
        line.left = None
        judge(f"cut after {left} bytes", keys, True)


def begun(line):
    """A change that was made and whose answer is lost: the old key and the new one."""
    old = text_of(KEY).strip()
    line.left = 0
    send("own-key", options=["--for", "1"])
    line.left = None
    return old, text_of(NEW).split("\n")[0]


def others(line):
    """Changes that another hand has gone on with, or begun: nothing is lost, and what to do is said."""
    old, new = begun(line)
    lines = text_of(NEW).split("\n")
    write(NEW, "\n".join([*lines[:2], "aaaaaaaa-aaaa-4aaa-8aaa-aaaaaaaaaaaa", ""]))
    judge("made under another identifier", {old, new}, True)
    old, new = begun(line)
    expect("a third key", send("own-key", new, "third-key-1", key=new), 0, CHANGED)
    kept = text_of(KEY), text_of(NEW)
    for words in (["own-key"], ["me"], ["sweep", "1"]):
        ran = send(*words)
        if (ran.returncode, ran.stdout) != (1, UNKNOWN) or "key.new" not in ran.stderr:
            fail(f"neither key is known: {ran}")
    if (text_of(KEY), text_of(NEW)) != kept:
        fail("neither key is known, and the files changed")
    os.remove(NEW)
    write(KEY, "third-key-1\n")
    judge("a third key", {old, new}, False)
    theirs = f"their-key-1\n127.0.0.1:{PORT + 1} bob\n00000000-0000-4000-8000-000000000001\n"
    for text in (theirs, theirs.replace(f":{PORT + 1} bob", ":9 ann"), "no change\n", ""):
        write(NEW, text)
        expect("beside a change of another", send("sweep", "1"), 0, '{"added":0,"board":1,"more":false}\n')
        expect("over a change of another", changing(), 1, "", "taskboard: Store")
        if (text_of(KEY), text_of(NEW)) != ("third-key-1\n", text):
            fail("a change of another was touched")
    os.remove(NEW)


def at_once():
    """Several change the key at once."""
    keys = keys_there()
    with concurrent.futures.ThreadPoolExecutor(8) as pool:
        for ran in pool.map(lambda _: changing(), range(8)):
            expect("at once", ran, 0, CHANGED)
    judge("at once", keys, False)


seeded()
shutil.rmtree(HOME, ignore_errors=True)
os.makedirs(FOLDER)
write(KEY, "ann-key-1\n")
connected(PORT, 10).close()
the_line = Line()
plainly()
cuts(the_line)
others(the_line)
at_once()
kills()
sys.exit(1 if wrong else 0)

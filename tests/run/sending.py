"""What `taskboard send` does: sending.py PROGRAM PORT TASKS KILLS, in a folder with a new file b.db of ann, whose key is ann-key-1."""
import json
import os
import socket
import subprocess
import sys
import threading
import time

from connecting import connected, free_port, whole_answer
from killed import Server
from listening import Listener

program, port, tasks, kills = sys.argv[1], *(int(word) for word in sys.argv[2:])
CLIENTS = 4
HERE = f"127.0.0.1:{port}"
THERE = f"127.0.0.1:{port + 1}"
FIRST = "00000001-0000-8000-8000-000000000001"
failed = False


def fail(text):
    global failed
    failed = True
    print(text)


def send(*words, server=HERE, key="ann-key-1", options=(), **more):
    return subprocess.run(
        [program, "send", *options, server, "ann", key, *words],
        stdout=subprocess.PIPE, stderr=subprocess.PIPE, text=True, timeout=120, **more,
    )


def expect(name, ran, status, out, fault=""):
    """What an order printed, how it ended, and the first line on standard error."""
    first = ran.stderr.split("\n")[0]
    if (ran.returncode, ran.stdout, first) != (status, out, fault):
        fail(f"{name}: status {ran.returncode}, {ran.stdout!r}, {ran.stderr!r}")
    if fault and len(ran.stderr.strip().split("\n")) < 2:
        fail(f"{name}: standard error doesn't say what to do")


def look_at_words():
    """Each kind of word, a copy, refusals, and words that are no call."""
    one = ["--id", "00000000-0000-4000-8000-000000000001"]
    added = '{"added":0,"board":1,"dropped":0,"more":false,"uuid":"%s"}\n' % FIRST
    changed = '{"added":0,"board":1,"more":false,"uuid":"%s"}\n' % FIRST
    for again in range(2):
        expect("add", send("add", "1", '{"description":"Buy milk"}', options=one), 0, added)
    expect("reused", send("add", "1", '{"description":"Buy bread"}', options=one), 1, '{"name":"IdReused","refused":2}\n')
    expect("annotate", send("annotate", "1", FIRST, 'two "large" \\ bottles'), 0, changed)
    expect("modify", send("modify", "1", FIRST, '{"priority":"H"}'), 0, changed)
    expect("start", send("start", "1", FIRST), 0, changed)
    expect("person", send("person", "bob", 'bob"key\\1'), 0, '{"person":"bob"}\n')
    expect("role", send("role", "1", "bob", "member"), 0, '{"added":0,"board":1,"more":false}\n')
    expect("reader", send("role", "1", "bob", "reader"), 0, '{"added":0,"board":1,"more":false}\n')
    expect("ahead", send("ahead", "1", "3"), 0, '{"added":0,"board":1,"more":false}\n')
    expect("ahead of no number", send("ahead", "1", "13"), 2, "", "taskboard: Bad")
    expect("board", send("board", "Shop"), 0, '{"board":2}\n')
    expect("import-todo", send("import-todo", "2", "(A) Call Mom +Family", "Pay"), 0, '{"added":0,"board":2,"known":0,"more":false,"new":2}\n')
    expect("no board", send("list", "7"), 1, '{"name":"NoBoard","refused":3}\n')
    expect("bad body", send("add", "1", "{"), 1, '{"name":"BadBody"}\n')
    expect("no word", send("fly", "1"), 2, "", "taskboard: Bad")
    expect("no uuid", send("done", "1", "x"), 2, "", "taskboard: Bad")
    expect("me", send("me"), 0, '{"boards":[{"board":1,"role":"owner","title":"board"},{"board":2,"role":"owner","title":"Shop"}],"name":"ann"}\n')
    expect("people", send("people", "2"), 0, '{"board":2,"people":[{"name":"ann","role":"owner"}]}\n')
    expect("me of another", send("me", key="ann-key-2"), 1, '{"name":"UnknownCaller","refused":1}\n')
    expect("me with a word", send("me", "1"), 2, "", "taskboard: Bad")
    listed = send("list", "1")
    if listed.returncode != 0 or not listed.stdout.endswith("1 of 1 tasks\n"):
        fail(f"list: {listed}")
    found = json.loads(send("task", "1", FIRST).stdout)
    notes = [note["description"] for note in found.get("annotations", [])]
    if notes != ['two "large" \\ bottles'] or found["priority"] != "H":
        fail(f"task: {found}")


TYPED = [
    (["Call", "bank", "+Home", "@phone", "due:2026-03-01"],
     {"description": "Call bank", "project": "Home", "tags": ["phone"], "due": "20260301T000000Z", "status": "pending"}),
    (["(A) 2026-01-02 Pay  rent"],
     {"description": "Pay rent", "priority": "H", "entry": "20260102T000000Z", "status": "pending"}),
    (["x", "2026-01-05", "2026-01-02", "Buy", "bread"],
     {"description": "Buy bread", "status": "completed", "entry": "20260102T000000Z", "end": "20260105T000000Z"}),
    (["Water plants", "uuid:aaaaaaaa-aaaa-4aaa-8aaa-aaaaaaaaaaaa"],
     {"description": "Water plants", "uuid": "aaaaaaaa-aaaa-4aaa-8aaa-aaaaaaaaaaaa", "status": "pending"}),
    (["+", 'Say "hello"', "@a", "@b", "@a"],
     {"description": '+ Say "hello"', "tags": ["a", "b"], "status": "pending"}),
]


def exported():
    return json.loads(send("export", "3").stdout)


def look_at_typed():
    """Words that are a line of todo.txt: the task has what the line says, and words that are no line are no call."""
    expect("board", send("board", "Typed"), 0, '{"board":3}\n')
    for words, _ in TYPED:
        ran = send("add", "3", *words)
        if ran.returncode != 0 or ran.stderr:
            fail(f"add {words}: {ran}")
    for task, (words, wanted) in zip(exported(), TYPED, strict=True):
        said = {name: task[name] for name in task if name in wanted or name in ("due", "end", "priority", "project", "tags")}
        if said != wanted:
            fail(f"add {words}: {task}")
    expect("no words", send("add", "3"), 2, "", "taskboard: Bad")
    expect("blanks", send("add", "3", " ", ""), 2, "", "taskboard: Bad")
    expect("two lines", send("add", "3", "a\nb"), 2, "", "taskboard: Bad")
    expect("JSON that is no task", send("add", "3", '{"description":5}'), 1, '{"field":"description","name":"BadBody"}\n')


def expect_tasks(words, uuid, tasks):
    """A call to tasks by their places: what is told of which task it took."""
    ran = send(*words)
    if ran.returncode != 0 or json.loads(ran.stdout)["uuid"] != uuid or ran.stderr != "".join(f"taskboard: {task}\n" for task in tasks):
        fail(f"{words}: {ran}")


def look_at_places():
    """Tasks by their places on a board."""
    uuids = [task["uuid"] for task in exported()]
    first = '1 is "Call bank"'
    for word in ("task", "start", "stop", "done", "reopen", "delete", "reopen"):
        expect_tasks([word, "3", "1"], uuids[0], [first])
    for word, text in (("annotate", "by noon"), ("denotate", "by noon"), ("modify", '{"priority":"L"}')):
        expect_tasks([word, "3", "1", text], uuids[0], [first])
    expect_tasks(["depend", "3", "2", "4"], uuids[1], ['2 is "Pay rent"', '4 is "Water plants"'])
    expect_tasks(["undepend", "3", uuids[1], "4"], uuids[1], ['4 is "Water plants"'])
    expect_tasks(["task", "3", "5"], uuids[4], ['5 is "+ Say \\"hello\\""'])
    before = exported()
    for words in (["done", "3", "6"], ["task", "3", "4294967295"], ["depend", "3", "1", "6"]):
        expect(" ".join(words), send(*words), 1, '{"name":"NoTask","refused":5}\n')
    for words in (["done", "3", "0"], ["done", "3", "01"], ["done", "3", "1", "2"], ["done", "x", "1"]):
        expect(" ".join(words), send(*words), 2, "", "taskboard: Bad")
    expect("no board", send("done", "9", "1"), 1, '{"name":"NoBoard","refused":3}\n')
    expect("unknown", send("done", "3", "1", key="ann-key-2"), 1, '{"name":"UnknownCaller","refused":1}\n')
    if exported() != before:
        fail("what was refused changed the board")


def look_at_keys():
    """Keys of the environment and of a file, and one that others may read."""
    home = os.path.join(os.getcwd(), "home")
    os.makedirs(os.path.join(home, ".config/taskboard"))
    path = os.path.join(home, ".config/taskboard/key")
    with open(path, "w", encoding="ascii") as file:
        file.write("ann-key-1\n")
    bare = {name: value for name, value in os.environ.items() if name != "TASKBOARD_KEY"}
    os.chmod(path, 0o600)
    listed = send("todo", "2", key="-", env={**bare, "HOME": home})
    if listed.returncode != 0:
        fail(f"a key of a file: {listed}")
    os.chmod(path, 0o644)
    expect("a key that others may read", send("todo", "2", key="-", env={**bare, "HOME": home}), 1, "", "taskboard: NoKey")
    expect("no key", send("todo", "2", key="-", env={**bare, "HOME": "/nowhere"}), 1, "", "taskboard: NoKey")
    listed = send("todo", "2", key="-", env={**bare, "TASKBOARD_KEY": "ann-key-1"})
    if listed.returncode != 0:
        fail(f"a key of the environment: {listed}")


def look_at_no_server():
    begun = time.monotonic()
    one = "00000000-0000-4000-8000-0000000000aa"
    ran = send("sweep", "1", server=THERE, options=["--id", one, "--for", "1"])
    expect("no server", ran, 1, "", "taskboard: NoAnswer")
    if one not in ran.stderr or "'sweep' '1'" not in ran.stderr:
        fail(f"no server: {ran.stderr!r} doesn't say how to go on")
    if not 0.5 < time.monotonic() - begun < 10:
        fail("it was sent for another time than it was told")
    for words in (["list", "1"], ["done", "1", "3"]):
        ran = send(*words, server=THERE, options=["--for", "1"])
        expect(f"no server for {words}", ran, 1, "", "taskboard: NoAnswer")
        if "--id" in ran.stderr or "check that a server runs" not in ran.stderr:
            fail(f"no server for {words}: {ran.stderr!r} speaks of a call")


def look_at_servers():
    """Texts that are no address with a port are told at once."""
    for server in ("127.0.0.1", "127.0.0.1:", ":8080", "127.0.0.1:0", "127.0.0.1:65536", "127.0.0.1:08080", "127.0.0.1 :8080", "127.0.0.1\t:8080", ""):
        ran = send("list", "1", server=server)
        expect(f"the server {server!r}", ran, 2, "", "taskboard: Bad")
        if "The server is wrong" not in ran.stderr:
            fail(f"the server {server!r}: {ran.stderr!r} doesn't say so")
    for options, text in ((["--id", "x"], "The identifier is wrong"), (["--for", "0"], "The seconds of --for are wrong")):
        ran = send("list", "1", options=options)
        expect(f"{options}", ran, 2, "", "taskboard: Bad")
        if text not in ran.stderr:
            fail(f"{options}: {ran.stderr!r} doesn't say so")


def add_tasks(client, sent, killing):
    """Adds tasks while the server is killed, and some in any case."""
    number = client
    while killing.is_set() or number < tasks:
        ran = send("add", "1", '{"description":"Task %d of many"}' % number)
        if ran.returncode != 0:
            fail(f"task {number}: {ran}")
        sent.append(number)
        number += CLIENTS


def look_at_kills(server):
    """Clients that send while the server is killed again and again: each task is there once."""
    sent, killing = [], threading.Event()
    killing.set()
    clients = [threading.Thread(target=add_tasks, args=(client, sent, killing)) for client in range(CLIENTS)]
    for client in clients:
        client.start()
    for _ in range(kills):
        server.kill_within(0.05, 0.4)
    killing.clear()
    for client in clients:
        client.join()
    found = json.loads(send("export", "1").stdout)
    counted = {}
    for task in found:
        counted[task["description"]] = counted.get(task["description"], 0) + 1
    lost = [n for n in sent if counted.get(f"Task {n} of many", 0) == 0]
    doubled = [n for n in sent if counted.get(f"Task {n} of many", 0) > 1]
    if lost or doubled:
        fail(f"lost {lost}, doubled {doubled}")
    print(f"killed {server.killed} times under {CLIENTS} clients: {len(lost)} of {len(sent)} tasks lost, {len(doubled)} doubled")


class Proxy(Listener):
    """Lets so many bytes of one answer through and ends the connection; the answers after it are whole."""

    at_once = False

    def __init__(self, at):
        self.bytes_left = None
        self.longest = 0
        super().__init__(at)

    def serve(self, client):
        with client:
            self.pass_on(client)

    def pass_on(self, client):
        message = b""
        while not self.is_whole(message):
            message += client.recv(65536)
        answer = whole_answer(port, message)
        self.longest = max(self.longest, len(answer))
        if self.bytes_left is not None:
            answer, self.bytes_left = answer[: self.bytes_left], None
        client.sendall(answer)

    @staticmethod
    def is_whole(message):
        head, found, body = message.partition(b"\r\n\r\n")
        if not found:
            return False
        sizes = [int(line.split(b":")[1]) for line in head.split(b"\r\n") if line.startswith(b"content-length")]
        return len(body) == (sizes[0] if sizes else 0)


class ViewsAlone(Proxy):
    """Passes on what asks, and ends the connection where something is to change."""

    def pass_on(self, client):
        if client.recv(3, socket.MSG_PEEK) == b"GET":
            super().pass_on(client)


def look_at_lost_place():
    """A call to a task by its place that gets no answer: it is to go on with the uuid, since places move."""
    place = free_port()
    ViewsAlone(place)
    uuid = exported()[1]["uuid"]
    ran = send("done", "3", "2", server=f"127.0.0.1:{place}", options=["--for", "1"])
    expect("lost", ran, 1, "", 'taskboard: 2 is "Pay rent"')
    if "taskboard: NoAnswer" not in ran.stderr or f"KEY 'done' '3' '{uuid}'" not in ran.stderr:
        fail(f"lost: {ran.stderr!r}")


def look_at_cuts():
    """An answer that is cut after each of its bytes: it is told whole, and the call acted once."""
    proxy = Proxy(port + 1)
    before = len(json.loads(send("export", "2").stdout))
    cut, whole = 0, None
    while whole is None or cut < whole:
        proxy.bytes_left = cut
        ran = send("add", "2", '{"description":"Cut %04d"}' % cut, server=THERE)
        if ran.returncode != 0 or not ran.stdout.startswith('{"added":0,"board":2,') or not ran.stdout.endswith('"}\n'):
            fail(f"cut after {cut} bytes: {ran}")
        whole = proxy.longest
        cut += 1
    after = len(json.loads(send("export", "2").stdout))
    if after - before != cut:
        fail(f"{cut} calls made {after - before} tasks")
    print(f"an answer cut after each of its {whole} bytes was told whole")


server = Server(program, port)
try:
    connected(port, 10).close()
    look_at_words()
    look_at_typed()
    look_at_places()
    look_at_keys()
    look_at_no_server()
    look_at_servers()
    look_at_lost_place()
    look_at_cuts()
    look_at_kills(server)
finally:
    server.kill()
sys.exit(1 if failed else 0)

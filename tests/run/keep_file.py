"""Makes a file for `old_file.py`, before the tables change: keep_file.py PROGRAM data/version_N

The program makes the file, serves it, and is killed; the file stays with a log that isn't moved in. The folder then has both, packed, each call
with what was answered, and what each board exports. A first half of the calls is moved into the file. Where a call comes again with another key
than it had, or is answered something else, `again` says so."""
import json
import lzma
import os
import pathlib
import subprocess
import sys
import tempfile
import time

sys.path.insert(0, str(pathlib.Path(__file__).resolve().parents[1] / "lib"))
from connecting import free_port
from talking import Server, answer_to, body_of, make_file, message, status_of

FIRST_KEYS = {"ann": "ann-key-1", "bob": "bob-key-01", "cat": "cat-key-001", "dan": "dan-key-001"}
UNKNOWN = {"status": 401, "answer": '{"name":"UnknownCaller","refused":1}'}
# How what was sent before comes again, once these keys are set. Who has none is not known.
AGAIN = {"ann": {"key": "ann-key-2"}, "bob": {"key": "bob-key-02"}, "cat": UNKNOWN}
FAR = "20991231T090000Z"


def task(number):
    return f"10000000-0000-4000-8000-{number:012d}"


def adding(number, description, **attributes):
    return {"description": description, "uuid": task(number), "entry": "20260101T080000Z", **attributes}


def instance(board, place):
    """The identifier that the program gives at this place of a board."""
    return f"{board:08d}-0000-8000-8000-{place:012d}"


def imported(numbers):
    attributes = {"due": "20260301T090000Z", "project": "Shop.Orders", "tags": ["order"]}
    return [adding(number, f"Order {number}", **attributes) for number in numbers]


def people_and_boards():
    for name in ("bob", "cat", "dan"):
        yield "ann", "/people", {"name": name, "key": FIRST_KEYS[name]}
    yield "ann", "/people", {"name": "bob", "key": "bob-key-09"}
    yield "ann", "/boards", {"title": "Shop"}
    yield "ann", "/boards", {"title": "Garden — Übersicht"}
    yield "cat", "/boards", {"title": "Office"}
    yield "ann", "/boards/1/roles", {"member": "dan", "role": "reader"}
    yield "ann", "/boards/2/roles", {"member": "bob", "role": "member"}
    yield "ann", "/boards/3/roles", {"member": "bob", "role": "owner"}
    yield "cat", "/boards/4/roles", {"member": "dan", "role": "member"}
    yield "ann", "/boards/2/ahead", {"ahead": 3}


def tasks_of_home():
    at = "/boards/1/tasks"
    yield "ann", at, adding(1, "Buy milk", tags=["home"], priority="H")
    yield "ann", at, adding(2, "Pay", depends=[task(1)], scheduled="20260102T080000Z")
    yield "ann", at, adding(3, "Rent", due="20260131T090000Z", recur="monthly", until="20260501T090000Z")
    yield "ann", at, adding(4, "Water plants", due="20260301T090000Z", recur="weekly", until="20260401T090000Z", wait="20260201T090000Z")
    yield "ann", at, adding(5, "Renew the passport", wait=FAR, due="20991231T100000Z", shoe="left")
    yield "ann", at, adding(6, "Yearly check", due=FAR, recur="yearly")
    yield "ann", f"{at}/{task(1)}/annotate", {"description": "two litres"}
    yield "ann", f"{at}/{task(1)}/annotate", {"description": "or three"}
    yield "ann", f"{at}/{task(1)}/denotate", {"description": "or three"}
    yield "ann", f"{at}/{task(2)}/modify", {"project": "Büro", "priority": "L"}
    yield "ann", f"{at}/{task(1)}/depend", {"on": task(2)}
    yield "ann", f"{at}/{task(1)}/start", None
    yield "ann", f"{at}/{task(1)}/stop", None
    yield "ann", f"{at}/{task(1)}/done", None
    yield "ann", f"{at}/{instance(1, 2)}/done", None
    yield "ann", f"{at}/{instance(1, 6)}/delete", None
    yield "ann", f"{at}/{task(9)}/done", None
    yield "dan", f"{at}/{task(2)}/done", None
    yield "bob", "/boards/1/sweep", None
    yield "ann", "/boards/1/sweep", None


def tasks_of_others():
    yield "bob", "/boards/2/import", imported(range(101, 141))
    yield "bob", "/boards/2/import", [adding(200, "Inventory", due="20260201T090000Z", recur="monthly", until="20260601T090000Z")]
    yield "bob", "/boards/3/import-todo", "(A) 2026-01-03 Prune the roses +Garden @outside due:2026-02-01\nx 2026-01-05 2026-01-02 Rake\nWeed\n"
    yield "cat", "/boards/4/tasks", adding(301, "Order paper")
    yield "dan", "/boards/4/tasks", adding(302, "Order ink", depends=[task(301)])
    yield "cat", f"/boards/4/tasks/{task(301)}/delete", None


def keys_and_titles():
    yield "ann", "/me/key", {"old": "wrong-key-1", "key": "ann-key-9"}
    yield "ann", "/me/key", {"old": "ann-key-1", "key": "ann-key-2"}
    yield "ann", "/people/bob/key", {"key": "bob-key-02"}
    yield "ann", "/people/cat/key", {"key": None}
    yield "ann", "/boards/4/take", None
    yield "ann", "/boards/4/title", {"title": "Office, taken over"}
    yield "cat", "/boards/4/sweep", None


def last_calls():
    yield "ann", f"/boards/4/tasks/{task(301)}/reopen", None
    yield "bob", f"/boards/2/tasks/{task(101)}/done", None
    yield "bob", f"/boards/2/tasks/{task(102)}/modify", {"description": "Order 102, changed", "wait": FAR}
    yield "bob", f"/boards/2/tasks/{task(104)}/depend", {"on": task(103)}
    yield "bob", f"/boards/2/tasks/{task(104)}/undepend", {"on": task(103)}
    yield "ann", "/boards/2/roles", {"member": "bob", "role": None}
    yield "bob", f"/boards/2/tasks/{task(103)}/done", None
    yield "ann", "/boards/1/tasks", adding(7, "Read\n" + "a long text. " * 400)
    yield "ann", "/boards", {"title": ""}
    yield "dan", "/boards/4/tasks", adding(303, "Call the printer", wait=soon())


def soon():
    """A moment that is over once the file is kept: the task still waits in the file, and its board isn't quiet."""
    return time.strftime("%Y%m%dT%H%M%SZ", time.gmtime(time.time() + 2))


def text_of(body):
    if body is None or isinstance(body, str):
        return body or ""
    return json.dumps(body)


class Sending:
    """Sends calls one after another, and keeps what was answered."""

    def __init__(self, program):
        self.program, self.keys, self.calls = program, dict(FIRST_KEYS), []

    def send_all(self, parts):
        with Server(self.program, free_port()) as server, server.connect() as client:
            for part in parts:
                for person, target, body in part():
                    self.send(client, person, target, text_of(body))

    def send(self, client, person, target, body):
        number, key = len(self.calls) + 1, self.keys[person]
        fields = f"x-member: {person}\r\nx-key: {key}\r\nx-request-id: 00000000-0000-4000-8000-{number:012d}\r\n"
        answer = answer_to(client, message(b"POST", target.encode(), body.encode(), fields.encode()))
        call = {"person": person, "key": key, "number": number, "target": target, "body": body}
        self.calls.append({**call, "status": status_of(answer), "answer": body_of(answer).decode()})
        self.take_key(target, body, status_of(answer))

    def take_key(self, target, body, status):
        words = target.split("/")
        if status == 200 and words[-1] == "key":
            name = "ann" if words[1] == "me" else words[2]
            self.keys[name] = json.loads(body)["key"] or self.keys[name]

    def with_again(self):
        """A change of the own key comes again as it was; other calls with the key of the day."""
        for call in self.calls:
            again = AGAIN.get(call["person"], {})
            own = call["target"] == "/me/key" and call["status"] == 200
            if not own and (again is UNKNOWN or again.get("key", call["key"]) != call["key"]):
                call["again"] = again
            yield call


def keep(program, folder, sending):
    for name in ("b.db", "b.db-wal"):
        (folder / f"{name}.xz").write_bytes(lzma.compress(pathlib.Path(name).read_bytes(), preset=9))
    (folder / "calls.json").write_text(json.dumps(list(sending.with_again()), indent=1, ensure_ascii=False) + "\n")
    time.sleep(3)
    for board in (1, 2, 3, 4):
        order = [program, "export", "b.db", "ann", sending.keys["ann"], str(board)]
        (folder / f"export_{board}.json").write_bytes(subprocess.run(order, check=True, stdout=subprocess.PIPE).stdout)
    print(subprocess.run([program, "check", "b.db"], check=True, stdout=subprocess.PIPE, text=True).stdout, end="")


def main():
    program, folder = os.path.abspath(sys.argv[1]), pathlib.Path(sys.argv[2]).resolve()
    folder.mkdir(parents=True, exist_ok=True)
    sending = Sending(program)
    with tempfile.TemporaryDirectory() as made:
        os.chdir(made)
        make_file(program)
        sending.send_all([people_and_boards, tasks_of_home])
        subprocess.run([program, "check", "b.db"], check=True)
        sending.send_all([tasks_of_others, keys_and_titles, last_calls])
        keep(program, folder, sending)


main()

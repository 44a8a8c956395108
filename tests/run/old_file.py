"""Opens files that earlier programs made, each of which was killed while it served: old_file.py PROGRAM

A folder of `data` has a file and its log, packed, the calls that were answered, and what each board exported then (`keep_file.py` makes one).
Each order that opens a file of version 1 makes it one of version 2 and says so, once; a file of version 2 that has no history gets one, and that
is said too. A file has no faults then, exports the same, and each call that comes again gets its first answer, or the one that its record
names, and changes nothing. Where strace is there, the first opening is killed at each of its writes, and the next one finds all there."""
import json
import lzma
import os
import pathlib
import shutil
import subprocess
import sys
import tempfile
from typing import NamedTuple

sys.path.insert(0, str(pathlib.Path(__file__).resolve().parents[1] / "lib"))
from connecting import free_port
from talking import Server, answer_to, body_of, message, status_of
from tracing import counted, injected

program = os.path.abspath(sys.argv[1])
data = pathlib.Path(__file__).resolve().parents[1] / "data"
FILES = ("b.db", "b.db-wal")
HISTORY = "taskboard: b.db has a history from now on, and programs before this one refuse it\n"
MIGRATED = "taskboard: b.db is now of version 2\n" + HISTORY
CHANGING = ("pwrite64", "ftruncate", "fdatasync")  # system calls that change the files
WRITES = 3  # that an opening makes at least, which changes the tables
TODO = "00000000-0000-4000-8000-000000009999"


class Old(NamedTuple):
    """The folder of a file; keys of calls that name none; ann's key; what the first opening says; what `check` prints; how many boards."""

    name: str
    keys: dict
    key: str
    told: str
    checked: str
    boards: int

    def folder(self):
        return data / self.name

    def orders(self):
        """Each order that opens the file, but for `serve`, and what is on its standard input."""
        ann = ["b.db", "ann", self.key]
        yield ["check", "b.db"], ""
        yield ["list", *ann, "1"], ""
        yield ["export", *ann, "1"], ""
        yield ["todo", *ann, "1"], ""
        yield ["import", *ann, TODO, "1", "todo"], "x 2011-03-03 2011-03-02 Paint\n"


OLD = [
    Old("version_1", {"ann": "ann-key-1", "bob": "bob-key-01"}, "ann-key-1", MIGRATED, "boards 3 tasks 62 faults 0\n", 3),
    Old("version_2", {}, "ann-key-2", HISTORY, "boards 4 tasks 69 faults 0\n", 4),
]


def unpack(old):
    for name in FILES:
        pathlib.Path(name).write_bytes(lzma.decompress((old.folder() / f"{name}.xz").read_bytes()))


def printed(*words, told="", text=""):
    """What an order prints, where standard error tells this."""
    ran = subprocess.run([program, *words], input=text, check=True, capture_output=True, text=True)
    expect(f"{words[0]}, standard error", told, ran.stderr)
    return ran.stdout


def expect(what, wanted, found):
    if wanted != found:
        sys.exit(f"{what}: wanted {wanted[:200]!r}, but got {found[:200]!r}")


def look_through(old, told=""):
    expect(f"check of {old.name}", old.checked, printed("check", "b.db", told=told))
    for board in range(1, old.boards + 1):
        exported = (old.folder() / f"export_{board}.json").read_text()
        expect(f"board {board} of {old.name}", exported, printed("export", "b.db", "ann", old.key, str(board)))


def send_again(client, call):
    fields = f"x-member: {call['person']}\r\nx-key: {call['key']}\r\nx-request-id: 00000000-0000-4000-8000-{call['number']:012d}\r\n"
    answer = answer_to(client, message(b"POST", call["target"].encode(), call["body"].encode(), fields.encode()))
    expect(f"call {call['number']}", f"{call['status']} {call['answer']}", f"{status_of(answer)} {body_of(answer).decode()}")


def open_by(old, words, text):
    """Opens the file for the first time by an order, and then once more."""
    unpack(old)
    printed(*words, told=old.told, text=text)
    printed(*words, text=text)


def send_all_again(old, calls):
    unpack(old)
    with open("errors", "w") as errors, Server(program, free_port(), errors=errors) as server, server.connect() as client:
        for call in calls:
            send_again(client, {"key": old.keys.get(call["person"]), **call, **call.get("again", {})})
    expect("serve, standard error", old.told, pathlib.Path("errors").read_text().partition("taskboard: serving")[0])


def has_died(way, old):
    """Opens the file for the first time, killed in this way. Gives whether it was killed."""
    unpack(old)
    ran = subprocess.run([*way, program, "check", "b.db"], capture_output=True, text=True)
    if ran.stdout != old.checked and (ran.returncode == 0 or ran.stdout):
        sys.exit(f"an opening of {old.name}: {ran}")
    return ran.returncode != 0


def kill_openings(old):
    if subprocess.run(["strace", "-qq", "-o", "/dev/null", "true"], stderr=subprocess.DEVNULL).returncode:
        print(f"kills in the opening of a file of {old.name}: skipped, since strace may not trace")
        return
    unpack(old)
    counts = counted(lambda words: subprocess.run([*words, program, "check", "b.db"], check=True, capture_output=True))
    ways = [injected((call,), "signal=SIGKILL", count) for call in CHANGING for count in range(1, counts[call] + 1)]
    kills = sum(has_died_and_opens(way, old) for way in ways)
    if kills < WRITES:
        sys.exit(f"the opening of a file of {old.name} was killed {kills} times only")
    print(f"a file of {old.name}: {kills} openings were killed at each of their writes, and the next one found all there")


def has_died_and_opens(way, old):
    died = has_died(way, old)
    ran = subprocess.run([program, "check", "b.db"], check=True, capture_output=True, text=True)
    expect("check behind it", old.checked, ran.stdout)
    if ran.stderr not in ("", old.told):
        sys.exit(f"check behind it told {ran.stderr!r}")
    look_through(old)
    return died


def try_file(old):
    calls = json.loads((old.folder() / "calls.json").read_text())
    send_all_again(old, calls)
    look_through(old)
    unpack(old)
    look_through(old, old.told)
    look_through(old)
    for words, text in old.orders():
        open_by(old, words, text)
    if shutil.which("strace"):
        kill_openings(old)
    else:
        print(f"kills in the opening of a file of {old.name}: skipped, since strace isn't there")
    print(f"a file of {old.name}: {len(calls)} calls that came again got the answers of then, and {old.boards} boards are the same")


def main():
    with tempfile.TemporaryDirectory() as folder:
        os.chdir(folder)
        for old in OLD:
            try_file(old)


main()

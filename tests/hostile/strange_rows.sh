#!/bin/sh
# Changes the rows of a file by another hand. `check` looks at all: it tells Store for what no boards have, and counts boards with other
# masks and least free numbers, or without the row of how far ahead they look. `list` tells Store for what it looks at alone. Needs python3 with its sqlite3, and takes seconds once the
# program is there.
set -eu

. "$(dirname "$0")/../lib/prepare.sh"

python3 - "$program" <<'HANDS'
import json
import shutil
import sqlite3
import subprocess
import sys

program = sys.argv[1]
ids = [f"10000000-0000-4000-8000-{number:012d}" for number in range(3)]
template = "20000000-0000-4000-8000-000000000000"
call = "00000000-0000-4000-8000-000000000001"


def ran(words, text=""):
    done = subprocess.run([program, *words], input=text.encode(), capture_output=True)
    fault, end, _ = done.stderr.partition(b"\n")
    return done.returncode, (done.stdout + fault + end).decode()


def depends_on(place, identifier):
    member = f'"depends":["{identifier}"],"description"'
    return f"""UPDATE task SET body = replace(body, '"description"', '{member}') WHERE place = {place}"""


def stored():
    # (a file that sqlite3 made has no sums of its pages, which another hand's change would spoil)
    other = sqlite3.connect("good.db")
    other.execute("CREATE TABLE none (id)")
    other.execute("DROP TABLE none")
    other.close()
    ran(["init", "good.db", "ann", "ann-key-1"])
    entered = {"entry": "20260101T000000Z"}
    tasks = [{"description": "Sand", "uuid": one, "status": "pending", **entered} for one in ids]
    rent = {"description": "Rent", "uuid": template, "status": "recurring", "due": "20260131T090000Z", "recur": "monthly", **entered}
    status, _ = ran(["import", "good.db", "ann", "ann-key-1", call, "1", "json"], json.dumps([*tasks, rent]))
    assert status == 0


def tried(name, changes, checked, listed):
    shutil.copy("good.db", "other.db")
    other = sqlite3.connect("other.db")
    for change in changes:
        assert other.execute(change).rowcount > 0, change
    other.commit()
    other.close()
    for words, wanted in ([["check", "other.db"], checked], [["list", "other.db", "ann", "ann-key-1", "1"], listed]):
        status, said = ran(words)
        if not said.endswith(wanted) or status != (0 if wanted in ("faults 0\n", tasks) else 1):
            sys.exit(f"{name}, {words[0]}: expected '{wanted}', but got {status} '{said}'")


tasks = " tasks\n"
store = "taskboard: Store\n"
stored()
tried("nothing", [], "faults 0\n", tasks)
tried("one link", [depends_on(1, ids[1])], "faults 1\n", tasks)
tried("another mask", ["UPDATE task SET mask = '-' WHERE mask IS NOT NULL"], "faults 1\n", tasks)
tried("another least number", ["UPDATE board SET low = 77"], "faults 1\n", tasks)
tried("another version", ["UPDATE meta SET version = 7"], "taskboard: WrongVersion\n", "taskboard: WrongVersion\n")
tried("the version before, with a table that it lacks", ["UPDATE meta SET version = 1"], "taskboard: NotOurs\n", "taskboard: NotOurs\n")
tried("another row of how far ahead it looks", ["UPDATE horizon SET ahead = 12"], "faults 0\n", tasks)
tried("no row of how far ahead it looks", ["DELETE FROM horizon"], "faults 1\n", store)
tried("a circle", [depends_on(1, ids[1]), depends_on(2, ids[0])], store, store)
tried("a link to itself", [depends_on(1, ids[0])], store, store)
tried("a link to nowhere", [depends_on(1, call)], store, store)
tried("a task lost", ["DELETE FROM task WHERE place = 2"], store, store)
tried("an instance lost", ["DELETE FROM task WHERE place = 5"], store, store)
tried("an empty body", ["UPDATE task SET body = '{}' WHERE place = 1"], store, store)
tried("another board", ["UPDATE board SET id = 3"], store, store)
tried("no key", ["UPDATE person SET secret = 'a'"], store, store)
tried("no name", ["UPDATE person SET name = 'a b'"], store, '{"name":"UnknownCaller","refused":1}\n')
tried("a reader alone", ["UPDATE role SET kind = 3"], store, tasks)
tried("no owner", ["DELETE FROM role"], store, '{"name":"NoBoard","refused":3}\n')
tried("a reply of no number", ["UPDATE kept SET number = 300"], store, tasks)
print("refused and counted")
HANDS

"""What taskwarrior-clean does, with a real Taskwarrior: cleaning.py PROGRAM, in a folder of its own."""
import datetime
import json
import os
import pathlib
import re
import shutil
import subprocess
import sys
import time
import uuid as uuids

from bridging import BRIDGES, expect, moment, text
from drawing import seeded

sys.path.insert(0, BRIDGES)
sys.dont_write_bytecode = True
from taskboard_bridges import steps
from taskboard_bridges.cleaning import Cleaning, parts_of
from taskboard_bridges.json_texts import NotJson

PROGRAM = sys.argv[1]
PAGE = pathlib.Path(BRIDGES, "..", "..", "page")
SEED, RANDOM = seeded()
# What Taskwarrior calls its steps, and what boards call them.
STEPS = {"daily": "daily", "day": "day", "3days": "3d", "2d": "2d", "weekdays": "weekdays", "week": "weekly", "2wks": "biweekly", "3weeks": "21d", "6w": "6w",
         "fortnight": "fortnight", "month": "monthly", "mo": "monthly", "3mths": "quarterly", "2months": "2mo", "bimonthly": "2mo", "quarter": "quarterly", "2q": "semiannual",
         "semiannual": "semiannual", "annual": "annual", "yr": "yearly", "2yrs": "2y", "biannual": "biannual", "P1M": "P1M", "P2W": "P2W"}
NO_STEPS = ("PT1H", "90min", "1.5d", "12h")
RC = """data.location=data
confirmation=off
news.version=2.6.2
verbose=nothing
uda.cost.type=numeric
uda.pages.type=numeric
uda.review.type=date
uda.estimate.type=duration
uda.origin.type=string
"""
# Taskwarrior as it is: nothing is made or changed by the looking.
AS_IT_IS = ("rc.gc=off", "rc.recurrence=off", "rc.hooks=off")
MARKS = {"pending": "-", "waiting": "W", "completed": "+", "deleted": "X"}
calls = iter(range(1, 10**9))


def random_uuid():
    return str(uuids.UUID(int=RANDOM.getrandbits(128), version=4))


def clean(given, *options):
    """What the filter writes, what it tells, and its status."""
    given = given if isinstance(given, bytes) else given.encode()
    ran = subprocess.run([f"{BRIDGES}/taskwarrior-clean", *options], input=given, stdout=subprocess.PIPE, stderr=subprocess.PIPE, timeout=120)
    return ran.stdout, ran.stderr.decode(), ran.returncode


def cleaned(given, *options):
    written, told, status = clean(given, *options)
    expect(f"the filter's status: {told}", 0, status)
    return written, told


def task(*words, given=None, status=0):
    ran = subprocess.run(["task", *words], input=given, stdout=subprocess.PIPE, stderr=subprocess.PIPE, timeout=300)
    expect(f"task {words}: {ran.stdout[-300:]} {ran.stderr[-300:]}", status, ran.returncode)
    return ran.stdout


def new_taskwarrior():
    shutil.rmtree("data", ignore_errors=True)
    os.mkdir("data")


def board_of(given):
    """A new board with the tasks of a text, and the sums of what the import's answers count."""
    for path in pathlib.Path(".").glob("b.db*"):
        path.unlink()
    subprocess.run([PROGRAM, "init", "b.db", "ann", "ann-key-1"], check=True, stdout=subprocess.DEVNULL)
    words = [PROGRAM, "import", "b.db", "ann", "ann-key-1", f"00000000-0000-4000-8000-{next(calls):012d}", "1", "json", "--all"]
    ran = subprocess.run(words, input=given, stdout=subprocess.PIPE, stderr=subprocess.PIPE, timeout=120)
    expect(f"the import: {ran.stdout[-300:]} {ran.stderr[-300:]}", 0, ran.returncode)
    answers = [json.loads(line) for line in ran.stdout.splitlines()]
    parts = parts_of(Cleaning(given).taken)
    expect("the tasks of each part", [parts.count(part) for part in range(len(answers))], [answer["new"] for answer in answers])
    exported = subprocess.run([PROGRAM, "export", "b.db", "ann", "ann-key-1", "1"], stdout=subprocess.PIPE, check=True).stdout
    return exported, {name: sum(answer[name] for answer in answers) for name in ("new", "known", "dropped", "orphans", "unlinked")}


def by_id(given):
    return {it["uuid"]: it for it in json.loads(given, strict=False)}


def told_counts(told):
    """The counts that the last line tells."""
    found = re.search(r"(\d+) tasks? can be taken, (\d+) can't be taken.*, (\d+) changed.*, (\d+) orphans?, (\d+) links? and (\d+) members? dropped\n", told)
    return dict(zip(("new", "refused", "changed", "orphans", "unlinked", "dropped"), map(int, found.groups())))


def expect_counts(told, counts):
    """The filter foretells what the import's answers count."""
    expect("what the import counts", {**{name: told_counts(told)[name] for name in ("new", "orphans", "unlinked", "dropped")}, "known": 0}, counts)


# The table of steps.


def look_at_steps():
    """The page's import and the filter respell steps by one table."""
    cleaning, recurrence = (PAGE.joinpath(name).read_text() for name in ("import/clean.js", "core/recurrence.js"))
    expect("the units", [(letters, int(count), names) for letters, count, names in re.findall(r'\["(\w+)", (\d+), "([a-z ]+)"\],', cleaning)], list(steps.UNITS))
    expect("the words", dict(re.findall(r'"(\w+)": "(\w+)"', re.search(r"const WORDS = \{.*\}", cleaning)[0])), steps.WORDS)
    for name, table in (("WORDS", steps.DAYS), ("MONTHS", steps.MONTHS)):
        expect(f"the board's {name}", {word: int(count) for word, count in re.findall(r"(\w+): (\d+)", re.search(rf"const {name} = \{{.*\}}", recurrence)[0])}, table)
    expect("respelled", STEPS, {step: steps.respelled(step) for step in STEPS})
    expect("sennight", "biweekly", steps.respelled("sennight"))
    expect("none", {None}, {steps.respelled(step) for step in (*NO_STEPS, "", "0d", "2weekdays", "1000d", "Weekly", "week\n", "99999999999d", "hour")})


# There and back.


def by_hand():
    """Tasks of every kind, as a user makes them."""
    for step in STEPS:
        task("add", f"recur:{step}", "due:2099-03-01", f"Each {step}")
    for step in ("day", "2wks", "month"):
        task("add", f"recur:{step}", "due:now-40d", "until:2099-12-31", "wait:due-2d", f"Long each {step}")
    task("add", "project:Home.Garden", "priority:H", "+spring", "+tool", "due:2099-04-01", "scheduled:2099-03-20", "Dig 東京 naïve 😀 \"quoted\" \\ back")
    task("add", "wait:2099-01-01", "until:2099-12-31", "Wait")
    task("add", "cost:12", "pages:3", "review:2099-05-05", "estimate:PT2H", "origin:mail", "Own attributes")
    for words in (("Each daily", "modify", "+round"), ("Wait", "annotate", "A note / with [brackets]"), ("Dig", "start")):
        task(f"description.has:{words[0]}", *words[1:])
    # (this makes the instances, of which some are closed)
    task("list", status=0)
    instances = {int(it["imask"]): it["uuid"] for it in json.loads(task(*AS_IT_IS, "export"), strict=False) if "imask" in it and it["description"] == "Long each day"}
    for number, word in ((0, "done"), (1, "delete"), (2, "done")):
        task(instances[number], word)


def drawn_task(uuid, links):
    """A task of any kind that both sides hold."""
    drawn = {"uuid": uuid, "description": text(RANDOM, next(calls)), "entry": moment(RANDOM, 2020, 2025), "origin": RANDOM.choice(("mail", "東京", "a b"))}
    for name in ("due", "scheduled", "until", "review"):
        if RANDOM.random() < 0.3:
            drawn[name] = moment(RANDOM, 2030 if name == "until" else 2021)
    members = {"wait": RANDOM.choice(("20220102T030405Z", "20990102T030405Z")), "project": RANDOM.choice(("Office", "Office.Mail", text(RANDOM, 1))), "priority": RANDOM.choice("HML"), "cost": RANDOM.choice((7, -3, 2.5)), "pages": RANDOM.randint(0, 99)}
    members |= {"tags": RANDOM.sample(("one", "zwei", "三", "a-b"), 2), "depends": RANDOM.sample(links, min(2, len(links))), "brainpower": "low", "estimate": "PT2H"}
    members["annotations"] = [{"description": text(RANDOM, at), "entry": f"2025010{at + 1}T000000Z"} for at in range(RANDOM.randint(1, 3))]
    drawn |= {name: value for name, value in members.items() if RANDOM.random() < 0.4}
    status = RANDOM.choice(("pending", "pending", "pending", "completed", "deleted"))
    return {**drawn, "status": status, **({"end": moment(RANDOM, 2024, 2025)} if status != "pending" else {})}


def as_board_has(it):
    """A task of Taskwarrior as a board has it."""
    there = {name: int(value) if isinstance(value, float) and value == int(value) else value for name, value in it.items() if name not in ("id", "urgency")}
    there = {name: value for name, value in there.items() if not isinstance(value, float)}
    if there["status"] == "pending" and there.get("wait", "") > time.strftime("%Y%m%dT%H%M%SZ", time.gmtime()):
        there["status"] = "waiting"
    if "recur" in there:
        there["recur"] = STEPS[there["recur"]]
    return {name: sorted(value) if name in ("tags", "depends") else value for name, value in there.items()}


def all_as_board_has(tasks):
    """All tasks as a board has them: it makes the masks of templates anew, of their instances."""
    there = {it: as_board_has(one) for it, one in tasks.items()}
    for one in there.values():
        if "parent" in one:
            mask, at = there[one["parent"]]["mask"], one["imask"]
            there[one["parent"]]["mask"] = mask[:at] + MARKS[one["status"]] + mask[at + 1 :]
    return there


def as_taskwarrior_has(it):
    """A task of a board as Taskwarrior exports it once it was imported there."""
    there = {name: sorted(value) if name in ("tags", "depends") else value for name, value in it.items() if name not in ("id", "urgency")}
    return {**there, "status": "pending"} if there["status"] == "waiting" else there


def expect_alike(name, wanted, found):
    expect(f"{name}: which tasks", set(wanted), set(found))
    for it in wanted:
        expect(f"{name}: {it}", wanted[it], found[it])


def there_and_back():
    new_taskwarrior()
    by_hand()
    ids = [random_uuid() for _ in range(100)]
    drawn = [drawn_task(it, ids[:at]) for at, it in enumerate(ids)]
    task(*AS_IT_IS, "import", "-", given=json.dumps(RANDOM.sample(drawn, 100), ensure_ascii=False).encode())
    given = task(*AS_IT_IS, "export")
    written, told = cleaned(given)
    exported, counts = board_of(written)
    expect_counts(told, counts)
    before = by_id(given)
    expect_alike("on the board", all_as_board_has(before), by_id(exported))
    expect("what is told as dropped", [f"cost of {sum(it.get('cost') == 2.5 for it in before.values())}"], re.findall(r"will be dropped: (\w+ of \d+)", told))
    new_taskwarrior()
    task(*AS_IT_IS, "import", "-", given=exported)
    back = task(*AS_IT_IS, "export")
    on_board = by_id(exported)
    expect_alike("back in Taskwarrior", *({it: as_taskwarrior_has(one) for it, one in side.items()} for side in (on_board, by_id(back))))
    task("list")
    expect("made in Taskwarrior by the next look", set(), set(by_id(task(*AS_IT_IS, "export"))) - set(on_board))
    written, told = cleaned(back)
    again, counts = board_of(written)
    expect("a second trip", (0, 0, on_board), (counts["orphans"], counts["dropped"], by_id(again)))
    return len(before)


def look_at_documents():
    """What USING.md says for the way to a board and back is done as it stands there."""
    blocks = re.findall(r"(?m)(?:^    .*\n)+", pathlib.Path(BRIDGES, "..", "..", "docs", "USING.md").read_text())
    there, back = (next(block for block in blocks if word in block) for word in ("taskwarrior-clean --check", "TASKDATA"))
    new_taskwarrior()
    task("rc.recurrence=off", "add", "recur:2wks", "due:now-40d", "A round")
    task("rc.recurrence=off", "add", "pages:3", "Plain")
    board_of(b"")
    pathlib.Path("bin").mkdir()
    for name, path in (("taskboard", PROGRAM), ("taskwarrior-clean", f"{BRIDGES}/taskwarrior-clean")):
        pathlib.Path("bin", name).symlink_to(os.path.abspath(path))
    script = f"set -e\nPATH={os.getcwd()}/bin:$PATH\nid={ID.format(next(calls))}\n{there}{back}"
    ran = subprocess.run(["sh", "-c", script], stdout=subprocess.PIPE, stderr=subprocess.PIPE, timeout=60)
    # (two tasks, and four instances that the board made)
    expect(f"what USING.md says: {ran.stdout} {ran.stderr}", (0, [b"6", b"6"]), (ran.returncode, ran.stdout.splitlines()[-2:]))


def look_at_way_back():
    """What Taskwarrior makes of a board's tasks beyond its own, as USING.md tells it."""
    told = {"true": True, "null": None, "5.000000": 5, "-1.000000": -1}
    odd = [{"own": value} for value in told.values()] + [{"until": "20200101T000000Z"}, {"tags": ["a,b"]}, {"annotations": [{"entry": "20260101T000000Z", "description": ""}]}, {"pages": 5}]
    exported, _ = board_of(json.dumps([{"uuid": ID.format(at), "description": f"Odd {at}", **more} for at, more in enumerate(odd)]).encode())
    new_taskwarrior()
    task("rc.hooks=off", "rc.recurrence=off", "import", "-", given=exported)
    back = by_id(task("rc.recurrence=off", "export"))
    found = [back[ID.format(at)] for at in range(len(odd))]
    expect("own values", list(told), [it["own"] for it in found[:4]])
    expect("until, tags, notes, an own number", ("deleted", True, None, 5), (found[4]["status"], {"a", "b"} <= set(found[5]["tags"]), found[6].get("annotations"), found[7]["pages"]))
    for more in ({"due": "19791231T235959Z"}, {"due": "99991231T235959Z"}, {"review": "soon"}, {"annotation_1": "a"}):
        exported, _ = board_of(json.dumps([{"uuid": ID.format(1), "description": "One"}, {"uuid": ID.format(2), "description": "Two", **more}]).encode())
        new_taskwarrior()
        ran = subprocess.run(["task", "rc.hooks=off", "import", "-"], input=exported, stdout=subprocess.PIPE, stderr=subprocess.PIPE, timeout=60)
        expect(f"the last that Taskwarrior names before {more}", (True, True, False), (ran.returncode != 0, b"One" in ran.stdout, b"Two" in ran.stdout))
        expect("nothing is imported", {}, by_id(task(*AS_IT_IS, "export")))
    exported, _ = board_of(json.dumps([{"uuid": ID.format(1), "description": "One"}, {"uuid": ID.format(2), "description": "Two", "tags": ["when:status"]}]).encode())
    expect("the tags with a colon that are found", [1], [at - 1 for at, line in enumerate(exported.splitlines()) if re.search(rb'"tags":\[[^]]*:', line)])
    new_taskwarrior()
    task("rc.hooks=off", "import", "-", given=exported)
    task(*AS_IT_IS, "export", status=2)
    notes = [{"entry": "20260101T000000Z", "description": it} for it in ("a", "&open;b&close;")]
    exported, _ = board_of(json.dumps([{"uuid": ID.format(1), "description": "One", "annotations": notes}]).encode())
    new_taskwarrior()
    task("rc.hooks=off", "import", "-", given=exported)
    expect("notes of one second, and brackets", [("20260101T000000Z", "a"), ("20260101T000001Z", "[b]")], [(it["entry"], it["description"]) for it in by_id(task(*AS_IT_IS, "export"))[ID.format(1)]["annotations"]])


def day_of(moment):
    return datetime.datetime.strptime(moment[:8], "%Y%m%d")


def look_at_units():
    """How Taskwarrior counts units where a board takes months and years, as USING.md tells it."""
    for step, days in (("month", 30), ("2mo", 60), ("quarter", 91), ("year", 365), ("2y", 730), ("monthly", 31), ("yearly", 365)):
        new_taskwarrior()
        task("rc.recurrence.limit=2", "add", f"recur:{step}", "due:2099-01-01", step)
        task("rc.recurrence.limit=2", "list")
        first, second = sorted(it["due"] for it in by_id(task(*AS_IT_IS, "export")).values() if "imask" in it)
        expect(f"the days of {step}", days, (day_of(second) - day_of(first)).days)


# What can't be taken.

ID = "00000000-0000-4000-9000-{:012d}"
LONG = "ш" * 8193
DUE = {"due": "20990101T000000Z"}
# What is wrong with a task, and what is told of it.
FAULTS = [
    *(({**DUE, "status": "recurring", "recur": step}, f"it repeats by {step}") for step in NO_STEPS),
    ({"status": "recurring", "recur": "weekly"}, "it repeats, and has no due date"),
    ({**DUE, "status": "recurring"}, "has no step"),
    ({"description": ""}, "it has no description"), ({"description": None}, "it has no description"), ({"description": 5}, "its description isn't a text"),
    ({"description": LONG}, "its description has 2 bytes too many"), ({"project": LONG}, "its project has"), ({"origin": LONG}, "its origin has"), ({LONG: "a"}, "the name of a member has"),
    ({"tags": [LONG]}, "a tag has"), ({"annotations": [{"entry": "20260101T000000Z", "description": LONG}]}, "a note has"),
    ({"description": "nul \0"}, "its description has the character 0"), ({"description": "half \ud800"}, "half characters"), ({"urgency": "\ud800"}, "its JSON has bytes or half"), ({"\udc00": 1.5}, "its JSON has bytes or half"),
    ({"tags": ["two words"]}, "a tag is empty or has a blank"), ({"tags": [""]}, "a tag is empty"), ({"tags": [5]}, "its tags isn't"), ({"tags": 5}, "its tags isn't"),
    ({"due": "19691231T235959Z"}, "its due isn't a moment"), ({"due": "20260230T000000Z"}, "its due isn't"), ({"wait": "20260101T000060Z"}, "its wait isn't"), ({"end": 5}, "its end isn't"),
    ({"entry": "2026-01-01T00:00:00Z"}, "its entry isn't"), ({"annotations": [{"description": "a"}]}, "its annotations isn't"), ({"depends": "a,b"}, "its depends isn't"),
    ({"depends": [ID.format(1), 5]}, "its depends isn't"), ({"parent": "a"}, "its parent isn't"), ({"mask": "-a"}, "its mask isn't"), ({"mask": "-" * 16385}, "its mask isn't"),
    ({"priority": 5}, "its priority isn't"), ({"status": "lost"}, "its status isn't one of"), ({"status": ["pending"]}, "its status isn't"), ({"uuid": "a"}, "it has no uuid"), ({"uuid": None}, "it has no uuid"),
    ({"annotations": [{"entry": "20260101T000000Z", "description": "a" * 16384}] * 65}, "its JSON has"),
]
# What a board takes, though it drops some of it.
DROPS = [
    {"priority": "X"}, {"cost": 1.5, "size": 1e300}, {"big": 2**63, "small": -(2**63), "huge": 10**40}, {"list": [1, [2]], "object": {"a": None}, "": "a", "no": None, "yes": True},
    {"end": "20260101T000000Z"}, {"mask": "-"}, {"recur": "weekly"}, {"recur": "PT1H", "mask": "--"}, {**DUE, "status": "deleted", "recur": "week", "mask": "-", "imask": 0},
    {"status": "deleted", "recur": "PT1H", "mask": "-", "imask": 3}, {**DUE, "status": "recurring", "recur": "2q", "parent": ID.format(1), "imask": 1}, {"imask": "0"}, {"imask": "00000000000000000000001"},
    {"imask": -1}, {"imask": 1.5}, {"imask": True}, {"imask": 2**32}, {"parent": ID.format(1), "imask": 0, "recur": "weekly"}, {"parent": ID.format(1), "recur": "PT1H"}, {"depends": [ID.format(1), ID.format(2)]},
    {"depends": f"{ID.format(1)},{ID.format(1).upper()}"}, {"tags": ",a,,b"}, {"tags": None, "depends": "", "due": None, "annotations": ""}, {"status": None, **DUE, "recur": "day"}, {"status": "waiting"},
    {"description": "tab\tline\n", "project": "é", "annotations": [{"entry": "19700101T000000Z", "description": "", "more": 1}]}, {"wait": "99991231T235959Z"},
]


def run_alone(orders):
    """The answers of `run` to some calls: the status and the body."""
    lines = (f"20260601T000000Z\troot\troot-key-1\t{ID.format(next(calls))}\t{it}\n" for it in orders)
    ran = subprocess.run([PROGRAM, "run"], input="".join(lines).encode(), stdout=subprocess.PIPE, check=True, timeout=120).stdout.decode()
    return [(int(status), json.loads(body)) for status, _, body in (line.split(" ", 2) for line in ran.splitlines())]


def verdicts(tasks):
    """What the filter says of each task alone and what the program does have to be the same: taken or not, and what is dropped."""
    # (the filter respells steps that have an equal)
    texts = [json.dumps([{**it, "recur": steps.respelled(it["recur"]) or it["recur"]} if isinstance(it.get("recur"), str) else it]) for it in tasks]
    answers = run_alone(f"import\t1\t{it}" for it in texts)
    for it, (status, answer) in zip(tasks, answers):
        cleaning = Cleaning(json.dumps([it]).encode())
        told = "\n".join([*cleaning.told(False), ""])
        expect(f"whether it can be taken: {json.dumps(it)[:300]} {told} {answer}", status == 200, not cleaning.refused)
        if status == 200:
            expect(f"what is dropped of {it}", [told_counts(told)[name] for name in ("dropped", "orphans", "unlinked")], [answer[name] for name in ("dropped", "orphans", "unlinked")])


def look_at_faults():
    """Each kind of fault once: alone, and all at once; without them the others are taken."""
    faulty = [{"uuid": ID.format(100 + at), "description": f"Fault {at}", **more} for at, (more, _) in enumerate(FAULTS)]
    for it, (_, why) in zip(faulty, FAULTS):
        told = "\n".join(Cleaning(json.dumps([it]).encode()).told(False))
        expect(f"{str(it)[:300]} alone: {told}", True, f"can't be taken: {it['uuid'] if isinstance(it['uuid'], str) else '?'}" in told and why in told)
    strange = [{"uuid": ID.format(300 + at), "description": f"Strange {at}", **more} for at, more in enumerate(DROPS)]
    verdicts([it for it in faulty if len(json.dumps(it)) < 10**6] + strange)
    circle = [{"uuid": ID.format(500 + at), "description": f"Circle {at}", "depends": [ID.format(500 + (at + 1) % 3)]} for at in range(3)]
    circle += [{"uuid": ID.format(510), "description": "Itself", "depends": ID.format(510)}, {"uuid": ID.format(511), "description": "Behind", "depends": [ID.format(500), ID.format(512)]}]
    instance = {"uuid": ID.format(513), "description": "Of PT1H", "parent": ID.format(100), "imask": 0, "recur": "PT1H"}
    double = [{"uuid": ID.format(512), "description": "Once", "n": 1}, {"uuid": ID.format(512).upper(), "description": "Twice"}]
    every = RANDOM.sample(faulty + circle[:4] + [instance], len(faulty) + 5) + [circle[4], *double]
    written, told, status = clean(json.dumps(every))
    expect("all at once", (b"", 1, len(faulty) + 5), (written, status, told.count("can't be taken: ") - told.count("its template can't be taken: ")))
    expect("circles and instances", [3, 1, 1], [told.count(what) for what in ("it depends on itself, over", '"Itself": it depends on itself\n', "its template can't be taken: ")])
    expect("--check says the same", (b"", told.rpartition("Nothing")[0], 1), clean(json.dumps(every), "--check"))
    written, told = cleaned(json.dumps(every), "--skip")
    expect("the rest", ["Once", "Behind"], [it["description"] for it in json.loads(written)])
    _, counts = board_of(written)
    expect_counts(told, counts)
    expect("a double", 1, told.count('"Twice": its uuid was there before'))


def look_at_drawn_faults():
    """Tasks with members drawn from all that was tried by itself."""
    members = [(name, value) for more in (*DROPS, *(more for more, _ in FAULTS[:-1])) for name, value in more.items()]
    drawn = []
    for _ in range(150):
        drawn.append({"uuid": random_uuid(), "description": "Drawn", **dict(RANDOM.sample(members, RANDOM.randint(1, 5)))})
    verdicts(drawn)
    return len(drawn)


PIECES = (b'"', b",", b"}", b"{", b"[", b"]", b"null", b"1e999", b"\\ud800", b"\\u0000", b"\\", b"\n", b"0", b"9" * 400, b".0", b"true", b"\0", b"\xff")


def broken(given):
    """A text with up to three places changed."""
    given = bytearray(given)
    for _ in range(RANDOM.randint(1, 3)):
        kind, at, other = RANDOM.randrange(4), RANDOM.randrange(len(given)), RANDOM.randrange(len(given))
        if kind == 0:
            given[at] = RANDOM.randrange(256)
        elif kind == 1:
            del given[at : at + RANDOM.randint(1, 30)]
        else:
            given[at:at] = RANDOM.choice(PIECES) if kind == 2 else given[other : other + RANDOM.randint(1, 60)]
    return bytes(given)


def look_at_broken_texts():
    """Whatever is left of a text is taken by a board of its own, which counts what the filter foretold."""
    tasks = [{"uuid": ID.format(at), "description": f"Task {at}", **DUE, "status": "pending", "tags": ["a", "b"], "cost": 2.5, "depends": [ID.format(at + 1)]} for at in range(6)]
    tasks[0].update(status="recurring", recur="mths", mask="--")
    for place in (0, 1):
        tasks[place + 1].update(parent=ID.format(0), imask=float(place), recur="mths", depends=[ID.format(4)])
    kept, unread = [], 0
    for _ in range(600):
        try:
            kept.append(Cleaning(broken(json.dumps(tasks, indent=1).encode())))
        except NotJson:
            unread += 1
    answers = run_alone(words for at, it in enumerate(kept) for words in ("board\tb", f"import\t{at + 2}\t{one(it)}"))
    for it, (_, answer) in zip(kept, answers[1::2], strict=True):
        counts = (len(it.taken), sum(it.dropped.values()), len(it.orphans), len(it.unlinked))
        expect(f"a broken text: {answer} {it.told(True)}", counts, tuple(answer.get(name) for name in ("new", "dropped", "orphans", "unlinked")))
    expect("enough of them can be read", True, len(kept) > 60 and unread > 60)


def one(cleaning):
    """The tasks of a text on one line."""
    return f"[{','.join(it.line for it in cleaning.taken)}]"


# The text as it comes.


def look_at_layouts():
    tasks = [{"uuid": ID.format(at), "description": f"Task {at} }}]{{[, \" \\", "status": "pending", "note": "東京", "list": [[], {"a": "]"}]} for at in range(5)]
    each = [json.dumps(it, ensure_ascii=False) for it in tasks]
    wanted, _ = cleaned(json.dumps(tasks))
    expect("a task on each line", tasks, [json.loads(line.rstrip(b",")) for line in wanted.splitlines()[1:-1]])
    layouts = ["[\n" + ",\n".join(each) + "\n]\n", "\n".join(each), " ".join(each), "".join(each), ",\n".join(each) + ",\n", json.dumps(tasks, indent=2), json.dumps(tasks, indent="\t").replace("\n", "\r\n")]
    layouts += ["".join(f"[{it}]\n" for it in each), f"[{each[0]},{each[1]}]{each[2]}\n[{each[3]}][]\ufeff[{each[4]}]", "".join(json.dumps(it, indent=4) + "\n" for it in tasks)]
    for layout in layouts:
        for mark in ("", "\ufeff"):
            expect(f"the layout {layout[:60]!r}", wanted, cleaned(mark + layout)[0])
    expect("none", [b"[\n]\n"] * 3, [cleaned(it)[0] for it in ("", "[\n]\n", " \n")])
    control = '{"uuid":"' + ID.format(1) + '","description":"a\tb\nc\x01","imask":-0.000000,"n":1e999,"m":NaN}'
    written, told = cleaned(control)
    expect("controls and numbers", [{"uuid": ID.format(1), "description": "a\tb\nc\x01", "imask": 0}], json.loads(written))
    expect("that is told", 1, told.count("control characters are written as JSON has them; imask -0.000000 is 0; n is left out: it can't be written as JSON; m is left out"))
    _, counts = board_of(written)
    expect_counts(told, counts)
    for wrong, line in (("[\n{}\n", 2), ('[\n{"a":1},\n5]', 3), ("x", 1), ('{"a":1}\n\n{"a" 1}', 3), ("[[{}]]", 1), ('"a"', 1), ("[{}]]", 1), ('{"a":1', 1), ("{}\n\"", 2), ("[" * 9000, 1), ('{"a":' + "[" * 99999, 1), ("{}\ufeffnull", 1)):
        written, told, status = clean(wrong)
        expect(f"{wrong[:40]!r}: {told}", (b"", 2, True), (written, status, f": line {line}: " in told))
    written, told, status = clean(b'{"uuid":"' + ID.format(1).encode() + b'","description":"\xff"}')
    expect("no UTF-8", (b"", 1, True), (written, status, "aren't UTF-8" in told))
    with open("/dev/full", "wb") as full:
        ran = subprocess.run([f"{BRIDGES}/taskwarrior-clean"], input=wanted, stdout=full, stderr=subprocess.PIPE)
    expect("a full disk", (1, True), (ran.returncode, b"taskwarrior-clean: the output isn't whole: " in ran.stderr))


def look_at_order():
    """2,600 tasks in any order come in by parts: no link is lost, no instance an orphan. A template that waits for its instance goes first."""
    tasks = [{"uuid": random_uuid(), "description": f"Task {at} " + "x" * RANDOM.randint(0, 1800)} for at in range(2600)]
    for at, it in enumerate(tasks):
        it["depends"] = [other["uuid"] for other in RANDOM.sample(tasks[:at], min(at, 2))]
    for at in range(0, 600, 3):
        tasks[at].update(DUE, status="recurring", recur="mths", mask="--", depends=[])
        for place in (0, 1):
            tasks[at + 1 + place].update(parent=tasks[at]["uuid"].upper(), imask=place, recur="mths")
    tasks[0]["depends"], tasks[1]["depends"], tasks[2]["depends"] = [tasks[1]["uuid"]], [tasks[2]["uuid"]], []
    written, told = cleaned(json.dumps(RANDOM.sample(tasks, len(tasks))))
    _, counts = board_of(written)
    expect("2,600 tasks", {"new": 2600, "known": 0, "dropped": 0, "orphans": 0, "unlinked": 0}, {**counts, "unlinked": counts["unlinked"] - told_counts(told)["unlinked"]})
    broken = [{"uuid": ID.format(at), "description": f"No {at}"} for at in range(5)]
    broken[0].update(DUE, status="recurring", recur="week", mask="-", depends=[ID.format(1)])
    for at, place in ((1, 0), (2, 0), (3, 1)):
        broken[at].update(parent=ID.format(0), imask=place)
    broken[4].update(parent=ID.format(9), imask=0, depends=[ID.format(8)])
    filler = [{"uuid": random_uuid(), "description": f"Filler {at}"} for at in range(1999)]
    broken[1]["depends"] = [it["uuid"] for it in filler]
    written, told = cleaned(json.dumps(filler[:1] + broken + filler[1:]))
    _, counts = board_of(written)
    expect_counts(told, counts)
    expect("orphans and links", (3, 2), (counts["orphans"], counts["unlinked"]))
    many = json.dumps([{"uuid": ID.format(at), "description": "a"} for at in range(10002)])
    expect("more than a board takes", 2, told_counts(clean(many)[1])["refused"])


def main():
    pathlib.Path("rc").write_text(RC)
    os.environ.update(TASKRC=os.path.abspath("rc"), HOME=os.getcwd())
    look_at_steps()
    look_at_layouts()
    look_at_faults()
    look_at_order()
    look_at_broken_texts()
    drawn = look_at_drawn_faults()
    count = there_and_back()
    look_at_documents()
    look_at_way_back()
    look_at_units()
    print(f"{count} tasks went to a board and back, {len(FAULTS)} kinds of faults and {drawn} drawn tasks were told as they are")


main()

"""What `tb import --check`, `--clean` and `--skip` do, beside the filter: own_cleaning.py PROGRAM PORT, in a folder of its own, against a server
on the port over a file whose first person is ann, by the key ann-key-1."""
import collections
import json
import os
import re
import shutil
import subprocess
import sys
import uuid as uuids

from bridging import BRIDGES
from drawing import seeded

sys.path.insert(0, BRIDGES)
sys.dont_write_bytecode = True
from taskboard_bridges.cleaning import Cleaning, text_of

PROGRAM, PORT = os.path.abspath(sys.argv[1]), sys.argv[2]
SEED, RANDOM = seeded()
HOME = os.path.join(os.getcwd(), "home")
ENV = {"HOME": HOME, "PATH": os.environ["PATH"], "TASKBOARD_SERVER": f"127.0.0.1:{PORT}", "TASKBOARD_NAME": "ann"}
ID = "00000000-0000-4000-9000-{:012d}"
DUE = {"due": "20990101T000000Z"}
LONG = "ш" * 8193
STEPS = ("daily", "day", "3days", "2d", "weekdays", "week", "2wks", "3weeks", "6w", "fortnight", "sennight", "month", "mo", "3mths", "2months", "bimonthly", "quarter", "2q", "2 q", "semiannual",
         "annual", "yr", "2yrs", "biannual", "P1M", "P2W", "PT1H", "90min", "1.5d", "12h", "0d", "1000d", "99999999999d", "Weekly", "hour", "2weekdays", "d", "")
# What may be wrong or strange with a task, a member or a few each.
MEMBERS = [
    *({**DUE, "status": "recurring", "recur": step} for step in STEPS), {"status": "recurring", "recur": "weekly"}, {**DUE, "status": "recurring"},
    {"description": ""}, {"description": None}, {"description": 5}, {"description": LONG}, {"project": LONG}, {"origin": LONG}, {"tags": [LONG]}, {"description": "nul \0"},
    {"tags": ["two words"]}, {"tags": [""]}, {"tags": [5]}, {"tags": 5}, {"due": "19691231T235959Z"}, {"due": "20260230T000000Z"}, {"end": 5}, {"entry": "2026-01-01T00:00:00Z"},
    {"annotations": [{"description": "a"}]}, {"depends": "a,b"}, {"depends": [ID.format(1), 5]}, {"parent": "a"}, {"mask": "-a"}, {"mask": "-" * 16385}, {"priority": 5}, {"status": "lost"},
    {"status": ["pending"]}, {"uuid": "a"}, {"uuid": None}, {"priority": "X"}, {"cost": 1.5, "size": 1e300}, {"big": 2**63, "small": -(2**63)}, {"list": [1, [2]], "object": {"a": None}, "": "a", "no": None, "yes": True},
    {"end": "20260101T000000Z"}, {"mask": "-"}, {"recur": "weekly"}, {"recur": "PT1H", "mask": "--"}, {**DUE, "status": "deleted", "recur": "week", "mask": "-", "imask": 0},
    {"status": "deleted", "recur": "PT1H", "mask": "-", "imask": 3}, {**DUE, "status": "recurring", "recur": "2q", "parent": ID.format(1), "imask": 1}, {"imask": "0"}, {"n": 8.0, "m": -3.0, "k": 2.5},
    {"parent": ID.format(1), "imask": 0.0, "recur": "weekly"}, {"depends": [ID.format(1), ID.format(2)]}, {"depends": f"{ID.format(1)},{ID.format(1).upper()}"}, {"tags": ",a,,b"},
    {"tags": None, "depends": "", "due": None, "annotations": ""}, {"status": "waiting"}, {"description": "tab\tline\n" + "x" * 200}, {"wait": "99991231T235959Z"},
]
LINE = re.compile(r"(can't be taken|left out|changed|orphan|link dropped|can't be ordered|will be dropped): (.*)")
COUNTS = re.compile(r"(\d+) tasks? can be taken, (\d+) can't be taken(?: and are left out)?, (\d+) changes?, (\d+) doubles? left out, (\d+) orphans?, (\d+) links? and (\d+) members? dropped\n$")
wrong = []


def expect(what, wanted, found):
    if wanted != found:
        wrong.append(what)
        print(f"wrong: {what}: wanted {str(wanted)[:1500]}, but got {str(found)[:1500]} (SEED={SEED})", flush=True)


def tb(*words, given=b""):
    ran = subprocess.run([PROGRAM, "my", *words], input=given, stdout=subprocess.PIPE, stderr=subprocess.PIPE, env=ENV, timeout=300)
    return ran.returncode, ran.stdout.decode(), ran.stderr.decode()


def ours(notes):
    """What the program tells: the tasks of each kind, the members that are dropped, and the counts."""
    kinds, dropped = collections.defaultdict(collections.Counter), collections.Counter()
    for line in notes.splitlines()[:-1]:
        label, rest = LINE.fullmatch(line).groups()
        kinds[label][rest.split(" ", 1)[0]] += 1
        if label == "will be dropped":
            dropped[rest.rsplit('": ', 1)[1].split(": ")[0]] += 1
    return kinds, dropped, [int(number) for number in COUNTS.search(notes).groups()]


def expect_alike(what, text, notes):
    """The program tells what the filter tells."""
    cleaning = Cleaning(text)
    kinds, dropped, counts = ours(notes)
    names = lambda entries: collections.Counter(str(entry.task.get("uuid")) if isinstance(entry.task.get("uuid"), str) else "?" for entry in entries)
    expect(f"{what}: refused", names(cleaning.refused), kinds["can't be taken"])
    expect(f"{what}: doubles", names(cleaning.doubles), kinds["left out"])
    expect(f"{what}: changed", set(names(entry for entry in cleaning.taken if entry.changes)), set(kinds["changed"]))
    expect(f"{what}: orphans", names(entry for entry, why in cleaning.orphans), kinds["orphan"])
    expect(f"{what}: links", names(entry for entry, why in cleaning.unlinked if "isn't there" in why), kinds["link dropped"])
    theirs = collections.Counter()
    for (name, _), count in cleaning.dropped.items():
        theirs[name] += count
    # (the program also tells of a place that is no number, so places aren't compared)
    expect(f"{what}: dropped", theirs - collections.Counter({"imask": 10**9}), dropped - collections.Counter({"imask": 10**9}))
    expect(f"{what}: counts", [len(cleaning.taken), len(cleaning.refused), sum(len(entry.changes) for entry in cleaning.taken), len(cleaning.doubles)], counts[:4])
    lines = [sum(kinds[label].values()) for label in ("orphan", "link dropped", "can't be ordered", "will be dropped")]
    expect(f"{what}: counts of losses", [lines[0], lines[1] + lines[2], lines[3]], counts[4:])
    return cleaning


def board_with(*words, given):
    """What comes to a new board, by its tasks' uuids in their order, and the run."""
    title = f"Board {uuids.UUID(int=RANDOM.getrandbits(128))}"[:30]
    made = subprocess.run([PROGRAM, "send", f"127.0.0.1:{PORT}", "ann", "ann-key-1", "board", title], stdout=subprocess.PIPE, check=True, env=ENV).stdout
    board = str(json.loads(made)["board"])
    ran = tb("--board", board, "import", "-", *words, given=given)
    exported = json.loads(subprocess.run([PROGRAM, "send", f"127.0.0.1:{PORT}", "ann", "ann-key-1", "export", board], stdout=subprocess.PIPE, check=True, env=ENV).stdout)
    return ran, exported


def by_identity(tasks):
    """The tasks without what an import makes up of its own moment, each by its uuid, and an instance that the board made by its template and place."""
    plain = [{name: value for name, value in task.items() if name not in ("entry", "end", "modified")} for task in tasks]
    # (a board makes uuids of version 8, of its own number)
    return {(task.pop("parent"), task["imask"]) if task["uuid"][14] == "8" and task.pop("uuid") else task["uuid"]: task for task in plain}


def look_at(what, tasks, layout=json.dumps):
    """One text: checked, cleaned and imported by the program, and by the filter."""
    text = layout(tasks).encode()
    status, notes, errors = tb("import", "-", "--check", given=text)
    expect(f"{what}: nothing on standard error", "", errors)
    cleaning = expect_alike(what, text, notes)
    expect(f"{what}: status of --check", int(bool(cleaning.refused)), status)
    (status, _, told), brought = board_with("--clean", given=text)
    if cleaning.refused:
        expect(f"{what}: --clean refuses", (1, [], True), (status, brought, "--skip leaves out" in told))
    (status, _, told), brought = board_with("--skip", given=text)
    expect(f"{what}: --skip: {told[-500:]}", 0, status)
    (status, _, told), theirs = board_with(given=text_of(cleaning.taken).encode())
    expect(f"{what}: the filter's: {told[-500:]}", 0, status)
    expect(f"{what}: the board", by_identity(theirs), by_identity(brought))


def in_lines(tasks):
    return "\ufeff" + "\n".join(json.dumps(task) for task in tasks)


def look_at_each():
    """Each kind of member in a task of its own, and all at once with a circle, doubles and a template that is refused."""
    strange = [{"uuid": ID.format(100 + at), "description": f"Strange {at}", "entry": "20260101T000000Z", **more} for at, more in enumerate(MEMBERS)]
    circle = [{"uuid": ID.format(500 + at), "description": f"Circle {at}", "depends": [ID.format(500 + (at + 1) % 3)]} for at in range(3)]
    circle += [{"uuid": ID.format(510), "description": "Itself", "depends": ID.format(510)}, {"uuid": ID.format(511), "description": "Behind", "depends": [ID.format(500), ID.format(512)]}]
    instance = {"uuid": ID.format(513), "description": "Of PT1H", "parent": ID.format(100 + STEPS.index("PT1H")), "imask": 0, "recur": "PT1H"}
    double = [{"uuid": ID.format(512), "description": "Once", "n": 1}, {"uuid": ID.format(512).upper(), "description": "Twice"}]
    look_at("all at once", RANDOM.sample(strange + circle + [instance], len(strange) + 6) + double)
    look_at("on lines", strange + double, in_lines)
    look_at("nothing", [])


def look_at_drawn():
    """Tasks with members drawn from all of these."""
    pairs = [pair for more in MEMBERS for pair in more.items()]
    for number in range(8):
        ids = [str(uuids.UUID(int=RANDOM.getrandbits(128), version=4)) for _ in range(60)]
        tasks = [{"uuid": it, "description": f"Drawn {number}", "entry": "20260101T000000Z", **dict(RANDOM.sample(pairs, RANDOM.randint(0, 3))), **({"depends": RANDOM.sample(ids, 2)} if RANDOM.random() < 0.3 else {})} for it in ids]
        look_at(f"drawn {number}", tasks)


def look_at_order():
    """Tasks come after those that they wait for, also over parts, and what can't be ordered is told."""
    ids = [ID.format(2000 + at) for at in range(2500)]
    chain = [{"uuid": it, "description": "Chain", "entry": "20260101T000000Z", "depends": ids[at + 1 : at + 2]} for at, it in enumerate(ids)]
    (status, out, told), brought = board_with("--clean", given=json.dumps(chain).encode())
    expect("a chain", (0, "Imported: 1000 new, 0 known before\n" * 2 + "Imported: 500 new, 0 known before\n"), (status, out))
    expect("its links", [it.get("depends", []) for it in reversed(chain)], [it.get("depends", []) for it in brought])
    template = {"uuid": ID.format(801), "description": "Template", "status": "recurring", "recur": "day", **DUE, "mask": "-", "depends": [ID.format(803)]}
    round_ = [{"uuid": ID.format(802), "description": "Instance", "parent": ID.format(801), "imask": 0, "recur": "day", **DUE}, {"uuid": ID.format(803), "description": "Between", "depends": [ID.format(802)]}, template]
    status, notes, _ = tb("import", "-", "--check", given=json.dumps(round_).encode())
    expect("over a template", (0, {ID.format(801): 1}), (status, dict(ours(notes)[0]["can't be ordered"])))


def of_template(number, **members):
    """A task that comes as an instance of a template."""
    return {"uuid": ID.format(number), "description": f"Instance {number}", "entry": "20260101T000000Z", "parent": ID.format(900), "recur": "weekly", **members}


def look_at_places():
    """Places with a fraction of zeros are whole, and each instance is told of which the import makes a plain task."""
    template = {"uuid": ID.format(900), "description": "Template", "status": "recurring", "recur": "weekly", **DUE, "mask": "--"}
    places = (0.0, 0, 1, 1.0, 2, 2**32, "x", None, -1, 0.5)
    tasks = [template, *(of_template(901 + at, imask=place) for at, place in enumerate(places)), of_template(920), of_template(921, parent=ID.format(999), imask=0), of_template(922, parent=None, imask=1, status="pending")]
    look_at("places", tasks)
    texts = ("0.000000", "0.0", "01.0", "1", "1.000000", "2.0", "4294967296.0", "0.", ".0", "0.01", "-0.0", "0.0 ")
    tasks = [template, *(of_template(901 + at, imask=place) for at, place in enumerate(texts))]
    text = json.dumps(tasks).encode()
    status, notes, _ = tb("import", "-", "--check", given=text)
    told = [re.sub(r'(\w+): [-0-9a-f]{33}(\d{3}) ".*": ', r"\1 \2: ", line) for line in notes.splitlines()[:-1]]
    lost = {902: "another instance has its place", 904: "another instance has its place", 905: "another instance has its place", 906: "its template's mask has no place for it"}
    lost |= {number: "it has no place (imask) among its template's instances" for number in range(907, 913)}
    expect("texts of places: changes", [f"changed {number}: imask is {place}" for number, place in ((901, 0), (902, 0), (903, 1), (905, 1), (906, 2))], [line for line in told if line.startswith("changed")])
    expect("texts of places: orphans", [f"orphan {number}: {why}, so it becomes a plain task" for number, why in lost.items()], [line for line in told if line.startswith("orphan")])
    (status, out, _), brought = board_with("--clean", given=text)
    expect("texts of places: the import", (0, f"instances without a place at their template: {len(lost)}" in out), (status, True))
    expect("texts of places: the board", {ID.format(901): 0, ID.format(903): 1}, {it["uuid"]: it["imask"] for it in brought if "imask" in it})
    # (a second one goes on without its place, and the first in the order in which they are brought has it)
    waits = [template, of_template(901, imask=0, depends=[ID.format(903)]), of_template(902, imask=0), {"uuid": ID.format(903), "description": "First", "entry": "20260101T000000Z"}]
    status, notes, _ = tb("import", "-", "--check", given=json.dumps(waits).encode())
    expect("one that waits", {ID.format(901): 1}, dict(ours(notes)[0]["orphan"]))
    (status, out, _), brought = board_with("--clean", given=json.dumps(waits).encode())
    expect("one that waits, on the board", {ID.format(902): 0}, {it["uuid"]: it["imask"] for it in brought if "imask" in it})


def look_at_faults():
    """What can't be cleaned."""
    for given, told in ((b"[{", "This isn't what an import takes"), (b"Buy milk\n", "--check, --clean and --skip are for JSON alone"), (json.dumps([{}] * 10001).encode(), "A board takes 10,000 tasks")):
        for option in ("--check", "--clean", "--skip"):
            status, out, errors = tb("--board", "1", "import", "-", option, given=given)
            expect(f"{given[:20]} {option}", (1, "", True), (status, out, errors.startswith(told)))
    expect("another option", 2, tb("--board", "1", "import", "-", "--all", given=b"[]")[0])


def look_at_taskwarrior():
    """Tasks of a real Taskwarrior, with instances, own attributes and steps of all kinds."""
    if not shutil.which("task") or b"2.6" not in subprocess.run(["task", "--version"], stdout=subprocess.PIPE).stdout:
        print("Taskwarrior: skipped, since task 2.6 isn't there")
        return
    with open("taskrc", "w") as file:
        file.write("data.location=data\nconfirmation=off\nnews.version=2.6.2\nverbose=nothing\nuda.cost.type=numeric\nuda.pages.type=numeric\n")
    os.mkdir("data")
    environment = {**os.environ, "TASKRC": os.path.abspath("taskrc"), "HOME": HOME}
    task = lambda *words: subprocess.run(["task", *words], stdout=subprocess.PIPE, stderr=subprocess.DEVNULL, env=environment, check=True).stdout
    for step in ("daily", "3days", "week", "2wks", "month", "quarter", "annual", "PT1H"):
        task("add", f"recur:{step}", "due:now-10d", "until:2099-12-31", f"Each {step}")
    task("add", "cost:2.5", "pages:8", "priority:H", "+spring", "project:Home.Garden", "Own attributes")
    task("add", "wait:2099-01-01", "Wait")
    subprocess.run(["task", "list"], stdout=subprocess.DEVNULL, stderr=subprocess.DEVNULL, env=environment)
    exported = task("rc.gc=off", "rc.recurrence=off", "export")
    look_at("Taskwarrior", json.loads(exported))
    look_at_second_trip(task, exported)


def look_at_second_trip(task, exported):
    """Taskwarrior writes the places of tasks that it imported with a fraction of zeros, and none is lost."""
    os.mkdir("second")
    with open("exported.json", "wb") as file:
        file.write(exported)
    task("rc.data.location=second", "rc.recurrence=off", "import", "exported.json")
    again = task("rc.data.location=second", "rc.gc=off", "rc.recurrence=off", "export")
    there = {it["uuid"]: int(it["imask"]) for it in json.loads(exported) if "imask" in it and it["recur"] != "PT1H"}
    expect("places with a fraction", len(re.findall(rb'"imask":\d+\.0+[,}]', again)), sum("imask" in it for it in json.loads(exported)))
    (status, out, told), brought = board_with("--skip", given=again)
    kinds, _, counts = ours(told)
    expect("the second trip", (0, set(), False), (status, set(there) - set(kinds["changed"]), "without their template" in out))
    expect("its places", there, {it["uuid"]: it["imask"] for it in brought if it["uuid"] in there})


os.makedirs(os.path.join(HOME, ".config/taskboard"))
with open(os.open(os.path.join(HOME, ".config/taskboard/key"), os.O_CREAT | os.O_WRONLY, 0o600), "w") as key:
    key.write("ann-key-1\n")
look_at_each()
look_at_drawn()
look_at_order()
look_at_places()
look_at_faults()
look_at_taskwarrior()
print(f"cleaning: {len(wrong)} wrong, SEED={SEED}")
sys.exit(bool(wrong))

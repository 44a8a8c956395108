"""A scene of the page: what an import foretells is what the program does."""
import json
import re
import subprocess

from drawing import seeded
from office import PROGRAM, expect, new_board

UUID = "00000000-0000-4000-9000-{:012d}"
LONG = "w" * 16385
DUE = "20990101T000000Z"
IDS = [UUID.format(at) for at in range(8)]
# What the page's plans say of files, each beside a board with these tasks.
PLANS = """const { plan } = await import("/import/plan.js");
const plans = [];
for (const [text, told] of JSON.parse(arguments[0])) {
    const tasks = told.map((one) => ({ told: one, uuid: one.uuid }));
    plans.push(await plan(text, { tasks, byId: new Map(tasks.map((one) => [one.uuid, one])) }));
}
return JSON.stringify(plans);"""
# Members of a task as they stand in a file: those with which it is taken, maybe without them, and those with which it isn't.
ODD = ['"imask":-0', '"imask":1e0', '"imask":[5]', '"imask":"01"', '"imask":4294967296', '"n":1e3', '"n":5.0', '"n":9007199254740993', '"n":9223372036854775807', '"n":-9223372036854775808', '"n":9223372036854775808',
       '"n":1,"n":1.5', f'"{LONG}":1.5', f'"":"{LONG}"', f'"urgency":"{LONG}"', '"\\u0000":1.5', '"x":["\\u0000"]', f'"recur":"{LONG}","status":"deleted"', '"n":' + "[" * 125 + "]" * 125, '"__proto__":1.5', '"toString":{}',
       f'"recur":"PT1H","status":"deleted","due":"{DUE}","mask":"-"', f'"recur":"weekly","status":"deleted","due":"{DUE}","mask":"-","imask":0', '"recur":"weekly","status":"deleted","mask":"-"', f'"depends":["{UUID.format(9)}","{UUID.format(9)}"]']
REFUSED = ['"urgency":"\\ud800"', '"\\udc00":1.5', '"x":[{"y":"\\udc00"}]', '"urgency":1e999', '"x":[1e400]', '"n":' + "[" * 126 + "]" * 126, '"\\u0000":"a"', f'"{LONG}":1', f'"recur":"toString","due":"{DUE}"', f'"recur":"{LONG}","parent":"{IDS[1]}"',
           '"annotations":[{"entry":"20260101T000000Z","description":"a","x":"\\ud800"}]', '"annotations":[[]]', '"mask":"a"', '"depends":"a"', '"due":"20260230T000000Z"']


def run(calls):
    """What the program prints for calls, by itself."""
    lines = "".join(f"20260601T000000Z\troot\troot-key-1\t{UUID.format(10**6 + at)}\t{call}\n" for at, call in enumerate(calls))
    return subprocess.run([PROGRAM, "run"], input=lines.encode(), stdout=subprocess.PIPE, check=True, timeout=120).stdout.decode()


def begun(at, bodies):
    """The calls that make a board, the one of this place, and import there."""
    return ["board\tb", *(f"import\t{at + 2}\t{body}" for body in bodies)]


def answers(cases):
    """What the last of some imports on a board of their own counts, for each case; None where it was refused."""
    lines = iter(run(call for at, bodies in enumerate(cases) for call in begun(at, bodies)).splitlines())
    told = [[next(lines) for _ in begun(0, bodies)][-1].split(" ", 2) for bodies in cases]
    return [json.loads(body) if status == "200" else None for status, _, body in told]


def boards(bodies):
    """The tasks of boards that have imported one of these each."""
    printed = run(call for at, body in enumerate(bodies) for call in (*begun(at, [body]), f"export\t{at + 2}"))
    return [json.loads(tasks) for tasks in re.findall(r"(?ms)^\[\n.*?^\]", printed)]


def foretold(browser, pairs):
    return json.loads(browser.run(f"return (async () => {{ {PLANS} }})()", json.dumps(pairs)))


def sent(plan):
    """What the page would send, on one line."""
    return "".join(plan["parts"] or ["[]"]).replace("\n", " ")


def family(random, count):
    """Templates, instances and what links to them, of which some have what others have."""
    for uuid in random.sample(IDS, count):
        task = {"uuid": uuid, "description": "Drawn"}
        if random.random() < 0.4:
            status = random.choice(("recurring", "recurring", "deleted"))
            task |= {"recur": "weekly", "due": DUE, "status": status, "mask": "".join(random.choices("-+XW?", k=random.randint(0, 4)))}
        elif random.random() < 0.85:
            task |= {"parent": random.choice(IDS), "recur": "weekly", "status": random.choice(("pending", "completed", "deleted"))}
            task |= {"imask": random.choice((0, 0, 1, 1, 2, 3))} if random.random() < 0.95 else {}
        yield task | ({"depends": random.sample(IDS, 2)} if random.random() < 0.3 else {})


# A template with its first instance, and another one for the same place, which comes after it: draws have that by chance alone.
PLACE = {"description": "Drawn", "recur": "weekly", "due": DUE}
HELD = [{"uuid": IDS[0], **PLACE, "status": "recurring", "mask": "-"}, {"uuid": IDS[1], **PLACE, "parent": IDS[0], "imask": 0, "status": "pending"}]
HOLDS_TOO = [{"uuid": IDS[2], **PLACE, "parent": IDS[0], "imask": 0, "status": "pending"}]


def losses(plan):
    """How many instances, links and members a plan says are lost."""
    told = [what for one in plan["losses"] for what in one["what"]]
    instances = [what for what in told if "among the instances" in what]
    links = [int(what.split()[0]) for what in told if re.match(r"\d+ link", what)]
    return [len(instances), sum(links), len(told) - len(instances) - len(links)]


def judged_alone(office):
    """Odd members one by one: what is told of a task is what the program makes of it."""
    office.begin(new_board("Judged"))
    texts = [f'[{{"uuid":"{IDS[0]}","description":"a",{members}}}]' for members in ODD + REFUSED]
    plans = foretold(office.browser, [[text, []] for text in texts])
    # (what the page refuses goes as it came)
    found = answers([[text if plan["faults"] else sent(plan)] for text, plan in zip(texts, plans)])
    for members, plan, answer in zip(ODD + REFUSED, plans, found, strict=True):
        expect(f"whether it is taken with {members[:80]}", [members in ODD] * 2, [not plan["faults"], answer is not None])
        expect(f"whether something is lost of {members[:80]}", bool(answer and answer["dropped"] + answer["orphans"] + answer["unlinked"]), bool(plan["losses"]))


def judged_together(office):
    """Templates with their instances come to boards in two files each: what is told of the second is what the program counts."""
    seed, random = seeded()
    office.begin(new_board("Judged together"))
    draw = lambda count: [list(family(random, count)) for _ in range(200)]
    first = [sent(plan) for plan in foretold(office.browser, [[json.dumps(tasks), []] for tasks in [HELD, *draw(4)]])]
    pairs = [[json.dumps(tasks), board] for tasks, board in zip([HOLDS_TOO, *draw(5)], boards(first), strict=True)]
    second = foretold(office.browser, pairs)
    found = answers([(before, sent(plan)) for before, plan in zip(first, second, strict=True)])
    for [text, board], plan, answer in zip(pairs, second, found):
        counts = answer and [answer["orphans"], answer["unlinked"], answer["dropped"], answer["new"] + answer["known"]]
        expect(f"SEED={seed}: {text} beside {board}", counts, [*losses(plan), plan["count"]])
    expect("places that others have", True, any("another instance" in what for plan in second for one in plan["losses"] for what in one["what"]))


SCENES = (judged_alone, judged_together)

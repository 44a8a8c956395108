"""Scenes of the page with files, full boards, and tasks that repeat."""
import json
import os
import pathlib
import time

from office import ALL_ANSWERED, ENTER, IS_TOLD, add, ask, expect, new_board, tasks, tell

# The last message of this board is dismissed. (Those of other boards are told behind it.)
DISMISS = "[...document.querySelectorAll('#notices li:not(.elsewhere) button')].at(-1).click()"
ID = "00000000-0000-4000-9000-00000000000{}"


def strange_export():
    """An export of Taskwarrior as it writes it, with its faults: its text, which isn't JSON as it stands."""
    named = [{"uuid": ID.format(digit), "entry": "20260101T000000Z", "status": "pending"} for digit in range(10)]
    named[0] |= {"description": "Instance", "parent": ID.format(1), "imask": 0, "recur": "2wks", "due": "20260110T000000Z"}
    named[1] |= {"description": "Template", "status": "recurring", "recur": "2wks", "due": "20260110T000000Z", "mask": "-"}
    named[2] |= {"description": "Tab here", "priority": "X", "estimate": 3.5}
    named[3] |= {"description": "By the hour", "status": "recurring", "recur": "PT1H", "due": "20260110T000000Z"}
    named[4] |= {"description": "Two words", "tags": ["two words"]}
    named[5] |= {"description": "One of two", "depends": [ID.format(6)]}
    named[6] |= {"description": "Two of two", "depends": [ID.format(5)]}
    named[7] |= {"description": "Waits for the circle", "depends": [ID.format(6), ID.format(2)]}
    named[8] |= {"description": "Long " + "ш" * 9000}
    named[9] |= {"description": "Sound"}
    text = json.dumps(named, ensure_ascii=False)
    return text.replace('"imask": 0', '"imask":0.000000').replace("Tab here", "Tab\there")


def choose_file(browser, name, text, encoding="utf-8"):
    pathlib.Path(name).write_text(text, encoding)
    browser.type("#import-file", os.path.abspath(name))
    browser.wait("return document.getElementById('import-told').textContent.includes(arguments[0])", name)


def told(browser):
    """What is told of the tasks of a file: the summaries, and each task's line."""
    return browser.run("return [...document.querySelectorAll('#import-details details')].map((part) => [part.firstChild.textContent, [...part.querySelectorAll('li')].map((row) => row.textContent)])")


def the_rest(office):
    """Of an export with tasks that the server refuses each is named, at once; the rest is taken, and what it loses is told."""
    browser, board = office.browser, new_board("The rest")
    office.begin(board)
    office.go(board, "files")
    choose_file(browser, "strange.json", strange_export())
    [faults, spelled, losses] = told(browser)
    expect("faults", "5 tasks can't be taken", faults[0])
    for name, why in (("By the hour", "PT1H"), ("Two words", "a tag"), ("One of two", "in a circle"), ("Two of two", "in a circle"), ("Long", "too long")):
        expect(f"the reason of {name}", 1, len([line for line in faults[1] if name in line and why in line]))
    expect("spelled anew", "3 tasks will be spelled as this server reads them", spelled[0])
    expect("a step", 1, len([line for line in spelled[1] if "Template" in line and '"2wks" is "biweekly"' in line]))
    expect("losses", "2 tasks will lose something", losses[0])
    expect("what is lost", [True, True], ["priority X" in losses[1][0] and "estimate" in losses[1][0], "1 link" in losses[1][1]])
    office.shot("import")
    expect("what is offered", "Import the other 5", browser.run("return document.getElementById('import-send').textContent"))
    browser.click("#import-send")
    browser.wait(ALL_ANSWERED)
    browser.wait(IS_TOLD, "5 new; 0 known already, which stay as they are; 2 members dropped that a task can't keep; 1 link to an unknown task dropped.")
    browser.wait(IS_TOLD, "Which tasks lost what")
    stored = {task["description"]: task for task in tasks(board)}
    expect("taken", {"Instance", "Template", "Tab\there", "Waits for the circle", "Sound"}, set(stored))
    expect("an instance in its place", [0, "biweekly", [ID.format(2)]], [stored["Instance"].get("imask"), stored["Template"]["recur"], stored["Waits for the circle"]["depends"]])
    browser.run(DISMISS)
    choose_file(browser, "torn.json", json.dumps([{"uuid": ID.format(9), "description": "Whole"}, {"uuid": ID.format(8), "description": "Torn"}])[:-8])
    expect("a file that breaks off", True, told(browser)[0][1][0].endswith("the file breaks off in it"))
    for encoding, is_told in (("latin-1", True), ("utf-8", False)):
        choose_file(browser, f"{encoding}.txt", "Ask Müller\n", encoding)
        expect(f"letters lost of a file in {encoding}", is_told, browser.run(IS_TOLD, "it isn't in UTF-8: they would be lost"))
    office.go(board)


def lost_in_export(office):
    """What lines of todo.txt won't bring back is told before the file is saved."""
    browser, board = office.browser, new_board("Kept")
    office.begin(board)
    first = add(board, description="Has all", due="20260110T093000Z", wait="20260101T000000Z")
    second = add(board, description="Next", depends=[first])
    tell(f"/boards/{board}/tasks/{first}/annotate", description="A note")
    tell(f"/boards/{board}/tasks/{add(board, description='Gone')}/delete")
    office.begin(board)
    office.go(board, "files")
    browser.wait(IS_TOLD, "won't bring back: 1 deleted task; 1 task's notes; 1 task's links; 1 due date's time; 1 task's other dates")
    expect("links", [first], [task for task in tasks(board) if task["uuid"] == second][0]["depends"])
    office.go(board)


def full_board(office):
    """A board of 9,000 tasks goes on with a new one: the same people and roles, the open tasks and templates in their places, the old one as it was."""
    browser, board = office.browser, new_board("Full", bob="member")
    for part in range(9):
        ask(f"/boards/{board}/import-todo", "".join(f"x 2026-01-01 Done {part} {number}\n" for number in range(999)).encode())
    template = add(board, description="Each week", due="20260105T000000Z", recur="weekly")
    first = next(task for task in tasks(board) if task.get("parent") == template)
    tell(f"/boards/{board}/tasks/{first['uuid']}/done")
    add(board, description="Open", depends=[add(board, description="Ahead")])
    tell(f"/boards/{board}/ahead", ahead=3)
    ask(f"/boards/{board}/import-todo", "".join(f"Filler {number}\n" for number in range(9000 - len(tasks(board)))).encode())
    before = tasks(board)
    office.begin(board)
    browser.wait("return document.getElementById('go-on').offsetParent")
    browser.click("#go-on")
    expect("the title", "Full 2", browser.run("return document.getElementById('renew-title').value"))
    browser.click("#renew-form .primary")
    browser.wait("return document.title.startsWith('Full 2')")
    browser.wait(IS_TOLD, "Imported")
    browser.wait(ALL_ANSWERED)
    made = int(browser.run("return location.hash.split('/')[1]"))
    expect("the old board", before, tasks(board))
    expect("people", json.loads(ask(f"/boards/{board}/people"))["people"], json.loads(ask(f"/boards/{made}/people"))["people"])
    expect("tasks", [task for task in before if task["status"] in ("pending", "waiting", "recurring")], sorted(tasks(made), key=lambda task: [one["uuid"] for one in before].index(task["uuid"])))
    browser.run(DISMISS)


def wait_until(browser, what, is_so):
    end = time.monotonic() + 6 + browser.patience
    while not is_so() and time.monotonic() < end:
        time.sleep(0.1)
    expect(what, True, is_so())


def sweeps_once(office):
    """A full board always has more to make: the page asks it to, once, and goes on when nothing was added."""
    browser, relay, board = office.browser, office.relay, new_board("Filled")
    for part in range(10):
        ask(f"/boards/{board}/import-todo", "".join(f"x 2026-01-01 Done {part} {number}\n" for number in range(999)).encode())
    add(board, description="Each day", due="20200101T000000Z", recur="daily")
    expect("the board", 10_000, len(tasks(board)))
    office.begin(board)
    browser.wait(IS_TOLD, "Each day")
    swept, news = ("POST", f"/boards/{board}/sweep"), f"/boards/{board}/history/"
    wait_until(browser, "the page swept the board", lambda: swept in relay.asked)
    browser.wait(ALL_ANSWERED)
    looked = len(relay.asked)
    wait_until(browser, "the page looked twice at what is new", lambda: sum(path.startswith(news) for _, path in relay.asked[looked:]) >= 2)
    expect("sweeps asked for", 1, relay.asked.count(swept))


# Once the board has a deleted task.
ARE_DELETED = """const { name, key } = JSON.parse(sessionStorage.getItem("taskboard.session") ?? localStorage.getItem("taskboard.session"));
return fetch(arguments[0], { headers: { "x-member": name, "x-key": key } }).then((answer) => answer.json()).then((tasks) => tasks.some(({ status }) => status === "deleted"));"""


def made_to_repeat(office):
    """An existing task gets other dates, and is made to repeat: another takes its place, with its notes and links, and those of what waits for it."""
    browser, board = office.browser, new_board("Becoming")
    first = add(board, description="Water the plants", due="20991231T000000Z", depends=[add(board, description="Buy a can")], assignee="ann")
    tell(f"/boards/{board}/tasks/{first}/annotate", description="Little")
    add(board, description="Go away for a week", depends=[first])
    office.begin(board)
    office.go(board, "tasks", first)
    browser.wait("return document.getElementById('edit')?.checkVisibility()")
    browser.click("#edit")
    for name, day in (("Planned for", "2099-12-01"), ("Until", "2100-06-30")):
        browser.run("const field = document.querySelector(`#edit-fields [aria-label='${arguments[0]}: day']`); field.value = arguments[1]; field.dispatchEvent(new Event('input', { bubbles: true }))", name, day)
    browser.click("#edit-form .primary")
    browser.wait("return document.getElementById('task-facts').textContent.includes('1 Dec 2099') && document.getElementById('task-facts').textContent.includes('30 Jun 2100')")
    browser.click("#repeat-part summary")
    browser.type("#repeat-step", "month" + ENTER)
    browser.wait(IS_TOLD, "This isn't a repeat that the server knows")
    browser.type("#repeat-step", "ly" + ENTER)
    browser.wait("return !document.getElementById('repeat-part').checkVisibility()")
    browser.wait(ALL_ANSWERED)
    browser.wait("return document.getElementById('task-status').textContent.startsWith('repeating')")
    expect("a way back from the deletion alone", "", browser.run("return document.getElementById('toast').textContent"))
    browser.click("#edit")
    browser.wait(IS_TOLD, "Those that are there stay as they are.")
    browser.click("#cancel-edit")
    browser.wait(ARE_DELETED, f"/boards/{board}/export")
    stored = [task for task in tasks(board) if task["description"] == "Water the plants"]
    expect("statuses", ["deleted", "recurring", "pending"], [task["status"] for task in stored])
    [waiting] = [task for task in tasks(board) if task["description"] == "Go away for a week"]
    expect("what waits for it", [stored[2]["uuid"]], waiting["depends"])
    expect("what the first new task continues", True, any(first in note["description"] for note in stored[2]["annotations"]))
    members = ("recur", "due", "scheduled", "until", "assignee", "depends")
    expect("the repeating task", ["monthly", "20991231T000000Z", "20991201T000000Z", "21000630T000000Z", "ann", stored[0]["depends"]], [stored[1][name] for name in members])
    expect("its notes", ["Little"], [note["description"] for note in stored[1]["annotations"]])


WEEKLY = {"recur": "weekly", "due": "20990105T000000Z"}


def with_instances():
    """Instances for the places of two templates, one of them on the board already, and what only the text of a number or of a string shows."""
    named = {
        "Free": {"parent": ID.format(0), "imask": 1},
        "Held": {"parent": ID.format(0), "imask": 0},
        "Beyond": {"parent": ID.format(0), "imask": 3},
        "Unnumbered": {"parent": ID.format(0)},
        "First": {"parent": ID.format("a"), "imask": 0, "status": "completed"},
        "Second": {"parent": ID.format("a").upper(), "imask": 0},
        "Deleted template": {**WEEKLY, "uuid": ID.format("a"), "status": "deleted", "mask": "X"},
        "No template": {"recur": "weekly", "status": "deleted"},
        "Numbers": {"whole": 2**53 + 1, "most": 2**63 - 1, "power": "1e3"},
        "Twice": {"uuid": ID.format("a")},
        "Half a letter": {"urgency": "\ud800"},
    }
    return json.dumps([{"uuid": f"00000000-0000-4000-b000-{at:012d}", "description": name, **more} for at, (name, more) in enumerate(named.items())]).replace('"1e3"', "1e3")


def places_of_instances(office):
    """Which instances of a file find no place is told before it is sent, as the server makes it; a deleted template stays one."""
    browser, board = office.browser, new_board("Places")
    there = [{"uuid": ID.format(0), "description": "There", **WEEKLY, "status": "recurring", "mask": "-+X"}, {"uuid": ID.format(1), "description": "Has it", "parent": ID.format(0), "imask": 0}]
    ask(f"/boards/{board}/import", json.dumps(there).encode())
    office.begin(board)
    office.go(board, "files")
    choose_file(browser, "instances.json", with_instances())
    [faults, losses] = told(browser)
    expect("faults", 2, len(faults[1]))
    for name, why in (("Twice", "an earlier task of the file has its uuid"), ("Half a letter", "half a character")):
        expect(f"the reason of {name}", 1, len([line for line in faults[1] if name in line and why in line]))
    reasons = {"Held": "another instance has its place", "Beyond": "mask has no place for it", "Unnumbered": "no number (imask)", "Second": "another instance has its place", "No template": "its repeat, since it is no template", "Numbers": "its power"}
    expect("losses", len(reasons), len(losses[1]))
    for name, why in reasons.items():
        expect(f"the loss of {name}", 1, len([line for line in losses[1] if name in line and why in line]))
    browser.click("#import-send")
    browser.wait(ALL_ANSWERED)
    browser.wait(IS_TOLD, "9 new; 0 known already, which stay as they are; 2 members dropped that a task can't keep; 4 instances without a place among their template's, now plain tasks.")
    stored = {task["description"]: task for task in tasks(board)}
    expect("who has a place", {"Has it": 0, "Free": 1, "First": 0}, {name: task["imask"] for name, task in stored.items() if "imask" in task})
    expect("a deleted template", ["weekly", "+"], [stored["Deleted template"].get(name) for name in ("recur", "mask")])
    expect("numbers", [2**53 + 1, 2**63 - 1, None], [stored["Numbers"].get(name) for name in ("whole", "most", "power")])
    browser.run(DISMISS)
    office.go(board)


def template_that_waits(office):
    """A template that waits for its own instance goes before it, though that lies in a later part: the link is lost, not the instance, and that is told."""
    browser, board = office.browser, new_board("Waiting for its own")
    ahead = [{"uuid": f"00000000-0000-4000-a000-{at:012d}", "description": f"Ahead {at}"} for at in range(1200)]
    first = {"uuid": ID.format(1), "description": "Its own", "parent": ID.format(2), "imask": 0, "depends": [task["uuid"] for task in ahead]}
    template = {"uuid": ID.format(2), "description": "Waits", **WEEKLY, "status": "recurring", "mask": "-", "depends": [ID.format(1)]}
    office.begin(board)
    office.go(board, "files")
    choose_file(browser, "waits.json", json.dumps([template, first, *ahead]))
    [[_, lines]] = told(browser)
    expect("what is lost", [True, True], ["Waits" in lines[0] and "1 link to tasks that come in a later part" in lines[0], len(lines) == 1])
    browser.click("#import-send")
    browser.wait(ALL_ANSWERED)
    browser.wait(IS_TOLD, "(2 of 2 parts): 1,202 new; 0 known already, which stay as they are; 1 link to an unknown task dropped.")
    expect("the instance", [0], [task.get("imask") for task in tasks(board) if task["description"] == "Its own"])
    browser.run(DISMISS)
    office.go(board)


# Has the server refuse each part with such a task in it, for a reason that the page doesn't know.
REFUSES = """const real = window.fetch;
window.fetch = (path, settings) => {
    const at = path.endsWith("/import") ? JSON.parse(settings.body).findIndex((task) => task.description === arguments[0]) : -1;
    return at < 0 ? real(path, settings) : Promise.resolve(new Response(JSON.stringify({ at, field: "BadText", name: "BadTask", refused: 8 }), { status: 422 }));
}"""


def rest_of_a_part(office):
    """Of an import of which the server refuses a task the rest is offered: its part without that task, and the parts after it."""
    browser, board = office.browser, new_board("Rest of a part")
    sent = [{"uuid": f"00000000-0000-4000-b000-{at:012d}", "description": f"Number {at}", "status": "pending", "entry": "20260101T000000Z"} for at in range(2300)]
    office.begin(board)
    office.go(board, "files")
    browser.run(REFUSES.replace("arguments[0]", json.dumps("Number 1400")))
    choose_file(browser, "parts.json", json.dumps(sent))
    browser.click("#import-send")
    browser.wait(IS_TOLD, "It is the task Number 1400.")
    browser.wait(IS_TOLD, "The parts after it weren't sent.")
    expect("before it is sent on", 1000, len(tasks(board)))
    office.begin(board)
    browser.run("[...document.querySelectorAll('#notices button')].find((button) => button.textContent === 'Import the rest without it').click()")
    browser.wait(IS_TOLD, "(2 of 3 parts): 1,299 new; 0 known already")
    browser.wait(ALL_ANSWERED)
    expect("tasks of it", sorted(task["uuid"] for task in sent if task["description"] != "Number 1400"), sorted(task["uuid"] for task in tasks(board)))
    browser.run("document.querySelectorAll('#notices button').forEach((button) => button.click())")
    browser.wait("return document.querySelectorAll('#notices li').length === 0")


SCENES = (made_to_repeat, rest_of_a_part, full_board, sweeps_once, the_rest, places_of_instances, template_that_waits, lost_in_export)

"""Scenes of the page: several tasks changed at once, and moved to another board over a line that breaks."""
import json
import time

from office import ALL_ANSWERED, DOWN, ENTER, IS_TOLD, UP, add, ask, expect, new_board, tasks, tell
from page_views import ARE_LISTED, moment
from page_words import WAITED
from relay import LOSES_ANSWERS, LOSES_POSTS

SHIFT, CONTROL = "\ue008", "\ue009"
IS_PICKED = "return document.getElementById('bulk').offsetParent && document.getElementById('bulk-count').textContent === arguments[0]"
CHANGE = "const select = document.getElementById(arguments[0]); select.value = arguments[1]; select.dispatchEvent(new Event('change'))"
IS_UNDER = "return document.querySelector('#list .open')?.checkVisibility() && document.activeElement.closest('#list') !== null"


def press(browser, *keys, held=""):
    """Presses keys one after the other, while another one is held."""
    steps = [{"type": kind, "value": key} for key in keys for kind in ("keyDown", "keyUp")]
    around = [{"type": kind, "value": held} for kind in ("keyDown", "keyUp")] if held else []
    browser.call("POST", "/actions", {"actions": [{"type": "key", "id": "keys", "actions": around[:1] + steps + around[1:]}]})


def pick(browser, *texts, of=0):
    """Chooses rows by their boxes, beside those that are chosen already."""
    if not browser.run("return document.getElementById('list').classList.contains('choosing')"):
        browser.click("#more")
        browser.click("#choose")
    for count, text in enumerate(texts, of + 1):
        browser.run("[...document.querySelectorAll('#list .row')].find((row) => row.querySelector('.open').textContent === arguments[0]).querySelector('.choose').click()", text)
        browser.wait(IS_PICKED, f"{count} chosen")


def of_all(board, name):
    return [task.get(name) for task in tasks(board)]


def several(office):
    """Rows chosen by keys and by the mouse: completed with a way back, assigned, tagged, dated, put into a project, deleted."""
    browser = office.browser
    board = new_board("Several", bob="member")
    names = ["Alpha", "Beta", "Gamma", "Delta"]
    for place, name in enumerate(names):
        add(board, description=name, priority="HML"[min(place, 2)], tags=["old"], **({"due": moment(-9)} if place == 3 else {}))
    office.begin(board)
    shown = ["Delta", "Alpha", "Beta", "Gamma"]
    browser.wait(ARE_LISTED, shown)
    width = "return document.getElementById('list').offsetWidth"
    before = browser.run(width)
    browser.run("document.querySelector('#list .open').focus()")
    press(browser, "x")
    browser.wait(IS_PICKED, "1 chosen")
    expect("the width of the list with boxes", before, browser.run(width))
    press(browser, DOWN, DOWN, held=SHIFT)
    browser.wait(IS_PICKED, "3 chosen")
    office.shot("several")
    browser.click("#bulk-done")
    browser.wait(ARE_LISTED, ["Gamma"])
    browser.wait(ALL_ANSWERED)
    expect("completed", ["completed", "completed", "pending", "completed"], of_all(board, "status"))
    browser.wait(IS_UNDER)
    browser.click("#toast button")
    browser.wait(ARE_LISTED, shown)
    browser.wait(ALL_ANSWERED)
    expect("taken back", ["pending"] * 4, of_all(board, "status"))
    expect("the ways that are offered afterwards", ["Redo", "Close"], browser.run("return [...document.querySelectorAll('#toast button')].map((button) => button.textContent)"))
    pick(browser, "Alpha", "Beta")
    browser.run(CHANGE, "bulk-assign", "bob")
    browser.wait(IS_TOLD, "Assigned to bob: 2 tasks")
    browser.click("#bulk-tag")
    browser.type("#bulk-form input", "new @fresh" + ENTER)
    browser.wait(IS_TOLD, "Tagged: 2 tasks")
    browser.click("#bulk-project")
    browser.type("#bulk-form input", "House.roof" + ENTER)
    browser.wait(IS_TOLD, "Project set: 2 tasks")
    browser.click("#bulk-due")
    browser.click("#bulk-form .primary")
    expect("a due date that nobody gave", True, browser.run("return document.querySelector('#bulk-form input[type=date]').matches(':invalid')"))
    browser.run("document.querySelector('#bulk-form input[type=date]').value = '2027-03-01'")
    browser.click("#bulk-form .primary")
    browser.wait(IS_TOLD, "Due date set: 2 tasks")
    browser.wait(ALL_ANSWERED)
    for name, value, other in (("assignee", "bob", None), ("tags", ["fresh", "new", "old"], ["old"]), ("project", "House.roof", None), ("due", "20270301T000000Z", None)):
        expect(name, [value, value, other], of_all(board, name)[:3])
    browser.click("#bulk-none")
    browser.wait("return !document.getElementById('bulk').offsetParent")
    browser.run("document.querySelector('#list .open').focus()")
    press(browser, "a", held=CONTROL)
    browser.wait(IS_PICKED, "4 chosen")
    browser.click("#bulk-delete")
    browser.wait(ARE_LISTED, [])
    browser.wait(ALL_ANSWERED)
    expect("deleted", ["deleted"] * 4, of_all(board, "status"))


def chosen_by_keys(office):
    """A key on a list of people or roles opens it, and does nothing on the way to what is chosen there."""
    browser, board = office.browser, new_board("By keys", bob="member")
    add(board, description="Whose", assignee="bob")
    office.begin(board)
    browser.wait(ARE_LISTED, ["Whose"])
    pick(browser, "Whose")
    is_open = "return document.activeElement.matches(':open') === arguments[0]"
    browser.run("document.getElementById('bulk-assign').focus()")
    press(browser, DOWN)
    browser.wait(is_open, True)
    press(browser, DOWN, DOWN, ENTER)
    browser.wait(IS_TOLD, "Assigned to ann: 1 task.")
    browser.wait(ALL_ANSWERED)
    office.go(board, "people")
    role = "[aria-label='Role of bob']"
    browser.wait("const select = document.querySelector(arguments[0]); select?.focus(); return Boolean(select)", role)
    press(browser, "o")
    browser.wait(is_open, True)
    press(browser, UP, ENTER)
    browser.wait("return document.querySelector(arguments[0]).value === 'owner'", role)
    browser.wait(ALL_ANSWERED)
    told = json.loads(ask(f"/boards/{board}/history"))["entries"]
    expect("chosen by keys", [["ann"], "owner", ["role", "add", "modify", "role"]], [of_all(board, "assignee"), json.loads(ask(f"/boards/{board}/people"))["people"][1]["role"], [entry["what"] for entry in told]])


def back_unheard(office):
    """Several tasks changed and changed back over a line that breaks: all of it is sent, and nothing is asked."""
    browser, board = office.browser, new_board("Back unheard")
    for name in ("Alpha", "Beta"):
        add(board, description=name)
    office.begin(board)
    browser.wait(ARE_LISTED, ["Alpha", "Beta"])
    pick(browser, "Alpha", "Beta")
    office.relay.break_off(LOSES_POSTS)
    browser.click("#bulk-project")
    browser.type("#bulk-form input", "House" + ENTER)
    browser.wait(IS_TOLD, "Project set: 2 tasks")
    browser.click("#toast button")
    browser.wait(IS_TOLD, "4 changes wait here")
    browser.wait(WAITED, 4)
    office.relay.heal()
    browser.run("dispatchEvent(new Event('online'))")
    browser.wait(ALL_ANSWERED)
    expect("asked", [], browser.run("return [...document.querySelectorAll('#notices .asks')].map((notice) => notice.innerText)"))
    expect("projects", [None, None], of_all(board, "project"))
    changed = [entry["what"] for entry in json.loads(ask(f"/boards/{board}/history"))["entries"]]
    expect("sent", ["add", "add", "modify", "modify", "modify", "modify"], changed)


def many_wait(office):
    """Hundreds of tasks are completed at once: what waits isn't read anew for each answer, nor is the board asked for."""
    browser, board, count = office.browser, new_board("Many"), 200
    for number in range(count):
        add(board, description=f"Task {number}")
    office.begin(board)
    browser.wait("return document.getElementById('count').textContent === arguments[0]", f"{count} of {count} tasks")
    browser.run("""window.read = 0;
        const getAll = IDBIndex.prototype.getAll;
        IDBIndex.prototype.getAll = function (...words) {
            const request = getAll.apply(this, words);
            request.addEventListener("success", () => (window.read += request.result.length));
            return request;
        };""")
    asked = lambda: sum(path == f"/boards/{board}/export" for _, path in office.relay.asked)
    before, begun = asked(), time.monotonic()
    browser.run("document.querySelector('#list .open').focus()")
    press(browser, "a", held=CONTROL)
    browser.wait(IS_PICKED, f"{count} chosen")
    browser.click("#bulk-done")
    browser.wait(IS_TOLD, f"Completed {count} tasks.")
    while not browser.run(ALL_ANSWERED) and time.monotonic() < begun + 12 * browser.patience:
        time.sleep(0.2)
    expect("completed", {"completed"}, set(of_all(board, "status")))
    expect("changes that were read for each of them", True, browser.run("return read") < 10 * count)
    expect("looks at the board, at most", True, asked() - before < 5 + (time.monotonic() - begun) / 2)


# Keeps so many new tasks on the device, each by itself, as many of them as there are of a list that was pasted.
ADD_MANY = """const [board, count] = arguments;
return Promise.all([import("/sync/outbox.js"), import("/core/calls.js")])
    .then(([{ keepEach }, { changes }]) => keepEach(Array.from({ length: count }, (_, at) => changes.add(board, { description: `Task ${at}` }))));"""
ARE_ON_DEVICE = """return new Promise((done) => {
    indexedDB.open("taskboard").onsuccess = ({ target }) => {
        target.result.transaction("changes").objectStore("changes").count().onsuccess = ({ target }) => done(target.result === arguments[0]);
    };
});"""
# From here on counts what is read of the device, and what is made anew of the tasks.
COUNTED = """window.counts = { read: 0, made: 0 };
for (const kind of [IDBIndex, IDBObjectStore]) {
    const { getAll } = kind.prototype;
    kind.prototype.getAll = function (...words) {
        const request = getAll.apply(this, words);
        request.addEventListener("success", () => (window.counts.read += request.result.length));
        return request;
    };
}
const { stringify } = JSON;
JSON.stringify = (...words) => {
    window.counts.made += 1;
    return stringify(...words);
};"""


def counted_waiting(office):
    """Thousands of changes that wait are told as tasks are, with a comma."""
    browser, board = office.browser, new_board("Counted")
    office.begin(board)
    office.relay.break_off(LOSES_POSTS)
    browser.run(ADD_MANY, board, 1020)
    browser.wait(IS_TOLD, "1,020 changes wait here")
    browser.click("#state")
    browser.wait(IS_TOLD, "and 1,000 more")
    browser.click("#sign-out")
    browser.wait(IS_TOLD, "This isn't sent yet, 1,020 in all.")
    browser.click("#leave-drop")
    browser.wait("return document.getElementById('sign-in-form').offsetParent")
    office.relay.heal()
    office.begin(board)
    browser.wait(ALL_ANSWERED)
    expect("sent of what was thrown away", [], tasks(board))


def many_refused(office):
    """Of many changes that are refused the first are told each, and all of them are sent again, or thrown away, at once."""
    browser, board = office.browser, new_board("Refused", bob="member")
    office.begin(board, "bob")
    told = "return document.querySelectorAll('#notices .refused').length === arguments[0]"
    for role, press_at, left in (("member", "Send 30 again", 30), ("reader", "Throw all away", 30)):
        office.relay.break_off(LOSES_POSTS)
        browser.run(ADD_MANY, board, 30)
        browser.wait(IS_TOLD, "30 changes wait here")
        tell(f"/boards/{board}/roles", member="bob", role="reader")
        office.relay.heal()
        browser.run("dispatchEvent(new Event('online'))")
        browser.wait(told, 20)
        browser.wait(IS_TOLD, "And 10 more such messages.")
        browser.wait(ALL_ANSWERED)
        expect("what is told of the state", "30 things need you", browser.run("return document.getElementById('state').textContent"))
        tell(f"/boards/{board}/roles", member="bob", role=role)
        browser.run("const [words] = arguments; setTimeout(() => [...document.querySelectorAll('#notices button')].find((button) => button.textContent === words).click())", press_at)
        if role == "reader":
            expect("asked", "Throw away all 30 changes that these messages tell of? What they say is lost.", browser.answer_question())
        browser.wait(told, 0)
        browser.wait(ALL_ANSWERED)
        expect("each once, in their order", [f"Task {at}" for at in range(left)], of_all(board, "description"))


def hundreds_wait(office):
    """Where hundreds of changes wait, one more reads none of them and makes none of their tasks anew; and a page that is closed while they are
    sent loses none."""
    browser, board, count = office.browser, new_board("Hundreds"), 500
    office.begin(board)
    office.relay.break_off(LOSES_POSTS)
    browser.run(ADD_MANY, board, count)
    browser.wait(IS_TOLD, f"{count} changes wait here")
    browser.wait(WAITED, count)
    browser.run(COUNTED)
    browser.type("#add-line", "One more" + ENTER)
    browser.wait(ARE_ON_DEVICE, count + 1)
    time.sleep(1)
    counts = browser.run("return window.counts")
    expect(f"read and made anew for one more, of {count}", [True, True], [counts[name] < count / 2 for name in ("read", "made")])
    office.relay.heal()
    browser.run("dispatchEvent(new Event('online'))")
    while len(tasks(board)) < count / 10:
        time.sleep(0.2)
    office.begin(board)
    end = time.monotonic() + 60 * browser.patience
    while not browser.run(ALL_ANSWERED) and time.monotonic() < end:
        time.sleep(0.2)
    expect("each once, in their order", [*(f"Task {at}" for at in range(count)), "One more"], of_all(board, "description"))


def move(browser, board, accepts=True):
    """Moves the chosen tasks, or asks for it alone: what the page says before."""
    browser.run(f"const words = arguments; setTimeout(() => ((...arguments) => {{ {CHANGE} }})(...words))", "bulk-move", str(board))
    return browser.answer_question(accepts)


def moves(office):
    """Tasks that move to another board over a line that breaks and a page that is closed on the way: each is there once, and gone here."""
    browser, relay = office.browser, office.relay
    there = new_board("There")
    board = new_board("From here")
    ground = add(board, description="Ground", tags=["a"], big=9007199254740993, assignee="ann")
    upon = add(board, description="Upon it", depends=[ground])
    add(board, description="Stays", depends=[ground])
    office.begin(board)
    browser.wait("return document.getElementById('count').textContent === '3 of 3 tasks'")
    pick(browser, "Upon it", "Ground")
    relay.break_off(LOSES_ANSWERS)
    move(browser, there)
    relay.lost.wait(browser.patience)
    browser.wait(IS_TOLD, "4 changes wait here")
    browser.open("about:blank")
    expect("after the stop", [["Ground"], ["pending"] * 3], [of_all(there, "description"), of_all(board, "status")])
    relay.break_off(LOSES_POSTS)
    browser.open(f"{office.address}#/{board}/tasks")
    browser.wait(IS_TOLD, "4 changes wait here")
    relay.heal()
    browser.run("dispatchEvent(new Event('online'))")
    browser.wait(ALL_ANSWERED)
    expect("here", ["deleted", "deleted", "pending"], of_all(board, "status"))
    first, second = tasks(there)
    kept = {name: first[name] for name in ("description", "tags", "big", "assignee", "status")}
    expect("there", {"description": "Ground", "tags": ["a"], "big": 9007199254740993, "assignee": "ann", "status": "pending"}, kept)
    expect("its link", ["Upon it", [first["uuid"]]], [second["description"], second["depends"]])
    origins = [f"Moved by ann from “From here”: {office.address}#/{board}/tasks/{uuid}" for uuid in (ground, upon)]
    expect("where they come from", [[origin] for origin in origins], [[note["description"] for note in task["annotations"]] for task in (first, second)])
    browser.wait(ARE_LISTED, ["Stays"])


def left_behind(office):
    """Before tasks move the page says what stays behind: links, places among instances, what is closed, the uuid. Who says no moves nothing."""
    browser = office.browser
    there, board = new_board("Beyond"), new_board("Behind")
    base = add(board, description="Base")
    middle = add(board, description="Middle", depends=[base])
    add(board, description="Top", depends=[middle, base])
    add(board, description="Alone")
    add(board, description="Each week", due=moment(3), recur="weekly")
    office.begin(board)
    browser.wait("return document.getElementById('count').textContent === '5 of 5 tasks'")
    pick(browser, "Alone")
    expect("of one", "Move 1 task to Beyond? It gets a new uuid there, and is deleted here.", move(browser, there, False))
    pick(browser, "Middle", "Each week", of=1)
    told = "Move 3 tasks to Beyond? Each gets a new uuid there, and is deleted here. This can't go along: 1 link to tasks that stay here; 1 link from tasks that stay here; 1 place among the instances of a repeating task."
    expect("of three", told, move(browser, there, False))
    expect("moved by who said no", [[], {"pending", "recurring"}], [tasks(there), set(of_all(board, "status"))])
    browser.wait(IS_PICKED, "3 chosen")
    move(browser, there)
    browser.wait(ARE_LISTED, ["Base", "Top"])
    browser.wait(ALL_ANSWERED)
    stored = {task["description"]: task for task in tasks(there)}
    expect("moved", {"Alone", "Middle", "Each week"}, set(stored))
    expect("went along", [None] * 3, [stored["Middle"].get("depends"), *(stored["Each week"].get(name) for name in ("parent", "imask"))])
    expect("uuids of before", set(), {task["uuid"] for task in stored.values()} & set(of_all(board, "uuid")))
    browser.run("const status = document.getElementById('filter-status'); status.value = 'all'; status.dispatchEvent(new Event('input'))")
    browser.wait("return document.getElementById('count').textContent === '5 of 5 tasks'")
    pick(browser, "Alone", "Base")
    told = move(browser, there, False)
    expect("of what is closed", True, told.startswith("Move 1 task to Beyond?") and told.endswith("What is closed stays: 1 task."))


SCENES = (several, chosen_by_keys, back_unheard, many_wait, counted_waiting, many_refused, hundreds_wait, moves, left_behind)

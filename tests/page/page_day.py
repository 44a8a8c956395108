"""Scenes of the page: My day, over all boards of a person, and the columns of a board."""
import json
import uuid

from office import ALL_ANSWERED, IS_TOLD, KEYS, add, ask, expect, new_board, tasks, tell
from page_several import SHIFT, press
from page_views import day, moment

LEFT, RIGHT = "\ue012", "\ue014"

DAY = "return [...document.querySelectorAll('#day-list :is(h3 bdi, .open)')].map((text) => text.textContent)"
# From here on each page that is opened is told of its boards, and nothing of what is on them until release() is called.
BOARDS_HELD = """const real = window.fetch;
const released = new Promise((done) => (window.release = done));
window.fetch = (path, settings) => (String(path).startsWith("/boards/") ? released.then(() => real(path, settings)) : real(path, settings));"""
IS_DAY = DAY.replace("return", "return JSON.stringify(", 1) + ") === JSON.stringify(arguments[0])"


def new_on_the_day(office):
    """A board that comes while My day asks for those that this device knew is asked for with them."""
    browser, known = office.browser, new_board("Known here")
    office.begin(known)
    browser.wait("return document.querySelector('#boards [aria-current] .name')?.textContent === 'Known here'")
    later = new_board("Come later")
    add(later, description="Due there", due=moment(0), assignee="ann")
    held = browser.tell("Page.addScriptToEvaluateOnNewDocument", source=BOARDS_HELD)["identifier"]
    browser.open("about:blank")
    browser.open(f"{office.address}#/day/mine")
    browser.wait("return [...document.querySelectorAll('#boards .name')].some((name) => name.textContent === 'Come later')")
    browser.run("window.release()")
    browser.wait(f"{DAY}.includes('Due there')")
    browser.tell("Page.removeScriptToEvaluateOnNewDocument", identifier=held)
    office.begin(known)


def sign_in_as(office, name):
    office.browser.open("about:blank")
    office.browser.open(office.address)
    office.browser.run("[sessionStorage, localStorage].forEach((place) => place.clear())")
    office.sign_in(name)


def my_day(office):
    """What is due and started on all boards of a person, theirs first; a task is completed there, and opened on its board."""
    browser = office.browser
    KEYS["dora"] = "dora-key-1"
    first = new_board("First of dora", dora="member")
    second = new_board("Second of dora", dora="reader")
    for text, board, ahead, more in (
        ("Not mine", first, -3, {"assignee": "ann"}),
        ("Mine and late", first, -1, {"assignee": "dora"}),
        ("Nobody's", first, -2, {}),
        ("Read this", second, 0, {}),
        ("In six days", first, 6, {"assignee": "dora"}),
        ("Next week", first, 7, {"assignee": "dora"}),
    ):
        add(board, description=text, due=moment(ahead), **more)
    begun = add(second, description="Begun")
    tell(f"/boards/{second}/tasks/{begun}/start")
    add(first, description="Not due", assignee="dora")
    sign_in_as(office, "dora")
    browser.wait("return document.getElementById('to-day').offsetParent")
    browser.click("#to-day")
    overdue = ["Overdue", "Mine and late", "Nobody's", "Not mine"]
    rest = ["Today", "Read this", "This week", "In six days", "Started", "Begun"]
    browser.wait(IS_DAY, overdue + rest)
    browser.wait(IS_TOLD, "6 tasks of 2 boards")
    office.shot("day")
    browser.click("#day-mine")
    browser.wait(IS_DAY, ["Overdue", "Mine and late", "This week", "In six days"])
    browser.click("#day-list .tick")
    browser.wait(IS_DAY, ["This week", "In six days"])
    browser.wait(ALL_ANSWERED)
    expect("completed", "completed", tasks(first)[1]["status"])
    browser.click("#day-all")
    browser.wait(IS_DAY, [text for text in overdue if text != "Mine and late"] + rest)
    browser.run("[...document.querySelectorAll('#day-list .open')].find((row) => row.textContent === 'Begun').click()")
    browser.wait("return document.getElementById('task-text').textContent === 'Begun' && document.getElementById('panel').checkVisibility()")
    browser.call("POST", "/back")
    browser.wait(IS_DAY, [text for text in overdue if text != "Mine and late"] + rest)
    expect("circles that a reader can't press", 2, browser.run("return document.querySelectorAll('#day-list span.tick').length"))
    add(first, description="From elsewhere", due=moment(0), assignee="dora")
    browser.click("#day-mine")
    browser.wait(IS_DAY, ["Today", "From elsewhere", "This week", "In six days"])
    office.begin(first)


CARDS = "return Object.fromEntries([...document.querySelectorAll('.column')].map((column) => [column.id.slice(7), [...column.querySelectorAll('.open')].map((card) => card.textContent)]))"
HAS_CARDS = "const cards = (() => { " + CARDS + " })(); return Object.entries(arguments[0]).every(([name, texts]) => cards[name].join() === texts.join())"
CARD = "[...document.querySelectorAll('.column .card')].find((card) => card.querySelector('.open').textContent === arguments[0])"


def middle(browser, element, *arguments):
    return browser.run(f"const {{ x, y, width, height }} = {element}.getBoundingClientRect(); return [x + width / 2, y + height / 2].map(Math.round)", *arguments)


def drag(browser, text, column):
    """Drags a card into a column with the mouse."""
    (left, top), (right, bottom) = middle(browser, CARD, text), middle(browser, "document.getElementById('column-' + arguments[0])", column)
    stops = [(left + 9, top + 9), ((left + right) // 2, (top + bottom) // 2), (right, bottom), (right + 3, bottom + 3)]
    moves = [{"type": "pointerMove", "duration": 50, "x": x, "y": y} for x, y in stops]
    down, up = ({"type": kind, "button": 0} for kind in ("pointerDown", "pointerUp"))
    start = {"type": "pointerMove", "duration": 0, "x": left, "y": top}
    browser.call("POST", "/actions", {"actions": [{"type": "pointer", "id": "mouse", "parameters": {"pointerType": "mouse"}, "actions": [start, down, *moves, up]}]})


def wait_until(browser, when):
    """Says in the dialog until when the card waits that was moved: the second of its column."""
    browser.wait("return document.getElementById('wait-dialog').open")
    for text in (str(day(-1)), str(when)):
        browser.run("const field = document.querySelector('#wait-fields input'); field.value = arguments[0]; field.dispatchEvent(new Event('input'))", text)
        browser.click("#wait-form .primary")
        browser.wait("return document.getElementById('wait-fields').textContent.includes(\"wouldn't wait\") === arguments[0]", text != str(when))
    browser.wait("return document.querySelectorAll('#column-waiting .card').length === 2")
    browser.wait(ALL_ANSWERED)


def columns(office):
    """Cards that are moved by keys and by the mouse are started, stopped, completed and reopened, or wait until a date."""
    browser = office.browser
    board = new_board("Columns")
    add(board, description="Alpha", priority="H")
    begun = add(board, description="Begun")
    tell(f"/boards/{board}/tasks/{begun}/start")
    add(board, description="Waits", wait=moment(3))
    ended = [{"uuid": str(uuid.uuid4()), "description": text, "status": "completed", "entry": moment(-30), "end": moment(ahead)} for text, ahead in (("Just done", -13), ("Long done", -15))]
    ask(f"/boards/{board}/import", json.dumps(ended).encode())
    office.begin(board)
    browser.click("#as-columns")
    browser.wait(HAS_CARDS, {"todo": ["Alpha"], "started": ["Begun"], "waiting": ["Waits"], "done": ["Just done"]})
    office.shot("columns")
    status = lambda place, *names: [tasks(board)[place].get(name) for name in names]
    browser.run(f"{CARD}.querySelector('.open').focus()", "Alpha")
    press(browser, RIGHT, held=SHIFT)
    browser.wait(HAS_CARDS, {"todo": [], "started": ["Alpha", "Begun"]})
    browser.wait(ALL_ANSWERED)
    expect("started", True, bool(status(0, "start")[0]))
    browser.wait("return document.activeElement.textContent === 'Alpha'")
    press(browser, LEFT, held=SHIFT)
    browser.wait(HAS_CARDS, {"todo": ["Alpha"], "started": ["Begun"]})
    browser.wait(ALL_ANSWERED)
    expect("stopped", ["pending", None], status(0, "status", "start"))
    drag(browser, "Alpha", "done")
    browser.wait(HAS_CARDS, {"todo": [], "done": ["Alpha", "Just done"]})
    browser.wait(ALL_ANSWERED)
    expect("completed", ["completed"], status(0, "status"))
    drag(browser, "Alpha", "started")
    browser.wait(HAS_CARDS, {"started": ["Alpha", "Begun"], "done": ["Just done"]})
    browser.wait(ALL_ANSWERED)
    expect("reopened and started", ["pending", True], [status(0, "status")[0], bool(status(0, "start")[0])])
    drag(browser, "Begun", "waiting")
    wait_until(browser, day(9))
    expect("waits", ["waiting", moment(9)], status(1, "status", "wait"))
    drag(browser, "Begun", "todo")
    browser.wait(HAS_CARDS, {"todo": ["Begun"], "waiting": ["Waits"]})
    browser.wait(ALL_ANSWERED)
    browser.run(f"{CARD}.querySelector('.open').focus()", "Begun")
    press(browser, "w")
    wait_until(browser, day(8))
    expect("waits by a key", ["waiting", moment(8)], status(1, "status", "wait"))
    browser.wait("return document.activeElement.textContent === 'Begun'")
    press(browser, LEFT, LEFT, held=SHIFT)
    browser.wait(HAS_CARDS, {"todo": ["Begun"], "waiting": ["Waits"]})
    browser.wait(ALL_ANSWERED)
    expect("waits no more", ["pending", None, None], status(1, "status", "wait", "start"))
    browser.click("#as-list")
    browser.wait("return document.querySelectorAll('#list .row').length === 3")


SCENES = (my_day, new_on_the_day, columns)

"""Scenes of the page's history: who did what and when, what others did meanwhile, what two changed at once, and how seldom the board is asked for."""
import datetime
import json
import time

from office import ALL_ANSWERED, ENTER, IS_LISTED, IS_TOLD, KEYS, add, ask, expect, new_board, tell
from page_words import heal, one_of, open_edit, open_task, press, type_into
from relay import LOSES_POSTS

KEYS["cleo"] = "cleo-key-1"
# (what a menu has is there once the menu is open)
IS_SHOWN = "const part = document.getElementById(arguments[0]); return Boolean(part?.closest('[popover]') ? !part.hidden : part?.checkVisibility())"
# What was done, a line each, without its moment.
DEEDS = "return [...document.querySelectorAll(`${arguments[0]} .deed`)].map((row) => row.firstChild.innerText)"
ARE_DEEDS = DEEDS.replace("return", "return JSON.stringify(", 1) + ") === JSON.stringify(arguments[1])"
CHOOSE = "const select = document.getElementById(arguments[0]); select.value = arguments[1]; select.dispatchEvent(new Event('input'))"
# From here on the page's clock for pauses is ahead by so many seconds.
CLOCK = "const real = performance.now.bind(performance); window.ahead = 0; performance.now = () => real() + window.ahead"
# A number that no entry of a history has, by which its last one is asked for.
BEYOND = 2**32 - 1
PASS = "window.ahead += 1000 * arguments[0]; if (arguments[1]) dispatchEvent(new Event('pointermove'))"
# A server of before answers so for the history's views.
WITHOUT = """const asked = window.fetch;
window.fetch = (path, ...rest) => (/\\/history(\\/|$)/.test(path) ? Promise.resolve(new Response('{"name":"NoRoute"}', { status: 404 })) : asked(path, ...rest));"""


def without_history(browser):
    """From the next page on the server seems to be one of before. What ends that."""
    made = browser.tell("Page.addScriptToEvaluateOnNewDocument", source=WITHOUT)
    return lambda: browser.tell("Page.removeScriptToEvaluateOnNewDocument", **made)


def at(ahead):
    """A moment so many seconds from now."""
    return f"{datetime.datetime.now(datetime.timezone.utc) + datetime.timedelta(seconds=ahead):%Y%m%dT%H%M%SZ}"


def times_asked(office, path):
    return office.relay.asked.count(("GET", path))


def of_task(office):
    """A task's panel shows who did what, from what to what, who wrote a note and who ended it; also what happens while it is open."""
    browser, board = office.browser, new_board("Of a task", bob="member")
    office.begin(board)
    browser.type("#add-line", "Buy paint due:2026-12-01" + ENTER)
    browser.wait(IS_LISTED, "Buy paint")
    browser.wait(ALL_ANSWERED)
    [task] = json.loads(ask(f"/boards/{board}/export"))
    path = f"/boards/{board}/tasks/{task['uuid']}"
    tell(f"{path}/modify", "bob", due="20261203T000000Z", priority="H", tags=["shop"])
    tell(f"{path}/annotate", "bob", description="The green one")
    open_task(office, board, task["uuid"])
    told = ["bob added the note The green one", "bob changed the due date from 1 Dec 2026 to 3 Dec 2026; set the priority to high; tagged it @shop", "You added it"]
    browser.wait(ARE_DEEDS, "#task-history", told)
    browser.wait("return document.getElementById('task-notes').textContent.includes('by bob')")
    for name, by in (("Made", "ann"), ("Changed", "bob")):
        browser.wait("return document.getElementById('task-facts').innerText.match(`${arguments[0]}\\\\s[^\\n]* by ${arguments[1]}`)", name, by)
    tell(f"{path}/done", "bob")
    browser.wait(ARE_DEEDS, "#task-history", ["bob completed it", *told])
    browser.wait("return document.getElementById('task-facts').innerText.match(/Ended\\s[^\\n]* by bob/)")
    office.shot("task-history")
    other = add(board, description="Wash the brush")
    tell(f"{path}/reopen")
    tell(f"{path}/depend", on=other)
    tell(f"{path}/modify", "bob", due=None, own="x" * 5000)
    tell(f"{path}/modify", "bob", due="20261204T000000Z")
    browser.wait(ARE_DEEDS, "#task-history", ["bob set the due date to 4 Dec 2026", "bob changed it", "You made it wait for Wash the brush", "You reopened it", "bob completed it"])
    press(browser, "Show all 8", "#task-history")
    browser.wait("return document.querySelectorAll('#task-history .deed').length === 8")
    tell(f"{path}/undepend", on=other)
    browser.wait("return document.querySelector('#task-history .deed').firstChild.textContent === 'You had it wait no more for Wash the brush'")


def of_board(office):
    """A board's history: filters by person and word, and older entries by their numbers."""
    browser, board = office.browser, new_board("Of a board", bob="member")
    first = add(board, description="First of all")
    for number in range(118):
        tell(f"/boards/{board}/tasks/{first}/annotate", ["ann", "bob"][number % 2], description=f"Note {number}")
    tell(f"/boards/{board}/title", title="Of the board")
    tell(f"/boards/{board}/tasks/{first}/done", "bob")
    office.begin(board)
    browser.wait(IS_SHOWN, "to-history")
    browser.click("#more")
    browser.click("#to-history")
    browser.wait("return document.querySelectorAll('#history-list .deed').length === 100")
    expect("the last ones", ["bob completed First of all", "You renamed the board to Of the board", "bob added the note Note 117: First of all"], browser.run(DEEDS, "#history-list")[:3])
    office.shot("history")
    browser.wait(IS_TOLD, "100 of 122 changes, looked at down to number 23")
    press(browser, "Show older ones, from 1 on", "#history-view")
    browser.wait("return document.querySelectorAll('#history-list .deed').length === 122")
    expect("the first ones", ["You added First of all", "You gave the role member to bob"], browser.run(DEEDS, "#history-list")[-2:])
    expect("older ones than all", False, browser.run(IS_SHOWN, "history-older"))
    browser.run(CHOOSE, "history-person", "bob")
    browser.wait(IS_TOLD, "60 of 122 changes")
    browser.run(CHOOSE, "history-what", "done")
    browser.wait(ARE_DEEDS, "#history-list", ["bob completed First of all"])
    browser.run(CHOOSE, "history-what", "import")
    browser.wait(IS_TOLD, "Nothing is so.")
    browser.run(CHOOSE, "history-what", "")
    tell(f"/boards/{board}/tasks/{first}/reopen", "bob")
    browser.wait(IS_TOLD, "61 of 123 changes")
    browser.run("document.querySelector('#history-list .link').click()")
    browser.wait("return document.getElementById('task-text').textContent === 'First of all'")
    browser.click("#close-panel")


def since_looked(office):
    """Who comes back is told how many changes others made, and sees them in the history; once read they aren't told again."""
    browser, board = office.browser, new_board("Since", bob="member", cleo="member")
    task = add(board, description="Paint the fence")
    office.begin(board)
    browser.wait(IS_LISTED, "Paint the fence")
    browser.wait(IS_SHOWN, "to-history")
    expect("told of one's own", False, browser.run(IS_SHOWN, "news"))
    browser.open("about:blank")
    tell(f"/boards/{board}/tasks/{task}/start", "bob")
    tell(f"/boards/{board}/tasks", "bob", description="Of bob")
    office.begin(board)
    browser.wait(IS_TOLD, "2 changes by bob since you looked")
    office.shot("since")
    tell(f"/boards/{board}/tasks/{task}/done", "cleo")
    browser.wait(IS_TOLD, "2 changes by bob, 1 by cleo since you looked")
    press(browser, "Show what was done", "#news")
    browser.wait("return document.querySelectorAll('#history-list .deed.new').length === 3")
    expect("told once it is shown", False, browser.run(IS_SHOWN, "news"))
    office.begin(board)
    browser.wait(IS_SHOWN, "to-history")
    expect("told again", False, browser.run(IS_SHOWN, "news"))
    browser.run(PASS.replace("window.ahead += 1000 * arguments[0]; ", ""), 0, True)
    tell(f"/boards/{board}/tasks/{task}/reopen", "bob")
    browser.wait(IS_LISTED, "Paint the fence")
    expect("told of what came before one's eyes", False, browser.run(IS_SHOWN, "news"))


def at_once(office):
    """Two people change one description at once: who wrote first sees both texts, and takes theirs back."""
    browser, board = office.browser, new_board("At once", bob="member")
    task = add(board, description="Buy paint", entry="20260101T000000Z")
    office.begin(board)
    open_edit(office, board, task, "Buy paint")
    type_into(browser, "#edit-fields textarea", "Buy green paint")
    press(browser, "Save", "#edit-form")
    browser.wait("return !document.getElementById('edit-form').offsetParent")
    browser.wait(ALL_ANSWERED)
    tell(f"/boards/{board}/tasks/{task}/modify", "bob", description="Buy red paint")
    browser.wait(IS_TOLD, "You and bob changed Buy red paint at once.")
    browser.wait("return document.querySelector('#task-history .once')?.textContent.startsWith('You had set the description to Buy green paint')")
    office.shot("at-once")
    press(browser, "Undo their change", "#overlaps")
    browser.wait(ALL_ANSWERED)
    browser.wait("return document.getElementById('task-text').textContent === 'Buy green paint'")
    expect("after it is taken back", "Buy green paint", one_of(board, task)["description"])
    expect("told after that", 0, browser.run("return document.querySelectorAll('#overlaps li').length"))


def named(office):
    """Of three people who may change a board the one who completed a task first is named, and so is whoever changed a field."""
    browser, relay = office.browser, office.relay
    board = new_board("Named", bob="member", cleo="member")
    bins, roof = add(board, description="Take the bins out"), add(board, description="Fix the roof")
    office.begin(board)
    open_edit(office, board, roof, "Fix the roof")
    type_into(browser, "#edit-fields textarea", "Fix the whole roof")
    tell(f"/boards/{board}/tasks/{roof}/modify", "cleo", description="Fix half the roof")
    press(browser, "Save", "#edit-form")
    browser.wait(IS_TOLD, "The description was changed by cleo meanwhile. Choose one:")
    browser.size(390, 844)
    expect("choices that are seen in a narrow window", [True, True], browser.run("return [...document.querySelectorAll('.conflict label')].map((label) => label.checkVisibility({ visibilityProperty: true }) && label.getBoundingClientRect().left >= 0)"))
    browser.run("document.getElementById('panel').scrollTo(0, 0)")
    expect("Save stands at the foot, and no pencil beside the fields", [True, False], browser.run("return [Math.abs(document.getElementById('cancel-edit').parentElement.getBoundingClientRect().bottom - innerHeight) <= 1, document.getElementById('rename').checkVisibility()]"))
    browser.size(1280, 900)
    browser.click("#cancel-edit")
    browser.click("#close-panel")
    relay.break_off(LOSES_POSTS)
    browser.run("[...document.querySelectorAll('#list .row')].find((row) => row.textContent.includes('bins')).querySelector('.tick').click()")
    browser.wait(IS_TOLD, "1 change waits here")
    tell(f"/boards/{board}/tasks/{bins}/done", "cleo")
    heal(office)
    browser.wait(IS_TOLD, "cleo had completed Take the bins out already.")
    press(browser, "Dismiss", "#notices .already")


def asked_at_least(office, path, times):
    """Waits until the page has asked for a path that often, which it does every 3 s."""
    end = time.monotonic() + 3 * times + office.browser.patience
    while times_asked(office, path) < times and time.monotonic() < end:
        time.sleep(0.1)
    expect("asked for what is next, at least", times, min(times, times_asked(office, path)))


def asked_little(office):
    """The board is asked for once, as it opens; then its history every 3 s in sight, and only the tasks of which it tells something."""
    browser, board = office.browser, new_board("Little", bob="member")
    task = add(board, description="Paint the fence")
    office.begin(board)
    browser.wait(IS_SHOWN, "to-history")
    export, view = f"/boards/{board}/export", f"/boards/{board}/tasks/{task}"
    last = json.loads(ask(f"/boards/{board}/history"))["last"]
    opening = [export, *(f"/boards/{board}/history/{number}" for number in (BEYOND, last))]
    asked_at_least(office, f"/boards/{board}/history/{last + 1}", 3)
    expect("the board, as it opens and while nothing happens", [1, 1, 1], [times_asked(office, path) for path in opening])
    expect("the task, while nothing happens", 0, times_asked(office, view))
    tell(f"/boards/{board}/tasks/{task}/modify", "bob", description="Paint the long fence")
    browser.wait(IS_LISTED, "Paint the long fence")
    expect("the task, once something happened", 1, times_asked(office, view))
    browser.run("document.querySelector('#list .tick').click()")
    browser.wait(ALL_ANSWERED)
    browser.wait("return document.getElementById('count').textContent.startsWith('0 of')")
    number = last + 3
    browser.run(CLOCK)
    while not times_asked(office, f"/boards/{board}/history/{number}"):
        browser.run(PASS, 1, True)
        time.sleep(0.2)
    expect("the task, after one's own change", 2, times_asked(office, view))
    expect("the board, after all that", [1, 1, 1], [times_asked(office, path) for path in opening])
    tell(f"/boards/{board}/tasks/{task}/reopen")
    tell(f"/boards/{board}/tasks/{task}/modify", wait=at(5))
    browser.wait("return document.querySelector('#list .chip.waiting')")
    browser.wait("return document.querySelector('#list .row') && !document.querySelector('#list .chip.waiting')")


def of_boards(office):
    """How much was asked of the boards. (The browser asks for the page's files by itself.)"""
    return sum(path.startswith(("/boards", "/me")) for _, path in office.relay.asked)


def once_quiet(office):
    """How much was asked of the boards, once the looks that were under way have ended."""
    asked = None
    while asked != of_boards(office):
        asked = of_boards(office)
        time.sleep(1.5)
    return asked


def while_hidden(office):
    """A hidden page asks every 60 s, says in its title how much others did, and loads the board once it is looked at."""
    browser, board = office.browser, new_board("Hidden", bob="member")
    task = add(board, description="Paint the fence")
    office.begin(board)
    browser.wait(IS_SHOWN, "to-history")
    browser.wait(IS_LISTED, "Paint the fence")
    browser.run(CLOCK)
    browser.run("window.isAway = true; Object.defineProperty(document, 'hidden', { configurable: true, get: () => window.isAway })")
    asked = once_quiet(office)
    exports = times_asked(office, f"/boards/{board}/export")
    tell(f"/boards/{board}/tasks/{task}/modify", "bob", description="Paint the long fence")
    browser.run(PASS, 30, False)
    time.sleep(2.5)
    expect("asked within 30 s", asked, of_boards(office))
    browser.run(PASS, 31, False)
    browser.wait("return document.title.startsWith('(1) Hidden')")
    expect("the board, while nobody looks", exports, times_asked(office, f"/boards/{board}/export"))
    tell(f"/boards/{board}/title", title="Still hidden")
    browser.run(PASS, 61, False)
    browser.wait("return document.title.includes('Still hidden')")
    expect("the count behind a new name", True, browser.run("return document.title.startsWith('(1) ')"))
    browser.run("window.isAway = false; document.dispatchEvent(new Event('visibilitychange'))")
    browser.wait(IS_LISTED, "Paint the long fence")
    browser.wait(IS_TOLD, "1 change by bob since you looked")


def comes_due(office):
    """A repeat that comes due while the page is open has its next instance made, though nobody does anything."""
    browser, board = office.browser, new_board("Comes due")
    add(board, description="Water the plants", due=at(6), recur="daily")
    office.begin(board)
    browser.run("Math.random = () => 0")
    browser.wait("return document.getElementById('count').textContent === '1 of 1 tasks'")
    browser.wait("return document.getElementById('count').textContent === '2 of 2 tasks'")
    expect("who made it", ["ann", "sweep"], [json.loads(ask(f"/boards/{board}/history"))["entries"][-1][name] for name in ("member", "what")])


def day_asked_little(office):
    """My day asks each board for its history, and for the tasks of which that tells something."""
    KEYS["olga"] = "olga-key-1"
    browser, first, second = office.browser, new_board("Of a day", olga="member"), new_board("Of a day, too", olga="member")
    tasks = [add(board, description=f"Due on {board}", due=at(60), assignee="olga") for board in (first, second)]
    office.begin(first, "olga")
    browser.open("about:blank")
    browser.open(f"{office.address}#/day/mine")
    listed = "return [...document.querySelectorAll('#day-list .open')].filter((row) => row.textContent.startsWith(arguments[0])).length"
    for board in (first, second):
        browser.wait(listed + " === 1", f"Due on {board}")
    browser.wait("return !document.getElementById('day-told').textContent.includes(' of 1 ')")
    browser.run(CLOCK)
    before = [times_asked(office, f"/boards/{board}/export") for board in (first, second)]
    tell(f"/boards/{second}/tasks/{tasks[1]}/modify", description="Moved")
    browser.wait(listed + " === 1", "Moved")
    expect("exports", before, [times_asked(office, f"/boards/{board}/export") for board in (first, second)])


def said_in_scripts(office):
    """What a script's call said is read like a message's; what the history leaves out, or can't be read, is told without it."""
    task = "00000001-0000-8000-8000-000000000001"
    contents = (
        ("add", 'add\t1\t{"description":"Buy milk","due":"20260301T000000Z"}'),
        ("modify", f'modify\t1\t{task}\t{{"due":null,"project":"Home"}}'),
        ("annotate", f"annotate\t1\t{task}\tThe white one"),
        ("depend", f"depend\t1\t{task}\t{task}"),
        ("done", f"done\t1\t{task}"),
        ("modify", f'POST /boards/1/tasks/{task}/modify\n{{"due":"20260302T000000Z"}}'),
        ("role", "role\t1\tbob\tnone"),
        ("modify", None),
        ("modify", "POST /boards/1/tasks\n{"),
        ("title", "title\t1\tHome"),
    )
    entries = [{"what": what, "number": number, "member": "ann", "moment": "20260101T000000Z"} | ({} if content is None else {"content": content}) for number, (what, content) in enumerate(contents, 1)]
    told = office.browser.run("""return Promise.all([import("/sync/entries.js"), import("/views/deed.js")]).then(([{ deedsIn }, { toldOf }]) => deedsIn(arguments[0]).map((deed) => {
        const line = document.createElement("p");
        line.append(...toldOf(deed, () => "another"));
        return line.textContent;
    }))""", entries)
    wanted = ["added it", "took the due date 1 Mar 2026 out; set the project to Home", "added the note The white one", "made it wait for another", "completed it", "set the due date to 2 Mar 2026"]
    expect("told", [*wanted, "ended the role of bob", "changed it", "changed it", "renamed the board to Home"], told)


def before_history(office):
    """With a server that has no history all is as before: no view of it, no part of a task's, and the board is asked for by the clock."""
    browser, board = office.browser, new_board("Before")
    end = without_history(browser)
    task = add(board, description="Paint the fence")
    office.begin(board)
    open_task(office, board, task)
    browser.wait("return document.getElementById('task-facts').textContent.includes('Made')")
    expect("shown", [False] * 3, [browser.run(IS_SHOWN, name) for name in ("to-history", "history-part", "news")])
    browser.click("#close-panel")
    add(board, description="From elsewhere")
    browser.run(CLOCK)
    browser.run(PASS, 16, True)
    browser.wait(IS_LISTED, "From elsewhere")
    end()


SCENES = (of_task, of_board, since_looked, at_once, named, asked_little, while_hidden, comes_due, day_asked_little, said_in_scripts, before_history)

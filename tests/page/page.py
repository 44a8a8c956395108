"""The page in a real browser, as people use it: python3 page.py BROWSER PROGRAM PORT SLACK PAGE, in a folder that it may write to.

SLACK is how many times longer than on a machine without other work things may take. With SHOTS pictures of each view are left in that folder;
with SCENES, names of scenes with commas between them, these alone are played."""
import datetime
import json
import os
import pathlib
import random
import re
import statistics
import subprocess
import sys
import time
import uuid

import page_day
import page_days
import page_everywhere
import page_files
import page_history
import page_judging
import page_keys
import page_look
import page_several
import page_views
import page_words
from office import ALL_ANSWERED, BACKSPACE, BROWSER, DOWN, ENTER, IS_LISTED, IS_TOLD, KEYS, LISTED, LOOK, PAGE, PROGRAM, SHOTS, SLACK, Office, add, ask, descriptions, expect, new_board, tasks, tell
from relay import LOSES_ANSWERS, LOSES_POSTS
from talking import end_by_signal, make_file
from webdriver import STRANGER, Browser

# How soon a board of 10,000 tasks is shown, in seconds, how long the page may keep the browser from drawing, in milliseconds, and what ten
# people's looks within 15 s may take of the server's processor, in seconds.
SHOWN_WITHIN, STALL, LOOKS = 1.5, 100, 1.5
# From here on the pieces of the page's work that took 50 ms and more are noted, and one of none.
WATCH = "window.stalls = [0]; new PerformanceObserver((list) => stalls.push(...list.getEntries().map((entry) => entry.duration))).observe({ type: 'longtask' })"
# How many times longer a piece of work may take than where nothing else runs: the slowest of equal pieces, against the quickest.
BUSY = """const [times, end] = [[], performance.now() + 5000];
while (times.length < 5 || (times.length < 40 && performance.now() < end)) {
    const begun = performance.now();
    for (let at = 0, sum = 0; at < 6000000; at++) sum += at % 7;
    times.push(performance.now() - begun);
}
return Math.max(...times) / Math.min(...times);"""
# What an act may cost the page until it is painted, in milliseconds of a processor: a key, a click, a frame of scrolling. What steers the
# page isn't counted, nor what other threads of the browser draw.
KEY, CLICK, FRAME = 16, 50, 32
PAINTED = "return new Promise((done) => requestAnimationFrame(() => setTimeout(done, 0, true)))"
FRAMES = 30
SCROLLED = f"""return new Promise((done) => {{
    let left = {FRAMES};
    const step = () => {{
        if (left-- === 0) return done(true);
        scrollBy(0, 400);
        requestAnimationFrame(step);
    }};
    step();
}})"""
# How long real keys and clicks took until they were shown, as the browser itself times them, to 8 ms; those of less than 16 ms aren't told. Each
# waits for the next frame, at most so long beyond its work. And how long the frames of scrolling took.
TIMED = "window.timed = []; new PerformanceObserver((list) => timed.push(...list.getEntries().map(({ name, duration }) => [name, duration]))).observe({ type: 'event', durationThreshold: 16 })"
UNTIL_FRAME = 24
PACED = SCROLLED.replace("let left", "const at = []; let left").replace("const step = () => {", "const step = () => { at.push(performance.now());").replace("done(true)", "done(at.slice(1).map((one, place) => one - at[place]))")
EMPTIED = "const field = document.getElementById(arguments[0]); field.focus(); field.value = ''; field.dispatchEvent(new Event('input', { bubbles: true }))"
CLICKED = ("#list .row:nth-child(3) .open", "#close-panel", "#list .tick:not(.ticked)", "#as-columns", "#as-list")
CLICKS = [f"document.querySelector('{what}').click()" for what in CLICKED]
# Whether a device keeps nothing beside how boards were left.
NOTHING_BUT_FILTERS = "return [sessionStorage, localStorage].every((place) => Object.keys(place).every((key) => / (filters|looked)$/.test(key)))"
# Once what was put on the device before stands there.
IS_KEPT = """return new Promise((done) => {
    indexedDB.open("taskboard").onsuccess = ({ target }) => {
        target.result.transaction("changes").objectStore("changes").count().onsuccess = () => done(true);
    };
});"""


def first_steps(office):
    """Signing in, adding, completing and its way back, notes, dependencies, changes, repeating tasks."""
    browser = office.browser
    office.sign_in("ann", "another-key")
    browser.wait(IS_TOLD, "doesn't know this name with this key")
    expect_release(browser)
    office.shot("sign-in")
    office.sign_in("Ann ", KEYS["ann"] + " ")
    browser.wait("return document.getElementById('count')?.textContent")
    expect("who is in", "ann", browser.run("return document.getElementById('who').textContent"))
    browser.press("n")
    expect("where a key leads after signing in", "add-line", browser.run("return document.activeElement.id"))
    for line in ("(A) Call Mom +Family @phone due:2026-01-31", "Buy milk @shop", "Paint the fence"):
        browser.type("#add-line", line + ENTER + ENTER)
        browser.wait(ALL_ANSWERED)
    browser.wait("return document.querySelectorAll('#list .row').length === 3")
    expect("order", ["Call Mom", "Buy milk", "Paint the fence"], browser.run(LISTED))
    mom = {name: value for name, value in tasks(1)[0].items() if name in ("project", "priority", "tags", "due", "status")}
    expect("a line", {"project": "Family", "priority": "H", "tags": ["phone"], "due": "20260131T000000Z", "status": "pending"}, mom)
    by_keyboard(browser)
    browser.run("[...document.querySelectorAll('#list .open')].find((row) => row.textContent === 'Paint the fence').click()")
    browser.wait("return document.getElementById('task-text').textContent === 'Paint the fence'")
    browser.type("#note-text", "Green, two tins" + ENTER)
    browser.wait("return document.querySelectorAll('#task-notes li').length === 1")
    browser.type("#depend-text", "milk")
    browser.wait("return document.querySelectorAll('#depend-choices button').length === 1")
    browser.type("#depend-text", ENTER)
    browser.wait("return document.getElementById('task-status').textContent.includes('blocked')")
    browser.click("#edit")
    browser.run("document.querySelector('#edit-fields select').value = 'M'")
    browser.click("#edit-form .primary")
    browser.wait("return document.getElementById('task-facts').textContent.includes('medium')")
    office.shot("task")
    browser.click("#close-panel")
    repeat(office)
    browser.wait(ALL_ANSWERED)
    office.shot("tasks")


def expect_release(browser):
    """The sign-in names the newest release, as the changes head it."""
    changes = (pathlib.Path(PAGE).parent / "CHANGELOG.md").read_text()
    newest = re.search(r"^## (.*)$", changes, re.MULTILINE)[1]
    expect("the release", f"Release {newest}", browser.run("return document.getElementById('release').innerText"))


def by_keyboard(browser):
    """Completes the second task by keys alone, and takes that back."""
    browser.run("document.querySelector('#list .open').focus()")
    browser.press(DOWN, "e")
    browser.wait("return document.querySelectorAll('#list .row').length === 2")
    browser.wait(ALL_ANSWERED)
    expect("done", "completed", tasks(1)[1]["status"])
    browser.click("#toast button")
    browser.wait(IS_LISTED, "Buy milk")
    browser.wait(ALL_ANSWERED)
    expect("taken back", "pending", tasks(1)[1]["status"])


def repeat(office):
    """A task that repeats, and the row of its instances; then three of them ahead of their dates."""
    browser = office.browser
    browser.click("#add-more")
    browser.type("#add-line", "Water the plants due:" + str(datetime.date.today() - datetime.timedelta(days=8)))
    browser.type("#add-fields input[placeholder=weekly]", "weekly" + ENTER)
    browser.wait(IS_LISTED, "Water the plants")
    browser.click("#add-more")
    office.go(1, "repeating")
    browser.wait("return document.querySelectorAll('.mask .cell').length === 3")
    browser.run("document.querySelector('.mask button').click()")
    browser.wait("return document.getElementById('task-actions').textContent.startsWith('Done')")
    browser.click("#task-actions .primary")
    browser.wait("return document.querySelectorAll('.mask .completed').length === 1")
    browser.click("#close-panel")
    browser.type("#ahead", "3" + ENTER)
    browser.wait("return document.querySelectorAll('.mask .cell').length === 5")
    browser.wait(ALL_ANSWERED)
    office.shot("repeating")
    office.go(1)


def people(office):
    """Adding a person and roles; what is refused is told in words."""
    browser = office.browser
    office.go(1, "people")
    browser.wait("return document.querySelectorAll('#people li').length === 1")
    browser.type("#person-name", "Bob ")
    browser.type("#person-key", KEYS["bob"] + ENTER)
    browser.wait("return document.querySelectorAll('#people li').length === 2")
    browser.wait(ALL_ANSWERED)
    browser.run("const role = document.querySelector('#people select'); role.value = 'member'; role.dispatchEvent(new Event('change'))")
    browser.wait(IS_TOLD, "left without an owner")
    browser.wait("return document.querySelector('#people select').value === 'owner'")
    office.shot("people")
    browser.run("document.querySelector('#notices .quiet').click()")
    browser.wait("return document.querySelectorAll('#notices li').length === 0")
    give_up(office)


def give_up(office):
    """An owner beside another one is asked before the own role ends."""
    browser = office.browser
    roles = "return [...document.querySelectorAll('#people select')].map((select) => select.value).join()"
    tell("/boards/1/roles", member="bob", role="owner")
    office.go(1)
    office.go(1, "people")
    browser.wait(f"{roles} === 'owner,owner'")
    browser.run("const role = document.querySelector('#people select'); role.value = 'member'; setTimeout(() => role.dispatchEvent(new Event('change')))")
    expect("asked", "Give up your role of owner? Only another owner can make you one again.", browser.answer_question(False))
    expect("roles", "owner,owner", browser.run(roles))
    tell("/boards/1/roles", member="bob", role="member")


def killed_server(office):
    """The server is killed between a click and its answer, and starts again: the change is there once. So it is where the page is loaded anew."""
    browser, relay = office.browser, office.relay
    office.go(1)
    relay.break_off(LOSES_ANSWERS)
    browser.type("#add-line", "Acts before the kill" + ENTER)
    relay.lost.wait(browser.patience)
    office.server.end()
    browser.wait(IS_TOLD, "1 change waits here")
    browser.type("#add-line", "Is made while nobody is there" + ENTER)
    browser.wait(IS_TOLD, "2 changes wait here")
    browser.run("document.querySelector('#list .tick').click()")
    browser.wait(IS_TOLD, "3 changes wait here")
    browser.click("#state")
    office.shot("unanswered")
    office.start()
    relay.break_off(LOSES_POSTS)
    browser.open("about:blank")
    browser.open(office.address)
    browser.wait(IS_TOLD, "3 changes wait here")
    expect("before they are sent again", 1, descriptions(1).count("Acts before the kill"))
    relay.heal()
    browser.run("dispatchEvent(new Event('online'))")
    browser.wait(ALL_ANSWERED)
    for name in ("Acts before the kill", "Is made while nobody is there"):
        browser.wait(IS_LISTED, name)
        expect(f"tasks {name!r}", 1, descriptions(1).count(name))
    expect("clicked", ["completed", 0], [tasks(1)[0]["status"], browser.run("return document.querySelectorAll('#notices li').length")])


def two_tabs(office):
    """Two people on one board, in two tabs; and two tabs of one person, whose changes go in their order."""
    browser, relay = office.browser, office.relay
    [anns] = browser.tabs()
    browser.new_tab()
    office.enter("bob")
    browser.type("#add-line", "Of bob" + ENTER)
    browser.wait(IS_LISTED, "Of bob")
    office.go(1, "people")
    browser.wait("return document.querySelectorAll('#people li').length === 2 && !document.querySelector('#people select')")
    bobs = browser.call("GET", "/window")
    browser.to_tab(anns)
    # (a page that asked less than a second ago asks no more, so it's looked at again)
    browser.wait("dispatchEvent(new Event('focus')); " + IS_LISTED, "Of bob")
    relay.break_off(LOSES_POSTS)
    browser.type("#add-line", "First" + ENTER)
    browser.new_tab()
    office.enter("ann")
    browser.wait(IS_TOLD, "1 change waits here")
    browser.type("#add-line", "Second" + ENTER)
    browser.wait(IS_TOLD, "2 changes wait here")
    other = browser.call("GET", "/window")
    browser.to_tab(anns)
    browser.type("#add-line", "Third" + ENTER)
    browser.wait(IS_TOLD, "3 changes wait here")
    relay.heal()
    browser.run("dispatchEvent(new Event('online'))")
    browser.wait(ALL_ANSWERED)
    expect("of two tabs", ["First", "Second", "Third"], descriptions(1)[-3:])
    for tab in (other, bobs):
        browser.to_tab(tab)
        browser.call("DELETE", "/window")
    browser.to_tab(anns)


def plain_http(office):
    """From another machine without TLS a browser has no locks and makes no uuids: two tabs still send in order, each change once."""
    browser, relay = office.browser, office.relay
    [anns] = browser.tabs()
    browser.new_tab()
    ours, office.address = office.address, f"http://{STRANGER}:{relay.port}/"
    office.enter("ann")
    expect("locks", [False, False], browser.run("return [isSecureContext, 'locks' in navigator]"))
    first = browser.call("GET", "/window")
    browser.new_tab()
    office.enter("ann")
    names = [f"Plain {number}" for number in range(6)]
    for number, name in enumerate(names):
        browser.to_tab([first, browser.tabs()[-1]][number % 2])
        browser.type("#add-line", name + ENTER)
        browser.wait(IS_KEPT)
    browser.wait(ALL_ANSWERED)
    expect("of two tabs without locks", names, descriptions(1)[-6:])
    for tab in browser.tabs():
        if tab != anns:
            browser.to_tab(tab)
            browser.call("DELETE", "/window")
    browser.to_tab(anns)
    office.address = ours


def hostile_texts(office):
    """Texts that would be code, turn what stands around them or fill the window: nothing runs, and the layout stands."""
    browser, board = office.browser, new_board("<b>Hostile</b> \u202egnihton")
    code = ["<img src=x onerror=\"window.ran=1\">", "</script><script>window.ran=1</script>", "\"><svg onload=window.ran=1>", "javascript:window.ran=1", "{{constructor.constructor('window.ran=1')()}}"]
    turned = ["\u202e\u2066right to left\u202c", "\u0001\u0007\u001b[31m\u007f\u0085\u2028", "e\u0301" * 2000, "\U0001f469\u200d\U0001f467" * 500]
    long = ["W" * 16384, "ш" * 8192, " ".join(["word"] * 3000)]
    for text in (*code, *turned, *long):
        tag = "".join(text.split())[:4000] or "x"
        uuid_of = add(board, description=text, project=text, tags=[tag], own=text)
        ask(f"/boards/{board}/tasks/{uuid_of}/annotate", json.dumps({"description": text}).encode())
    browser.open(office.address)
    browser.wait("return document.getElementById('count')?.textContent")
    office.go(board)
    browser.wait("return document.querySelectorAll('#list .row').length === arguments[0]", len(code + turned + long))
    heights = set(browser.run("return [...document.querySelectorAll('#list .row')].map((row) => row.offsetHeight)"))
    expect("heights of rows", 1, len(heights))
    office.shot("hostile")
    for task in tasks(board):
        office.go(board, "tasks", task["uuid"])
        browser.wait("return document.getElementById('task-text').textContent.length > 0 && location.hash.includes(arguments[0])", task["uuid"])
        expect("a text", task["description"], browser.run("return document.getElementById('task-text').textContent"))
        wide = browser.run("return document.documentElement.scrollWidth")
        expect("wider than the window", False, wide > 1280)
    office.shot("hostile-task")
    expect("scripts and images", [2, 1], browser.run("return [document.scripts.length, document.images.length]"))
    expect("code ran", None, browser.run("return window.ran ?? null"))
    browser.click("#close-panel")


def linked_tasks(count):
    """As many tasks of Taskwarrior, each of which depends on one that stands behind it in the list, so a cut has to put them in order."""
    chance = random.Random(1)
    names = [str(uuid.UUID(int=chance.getrandbits(128), version=4)) for _ in range(count)]
    words = "call write paint buy check plan review order clean book".split()
    for place, name in enumerate(names):
        day = datetime.datetime(2026, 1, 1) + datetime.timedelta(hours=chance.randrange(9000))
        task = {"uuid": name, "description": f"{chance.choice(words)} number {place}", "status": "pending", "entry": f"{day:%Y%m%dT%H%M%SZ}", "tags": [chance.choice(words)]}
        task |= {"project": chance.choice(words)} if place % 3 else {"priority": chance.choice("HML")}
        task |= {"due": f"{day + datetime.timedelta(days=300):%Y%m%dT%H%M%SZ}"} if place % 4 == 0 else {}
        task |= {"depends": [names[place + 1 + chance.randrange(count - place - 1)]]} if place % 5 == 0 and place < count - 1 else {}
        yield task


def imports(office):
    """A Taskwarrior export in three parts with no link lost, a todo.txt file, one that can't be read; and the export as a file."""
    browser = office.browser
    browser.click("#new-board")
    browser.type("#board-title", "Taken in" + ENTER)
    board = int(browser.wait("return document.title.startsWith('Taken in') && document.getElementById('nothing').offsetParent && location.hash.split('/')[1]"))
    office.go(board, "files")
    sent = list(linked_tasks(2300))
    for name, text in (("export.json", json.dumps(sent)), ("todo.txt", "(A) Call Mom +Family\nBuy tea\n"), ("broken.json", "[{\"description\":")):
        pathlib.Path(name).write_text(text)
        browser.type("#import-file", os.path.abspath(name))
        browser.wait("return document.getElementById('import-told').textContent")
        office.shot("files")
        if not browser.run("return document.getElementById('import-send').disabled"):
            browser.click("#import-send")
            browser.wait(ALL_ANSWERED)
    browser.wait(IS_TOLD, "(3 of 3 parts): 2,300 new; 0 known")
    browser.wait(IS_TOLD, "2 new; 0 known")
    browser.wait(IS_TOLD, "the file breaks off in it")
    stored = {task["uuid"]: task for task in tasks(board)}
    expect("tasks that were taken in", 2302, len(stored))
    expect("links", {task["uuid"]: task["depends"] for task in sent if "depends" in task}, {name: task["depends"] for name, task in stored.items() if "depends" in task})
    browser.tell("Browser.setDownloadBehavior", behavior="allow", downloadPath=os.getcwd())
    browser.click("#save-export")
    [file] = saved_files("Taken-in-*.json", browser.patience)
    expect("the export as a file", ask(f"/boards/{board}/export"), file.read_text())
    browser.wait("return document.querySelectorAll('#notices button').length === 2")
    # (they would be told on every board)
    browser.run("document.querySelectorAll('#notices button').forEach((away) => away.click())")
    browser.wait("return document.querySelectorAll('#notices li').length === 0")


def saved_files(pattern, patience):
    end = time.monotonic() + patience
    while time.monotonic() < end:
        found = list(pathlib.Path().glob(pattern))
        if found:
            return found
        time.sleep(0.05)
    sys.exit(f"no file {pattern} was saved")


def cost(browser, act):
    """What an act costs the page's thread until it is painted, in milliseconds of a processor, whatever else the machine does."""

    def used():
        told = {one["name"]: one["value"] for one in browser.tell("Performance.getMetrics")["metrics"]}
        return told["TaskDuration"] - told["DevToolsCommandDuration"]

    before = used()
    act()
    browser.run(PAINTED)
    return 1000 * (used() - before)


def costs(office):
    """What a key, a click and a frame of scrolling cost on the board that is shown: of each kind the dearest act, in the middle of its tries."""
    browser, relay = office.browser, office.relay
    browser.tell("Performance.enable", timeDomain="threadTicks")
    keys = []
    for field in ("filter-text", "add-line"):
        browser.run(EMPTIED, field)
        keys.append([cost(browser, lambda text=letter: browser.tell("Input.insertText", text=text)) for letter in "number 9"])
        browser.run(EMPTIED, field)
    # (what comes with an answer isn't of the click)
    relay.break_off(LOSES_POSTS)
    clicks = zip(*([cost(browser, lambda: browser.run(script)) for script in CLICKS] for _ in range(3)))
    frames = cost(browser, lambda: browser.run(SCROLLED)) / FRAMES
    relay.heal()
    browser.run("scrollTo(0, 0); dispatchEvent(new Event('online'))")
    browser.wait(ALL_ANSWERED)
    return *(max(map(statistics.median, tries)) for tries in (keys, clicks)), frames


def times(office):
    """How long a key, a click and a frame of scrolling take on the board that is shown, by the clock: of each the middle of its tries."""
    browser, relay = office.browser, office.relay

    def middle(name, count, act):
        browser.run("timed.length = 0")
        act()
        browser.run(PAINTED)
        told = [duration for kind, duration in browser.run("return timed") if kind == name]
        return statistics.median(told + [0] * (count - len(told)))

    def type_letters():
        for letter in "number 9":
            browser.type("#filter-text", letter)

    browser.run(TIMED)
    key = middle("keydown", 8, type_letters)
    browser.run(EMPTIED, "filter-text")
    relay.break_off(LOSES_POSTS)
    click = max(statistics.median(tries) for tries in zip(*([middle("click", 1, lambda: browser.click(what)) for what in CLICKED] for _ in range(3))))
    frame = statistics.median(browser.run(PACED))
    relay.heal()
    browser.run("scrollTo(0, 0); dispatchEvent(new Event('online'))")
    browser.wait(ALL_ANSWERED)
    return key, click, frame


def large_board(office):
    """A board of 10,000 tasks: shown soon, in the listing's order, typed into without a stall, and cheap to look at."""
    browser = office.browser
    office.begin(1)
    board = new_board("Large")
    large = list(linked_tasks(9998))
    for part in range(9, -1, -1):
        ask(f"/boards/{board}/import", json.dumps(large[part * 1000 : part * 1000 + 1000]).encode())
    browser.open(office.address + f"#/{board}/tasks")
    browser.call("POST", "/refresh")
    shown = browser.wait("return document.querySelectorAll('#list .row').length > 10 && performance.now()") / 1000
    busy = [browser.run(BUSY)]
    browser.run(WATCH)
    listed = [line[49:] for line in ask(f"/boards/{board}/list").splitlines()[1:11]]
    expect("order", listed, browser.run(LISTED)[:10])
    expect("all of them", "9,998 of 9,998 tasks", browser.run("return document.getElementById('count').textContent"))
    for letter in "number 99":
        browser.type("#filter-text", letter)
    add(board, description="From elsewhere")
    browser.run(LOOK)
    for letter in "Typed meanwhile" + ENTER:
        browser.type("#add-line", letter)
    browser.wait(ALL_ANSWERED)
    browser.type("#filter-text", BACKSPACE * 9)
    browser.wait("return document.getElementById('count').textContent === '10,000 of 10,000 tasks'")
    browser.run("scrollTo(0, 100000)")
    stall = max(browser.wait("return stalls.length > 0 && stalls"))
    busy.append(browser.run(BUSY))
    browser.run("scrollTo(0, 0)")
    office.shot("large")
    used = office.server.seconds_used()
    for _ in range(10):
        ask(f"/boards/{board}/export")
    used = office.server.seconds_used() - used
    key, click, frame = costs(office)
    shown_key, shown_click, shown_frame = times(office)
    figures = f"10,000 tasks shown after {shown:.2f} s, the longest stall {stall:.0f} ms where work takes up to {max(busy):.1f} times its time, ten looks {used:.2f} s of the server"
    figures += f", until it is painted a key {key:.0f} ms of a processor, a click {click:.0f}, a frame of scrolling {frame:.0f}; by the clock {shown_key:.0f}, {shown_click:.0f} and {shown_frame:.0f} ms"
    slack = max(SLACK, *busy)
    is_dear = key > KEY * slack or click > CLICK * slack or frame > FRAME * slack
    is_late = shown_key > (KEY + UNTIL_FRAME) * slack or shown_click > (CLICK + UNTIL_FRAME) * slack or shown_frame > FRAME * slack
    if shown > SHOWN_WITHIN * slack or stall > STALL * slack or used > LOOKS or is_dear or is_late:
        sys.exit(f"too slow: {figures}")
    office.figures.append(figures)


def last_steps(office):
    """Signing out forgets the key, and keeps how boards were left; no fault was told on the way but for messages that were lost or refused."""
    browser = office.browser
    browser.click("#sign-out")
    browser.wait("return document.getElementById('sign-in-form').offsetParent")
    expect_release(browser)
    browser.wait(NOTHING_BUT_FILTERS)
    kept = browser.run(page_words.DEVICE)
    expect("the key, and what was searched for", [False, False], [KEYS["ann"] in kept, "text=" in kept])
    told = [message for message in browser.messages() if "Failed to load resource" not in message]
    expect("faults", [], told)


SCENES = (
    *(first_steps, people, killed_server, two_tabs, plain_http, hostile_texts, imports),
    *page_everywhere.SCENES,
    *page_files.SCENES,
    *page_judging.SCENES,
    *page_views.SCENES,
    *page_look.SCENES,
    *page_several.SCENES,
    *page_day.SCENES,
    *page_words.SCENES,
    *page_days.SCENES,
    *page_keys.SCENES,
    *page_history.SCENES,
    *(large_board, last_steps),
)


def play(office):
    """Plays the chosen scenes, or all of them. How many those were."""
    chosen = os.environ.get("SCENES", "").split(",")
    scenes = [scene for scene in SCENES if scene.__name__ in chosen or chosen == [""]]
    for scene in scenes:
        begun = time.monotonic()
        scene(office)
        if SHOTS or chosen != [""]:
            print(f"{scene.__name__}: {time.monotonic() - begun:.1f} s", flush=True)
    return len(scenes)


end_by_signal()
make_file(PROGRAM)
with Browser(BROWSER, 10 * SLACK) as browser:
    browser.size(1280, 900)
    office = Office(browser)
    try:
        played = play(office)
    finally:
        office.server.end()
checked = subprocess.run([PROGRAM, "check", "b.db"], check=True, stdout=subprocess.PIPE, text=True).stdout.strip()
expect("faults of the file", True, checked.endswith("faults 0"))
print("; ".join([f"the page in a browser: {played} scenes", *office.figures]))

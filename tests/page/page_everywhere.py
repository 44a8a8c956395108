"""Scenes of the page everywhere: without a line, by keys, in print, for readers."""
import base64
import json
import pathlib
import re
import shutil
import time

import page_content
from office import ALL_ANSWERED, ENTER, ESCAPE, IS_LISTED, IS_TOLD, KEYS, PAGE, SHOTS, TAB, add, ask, descriptions, expect, know, new_board, tasks, tell
from page_history import CLOCK, PASS, without_history
from page_several import CONTROL, press

# The names of what the worker keeps, and the paths of the files in it.
KEPT = """return caches.keys().then(async (names) => {
    const caught = await Promise.all(names.map(async (name) => (await caches.open(name)).keys()));
    return [names.length, caught.flat().map(({ url }) => new URL(url).pathname).sort()];
})"""
IS_CONTROLLED = "return Boolean(navigator.serviceWorker.controller)"
# Once the copy of a board stands on the device.
IS_SEEN = """return new Promise((done) => {
    indexedDB.open("taskboard-copies", 1).onsuccess = ({ target }) => {
        target.result.transaction("boards").objectStore("boards").getAllKeys().onsuccess = ({ target }) => done(target.result.includes(arguments[0]));
    };
})"""
HAS_FOCUS = "return document.activeElement !== null && document.activeElement !== document.body"
IS_OPEN = "return document.getElementById('task-actions').checkVisibility() || document.getElementById('task-facts').checkVisibility()"
HAS_COME = {
    "repeating": "return document.getElementById('no-templates').textContent",
    "people": "return document.querySelectorAll('#people li').length === 2",
    "files": "return document.getElementById('save-export').offsetParent",
}
IS_SHOWN = "return Boolean(document.querySelector(arguments[0])?.offsetParent)"


def files_asked(office):
    return [path for method, path in office.relay.asked if method == "GET" and (path == "/" or "." in path) and path != "/worker.js"]


def without_a_line(office):
    """The page opens while the server is away: its files and the board are on the device, with their age, and a change waits."""
    browser, board = office.browser, new_board("Train")
    add(board, description="Read on the way")
    office.begin(board)
    browser.wait(IS_LISTED, "Read on the way")
    browser.wait(IS_CONTROLLED)
    browser.wait(IS_SEEN, f"ann {board}")
    office.relay.asked.clear()
    office.begin(board)
    browser.wait(IS_LISTED, "Read on the way")
    expect("files loaded at a second start", [], files_asked(office))
    names = {"/" if path == "index.html" else f"/{path}" for path in page_content.files_of(pathlib.Path(PAGE))}
    expect("files that are kept", [1, sorted(names - {"/worker.js", "/types.js"} | {"/kept/compared"})], browser.run(KEPT))
    office.server.end()
    browser.open("about:blank")
    browser.open(f"{office.address}#/{board}/tasks")
    browser.wait(IS_LISTED, "Read on the way")
    browser.wait(IS_TOLD, "The tasks are shown as they were seen here")
    browser.type("#add-line", "Written on the way" + ENTER)
    browser.wait(IS_TOLD, "1 change waits here")
    office.shot("without-a-line")
    office.go(board, "history")
    browser.wait(IS_TOLD, "The server doesn't answer. The history comes when it does.")
    browser.run("location.hash = '/day'")
    browser.wait(IS_TOLD, ", as seen here less than a minute ago")
    office.go(board, "history")
    office.start()
    browser.run("dispatchEvent(new Event('online'))")
    browser.wait(IS_TOLD, "You added Written on the way")
    office.go(board)
    browser.wait(ALL_ANSWERED)
    browser.wait(IS_LISTED, "Written on the way")
    expect("written on the way", ["Read on the way", "Written on the way"], descriptions(board))
    browser.wait("return !document.getElementById('age').offsetParent")


def seen_beside(office):
    """What someone has seen stays for their next start without a line, though another person signs in and out in a tab beside, and goes when they do."""
    browser, board = office.browser, new_board("Beside", bob="member")
    add(board, description="Seen before")
    office.begin(board)
    browser.wait(IS_LISTED, "Seen before")
    browser.wait(IS_SEEN, f"ann {board}")
    [anns] = browser.tabs()
    browser.new_tab()
    office.begin(board, "bob")
    browser.wait(IS_SEEN, f"bob {board}")
    browser.click("#sign-out")
    browser.wait(f"return new Promise((done) => setTimeout(done, 100)).then(() => {{ {IS_SEEN} }}).then((is) => !is)", f"bob {board}")
    browser.call("DELETE", "/window")
    browser.to_tab(anns)
    office.server.end()
    browser.call("POST", "/refresh")
    browser.wait(IS_LISTED, "Seen before")
    office.start()
    browser.run("dispatchEvent(new Event('online'))")
    browser.wait("return !document.getElementById('age').offsetParent")


# Takes the copies of views off the device.
FORGET = """return Promise.all(["taskboard-seen", "taskboard-copies"].map((name) => new Promise((done) => (indexedDB.open(name, 1).onsuccess = ({ target }) => {
    const all = target.result.transaction([...target.result.objectStoreNames], "readwrite");
    for (const name of all.objectStoreNames) all.objectStore(name).clear();
    all.oncomplete = done;
})))).then(() => true)"""


def without_copies(office):
    """A page that has no copies and no server says so, and shows the boards once the server answers."""
    browser, board = office.browser, new_board("Never seen")
    add(board, description="Not kept here")
    office.begin(board)
    browser.wait(IS_LISTED, "Not kept here")
    browser.wait(IS_CONTROLLED)
    office.server.end()
    browser.run(FORGET)
    browser.call("POST", "/refresh")
    browser.wait(IS_TOLD, "The server doesn't answer, and this device hasn't seen your boards.")
    office.start()
    browser.run("dispatchEvent(new Event('online'))")
    browser.wait(IS_LISTED, "Not kept here")
    expect("told of an answer", False, browser.run(IS_TOLD, "hasn't seen your boards"))


def start_is_lost(office):
    """A page whose first module doesn't come once loads itself anew, so that nobody looks at an empty window."""
    browser, board = office.browser, new_board("Lost start")
    add(board, description="Comes after all")
    office.begin(board)
    browser.wait(IS_LISTED, "Comes after all")
    browser.tell("Network.enable")
    browser.tell("Network.setBlockedURLs", urls=["*/start.js"])
    browser.call("POST", "/refresh")
    browser.wait("return sessionStorage.getItem('taskboard.tries') !== null")
    browser.tell("Network.setBlockedURLs", urls=[])
    browser.wait(IS_LISTED, "Comes after all")
    browser.messages()


def newer_version(office):
    """A server with other files: what is open goes on as it is, says so, and the next start has the new files, all of them and no old one."""
    browser, board = office.browser, new_board("Renewed")
    office.begin(board)
    browser.wait(IS_CONTROLLED)
    [_, before] = browser.run(KEPT)
    office.page = "page-renewed"
    shutil.copytree(PAGE, office.page)
    index = pathlib.Path(office.page, "index.html")
    index.write_text(index.read_text().replace("<title>", '<link rel="help" href="renewed.svg"><title>'))
    shutil.copy(f"{PAGE}/icons/icon.svg", f"{office.page}/renewed.svg")
    office.restart()
    office.begin(board)
    expect("files of the version before", 0, browser.run("return document.querySelectorAll('link[rel=help]').length"))
    browser.wait(IS_SHOWN, "#renewed")
    browser.click("#load-renewed")
    browser.wait("return document.querySelectorAll('link[rel=help]').length === 1 && document.getElementById('count')?.textContent")
    expect("files of the newer version", [1, sorted([*before, "/renewed.svg"])], browser.run(KEPT))
    office.page = PAGE
    office.restart()
    office.begin(board)
    browser.wait(IS_SHOWN, "#renewed")
    office.begin(board)
    expect("the first version again", [1, before], browser.run(KEPT))
    as_long_as_before(office, board)


def as_long_as_before(office, board):
    """A version whose files are as long as before, so that nothing but their content tells of it, is found at the next start too, and within
    minutes by a page that stays open."""
    browser = office.browser
    office.page = "page-as-long"
    shutil.copytree(PAGE, office.page)
    view = pathlib.Path(office.page, "views/addline.js")
    view.write_text(view.read_text().replace('placeholder="Add a task"', 'placeholder="Put a task"'))
    page_content.write(pathlib.Path(office.page))
    for page in (office.page, PAGE):
        office.page = page
        office.restart()
        office.begin(board)
        browser.wait(IS_SHOWN, "#renewed")
        office.begin(board)
        wanted = "Add a task" if page == PAGE else "Put a task"
        expect("the version after the next start", wanted, browser.run("return document.getElementById('add-line').placeholder"))
    browser.run(CLOCK)
    office.page = "page-as-long"
    office.restart()
    browser.run(PASS, 301, True)
    browser.wait(IS_SHOWN, "#renewed")
    office.page = PAGE
    office.restart()
    office.begin(board)
    browser.wait(IS_SHOWN, "#renewed")
    office.begin(board)


def by_keys(office):
    """All is done by keys, and at no step is the focus lost to the body."""
    browser, board = office.browser, new_board("Keys")
    first, second = add(board, description="Zero", priority="H"), add(board, description="One")
    tell(f"/boards/{board}/tasks/{first}/annotate", description="See https://example.org/a_(b), or javascript:alert(1).")
    tell(f"/boards/{board}/tasks/{first}/depend", on=second)
    office.begin(board)
    browser.wait(IS_LISTED, "One")
    expect("a row's name", "Zero, priority high, blocked", browser.run("return [...document.querySelectorAll('#list .open')].find((row) => row.textContent === 'Zero').ariaLabel"))
    browser.press("?")
    browser.wait(IS_TOLD, "Complete or reopen the task")
    expect("keys that are shown", True, {"n", "/", "b", "1"} <= set(browser.run("return [...document.querySelectorAll('#keys-shown kbd')].map((key) => key.textContent)")))
    browser.press(ESCAPE, "n", *"Two", ENTER)
    browser.wait(IS_LISTED, "Two")
    for keys, done in (
        ((TAB,), HAS_FOCUS),
        ((), "document.querySelector('#list .open[tabindex=\"0\"]').focus(); return true"),
        ((ENTER,), IS_OPEN),
        (("m", *"Tea", ENTER), "return document.querySelectorAll('#task-notes li').length > 0"),
        ((TAB, "f"), "return document.activeElement.tagName === 'TEXTAREA'"),
        ((ESCAPE,), "return document.getElementById('edit-form').hidden"),
        ((ESCAPE,), "return document.getElementById('panel').hidden"),
        (("e",), "return document.querySelectorAll('#list .row').length === 2"),
        (("e",), "return document.querySelectorAll('#list .row').length === 1"),
        (("e",), "return document.querySelectorAll('#list .row').length === 0"),
    ):
        browser.press(*keys)
        browser.wait(done)
        browser.wait(HAS_FOCUS)
    browser.wait(ALL_ANSWERED)
    expect("completed by keys", {"completed"}, {task["status"] for task in tasks(board)})
    gone_by_keys(office, board, first)
    held_key(office)


def held_key(office):
    """A key that is held completes one task: it neither opens it again nor completes the next one."""
    browser, board = office.browser, new_board("Held")
    add(board, description="First", priority="H")
    add(board, description="Second")
    office.begin(board)
    browser.wait(IS_LISTED, "Second")
    browser.run("document.querySelector('#list .open').focus()")
    for repeats in (False, True, True, True):
        browser.tell("Input.dispatchKeyEvent", type="keyDown", key="e", text="e", autoRepeat=repeats)
    browser.tell("Input.dispatchKeyEvent", type="keyUp", key="e")
    browser.wait("return document.querySelectorAll('#list .row').length === 1")
    browser.wait(ALL_ANSWERED)
    told = json.loads(ask(f"/boards/{board}/history"))["entries"]
    expect("done by a key that is held", ["add", "add", "done"], [entry["what"] for entry in told])


def click_twice(browser, selector, is_done, *arguments):
    """A double click, of which the second click comes once the first one has done this."""
    x, y = browser.run("const { x, y, width, height } = document.querySelector(arguments[0]).getBoundingClientRect(); return [x + width / 2, y + height / 2]", selector)
    for count in (1, 2):
        for kind in ("mousePressed", "mouseReleased"):
            browser.tell("Input.dispatchMouseEvent", type=kind, x=x, y=y, button="left", clickCount=count)
        browser.wait(is_done, *arguments)


def hold_enter(browser):
    for repeats in (False, True, True, True):
        browser.tell("Input.dispatchKeyEvent", type="keyDown", key="Enter", code="Enter", text="\r", windowsVirtualKeyCode=13, autoRepeat=repeats)
    browser.tell("Input.dispatchKeyEvent", type="keyUp", key="Enter", code="Enter", windowsVirtualKeyCode=13)


def acts_once(office):
    """A double click acts on what its first click hit: not on the row that comes to stand there, nor on the next message. Enter that is held acts once."""
    browser, board = office.browser, new_board("Once")
    for name in ("First", "Second", "Third"):
        add(board, description=name)
    office.begin(board)
    browser.wait(IS_LISTED, "Third")
    click_twice(browser, "#list .tick", "return document.querySelectorAll('#list .row').length <= 2")
    browser.wait(ALL_ANSWERED)
    office.go(board, "tasks", next(task["uuid"] for task in tasks(board) if task["status"] == "pending"))
    browser.wait("return document.querySelectorAll('#task-actions button')[1]?.textContent === 'Start'")
    browser.run("document.querySelectorAll('#task-actions button')[1].focus()")
    hold_enter(browser)
    browser.wait("return document.querySelectorAll('#task-actions button')[1].textContent === 'Stop'")
    browser.wait(ALL_ANSWERED)
    office.go(board, "people")
    browser.wait(IS_SHOWN, "#invite-form")
    browser.type("#title-text", "")
    browser.run("document.getElementById('title-text').value = 'At once'")
    hold_enter(browser)
    browser.wait("return document.getElementById('heading').textContent === 'At once'")
    browser.wait(ALL_ANSWERED)
    told = json.loads(ask(f"/boards/{board}/history"))["entries"]
    expect("done by a double click and by Enter that is held", ["add", "add", "add", "done", "start", "title"], [entry["what"] for entry in told])
    refused = "return document.querySelectorAll('#notices .refused').length === arguments[0]"
    for count, name in enumerate(("nobody-1", "nobody-2"), 1):
        browser.type("#invite-name", name + ENTER)
        browser.wait(refused, count)
    click_twice(browser, "#notices .refused button.quiet", "return document.querySelectorAll('#notices .refused').length <= 1")
    browser.wait(ALL_ANSWERED)
    time.sleep(0.3)
    expect("messages that are left", True, browser.run(refused, 1))
    browser.click("#notices .refused button.quiet")
    browser.wait(refused, 0)


def keeps_its_button(office):
    """What is done by a button of the open task leaves the focus where it was, and never on one that completes or gives up; Undo ends with Reopen."""
    browser, board = office.browser, new_board("Buttons")
    task = add(board, description="Slowly")
    office.begin(board)
    office.go(board, "tasks", task)
    focused = "return document.activeElement.textContent"
    at_button = "[...document.querySelectorAll('#task-actions button')].find((button) => button.textContent === arguments[0])"
    for label, after in (("Start", "Stop"), ("Stop", "Start"), ("Delete", "Reopen"), ("Reopen", "Done")):
        browser.wait(f"const found = {at_button}; found?.focus(); return Boolean(found)", label)
        browser.press(ENTER)
        browser.wait(f"return Boolean({at_button})", after)
        browser.wait(ALL_ANSWERED)
        expect(f"focus after {label}", after, browser.run(focused))
    expect("a way back from what is back", "", browser.run("return document.getElementById('toast').textContent"))
    browser.run("const wait = setTimeout; window.setTimeout = (work, time, ...words) => wait(work, time === 10000 ? 300 : time, ...words)")
    browser.run(f"{at_button}.focus()", "Delete")
    browser.press(ENTER)
    browser.wait("const [undo] = document.querySelectorAll('#toast button'); undo?.focus(); return document.activeElement.textContent === 'Undo'")
    time.sleep(0.8)
    expect("a way back that has the focus", "Undo", browser.run(focused))
    browser.press(ENTER)
    browser.wait(f"return Boolean({at_button})", "Done")
    browser.wait(ALL_ANSWERED)
    browser.click("#edit")
    browser.press(*" but", ESCAPE)
    expect("focus after Escape", "Edit", browser.run(focused))
    browser.press(ENTER, *" well", ENTER)
    expect("typed behind the text", "Slowly but well\n", browser.run("return document.activeElement.value"))
    browser.run("document.getElementById('edit-save').focus()")
    browser.press(ENTER)
    browser.wait("return document.getElementById('task-text').textContent === 'Slowly but well' && document.getElementById('edit-form').hidden")
    browser.wait(ALL_ANSWERED)
    expect("focus after Save", "Edit", browser.run(focused))
    expect("saved", ["Slowly but well", "pending"], [tasks(board)[0][name] for name in ("description", "status")])
    browser.press("f", *", too")
    press(browser, ENTER, held=CONTROL)
    browser.wait("return document.getElementById('task-text').textContent === 'Slowly but well, too' && document.getElementById('edit-form').hidden")
    browser.press("?")
    browser.wait(IS_TOLD, "Save what was edited")
    browser.press(ESCAPE)


def gone_by_keys(office, board, task):
    """What takes the key that it was pressed with away: the focus goes to what stands near."""
    browser = office.browser
    office.go(board, "tasks", task)
    browser.wait("return document.querySelectorAll('#task-notes li').length === 1 && document.querySelector('#task-notes a')")
    links = browser.run("return [...document.querySelectorAll('#task-notes a')].map((link) => [link.href, link.rel])")
    expect("links", [["https://example.org/a_(b)", "noopener noreferrer"]], links)
    browser.run("document.getElementById('note-text').dispatchEvent(new KeyboardEvent('keydown', { key: 'Escape', isComposing: true, bubbles: true }))")
    expect("a task that is closed while letters are composed", "", browser.run("return location.hash.includes(arguments[0]) ? '' : location.hash", task))
    browser.run("document.querySelector('#task-notes button').focus()")
    browser.press(ENTER)
    browser.wait("return document.querySelectorAll('#task-notes li').length === 0")
    expect("focus after a note is gone", True, browser.run(HAS_FOCUS))
    office.go(board, "people")
    browser.wait("return document.querySelectorAll('#people li').length === 1")
    browser.run("const role = document.querySelector('#people select'); role.value = 'reader'; role.dispatchEvent(new Event('change'))")
    browser.wait(IS_TOLD, "left without an owner")
    browser.run("document.querySelector('#notices .refused button:last-of-type').focus()")
    browser.press(ENTER)
    browser.wait("return document.querySelectorAll('#notices .refused').length === 0")
    expect("focus after a notice is gone", True, browser.run(HAS_FOCUS))


# From here on counts what is written into an element, and the news that the page's parts hear of.
WRITTEN = """window.written = 0;
new MutationObserver((all) => (window.written += all.length)).observe(document.querySelector(arguments[0]), { childList: true, subtree: true, characterData: true });"""
HEAR = "const [name, detail] = arguments; return import('/core/news.js').then(({ announce }) => announce(name, detail)).then(() => new Promise((done) => setTimeout(done, 100)))"


def read_out_once(office):
    """What is read out to those who don't see the page isn't written anew where it says the same; nor is a long column, whose card keeps the focus."""
    browser, board = office.browser, new_board("Read out")
    for number in range(27):
        add(board, description=f"Task {number}", due="20260101T000000Z", project="House")
    office.begin(board)
    browser.wait(IS_LISTED, "Task 0")
    browser.type("#add-line", "+House M")
    browser.wait("return document.querySelectorAll('#understood .chip').length === 1")
    browser.run(WRITTEN, "#understood")
    browser.type("#add-line", "end the roof")
    expect("written of what is understood", 0, browser.run("return window.written"))
    browser.run("const line = document.getElementById('add-line'); line.value = ''; line.dispatchEvent(new Event('input', { bubbles: true }))")
    browser.click("#as-columns")
    browser.wait("return document.querySelectorAll('#column-todo .card').length === 25")
    browser.run("document.querySelector('#column-todo .open').focus()")
    browser.run(WRITTEN, "#column-todo ul")
    browser.run(HEAR, "board", False)
    expect("written of a column", 0, browser.run("return window.written"))
    expect("more of it", "Show 2 more", browser.run("return document.querySelector('#column-todo button.quiet').textContent"))
    browser.click("#column-todo button.quiet")
    browser.wait("return document.querySelectorAll('#column-todo .card').length === 27")
    browser.click("#as-list")
    browser.run("location.hash = '/day'")
    browser.wait("return /^[0-9,]+ tasks of [0-9,]+ boards$/.test(document.getElementById('day-told').textContent)")
    browser.run(HEAR, "kept", None)
    browser.run(WRITTEN, "#day-told")
    browser.run(HEAR, "kept", None)
    expect("written of the day", 0, browser.run("return window.written"))


def on_paper(office):
    """In print all rows stand that pass the filter, and no panel and no button."""
    browser, board = office.browser, new_board("Paper")
    lines = "".join(f"Shelf {number}\n" for number in range(120)) + "Another\n"
    ask(f"/boards/{board}/import-todo", lines.encode())
    office.begin(board)
    browser.wait(IS_LISTED, "Shelf 1")
    browser.type("#filter-text", "Shelf")
    browser.wait("return document.getElementById('count').textContent.startsWith('120 of')")
    browser.run("document.querySelector('#list .open').click()")
    browser.wait(IS_OPEN)
    browser.run("addEventListener('beforeprint', () => (window.printed = [...document.querySelectorAll('#list .open')].map((row) => row.textContent)))")
    paper = base64.b64decode(browser.tell("Page.printToPDF", printBackground=True)["data"])
    expect("rows on paper", {f"Shelf {number}" for number in range(120)}, set(browser.run("return window.printed")))
    pages = len(re.findall(rb"/Type ?/Page\b", paper))
    expect("pages, of which each has some rows", True, 2 <= pages <= 12)
    browser.tell("Emulation.setEmulatedMedia", media="print")
    shown = browser.run("return [...document.querySelectorAll('#panel, nav, form, header > :not(h1), button:not(.open, .tick, .value)')].filter((part) => part.checkVisibility()).length")
    expect("panels, forms and buttons on paper", 0, shown)
    if SHOTS:
        pathlib.Path(SHOTS, "print.pdf").write_bytes(paper)
    browser.tell("Emulation.setEmulatedMedia", media="")
    browser.click("#close-panel")
    columns_on_paper(browser)


def columns_on_paper(browser):
    """All four columns stand on a page, and none has a bar to scroll it."""
    browser.click("#as-columns")
    browser.wait("return document.querySelectorAll('#columns .card').length > 0")
    browser.tell("Emulation.setEmulatedMedia", media="print")
    browser.size(720, 1000)
    cut = "return [...document.querySelectorAll('#columns, .column, .column ul')].filter((part) => part.getBoundingClientRect().right > innerWidth || part.scrollWidth > part.clientWidth + 1 || part.scrollHeight > part.clientHeight + 1).map((part) => part.id || part.parentElement.id)"
    expect("columns that are cut off on paper", [4, []], [browser.run("return document.querySelectorAll('.column').length"), browser.run(cut)])
    browser.tell("Emulation.setEmulatedMedia", media="")
    browser.size(1280, 900)
    browser.click("#as-list")


def for_readers(office):
    """A reader has nothing to change; and who has no role any more sees nothing of the board."""
    browser, board = office.browser, new_board("Read", bob="reader")
    task = add(board, description="Only to be read")
    [anns] = browser.tabs()
    browser.new_tab()
    office.begin(board, "bob")
    browser.wait(IS_LISTED, "Only to be read")
    office.go(board, "tasks", task)
    browser.wait(IS_OPEN)
    office.shot("reader")
    shown = "return [...document.querySelectorAll('form, button.tick, #choose, #task-actions button, #task-notes button')].filter((part) => part.checkVisibility()).map((part) => part.id)"
    expect("forms and circles for a reader", [], browser.run(shown))
    browser.press("?")
    browser.wait(IS_TOLD, "Open the task")
    expect("keys that change something, for a reader", False, browser.run(IS_TOLD, "Complete or reopen the task"))
    browser.press(ESCAPE)
    for view in ("repeating", "people", "files"):
        office.go(board, view)
        browser.wait(HAS_COME[view])
        expect(f"forms for a reader: {view}", [], browser.run(shown))
    office.go(board, "tasks", task)
    browser.wait(IS_OPEN)
    tell(f"/boards/{board}/roles", member="bob", role=None)
    browser.wait("dispatchEvent(new Event('focus')); return !document.querySelector('.views').checkVisibility() && !document.querySelector('#more').checkVisibility()")
    expect("tasks of the board on screen", False, browser.run(IS_TOLD, "Only to be read"))
    expect("the focus of one who was removed", True, browser.run(HAS_FOCUS))
    browser.call("DELETE", "/window")
    browser.to_tab(anns)


def on_no_board(office):
    """Who is on no board is told what to do, has no empty list of boards, and sees a board as soon as an owner lets them in."""
    browser, board = office.browser, new_board("Welcome")
    KEYS["lea"] = "lea-key-00"
    know("lea")
    [anns] = browser.tabs()
    browser.new_tab()
    office.sign_in("lea")
    browser.wait(IS_TOLD, "You are on no board")
    expect("boards in the list", 0, browser.run("return document.querySelectorAll('#boards li').length"))
    tell(f"/boards/{board}/roles", member="lea", role="member")
    browser.wait("return document.getElementById('heading').textContent === 'Welcome' && document.getElementById('count').textContent !== ''")
    browser.call("DELETE", "/window")
    browser.to_tab(anns)


# The buttons that are cut off, by their text, and those that stand upon a text of the same message.
CUT = """const isCut = (button) => {
    const [own, around] = [button, button.closest(".switch") ?? button].map((one) => one.getBoundingClientRect());
    return own.right > around.right + 1 || own.right > innerWidth || button.scrollWidth > button.clientWidth + 1;
};
const isOn = (button) => {
    const [own, text] = [button, button.closest(".notice").firstChild].map((one) => one.getBoundingClientRect());
    return own.left < text.right - 1 && own.top < text.bottom - 1 && own.bottom > text.top + 1;
};
const buttons = (place) => [...document.querySelectorAll(`${place} button`)].filter((button) => button.checkVisibility());
return [...buttons("header").filter(isCut), ...buttons(".filters").filter(isCut), ...buttons("#notices .notice").filter(isOn)].map((button) => button.textContent);"""


# Whether the last button of the messages is what a finger meets in its place.
IS_ON_TOP = """const button = [...document.querySelectorAll("#notices li:not(.elsewhere) button")].at(-1), { left, top, width, height } = button.getBoundingClientRect();
return document.elementFromPoint(left + width / 2, top + height / 2) === button"""


def on_a_phone(office):
    """In a narrow window no button of the filters is cut off, none of a message stands upon its text, and an open task doesn't hide a message; and no
    focus goes behind an open task."""
    browser, board = office.browser, new_board("Narrow", bob="member")
    task = add(board, description="Read on a phone")
    office.begin(board, "bob")
    tell(f"/boards/{board}/roles", member="bob", role="reader")
    browser.run("document.querySelector('#list .tick').click()")
    browser.wait(IS_TOLD, "Your role doesn't allow it")
    tell(f"/boards/{board}/roles", member="bob", role="member")
    for width, height in ((1280, 900), (390, 844), (320, 640)):
        browser.size(width, height)
        expect(f"buttons that are cut off or in the way at {width}", [], browser.run(CUT))
    office.shot("narrow")
    browser.size(390, 844)
    office.go(board, "tasks", task)
    browser.wait(IS_OPEN)
    browser.wait(IS_ON_TOP)
    browser.run("[...document.querySelectorAll('#notices li:not(.elsewhere) button')].at(-1).click()")
    browser.wait("return document.querySelectorAll('#notices .refused').length === 0")
    behind_a_task(office, board, task)


def behind_a_task(office, board, task):
    """Where the open task stands over all else neither keys nor Tab lead behind it; its row has the focus afterwards."""
    browser = office.browser
    browser.size(640, 450)
    office.go(board, "tasks", task)
    browser.wait(IS_OPEN)
    # (its reader is a member by now, and may change each value)
    browser.wait("return document.querySelectorAll('#task-facts [data-value]').length === 8")
    browser.press("n", "/", TAB)
    around = []
    for _ in range(12):
        browser.press(TAB)
        around.append(browser.run("return document.activeElement.closest('header, main')?.tagName"))
    expect("behind an open task", {None}, set(around))
    browser.press("?")
    browser.wait(IS_TOLD, "Show these keys")
    expect("keys that lead behind it", False, "n" in browser.run("return [...document.querySelectorAll('#keys-shown kbd')].map((key) => key.textContent)"))
    browser.press(ESCAPE)
    browser.run("document.getElementById('task-text').focus()")
    browser.press(ESCAPE)
    browser.wait("return document.getElementById('panel').hidden && document.activeElement.textContent === 'Read on a phone'")
    browser.size(1280, 900)


def asked_seldom(office):
    """Where the server has no history the board is asked for every 15 s while someone acts, and every 60 s while nobody does. Time is made to
    pass."""
    browser, board = office.browser, new_board("Seldom")
    end_without = without_history(browser)
    office.begin(board)
    browser.run(CLOCK)

    def times_asked():
        return office.relay.asked.count(("GET", f"/boards/{board}/export"))

    for seconds, acts in ((16, True), (16, True), (61, False), (61, False)):
        before, end = times_asked(), time.monotonic() + browser.patience
        browser.run(PASS, seconds, acts)
        while times_asked() == before and time.monotonic() < end:
            time.sleep(0.05)
        expect(f"asked after {seconds} s", True, times_asked() > before)
    before = times_asked()
    browser.run(PASS, 16, False)
    time.sleep(2.5)
    expect("asked after 16 s in which nobody acts", before, times_asked())
    end_without()


SCENES = (asked_seldom, without_a_line, seen_beside, without_copies, start_is_lost, newer_version, by_keys, acts_once, keeps_its_button, read_out_once, on_paper, on_a_phone, for_readers, on_no_board)

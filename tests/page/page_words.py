"""Scenes of the page in which no word is lost: refusals, drafts, two people at once, and what waits when someone signs out."""
import contextlib
import copy
import json
import pathlib

from office import ALL_ANSWERED, BROWSER, ENTER, ESCAPE, IS_LISTED, IS_TOLD, KEYS, PORT, ask, expect, new_board, tasks, tell
from office import add as add_task
from relay import LOSES_ANSWERS, LOSES_POSTS
from webdriver import STRANGER, Browser

SENT = "dispatchEvent(new Event('online')); " + ALL_ANSWERED
OPENED = "return document.getElementById('task-text').textContent === arguments[0] && !document.getElementById('panel').hidden"
VALUE = "return document.querySelector(arguments[0]).value"
HAS_FOCUS = "return document.activeElement.id === arguments[0]"
HAS_VALUE = "return document.querySelector(arguments[0])?.value === arguments[1]"
EDITED = "return document.getElementById('edit-form').offsetParent && document.querySelector('#edit-fields textarea').value === arguments[0]"
IS_SHOWN = "return Boolean(document.querySelector(arguments[0])?.offsetParent)"
# From here on the device takes nothing more.
NOTHING_IS_PUT = "IDBObjectStore.prototype.add = () => { throw new DOMException('no room', 'QuotaExceededError'); };"
# What stands on the device, its changes and what it keeps beside them, as text.
DEVICE = """return new Promise((done) => {
    const texts = (value) => (value instanceof ArrayBuffer || ArrayBuffer.isView(value) ? String.fromCharCode(...new Uint8Array(value.buffer ?? value)) : value);
    const allOf = (database, store) => new Promise((done) => {
        indexedDB.open(database).onsuccess = ({ target }) => {
            target.result.transaction(store).objectStore(store).getAll().onsuccess = ({ target }) => done(target.result);
        };
    });
    Promise.all([allOf("taskboard", "changes"), allOf("taskboard-drafts", "drafts")])
        .then((all) => done(JSON.stringify([all, { ...localStorage }, { ...sessionStorage }], (_, value) => texts(value))));
});"""
# Once all that waits was sent in vain, which is noted on the device.
WAITED = """return new Promise((done) => {
    indexedDB.open('taskboard').onsuccess = ({ target }) => {
        target.result.transaction('changes').objectStore('changes').getAll().onsuccess = ({ target }) => {
            const waiting = target.result.filter(({ state }) => state === 'waiting');
            done(waiting.length === arguments[0] && waiting.every(({ isOld }) => isOld));
        };
    };
})"""
# From here on nothing that the page asks of a task is answered, until answer() is called; and the device takes no change, until free() is.
UNANSWERED = """const real = window.fetch;
    const answered = new Promise((done) => (window.answer = done));
    window.fetch = (path, settings) => (/\\/tasks\\/[^/]+$/.test(path) && !settings.method ? answered.then(() => real(path, settings)) : real(path, settings));"""
IS_BUSY = """return new Promise((done) => {
    indexedDB.open('taskboard').onsuccess = ({ target }) => {
        const store = target.result.transaction('changes', 'readwrite').objectStore('changes');
        let isFree = false;
        const hold = () => isFree || (store.count().onsuccess = hold);
        window.free = () => (isFree = true);
        hold();
        done(true);
    };
});"""
NOT_SAVED_YET = "return document.getElementById('task-status').textContent.includes('not saved yet')"


@contextlib.contextmanager
def beside(office, name, board):
    """A second browser, in which another person is on the board, over a line of its own that doesn't break."""
    with Browser(BROWSER, office.browser.patience) as browser:
        browser.size(1280, 900)
        other = copy.copy(office)
        other.browser, other.address = browser, f"http://127.0.0.1:{PORT}/"
        other.begin(board, name)
        yield other
        expect(f"faults in the browser of {name}", [], [told for told in browser.messages() if "Failed to load resource" not in told])


def press(browser, label, inside="#notices"):
    """Clicks the button with these words, once it is there."""
    found = "[...document.querySelector(arguments[1]).querySelectorAll('button')].find((button) => button.textContent === arguments[0] && !button.disabled)"
    browser.wait(f"const found = {found}; found?.click(); return Boolean(found)", label, inside)


def press_beside(browser, label, text):
    """Clicks the button with these words in the message that says this, once it is there."""
    found = "[...document.querySelectorAll('#notices li')].find((notice) => notice.innerText.includes(arguments[1])), button = notice && [...notice.querySelectorAll('button')].find((button) => button.textContent === arguments[0])"
    browser.wait(f"const notice = {found}; button?.click(); return Boolean(button)", label, text)


def type_into(browser, selector, text):
    """Types a text in place of what a field holds."""
    browser.run("const field = document.querySelector(arguments[0]); field.focus(); field.select()", selector)
    browser.type(selector, text)


def put_into(browser, selector, text):
    """A text that would take long to type, as if it were pasted."""
    browser.run("const field = document.querySelector(arguments[0]); field.value = arguments[1]; field.dispatchEvent(new Event('input', { bubbles: true }))", selector, text)


def expect_nothing_open(browser):
    """No notice is left that tells of a refusal, or asks. What earlier scenes imported may still be told."""
    texts = browser.run("return [...document.querySelectorAll('#notices .refused, #notices .asks')].map((notice) => notice.innerText)")
    expect("told afterwards", [], texts)


def open_task(office, board, task):
    office.go(board, "tasks", task)
    office.browser.wait("return location.hash.includes(arguments[0]) && !document.getElementById('panel').hidden", task)


def open_edit(office, board, task, description):
    open_task(office, board, task)
    office.browser.wait(OPENED, description)
    office.browser.click("#edit")
    office.browser.wait(EDITED, description)


def save(browser, label="Save"):
    """Saves what the form for changing a task says, once the page has looked at the freshest copy."""
    press(browser, label, "#edit-form")
    browser.wait("return !document.getElementById('edit-form').offsetParent")
    browser.wait(ALL_ANSWERED)


def one_of(board, uuid):
    return json.loads(ask(f"/boards/{board}/tasks/{uuid}"))


def heal(office):
    """The line is whole again, and what waits is answered over it."""
    office.relay.heal()
    office.browser.wait(SENT)


def add_person_unheard(office, board, name, key):
    """Adds a person to the server and to a board, over a line that loses it."""
    browser = office.browser
    office.go(board, "people")
    browser.wait("return document.querySelectorAll('#people li').length > 0")
    office.relay.break_off(LOSES_POSTS)
    browser.type("#person-name", name)
    browser.type("#person-key", key + ENTER)
    browser.wait(IS_TOLD, "2 changes wait here")
    browser.wait(IS_TOLD, f"Once this is saved, {name} signs in with the key")


def refused_keep_text(office):
    """A refused edit, note, new task and person keep their texts over a reload, and are sent again from their forms."""
    browser, relay = office.browser, office.relay
    board = new_board("Refused", bob="member")
    task = add_task(board, description="Buy paint")
    office.begin(board, "bob")
    open_edit(office, board, task, "Buy paint")
    relay.break_off(LOSES_POSTS)
    type_into(browser, "#edit-fields textarea", "Buy green paint")
    press(browser, "Save", "#edit-form")
    browser.type("#note-text", "Two tins, not three" + ENTER)
    browser.click("#add-more")
    browser.type("#add-line", "Sand the door +House")
    browser.type("#add-fields input[placeholder='phone mail']", "saturday" + ENTER)
    browser.wait(IS_TOLD, "3 changes wait here")
    tell(f"/boards/{board}/roles", member="bob", role="reader")
    heal(office)
    browser.wait("return document.querySelectorAll('#notices .refused').length === 3")
    office.begin(board, "bob")
    for text in ("Buy green paint", "Two tins, not three", "Sand the door"):
        browser.wait("return document.getElementById('notices').textContent.includes(arguments[0])", text)
    expect("forms that are offered to a reader", False, browser.run(IS_TOLD, "Edit and send again"))
    office.shot("refused")
    tell(f"/boards/{board}/roles", member="bob", role="member")
    tell(f"/boards/{board}/tasks/{task}/delete")
    browser.wait("dispatchEvent(new Event('focus')); " + IS_TOLD, "Edit and send again")
    press_beside(browser, "Edit and send again", "Change Buy paint")
    browser.wait(EDITED, "Buy green paint")
    press(browser, "Save", "#edit-form")
    browser.wait(IS_TOLD, "Meanwhile this task was deleted")
    save(browser, "Reopen and save")
    browser.wait("return document.querySelectorAll('#notices .refused').length === 2")
    press_beside(browser, "Edit and send again", "Note on Buy")
    browser.wait(HAS_VALUE, "#note-text", "Two tins, not three")
    browser.wait(HAS_FOCUS, "note-text")
    browser.press(ENTER)
    browser.wait("return document.querySelectorAll('#notices .refused').length === 1")
    press_beside(browser, "Edit and send again", "Add Sand the door")
    browser.wait(HAS_VALUE, "#add-line", "Sand the door +House")
    browser.wait(HAS_FOCUS, "add-line")
    expect("a field", "saturday", browser.run(VALUE, "#add-fields input[placeholder='phone mail']"))
    browser.type("#add-line", ENTER)
    browser.wait("return document.querySelectorAll('#notices .refused').length === 0")
    browser.wait(ALL_ANSWERED)
    sent = one_of(board, task)
    expect("the edit and the note", ["Buy green paint", "pending", ["Two tins, not three"]], [sent["description"], sent["status"], [note["description"] for note in sent["annotations"]]])
    expect("the new task", [["Sand the door", "House", ["saturday"]]], [[one["description"], one["project"], one["tags"]] for one in tasks(board) if one["uuid"] != task])


def typed_while_saving(office):
    """What is typed while an edit is being saved stays where it is typed: in a note, in that form, in another task's form."""
    browser, board = office.browser, new_board("Typed on")
    task, other = (add_task(board, description=text) for text in ("Buy paint", "Buy brushes"))
    office.begin(board)
    open_edit(office, board, task, "Buy paint")
    type_into(browser, "#edit-fields textarea", "Buy green paint")
    browser.run(UNANSWERED)
    press(browser, "Save", "#edit-form")
    browser.type("#note-text", "Two tins")
    browser.run("window.answer()")
    browser.wait("return !document.getElementById('edit-form').offsetParent")
    browser.press(*", not three", ENTER)
    browser.wait("return document.querySelectorAll('#task-notes li').length === 1")
    browser.wait(ALL_ANSWERED)
    sent = one_of(board, task)
    expect("the edit and the note", ["Buy green paint", ["Two tins, not three"]], [sent["description"], [note["description"] for note in sent["annotations"]]])
    on_in_the_form(office, board, task)
    on_in_another(office, board, task, other)
    left_while_saving(office, board, task)


def on_in_the_form(office, board, task):
    """What is typed on in the form, once Save has read it, is a draft that changes what was saved."""
    browser = office.browser
    open_edit(office, board, task, "Buy green paint")
    type_into(browser, "#edit-fields textarea", "Buy blue paint")
    browser.run(IS_BUSY)
    press(browser, "Save", "#edit-form")
    browser.wait(NOT_SAVED_YET)
    browser.type("#edit-fields textarea", " today")
    browser.run("window.free()")
    browser.wait(ALL_ANSWERED)
    expect("what was saved", "Buy blue paint", one_of(board, task)["description"])
    expect("what was typed on", True, browser.run(EDITED, "Buy blue paint today"))
    office.begin(board)
    open_task(office, board, task)
    browser.wait(EDITED, "Buy blue paint today")
    save(browser)
    expect("once that is saved too", "Buy blue paint today", one_of(board, task)["description"])


def on_in_another(office, board, task, other):
    """Who opens another task while the first is saved finds its draft there; the first one is saved all the same."""
    browser = office.browser
    open_edit(office, board, other, "Buy brushes")
    type_into(browser, "#edit-fields textarea", "Buy three brushes")
    open_edit(office, board, task, "Buy blue paint today")
    type_into(browser, "#edit-fields textarea", "Buy red paint")
    browser.run(UNANSWERED)
    press(browser, "Save", "#edit-form")
    office.go(board, "tasks", other)
    browser.wait(EDITED, "Buy three brushes")
    browser.run("window.answer()")
    browser.wait(IS_LISTED, "Buy red paint")
    browser.wait(ALL_ANSWERED)
    expect("both", ["Buy red paint", "Buy brushes"], [one_of(board, uuid)["description"] for uuid in (task, other)])
    expect("the other's form", True, browser.run(EDITED, "Buy three brushes"))
    save(browser)
    expect("the other", "Buy three brushes", one_of(board, other)["description"])


def left_while_saving(office, board, task):
    """Cancel takes back what waits to be saved. Where somebody else changed the same, who has gone on hears that nothing is saved, and finds the form."""
    browser = office.browser
    open_edit(office, board, task, "Buy red paint")
    for text, away in (("Buy no paint", "#cancel-edit"), ("Buy white paint", "#close-panel")):
        type_into(browser, "#edit-fields textarea", text)
        browser.run(UNANSWERED)
        press(browser, "Save", "#edit-form")
        browser.click(away)
        if away == "#close-panel":
            tell(f"/boards/{board}/tasks/{task}/modify", description="Buy black paint")
        browser.run("window.answer()")
        browser.type("#add-line", f"After {text}" + ENTER)
        browser.wait(ALL_ANSWERED)
        expect(f"after {away}", "Buy red paint" if away == "#cancel-edit" else "Buy black paint", one_of(board, task)["description"])
        if away == "#cancel-edit":
            browser.click("#edit")
    browser.wait(IS_TOLD, "Not saved yet: meanwhile someone else changed")
    press(browser, "Look at it", "#toast")
    browser.wait(EDITED, "Buy white paint")
    browser.click("#cancel-edit")


def refused_person(office):
    """A new person whose name somebody has, and a role for nobody: both open their forms as they were filled."""
    browser = office.browser
    board = new_board("Crew", bob="member")
    office.begin(board)
    office.go(board, "people")
    browser.type("#person-name", "bob")
    browser.type("#person-key", "carolas-key-1" + ENTER)
    browser.wait(IS_TOLD, "Someone has this name already")
    press(browser, "Edit and send again")
    browser.wait(HAS_VALUE, "#person-key", "carolas-key-1")
    expect("the name", "bob", browser.run(VALUE, "#person-name"))
    type_into(browser, "#person-name", "carola" + ENTER)
    browser.wait("return [...document.querySelectorAll('#people .person')].some((row) => row.textContent === 'carola')")
    browser.type("#invite-name", "nobody-here" + ENTER)
    browser.wait(IS_TOLD, "The server knows nobody of that name")
    press(browser, "Edit and send again")
    browser.wait(HAS_VALUE, "#invite-name", "nobody-here")
    type_into(browser, "#invite-name", "bob" + ENTER)
    browser.wait(ALL_ANSWERED)
    role_of = lambda: next(each["role"] for each in json.loads(ask(f"/boards/{board}/people"))["people"] if each["name"] == "bob")
    for is_meant, role in ((False, "member"), (True, "reader")):
        browser.run("document.getElementById('invite-role').value = 'reader'")
        type_into(browser, "#invite-name", "bob" + ENTER)
        expect("asked of who is here", "bob is on this board already, as member. Make bob reader?", browser.answer_question(is_meant))
        browser.wait(ALL_ANSWERED)
        expect(f"the role, meant: {is_meant}", role, role_of())
    expect_nothing_open(browser)


def refused_board(office):
    """A new board that is refused opens its form as it was filled. A server is full after tens of thousands of boards, so the browser answers for it."""
    browser, board = office.browser, new_board("Not full")
    office.begin(board)
    browser.run("""const real = window.fetch;
        window.fetch = (path, settings) => (path === "/boards" ? Promise.resolve(new Response('{"name":"Full","refused":12}', { status: 409 })) : real(path, settings));
        window.unfill = () => (window.fetch = real);""")
    browser.click("#new-board")
    browser.type("#board-title", "One too many" + ENTER)
    browser.wait(IS_TOLD, "The server is full: it takes 10,000 boards.")
    browser.run("window.unfill()")
    press(browser, "Edit and send again")
    browser.wait(HAS_VALUE, "#board-title", "One too many")
    type_into(browser, "#board-title", "Room for one" + ENTER)
    browser.wait("return document.getElementById('heading').textContent === 'Room for one'")
    browser.wait(ALL_ANSWERED)
    titles = [one["title"] for one in json.loads(ask("/me"))["boards"]]
    expect("boards", [1, 0], [titles.count(title) for title in ("Room for one", "One too many")])
    expect_nothing_open(browser)


def board_made_late(office):
    """A new board that comes once the line is whole again is offered: nobody is led away from what they type by then."""
    browser, board = office.browser, new_board("Meanwhile")
    office.begin(board)
    office.relay.break_off(LOSES_POSTS)
    browser.click("#new-board")
    browser.type("#board-title", "Made late" + ENTER)
    browser.wait(WAITED, 1)
    browser.type("#add-line", "Half a")
    heal(office)
    browser.wait(IS_TOLD, "Made the board Made late")
    browser.type("#add-line", " line")
    expect("what is typed meanwhile", ["Half a line", f"#/{board}/tasks"], browser.run("return [document.getElementById('add-line').value, location.hash.split('?')[0]]"))
    press(browser, "Show it", "#toast")
    browser.wait("return document.title.startsWith('Made late')")
    office.go(board)
    browser.wait(HAS_VALUE, "#add-line", "Half a line")
    put_into(browser, "#add-line", "")


def told_before(office):
    """What the server would refuse is told beside its field, and nothing is sent."""
    browser = office.browser
    board = new_board("Rules")
    task = add_task(board, description="Short")
    office.begin(board)
    browser.click("#add-more")
    put_into(browser, "#add-line", "ш" * 9000)
    browser.wait("return document.querySelector('#add-form .fault').textContent.includes('1,616 bytes too long')")
    browser.type("#add-line", ENTER)
    put_into(browser, "#add-line", "Water the plants due:2026-11-30")
    browser.type("#add-fields input[placeholder=weekly]", "every month" + ENTER)
    browser.wait("return document.getElementById('add-fields').textContent.includes(\"isn't a repeat\")")
    put_into(browser, "#add-line", "Water the plants")
    type_into(browser, "#add-fields input[placeholder=weekly]", "weekly" + ENTER)
    browser.wait("return document.getElementById('add-fields').textContent.includes('needs a due date')")
    open_edit(office, board, task, "Short")
    put_into(browser, "#edit-fields textarea", "l" * 20000)
    press(browser, "Save", "#edit-form")
    browser.wait("return document.getElementById('edit-fields').textContent.includes('3,616 bytes too long')")
    put_into(browser, "#edit-fields textarea", "Short")
    put_into(browser, "#edit-fields input[placeholder='phone mail']", "fine " + "t" * 16385)
    press(browser, "Save", "#edit-form")
    browser.wait("return document.getElementById('edit-fields').textContent.includes('1 bytes too long')")
    browser.click("#cancel-edit")
    put_into(browser, "#note-text", "ж" * 9000)
    browser.wait("return document.querySelector('#note-form .fault').textContent.includes('too long')")
    browser.type("#note-text", ENTER)
    office.go(board, "repeating")
    for ahead in ("0", "13"):
        type_into(browser, "#ahead", ahead + ENTER)
        browser.wait("return document.getElementById('ahead-form').textContent.includes('A board looks 1 to 12 instances ahead.')")
    office.go(board, "people")
    browser.wait(IS_SHOWN, "#person-name")
    for name, key, told in (("Carol", "carolas-key-1", "A name has small letters"), ("c" * 33, "carolas-key-1", "1 bytes too long"), ("carola", "short", "8 characters at least"), ("carola", "a key with spaces", "no spaces")):
        type_into(browser, "#person-name", name)
        type_into(browser, "#person-key", key + ENTER)
        browser.wait("return document.getElementById('person-form').textContent.includes(arguments[0])", told)
    put_into(browser, "#person-name", "")
    browser.click("#new-board")
    put_into(browser, "#board-title", "Ш" * 101)
    browser.type("#board-title", ENTER)
    browser.wait("return document.getElementById('board-form').textContent.includes('2 bytes too long')")
    browser.click("#cancel-board")
    expect("sent", [["Short", None]], [[one["description"], one.get("annotations")] for one in tasks(board)])
    expect("refused", [True, 0], [browser.run(ALL_ANSWERED), browser.run("return document.querySelectorAll('#notices .refused, #notices .asks').length")])


# Once a draft with this text stands on the device.
IS_KEPT = """return new Promise((done) => {
    indexedDB.open("taskboard-drafts").onsuccess = ({ target }) => {
        target.result.transaction("drafts").objectStore("drafts").getAll().onsuccess = ({ target }) => done(target.result.some((text) => text.includes(arguments[0])));
    };
})"""


def outlive_a_kill(office):
    """What was just typed stands in its form again when the browser that is killed is started again."""
    board, patience = new_board("Killed"), office.browser.patience
    killed, profile = copy.copy(office), pathlib.Path("profile-that-types")
    with Browser(BROWSER, patience, profile) as killed.browser:
        killed.begin(board)
        killed.browser.type("#add-line", "Half a line")
        killed.browser.wait(IS_KEPT, "Half a line")
        killed.browser.kill()
    with Browser(BROWSER, patience, profile) as killed.browser:
        killed.begin(board)
        killed.browser.wait(HAS_VALUE, "#add-line", "Half a line")


def drafts_stay(office):
    """A line, an edit and a note survive another task, Back, a reload and a closed tab, each on its board; what is sent or taken back is gone."""
    browser = office.browser
    board, other = new_board("Drafts"), new_board("Drafts, too")
    first, second = add_task(board, description="First"), add_task(board, description="Second")
    office.begin(board)
    browser.click("#add-more")
    browser.type("#add-line", "Half a line +House")
    browser.type("#add-fields input[placeholder='phone mail']", "half")
    open_edit(office, board, first, "First")
    type_into(browser, "#edit-fields textarea", "First, and more")
    browser.type("#note-text", "Half a note")
    open_task(office, board, second)
    browser.wait(OPENED, "Second")
    expect("of another task", ["", False], [browser.run(VALUE, "#note-text"), browser.run(IS_SHOWN, "#edit-form")])
    browser.run("history.back()")
    browser.wait(EDITED, "First, and more")
    for way in ("reload", "tab"):
        if way == "tab":
            old = browser.call("GET", "/window")
            browser.new_tab()
            new = browser.call("GET", "/window")
            browser.to_tab(old)
            browser.call("DELETE", "/window")
            browser.to_tab(new)
        office.begin(board)
        browser.wait(HAS_VALUE, "#add-line", "Half a line +House")
        expect("a field", "half", browser.run(VALUE, "#add-fields input[placeholder='phone mail']"))
        open_task(office, board, first)
        browser.wait(EDITED, "First, and more")
        browser.wait(HAS_VALUE, "#note-text", "Half a note")
    office.go(other)
    browser.wait(HAS_VALUE, "#add-line", "")
    open_task(office, board, first)
    browser.wait(EDITED, "First, and more")
    browser.click("#cancel-edit")
    browser.type("#note-text", ENTER)
    browser.type("#add-line", ENTER)
    browser.wait(ALL_ANSWERED)
    office.begin(board)
    open_task(office, board, first)
    browser.wait(OPENED, "First")
    expect("left of the drafts", ["", "", False], [browser.run(VALUE, "#add-line"), browser.run(VALUE, "#note-text"), browser.run(IS_SHOWN, "#edit-form")])
    expect("sent", ["First", "Half a line", "Second"], sorted(one["description"] for one in tasks(board)))


# What the forms under People are typed into, each with what is typed; a key isn't kept.
FORMS = (("#invite-name", "bo"), ("#title-text", "Half a title"), ("#person-name", "car"), ("#keys-name", "dor"), ("#take-number", "7"))


def forms_stay(office):
    """What is typed into the forms of people and titles stays over another board and a reload, each on its board; a key stays nowhere."""
    browser, board, other = office.browser, new_board("Forms"), new_board("Other forms")
    office.begin(board)
    office.go(board, "people")
    browser.wait(IS_SHOWN, "#person-form")
    for field, text in FORMS:
        type_into(browser, field, text)
    browser.type("#person-key", "half-a-key")
    browser.run("const role = document.getElementById('invite-role'); role.value = 'reader'; role.dispatchEvent(new Event('input'))")
    browser.click("#new-board")
    browser.type("#board-title", "Half a board" + ESCAPE)
    expect("keys on the device", False, "half-a-key" in browser.run(DEVICE))
    office.go(other, "people")
    browser.wait(HAS_VALUE, "#title-text", "Other forms")
    expect("of another board", "", browser.run(VALUE, "#invite-name"))
    for way in ("back", "reload"):
        if way == "reload":
            office.begin(board)
        office.go(board, "people")
        browser.wait("return document.querySelectorAll('#invite-role option').length > 1")
        for field, text in (*FORMS, ("#board-title", "Half a board"), ("#invite-role", "reader")):
            browser.wait(HAS_VALUE, field, text)
    type_into(browser, "#title-text", "A whole title" + ENTER)
    type_into(browser, "#invite-name", "ann" + ENTER)
    expect("asked of an owner", True, browser.answer_question().startswith("Give up your role of owner?"))
    browser.wait(ALL_ANSWERED)
    for field in ("#person-name", "#keys-name", "#take-number"):
        browser.run("const field = document.querySelector(arguments[0]); field.value = ''; field.dispatchEvent(new Event('input'))", field)
    browser.click("#new-board")
    browser.click("#cancel-board")
    office.begin(board)
    office.go(board, "people")
    browser.wait(HAS_VALUE, "#title-text", "A whole title")
    for field in ("#invite-name", "#person-name", "#board-title"):
        expect(f"left in {field}", "", browser.run(VALUE, field))
    browser.run("document.querySelectorAll('#notices .quiet').forEach((away) => away.click())")


def in_two_tabs(office):
    """Two tabs of one person share what is typed: each shows it, and what one of them sends stands in the other no more."""
    browser, board = office.browser, new_board("In two tabs")
    task = add_task(board, description="Here")
    office.begin(board)
    [first] = browser.tabs()
    open_edit(office, board, task, "Here")
    browser.new_tab()
    office.enter("ann")
    open_edit(office, board, task, "Here")
    second = browser.call("GET", "/window")
    typed = (("#add-line", "Half a line"), ("#note-text", "Half a note"), ("#edit-fields textarea", "Here, and more"))
    for field, text in typed:
        type_into(browser, field, text)
    browser.to_tab(first)
    for field, text in typed:
        browser.wait(HAS_VALUE, field, text)
    browser.type("#add-line", " more" + ENTER)
    browser.type("#note-text", ENTER)
    save(browser)
    browser.to_tab(second)
    for field in ("#add-line", "#note-text"):
        browser.wait(HAS_VALUE, field, "")
    browser.wait("return !document.getElementById('edit-form').offsetParent")
    browser.call("DELETE", "/window")
    browser.to_tab(first)
    expect("sent", [["Here, and more", ["Half a note"]], ["Half a line more", []]], [[one["description"], [note["description"] for note in one.get("annotations", [])]] for one in tasks(board)])


def device_is_full(office):
    """What the device has no room for isn't sent, and stands in its form again: a line, a note, a new board, someone who is let in."""
    browser, board = office.browser, new_board("No room")
    task = add_task(board, description="Here")
    office.begin(board)
    open_task(office, board, task)
    browser.run(NOTHING_IS_PUT)
    for field, text in (("#add-line", "A whole line"), ("#note-text", "A whole note"), ("#invite-name", "bob"), ("#board-title", "A new board")):
        if field == "#invite-name":
            office.go(board, "people")
            browser.wait(IS_SHOWN, field)
        if field == "#board-title":
            browser.click("#new-board")
        browser.type(field, text + ENTER)
        browser.wait(IS_TOLD, "so it wasn't made (QuotaExceededError)")
        browser.wait(HAS_VALUE, field, text)
        press(browser, "Close", "#toast")
    open_task(office, board, task)
    browser.wait(HAS_VALUE, "#note-text", "A whole note")
    for field in ("#add-line", "#note-text"):
        put_into(browser, field, "")
    expect("sent", [["Here", None]], [[one["description"], one.get("annotations")] for one in tasks(board)])
    expect("faults", [], [told for told in browser.messages() if "no room" not in told and "Failed to load resource" not in told])


def two_edit_one_task(office):
    """Two people change one task at once: what they didn't both change stays of both, and where they did the second chooses."""
    browser = office.browser
    board = new_board("Edits", bob="member")
    task = add_task(board, description="Paint the fence", tags=["house", "old"])
    office.begin(board)
    with beside(office, "bob", board) as bobs:
        open_edit(office, board, task, "Paint the fence")
        open_edit(bobs, board, task, "Paint the fence")
        type_into(bobs.browser, "#edit-fields textarea", "Paint the fence green")
        type_into(bobs.browser, "#edit-fields input[placeholder='phone mail']", "house bobs")
        save(bobs.browser)
        type_into(browser, "#edit-fields textarea", "Paint the fence white")
        type_into(browser, "#edit-fields input[placeholder='phone mail']", "house old anns")
        browser.run("document.querySelector('#edit-fields select').value = 'H'")
        press(browser, "Save", "#edit-form")
        browser.wait("return document.querySelectorAll('#edit-conflicts fieldset').length === 1")
        sides = browser.run("return [...document.querySelectorAll('#edit-conflicts bdi')].map((side) => side.textContent)")
        expect("beside each other", ["Paint the fence white", "Paint the fence green"], sides)
        expect("what has the focus", "mine", browser.run("return document.activeElement.value"))
        expect("before the choice", "Paint the fence green", one_of(board, task)["description"])
        office.shot("two-edits")
        browser.click("#edit-conflicts input[value=mine]")
        save(browser)
        browser.wait(OPENED, "Paint the fence white")
        stored = one_of(board, task)
        expect("joined", ["Paint the fence white", ["anns", "bobs", "house"], "H"], [stored[name] for name in ("description", "tags", "priority")])
        bobs.browser.wait("dispatchEvent(new Event('focus')); " + OPENED, "Paint the fence white")
        open_edit(bobs, board, task, "Paint the fence white")
        type_into(bobs.browser, "#edit-fields textarea", "Paint nothing")
        tell(f"/boards/{board}/tasks/{task}/modify", description="Paint the fence red")
        press(bobs.browser, "Save", "#edit-form")
        bobs.browser.wait("return document.querySelectorAll('#edit-conflicts fieldset').length === 1")
        bobs.browser.click("#edit-conflicts input[value=theirs]")
        save(bobs.browser)
        expect("theirs is chosen", "Paint the fence red", one_of(board, task)["description"])
        bobs.browser.wait(OPENED, "Paint the fence red")


def two_complete_one_task(office):
    """Two people complete the same task: the second is told who did, in no refusal."""
    browser, relay = office.browser, office.relay
    board = new_board("Both", bob="member")
    task = add_task(board, description="Take the bins out")
    office.begin(board)
    relay.break_off(LOSES_POSTS)
    browser.run("document.querySelector('#list .tick').click()")
    browser.wait(IS_TOLD, "1 change waits here")
    with beside(office, "bob", board) as bobs:
        bobs.browser.run("document.querySelector('#list .tick').click()")
        bobs.browser.wait(ALL_ANSWERED)
        expect("bob's", "completed", one_of(board, task)["status"])
    heal(office)
    browser.wait(IS_TOLD, "bob had completed Take the bins out already.")
    expect("red ones", 0, browser.run("return document.querySelectorAll('#notices .refused').length"))
    press(browser, "Dismiss", "#notices .already")
    browser.wait("return document.querySelectorAll('#notices .already').length === 0")


def changed_while_waiting(office):
    """A change that waited over a broken line asks where its task has become another, and is sent once its person says so."""
    browser, relay = office.browser, office.relay
    board = new_board("Waited")
    call, write = add_task(board, description="Call Mom"), add_task(board, description="Write to Dad")
    office.begin(board)
    relay.break_off(LOSES_POSTS)
    for _ in range(2):
        browser.run("document.querySelector('#list .tick:not(.ticked)').click()")
    browser.wait(IS_TOLD, "2 changes wait here")
    browser.wait(WAITED, 2)
    tell(f"/boards/{board}/tasks/{call}/modify", description="Call the office")
    # (a message whose look came before the change is lost too, as long as the line is broken)
    browser.wait(IS_TOLD, "Not sent yet: Complete Call Mom")
    heal(office)
    browser.wait(ALL_ANSWERED)
    expect("before the answer", ["pending", "completed"], [one_of(board, uuid)["status"] for uuid in (call, write)])
    press(browser, "Look at the task")
    browser.wait(OPENED, "Call the office")
    press(browser, "Send it all the same")
    browser.wait("return document.querySelectorAll('#notices .asks').length === 0")
    browser.wait(ALL_ANSWERED)
    expect("after it", "completed", one_of(board, call)["status"])


def edited_before_sending(office):
    """A change that asks, since somebody else changed the same field, is edited first: both texts stand beside each other."""
    browser, relay = office.browser, office.relay
    board = new_board("Asks")
    task = add_task(board, description="Buy paint")
    office.begin(board)
    open_edit(office, board, task, "Buy paint")
    relay.break_off(LOSES_POSTS)
    type_into(browser, "#edit-fields textarea", "Buy green paint")
    press(browser, "Save", "#edit-form")
    browser.wait(IS_TOLD, "1 change waits here")
    relay.lost.wait(browser.patience)
    tell(f"/boards/{board}/tasks/{task}/modify", description="Buy red paint")
    browser.wait(IS_TOLD, "Not sent yet: Change Buy paint")
    relay.heal()
    press(browser, "Edit it first")
    browser.wait(EDITED, "Buy green paint")
    press(browser, "Save", "#edit-form")
    browser.wait("return document.querySelectorAll('#edit-conflicts fieldset').length === 1")
    expect("before the choice", "Buy red paint", one_of(board, task)["description"])
    browser.press(ESCAPE)
    expect("Escape from the choice", [False, "Edit"], browser.run("return [document.getElementById('panel').hidden, document.activeElement.textContent]"))
    browser.press(ENTER)
    browser.wait(EDITED, "Buy green paint")
    press(browser, "Save", "#edit-form")
    browser.wait("return document.querySelectorAll('#edit-conflicts fieldset').length === 1")
    browser.click("#edit-conflicts input[value=mine]")
    save(browser)
    expect("after it", "Buy green paint", one_of(board, task)["description"])
    expect_nothing_open(browser)


def given_up(office):
    """Who gives a change up is asked about it by its name, since another one may stand in its place by then."""
    browser, board = office.browser, new_board("Given up")
    office.begin(board)
    office.relay.break_off(LOSES_POSTS)
    for number, name in enumerate(("Buy paint", "Paint the fence"), 1):
        browser.type("#add-line", name + ENTER)
        browser.wait(IS_TOLD, "1 change waits here" if number == 1 else "2 changes wait here")
    browser.click("#state")
    browser.wait(IS_SHOWN, "#unanswered-list button")
    expect("named", ["Give up: Add “Buy paint”", "Give up: Add “Paint the fence”"], browser.run("return [...document.querySelectorAll('#unanswered-list button')].map((button) => button.ariaLabel)"))
    browser.run("setTimeout(() => document.querySelector('#unanswered-list button').click())")
    expect("asked", True, browser.answer_question().startswith("Send this change no more: Add “Buy paint”?"))
    browser.wait(IS_TOLD, "1 change waits here")
    heal(office)
    expect("sent", ["Paint the fence"], [task["description"] for task in tasks(board)])


def new_key_without_tls(office):
    """Without TLS the key of a new person can't be hidden, so signing out throws that change away in either case, and says so."""
    browser, relay, board = office.browser, office.relay, new_board("Plain")
    ours = office.address
    office.address = f"http://{STRANGER}:{relay.port}/"
    office.begin(board)
    add_person_unheard(office, board, "vera", "vera-key-00")
    browser.click("#sign-out")
    browser.wait(IS_TOLD, "Without TLS this browser can't hide keys")
    browser.click("#leave-keep")
    browser.wait(IS_SHOWN, "#sign-in-form")
    device = browser.run(DEVICE)
    expect("left on the device", [False, False, True], [text in device for text in ("vera-key-00", KEYS["ann"], "Give the role")])
    relay.heal()
    office.begin(board)
    browser.wait(ALL_ANSWERED)
    browser.wait(IS_TOLD, "The server knows nobody of that name")
    browser.click("#notices .quiet")
    office.address = ours


def signing_out(office):
    """Signing out names what isn't sent and asks; no key of a new person is readable on the device, and nothing of the boards stays in the page."""
    browser = office.browser
    board = new_board("Secret title")
    add_task(board, description="Secret task")
    office.begin(board)
    browser.wait(IS_LISTED, "Secret task")
    for way in ("keep", "drop"):
        add_person_unheard(office, board, f"erin-{way}", f"erins-key-{way}")
        office.go(board)
        browser.type("#add-line", f"Unsent {way}" + ENTER)
        browser.wait(IS_TOLD, "3 changes wait here")
        browser.click("#sign-out")
        for text in (f"erin-{way}", f"Unsent {way}"):
            browser.wait("return document.getElementById('leave-dialog').innerText.includes(arguments[0])", text)
        office.shot("signing-out")
        browser.click(f"#leave-{way}")
        browser.wait(IS_SHOWN, "#sign-in-form")
        left = browser.run("return document.documentElement.outerHTML + [...document.querySelectorAll('input')].map((input) => input.value) + location.href")
        expect("left in the page", [], [left[max(0, left.index(text) - 200) :][:400] for text in ("Secret", "Unsent", "erin", "tasks/") if text in left])
        device = browser.run(DEVICE)
        expect("keys on the device", [], [key for key in (f"erins-key-{way}", KEYS["ann"]) if key in device])
        expect("changes on the device", way == "keep", "Unsent keep" in device)
        if way == "keep":
            browser.wait("return document.getElementById('sign-in-waiting').innerText === 'ann: 3 changes not sent yet'")
            office.shot("sign-in-waiting")
        browser.type("#name", "ann")
        browser.type("#key", KEYS["ann"] + ENTER)
        browser.wait("return document.getElementById('count')?.textContent")
        if way == "keep":
            browser.wait(IS_TOLD, "3 changes wait here")
        heal(office)
        office.begin(board)
    browser.type("#add-line", "Begun")
    browser.click("#sign-out")
    browser.wait(IS_TOLD, "What is begun isn't sent: it stands in its form again")
    browser.press(ESCAPE)
    put_into(browser, "#add-line", "")
    expect("sent", ["Secret task", "Unsent keep"], sorted(one["description"] for one in tasks(board)))
    expect("people", ["ann", "erin-keep"], [one["name"] for one in json.loads(ask(f"/boards/{board}/people"))["people"]])


def unsent_stands_once(office):
    """A note and a link that the server has, though their answers were lost, stand in the task once."""
    browser, relay = office.browser, office.relay
    board = new_board("Once")
    task, other = add_task(board, description="Paint the fence"), add_task(board, description="Buy paint")
    office.begin(board)
    open_task(office, board, task)
    relay.break_off(LOSES_ANSWERS)
    browser.type("#note-text", "Two tins" + ENTER)
    browser.wait(IS_TOLD, "1 change waits here")
    relay.lost.wait(browser.patience)
    tell(f"/boards/{board}/tasks/{task}/depend", on=other)
    browser.type("#depend-text", "Buy")
    browser.wait("return document.querySelectorAll('#depend-choices button').length === 1")
    browser.type("#depend-text", ENTER)
    browser.wait(IS_TOLD, "2 changes wait here")
    tell(f"/boards/{board}/tasks/{task}/modify", project="House")
    browser.wait("dispatchEvent(new Event('focus')); return document.getElementById('task-facts').textContent.includes('House')")
    counts = "return ['notes', 'ahead'].map((part) => document.querySelectorAll(`#task-${part} li`).length)"
    expect("notes and links before the answers", [1, 1], browser.run(counts))
    heal(office)
    expect("and after them", [1, 1], browser.run(counts))


def unsent_looks_done(office):
    """While changes are on their way their tasks look as they will be, also a new one that is completed before it is there; each acts once."""
    browser, relay = office.browser, office.relay
    board = new_board("On the way")
    task = add_task(board, description="Slow one")
    office.begin(board)
    browser.wait(IS_LISTED, "Slow one")
    relay.break_off(LOSES_ANSWERS)
    browser.run("document.querySelector('#list .tick').click()")
    browser.wait("return document.querySelector('#list .tick.ticked')?.parentElement.textContent.includes('not saved yet')")
    browser.type("#add-line", "New one +House" + ENTER)
    browser.wait("return [...document.querySelectorAll('#list .row')].some((row) => row.textContent.includes('New one') && row.textContent.includes('not saved yet'))")
    browser.run("[...document.querySelectorAll('#list .row')].find((row) => row.textContent.includes('New one')).querySelector('.tick').click()")
    browser.wait("return document.querySelectorAll('#list .ticked').length === 2")
    browser.wait(IS_TOLD, "3 changes wait here")
    office.begin(board)
    browser.wait("return [...document.querySelectorAll('#list .row')].some((row) => row.textContent.includes('New one') && row.querySelector('.ticked'))")
    sent = browser.run(DEVICE)
    heal(office)
    browser.wait("return document.querySelectorAll('#list .row').length === 0")
    stored = {one["description"]: one for one in tasks(board)}
    expect("afterwards", [2, "completed", "completed"], [len(stored), stored["Slow one"]["status"], stored["New one"]["status"]])
    expect("the uuid that it got here", True, stored["New one"]["uuid"] in sent)
    expect("told", 0, browser.run("return document.querySelectorAll('#notices .refused, #notices .asks').length"))
    expect("the first", task, stored["Slow one"]["uuid"])


SCENES = (refused_keep_text, typed_while_saving, refused_person, refused_board, board_made_late, told_before, drafts_stay, outlive_a_kill, forms_stay, in_two_tabs, device_is_full, two_edit_one_task, two_complete_one_task, changed_while_waiting, edited_before_sending, given_up, new_key_without_tls, signing_out, unsent_stands_once, unsent_looks_done)

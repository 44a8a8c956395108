"""Scenes of the page: how much stands above the tasks, the side bar, filters and empty boards; values that are changed where they stand, by the mouse
and by keys, and taken back; the palette; an invitation by a link."""
import datetime
import json

from office import ALL_ANSWERED, DOWN, ENTER, ESCAPE, IS_LISTED, IS_TOLD, LISTED, add, ask, expect, new_board, tasks, tell
from page_several import CONTROL, press
from page_words import type_into

TOP = "return document.querySelector('#list .row:not(.heading)').getBoundingClientRect().top"
IS_OPEN = "return Boolean(document.querySelector(':popover-open')) === arguments[0]"
FOCUSED = "return document.activeElement.closest('[data-uuid]')?.querySelector('.open').textContent ?? document.activeElement.id"
ROW = "[...document.querySelectorAll('#list .row')].find((row) => row.querySelector('.open')?.textContent === arguments[0])"
PAGE_DOWN = "\ue00f"


def day(ahead):
    return datetime.date.today() + datetime.timedelta(days=ahead)


def moment(ahead):
    return f"{day(ahead):%Y%m%d}T000000Z"


def look(office):
    """The first task stands high, boards have a side bar with counts and stars, and what is filtered can be taken back where it is said."""
    browser, board = office.browser, new_board("How it looks", bob="member")
    for number in range(3):
        add(board, description=f"Paint wall {number}", project="House", tags=["tool"], priority="HML"[number], assignee="bob", due=moment(number))
    office.begin(board)
    browser.wait(IS_LISTED, "Paint wall 0")
    expect("the first task at 1,280", True, browser.run(TOP) <= 120)
    browser.size(390, 844)
    browser.wait(f"{TOP} <= 140")
    browser.wait(ALL_ANSWERED)
    for is_wanted in (False, True):
        browser.wait("return document.getElementById('state').checkVisibility() === arguments[0]", is_wanted)
        browser.click("#tab-boards")
    browser.size(1280, 900)
    browser.wait("return document.querySelector('#boards [aria-current] .count')?.textContent === '3 open tasks'")
    browser.click("#star")
    expect("the first board", "How it looks", browser.run("return document.querySelector('#boards .name').textContent"))
    browser.click("#star")
    browser.click("#filter-more")
    browser.wait(IS_OPEN, True)
    browser.run("const select = document.getElementById('filter-assignee'); select.value = '@nobody'; select.dispatchEvent(new Event('input'))")
    browser.press(ESCAPE)
    browser.wait(IS_OPEN, False)
    expect("the focus after the filters", "filter-more", browser.run(FOCUSED))
    browser.wait(IS_TOLD, "Nothing found.")
    expect("what is set", ["Nobody's"], browser.run("return [...document.querySelectorAll('.set-chip')].map((chip) => chip.textContent)"))
    office.shot("filtered")
    browser.click(".set-chip")
    browser.wait(IS_LISTED, "Paint wall 0")
    begin_board(office)


def begin_board(office):
    """A board without tasks teaches by examples, which go into the line; a phone has the boards and the line at its foot."""
    browser, board = office.browser, new_board("Nothing yet")
    office.begin(board)
    browser.wait(IS_TOLD, "Nothing is here yet.")
    office.shot("empty")
    browser.click("#nothing button")
    browser.wait("return document.activeElement.id === 'add-line' && document.querySelectorAll('#add-marks .mark').length > 0")
    browser.press(ENTER)
    browser.wait(IS_LISTED, "Call the bakery")
    browser.wait(ALL_ANSWERED)
    browser.size(390, 844)
    browser.press(ESCAPE)
    browser.click("#tab-boards")
    browser.wait("return document.activeElement.closest('#side') !== null")
    browser.press(ESCAPE)
    browser.wait("return document.activeElement.id === 'tab-boards'")
    browser.click("#tab-add")
    browser.wait("return document.activeElement.id === 'add-line'")
    browser.type("#add-line", "By phone friday" + ENTER)
    browser.wait(IS_LISTED, "By phone")
    browser.wait(ALL_ANSWERED)
    browser.size(1280, 900)


def value(browser, title, kind):
    browser.run(f"{ROW}.querySelector(arguments[1]).click()", title, kind)
    browser.wait(IS_OPEN, True)


def choose(browser, label):
    browser.run("[...document.querySelectorAll(':popover-open .menu button')].find((button) => button.textContent === arguments[0]).click()", label)
    browser.wait(IS_OPEN, False)


def in_place(office):
    """Values are changed by a click where they stand, in the row and in the panel, are saved at once, and go back by Undo and by Ctrl+Z."""
    browser, board = office.browser, new_board("In place", bob="member")
    task = add(board, description="Paint the fence", due=moment(3), assignee="ann", tags=["tool"], project="House")
    office.begin(board)
    browser.wait(IS_LISTED, "Paint the fence")
    value(browser, "Paint the fence", ".due")
    office.shot("picker")
    browser.size(390, 844)
    browser.wait("return [...document.querySelectorAll(':popover-open button')].every((button) => button.getBoundingClientRect().left >= 0 && button.getBoundingClientRect().right <= innerWidth)")
    browser.size(1280, 900)
    browser.type(".picker-text", "in 2 weeks" + ENTER)
    browser.wait(IS_TOLD, "The due date of Paint the fence is now")
    browser.wait(ALL_ANSWERED)
    expect("a date in words", moment(14), tasks(board)[0]["due"])
    expect("the focus after a date", "Paint the fence", browser.run(FOCUSED))
    value(browser, "Paint the fence", ".assignee")
    choose(browser, "bob")
    value(browser, "Paint the fence", ".chip.project")
    browser.type(":popover-open input", "Garden" + ENTER)
    browser.wait("return document.querySelector('#list .chip.project').textContent === 'Garden'")
    value(browser, "Paint the fence", ".chip.tag")
    browser.type(":popover-open input", "brush" + ENTER)
    browser.wait("return document.querySelectorAll('#list .chip.tag').length === 2")
    browser.wait(ALL_ANSWERED)
    told = tasks(board)[0]
    expect("values", ["bob", "Garden", ["brush", "tool"]], [told[name] for name in ("assignee", "project", "tags")])
    browser.click("#toast button")
    browser.wait("return document.querySelectorAll('#list .chip.tag').length === 1")
    for _ in range(3):
        press(browser, "z", held=CONTROL)
        browser.wait(ALL_ANSWERED)
    told = tasks(board)[0]
    expect("taken back", [moment(3), "ann", "House", ["tool"]], [told[name] for name in ("due", "assignee", "project", "tags")])
    browser.run("document.dispatchEvent(new KeyboardEvent('keydown', { key: 'Z', ctrlKey: true, shiftKey: true, bubbles: true }))")
    browser.wait(ALL_ANSWERED)
    expect("done again", moment(14), tasks(board)[0]["due"])
    in_the_panel(office, board, task)
    changed_since(office, board, task)


def in_the_panel(office, board, task):
    """In the panel each value is a button, and the title too; a reader has none."""
    browser = office.browser
    office.go(board, "tasks", task)
    browser.wait("return document.querySelector('#task-facts [data-value=priority]')")
    browser.click("#task-facts [data-value=priority]")
    choose(browser, "high")
    browser.wait("return document.querySelector('#task-facts [data-value=priority]').textContent === 'high'")
    expect("the focus after a value", "priority", browser.run("return document.activeElement.dataset.value"))
    browser.click("#task-facts [data-value=wait]")
    browser.type(".picker-text", "yesterday" + ENTER)
    browser.wait(IS_TOLD, "This is past, so the task wouldn't wait.")
    browser.press(ESCAPE)
    browser.click("#rename")
    browser.type(":popover-open textarea", " well" + ENTER)
    browser.wait("return document.getElementById('task-text').textContent === 'Paint the fence well'")
    browser.wait(ALL_ANSWERED)
    expect("in the panel", ["H", "Paint the fence well"], [tasks(board)[0][name] for name in ("priority", "description")])
    for leave, wanted in ((lambda: browser.press(ESCAPE), "Paint the fence well"), (lambda: browser.click("#task-status"), "Paint the fence very well")):
        browser.click("#rename")
        type_into(browser, ":popover-open textarea", "Paint the fence very well")
        leave()
        browser.wait(IS_OPEN, False)
        browser.wait(ALL_ANSWERED)
        browser.wait("return document.getElementById('task-text').textContent === arguments[0]", wanted)
        expect("a title that is left", wanted, tasks(board)[0]["description"])
    press(browser, "z", held=CONTROL)
    browser.wait("return document.getElementById('task-text').textContent === 'Paint the fence well'")
    browser.wait(ALL_ANSWERED)
    office.shot("facts")
    browser.click("#close-panel")


def changed_since(office, board, task):
    """What somebody else has changed since isn't taken back without a word."""
    browser = office.browser
    tell(f"/boards/{board}/tasks/{task}/modify", description="Paint the gate")
    browser.wait("dispatchEvent(new Event('focus')); return [...document.querySelectorAll('#list .open')].some((row) => row.textContent === 'Paint the gate')")
    press(browser, "z", held=CONTROL)
    browser.wait(IS_TOLD, "became Paint the gate.")
    expect("sent", "Paint the gate", tasks(board)[0]["description"])
    browser.click("#toast button")
    browser.wait(IS_LISTED, "Paint the fence")
    browser.wait(ALL_ANSWERED)
    expect("taken back all the same", "Paint the fence", tasks(board)[0]["description"])


def by_letters(office):
    """One key for each action in the list: j and k, d and the month, a, p, r, e; and the palette leads anywhere."""
    browser, board = office.browser, new_board("Letters", bob="member")
    for name in ("Alpha", "Beta"):
        add(board, description=name)
    office.begin(board)
    browser.wait(IS_LISTED, "Beta")
    browser.run("document.querySelector('#list .open').focus()")
    first = browser.run(FOCUSED)
    browser.press("j")
    second = browser.run(FOCUSED)
    browser.press("k")
    expect("down and up", [{"Alpha", "Beta"}, first], [{first, second}, browser.run(FOCUSED)])
    browser.press("d")
    browser.wait(IS_OPEN, True)
    browser.press(DOWN, PAGE_DOWN, PAGE_DOWN, ENTER)
    browser.wait(IS_OPEN, False)
    browser.wait(ALL_ANSWERED)
    browser.wait(f"return {FOCUSED.removeprefix('return ')} === arguments[0]", first)
    browser.press("p", ENTER)
    browser.wait(IS_OPEN, False)
    browser.press("r")
    browser.wait(IS_OPEN, True)
    browser.press(*" one")
    browser.press(ENTER)
    browser.wait(IS_LISTED, f"{first} one")
    browser.wait(ALL_ANSWERED)
    told = next(task for task in tasks(board) if task["description"] == f"{first} one")
    expect("by keys", ["H", True], [told["priority"], told["due"] > moment(27)])
    entries = [entry["what"] for entry in json.loads(ask(f"/boards/{board}/history"))["entries"]]
    expect("a call for each value", ["role", "add", "add", "modify", "modify", "modify"], entries)
    palette(browser, second)
    from_list_to_list(office, board)


def from_list_to_list(office, board):
    """Keys that show another list of tasks leave the focus on a row there, where keys go on, and not in a field."""
    browser = office.browser
    tell(f"/boards/{board}/tasks/{tasks(board)[1]['uuid']}/start")
    browser.run("document.querySelector('#list .open').focus()")
    for place, key in (("columns", "c"), ("list", "l"), ("day-list", "0"), ("list", "1")):
        browser.press(key)
        browser.wait("return document.activeElement.matches(`#${arguments[0]} .open`)", place)
    office.go(board)


def palette(browser, title):
    press(browser, "k", held=CONTROL)
    browser.wait("return document.getElementById('palette').open")
    browser.press(*title)
    browser.wait("return document.querySelector('#palette-list [aria-selected=true]')?.textContent.includes(arguments[0])", title)
    browser.press(ENTER)
    browser.wait("return document.getElementById('task-text').textContent === arguments[0]", title)
    press(browser, "k", held=CONTROL)
    browser.press(*"history", ENTER)
    browser.wait("return !document.getElementById('history-view').hidden")
    press(browser, "k", held=CONTROL)
    browser.press(*"Oil the door", DOWN)
    browser.run("[...document.querySelectorAll('#palette-list li')].find((row) => row.textContent.startsWith('Add the task')).click()")
    browser.wait("return document.getElementById('add-line').value === 'Oil the door'")
    browser.press(ENTER)
    browser.wait(LISTED + ".includes('Oil the door')")
    browser.wait(ALL_ANSWERED)


def installed(office):
    """The page can be installed as an app: what a browser asks for is there."""
    browser, board = office.browser, new_board("Installed")
    office.begin(board)
    told = browser.tell("Page.getAppManifest")
    expect("the manifest", ["manifest.webmanifest", []], [told["url"].rpartition("/")[2], told["errors"]])
    expect("what hinders its installation", [], browser.tell("Page.getInstallabilityErrors")["installabilityErrors"])


def invited(office):
    """A link has a person's name and key, which go out of the address at once, and signs in by one press; two keys that were told stand both."""
    browser, board = office.browser, new_board("Invited")
    office.begin(board)
    office.go(board, "people")
    browser.wait("return document.getElementById('person-form').checkVisibility()")
    for count, name in enumerate(("nina", "otto"), 1):
        browser.type("#person-name", name)
        browser.click("#make-key")
        browser.type("#person-key", ENTER)
        browser.wait("return document.querySelectorAll('#person-told li').length === arguments[0]", count)
        browser.wait(ALL_ANSWERED)
    office.shot("invited")
    link = browser.run("return document.querySelectorAll('#person-told .link-text')[1].textContent")
    browser.click("[aria-label='Dismiss the key of otto']")
    browser.wait("return document.querySelectorAll('#person-told li').length === 1")
    [anns] = browser.tabs()
    browser.new_tab()
    browser.open(link)
    browser.wait("return document.getElementById('name')?.value === 'nina' && document.activeElement.id === 'sign-in-button'")
    expect("left in the address", "", browser.run("return location.hash"))
    browser.press(ENTER)
    browser.wait("return document.getElementById('who').textContent === 'nina' && document.getElementById('heading').textContent === 'Invited'")
    browser.click("#sign-out")
    browser.wait("return document.getElementById('sign-in-form').checkVisibility()")
    browser.call("DELETE", "/window")
    browser.to_tab(anns)


SCENES = (look, in_place, by_letters, installed, invited)

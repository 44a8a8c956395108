"""Scenes of the page about days and times, in browsers that believe to be elsewhere."""
import datetime

from office import ALL_ANSWERED, ENTER, IS_LISTED, IS_TOLD, add, expect, new_board, tasks
from page_words import one_of, open_task, press, put_into

PREVIEW = "return document.querySelector('#add-fields .preview').innerText"
DUE = "return [...document.querySelectorAll('#list .row')].map((row) => [row.querySelector('.open').textContent, row.querySelector('.due').innerText, row.querySelector('.due').classList.contains('late')])"
FACT = "return [...document.querySelectorAll('#task-facts dt')].find((name) => name.textContent === arguments[0])?.nextSibling.textContent"


def set_day(browser, field, day, time=""):
    put_into(browser, f"#add-fields [aria-label='{field}: day']", day)
    put_into(browser, f"#add-fields [aria-label^='{field}: time']", time)


def at(office, zone, board):
    office.browser.tell("Emulation.setTimezoneOverride", timezoneId=zone)
    office.begin(board)


def days_and_times(office):
    """A picked time that falls on a day's second stays a time; a day stays that day, in the west, in the east and in Taskwarrior's form."""
    browser = office.browser
    board = new_board("Zones")
    add(board, description="Taskwarrior's day there", due="20261127T080000Z")
    for zone, time, shown in (("America/Los_Angeles", "16:00", "20261128T000001Z"), ("Asia/Tokyo", "09:00", "20261127T000001Z")):
        at(office, zone, board)
        browser.click("#add-more")
        for name, picked in ((f"Day in {zone}", ""), (f"Time in {zone}", time)):
            set_day(browser, "Due", "2026-11-27", picked)
            browser.type("#add-line", name + ENTER)
            browser.wait(ALL_ANSWERED)
            browser.wait(IS_LISTED, name)
        browser.click("#add-more")
        stored = {task["description"]: task for task in tasks(board)}
        expect(f"sent from {zone}", ["20261127T000000Z", shown], [stored[f"{kind} in {zone}"]["due"] for kind in ("Day", "Time")])
        for kind, told in (("Day", "27 Nov 2026"), ("Time", f"27 Nov 2026, {time}")):
            open_task(office, board, stored[f"{kind} in {zone}"]["uuid"])
            browser.wait("return document.getElementById('task-text').textContent === arguments[0]", f"{kind} in {zone}")
            expect(f"{kind} in {zone}", told, browser.run(FACT, "Due"))
            browser.click("#edit")
            expect("in the form", ["2026-11-27", time if kind == "Time" else ""], browser.run("return [...document.querySelectorAll('#edit-fields .moment')][0].querySelectorAll('input').values().map((input) => input.value).toArray()"))
            browser.click("#cancel-edit")
        open_task(office, board, stored["Taskwarrior's day there"]["uuid"])
        browser.wait("return document.getElementById('task-text').textContent.startsWith('Taskwarrior')")
        expect(f"Taskwarrior's day in {zone}", "27 Nov 2026" if "Angeles" in zone else "27 Nov 2026, 17:00", browser.run(FACT, "Due"))
        browser.click("#close-panel")
    set_day_without(office)


def set_day_without(office):
    """A time without its day is told beside its field, and nothing is sent."""
    browser = office.browser
    browser.click("#add-more")
    set_day(browser, "Due", "", "10:00")
    browser.type("#add-line", "No day" + ENTER)
    browser.wait(IS_TOLD, "A time needs its day")
    set_day(browser, "Due", "", "")
    put_into(browser, "#add-line", "")
    browser.click("#add-more")


def overdue(office):
    """A day is overdue once it is over where its reader is, and not while it is still going on there."""
    browser = office.browser
    board = new_board("Late")
    now = datetime.datetime.now(datetime.timezone.utc)
    # One of these is a day behind UTC's or ahead of it at any moment.
    for zone, hours in (("Etc/GMT+12", -12), ("Etc/GMT-14", 14)):
        there = (now + datetime.timedelta(hours=hours)).date()
        for name, day in ((f"Today {hours}", there), (f"Yesterday {hours}", there - datetime.timedelta(days=1))):
            add(board, description=name, due=f"{day:%Y%m%d}T000000Z")
        noon = datetime.datetime.combine(there, datetime.time(12, 34)) - datetime.timedelta(hours=hours)
        add(board, description=f"Timed {hours}", due=f"{noon:%Y%m%dT%H%M%SZ}")
    for zone, hours in (("Etc/GMT+12", -12), ("Etc/GMT-14", 14)):
        at(office, zone, board)
        browser.wait(IS_LISTED, "Today 14")
        listed = browser.run(DUE)
        shown = {name: [due.split()[-1].lower(), late] for name, due, late in listed}
        # Past midnight the days have moved on since they were reckoned.
        if (datetime.datetime.now(datetime.timezone.utc) + datetime.timedelta(hours=hours)).date() == (now + datetime.timedelta(hours=hours)).date():
            expect(f"{hours} hours from UTC", [["today", False], ["yesterday", True]], [shown[f"{name} {hours}"] for name in ("Today", "Yesterday")])
            expect(f"a time {hours} hours from UTC", [True], [due.lower().endswith("today, 12:34") for name, due, _ in listed if name == f"Timed {hours}"])


def repeats(office):
    """A repeat shows its next dates, what summer time does to them, and how many tasks a start in the past makes at once."""
    browser = office.browser
    board = new_board("Repeats")
    at(office, "Europe/Berlin", board)
    browser.click("#add-more")
    year = datetime.date.today().year + 1
    put_into(browser, "#add-fields input[placeholder=weekly]", "monthly")
    set_day(browser, "Due", f"{year}-01-31", "09:00")
    told = browser.wait(PREVIEW)
    expect("next dates", f"Next: 31 Jan {year}, 09:00; 28 Feb {year}, 09:00; 31 Mar {year}, 10:00. It repeats at 08:00 by the clock of UTC, which knows no summer time. Where you are that is 09:00, and from 31 Mar {year}, 10:00 on 10:00, as summer time begins or ends.", told)
    set_day(browser, "Due", f"{year}-01-31")
    expect("days", f"Next: 31 Jan {year}; 28 Feb {year}; 31 Mar {year}.", browser.run(PREVIEW).strip())
    wide = browser.run(CUT_OFF)
    expect("pickers that are cut off", [], wide)
    day = datetime.datetime.now(datetime.timezone.utc).date() - datetime.timedelta(days=366)
    put_into(browser, "#add-fields input[placeholder=weekly]", "daily")
    set_day(browser, "Due", str(day))
    browser.wait("return document.querySelector('#add-fields .preview').innerText.includes('368 tasks come at once')")
    office.shot("repeat-form")
    browser.type("#add-line", "A wrong year" + ENTER)
    expect("asked", True, browser.call("GET", "/alert/text").startswith("The first date is past, so 368 tasks come at once"))
    browser.call("POST", "/alert/dismiss")
    expect("nothing was sent", [], tasks(board))
    set_day(browser, "Due", str(datetime.date.today() - datetime.timedelta(days=2)))
    browser.type("#add-line", ENTER)
    browser.wait(IS_LISTED, "A wrong year")
    browser.wait(ALL_ANSWERED)
    ending(office, board)
    repeat_before_due(office)


def repeat_before_due(office):
    """A repeat may be typed before its due date, in its field or in the line: once that is there nothing is wrong any more."""
    browser, board = office.browser, new_board("Repeat first")
    office.begin(board)
    browser.click("#add-more")
    for title, typed in (("By the field", "By the field"), ("By the line", "By the line due:tomorrow")):
        browser.type("#add-fields input[placeholder=weekly]", "weekly")
        browser.wait(IS_TOLD, "A repeating task needs a due date.")
        if typed == title:
            set_day(browser, "Due", str(datetime.date.today() + datetime.timedelta(days=3)))
        browser.type("#add-line", typed)
        expect("told of a fault", False, browser.run(IS_TOLD, "A repeating task needs a due date."))
        browser.type("#add-line", ENTER)
        browser.wait(IS_LISTED, title)
    browser.wait(ALL_ANSWERED)
    expect("statuses", ["recurring", "pending"] * 2, [task["status"] for task in tasks(board)])


# The pickers that are narrower than they would be by themselves.
CUT_OFF = """return [...document.querySelectorAll('#add-fields .moment input')].filter((input) => {
    const copy = input.cloneNode();
    copy.style.cssText = 'position: absolute; width: max-content; min-width: 0; flex: none; visibility: hidden';
    input.parentElement.append(copy);
    const isCut = copy.offsetWidth > input.offsetWidth + 1;
    copy.remove();
    return isCut;
}).map((input) => input.type)"""


def ending(office, board):
    """Deleting what repeats offers to complete or delete its open tasks too."""
    browser = office.browser
    [template] = [task for task in tasks(board) if task["status"] == "recurring"]
    office.go(board, "repeating", template["uuid"])
    browser.wait("return document.getElementById('task-text').textContent === 'A wrong year'")
    press(browser, "Delete, and make no more", "#task-actions")
    browser.wait("return document.getElementById('end-dialog').open")
    expect("offers", True, "It has 4 open tasks" in browser.run("return document.getElementById('end-dialog').innerText"))
    press(browser, "Complete them", "#end-dialog")
    browser.wait(ALL_ANSWERED)
    ended = lambda: [one_of(board, template["uuid"])["status"], [task["status"] for task in tasks(board) if task["uuid"] != template["uuid"]]]
    expect("afterwards", ["deleted", ["completed"] * 4], ended())
    press(browser, "Undo", "#toast")
    browser.wait("return document.getElementById('task-status').textContent.startsWith('repeating')")
    browser.wait(ALL_ANSWERED)
    expect("taken back", ["recurring", ["pending"] * 4], ended())


def as_ever(office):
    """The browser is where it was again."""
    office.browser.tell("Emulation.setTimezoneOverride", timezoneId="")


SCENES = (days_and_times, overdue, repeats, as_ever)

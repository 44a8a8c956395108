"""What it costs a page to follow a board of 10,000 tasks: python3 follow.py BROWSER PROGRAM PORT SLACK PAGE.., in a folder that it may write to.

For each folder of a page, in a browser of its own: the bytes that one change by somebody else brings, the time from a reload without a server to the
first rows, and the time until a task that somebody else gives to its reader stands on My day. Figures are printed, and fail nothing."""
import datetime
import json
import sys
import time

import office as offices
from office import BROWSER, IS_LISTED, SLACK, ask, new_board, tell
from talking import end_by_signal, make_file
from webdriver import Browser

COUNT = 9900
ROWS = "return document.querySelectorAll('#list .row').length > 10 && performance.now()"
# What came for the boards since the timings were cleared, with its heads, in bytes.
CAME = "return performance.getEntriesByType('resource').filter(({ name }) => /\\/(boards|me)\\b/.test(name)).reduce((sum, { transferSize }) => sum + transferSize, 0)"
ON_DAY = "return [...document.querySelectorAll('#day-list .open')].some((row) => row.textContent === arguments[0])"
IS_KEPT = "return Boolean(navigator.serviceWorker.controller)"


def fill(board):
    """Tasks as a team has them after some years."""
    for first in range(0, COUNT, 900):
        tasks = [
            {"uuid": f"00000000-0000-4000-9000-{board:04d}{number:08d}", "description": f"Task {number} of the board, with some more words", "project": f"Part.{number % 30}", "tags": ["phone", "mail"][number % 3 :], "status": "completed" if number % 3 else "pending"}
            for number in range(first, min(COUNT, first + 900))
        ]
        ask(f"/boards/{board}/import", json.dumps(tasks).encode())


def bytes_of_a_change(office, board, number):
    """What one change by bob brings until it is shown."""
    browser, title = office.browser, f"Changed as number {number}"
    browser.run("performance.clearResourceTimings()")
    tell(f"/boards/{board}/tasks/00000000-0000-4000-9000-{board:04d}{3 * number:08d}/modify", "bob", description=title, tags=["next"])
    browser.wait(IS_LISTED, title)
    return browser.run(CAME)


def reload_without_server(office, board):
    """How long a reload takes until rows are shown, in milliseconds, while the server is away."""
    browser = office.browser
    browser.wait(IS_KEPT)
    office.server.end()
    browser.open("about:blank")
    browser.open(f"{office.address}#/{board}/tasks")
    shown = browser.wait(ROWS)
    office.start()
    return shown


def until_on_day(office, number):
    """How long a task that bob gives to ann takes until it stands on her My day, in seconds."""
    browser, other = office.browser, new_board(f"Other {number}", bob="member")
    browser.open("about:blank")
    browser.open(f"{office.address}#/day")
    browser.wait("return document.getElementById('day-told')?.textContent")
    time.sleep(5)
    begun = time.monotonic()
    tell(f"/boards/{other}/tasks", "bob", description="For ann", assignee="ann", due=f"{datetime.date.today():%Y%m%d}T000000Z")
    browser.wait(ON_DAY, "For ann")
    return time.monotonic() - begun


def measure(page, number):
    with Browser(BROWSER, 60 * SLACK) as browser:
        browser.size(1280, 900)
        offices.PAGE = page
        office = offices.Office(browser)
        try:
            board = new_board("Large", bob="member")
            fill(board)
            office.begin(board)
            browser.wait(ROWS)
            change = min(bytes_of_a_change(office, board, at) for at in range(1, 4))
            shown = reload_without_server(office, board)
            day = until_on_day(office, number)
        finally:
            office.server.end()
    return f"{page}: a change by somebody else {change:,} bytes, rows {shown:.0f} ms after a reload without a server, on My day after {day:.1f} s"


end_by_signal()
make_file(offices.PROGRAM)
for number, page in enumerate(sys.argv[5:]):
    print(measure(page, number), flush=True)

"""The page in Firefox: python3 firefox.py BROWSER PROGRAM PORT SLACK PAGE, in a folder that it may write to."""
from marionette import Firefox
from office import ALL_ANSWERED, BROWSER, ENTER, IS_LISTED, PROGRAM, SLACK, Office, expect, tasks
from talking import end_by_signal, make_file

ABOUT = "(A) Call Mom +Family @phone due:2026-01-31"


def steps(office):
    """Signing in, adding, completing by a click and its way back, and the page loaded anew while the server is away."""
    browser = office.browser
    office.enter("ann")
    for line in (ABOUT, "Buy milk"):
        browser.type("#add-line", line + ENTER)
        browser.wait(ALL_ANSWERED)
    browser.wait("return document.querySelectorAll('#list .row').length === 2")
    expect("a line", ["Call Mom", "H", "Family", ["phone"], "20260131T000000Z"], [tasks(1)[0][name] for name in ("description", "priority", "project", "tags", "due")])
    browser.run("document.querySelector('#list .tick').click()")
    browser.wait("return document.querySelectorAll('#list .row').length === 1")
    browser.wait(ALL_ANSWERED)
    expect("completed", ["completed", "pending"], [task["status"] for task in tasks(1)])
    browser.wait("return document.querySelector('#toast button')")
    browser.click("#toast button")
    browser.wait(IS_LISTED, "Call Mom")
    browser.wait(ALL_ANSWERED)
    expect("taken back", ["pending", "pending"], [task["status"] for task in tasks(1)])


end_by_signal()
make_file(PROGRAM)
with Firefox(BROWSER, "profile", 10 * SLACK) as browser:
    office = Office(browser)
    try:
        steps(office)
    finally:
        office.server.end()
print("the page in Firefox: a task added, completed and opened again")

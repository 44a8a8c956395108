"""Scenes of the page: whose a task is, when it is due, what a search and a line understand, and what stands in the address."""
import datetime

from office import ALL_ANSWERED, BACKSPACE, ENTER, IS_LISTED, IS_TOLD, LISTED, TAB, add, expect, new_board, tasks, tell

HEADINGS = "return [...document.querySelectorAll('#list .heading h3')].map((heading) => heading.textContent)"
ARE_LISTED = LISTED.replace("return", "return JSON.stringify(", 1) + ") === JSON.stringify(arguments[0])"
CHOOSE = "const select = document.getElementById(arguments[0]); select.value = arguments[1]; select.dispatchEvent(new Event('input'))"


def day(ahead):
    return datetime.date.today() + datetime.timedelta(days=ahead)


def moment(ahead):
    return f"{day(ahead):%Y%m%d}T000000Z"


def choose(browser, **filters):
    for name, value in filters.items():
        browser.run(CHOOSE, f"filter-{name}", value)


def search(browser, text, *wanted):
    """What a search shows, whatever was searched before."""
    browser.run("const field = document.getElementById('filter-text'); field.value = arguments[0]; field.dispatchEvent(new Event('input'))", text)
    browser.wait(ARE_LISTED, list(wanted))


def members(task, *names):
    return {name: task[name] for name in names if name in task}


# The directions of the fields for words, where they hold Hebrew ones.
DIRECTIONS = """return [...document.querySelectorAll('#add-line, #add-fields input[placeholder], #filter-text, #note-text, #depend-text, #board-title')].map((field) => {
    const before = field.value;
    field.value = 'שלום';
    const { direction } = getComputedStyle(field);
    field.value = before;
    return direction;
})"""


def add_words(office):
    """The words of the line that adds a task; what looks like one and isn't is told before it becomes description."""
    browser = office.browser
    board = new_board("Words", bob="member")
    office.begin(board)
    browser.wait("return [...document.querySelectorAll('#filter-assignee option')].some((option) => option.value === 'bob')")
    browser.type("#add-line", "Fix the roof for:bob due:tomorrow priority:h +House.roof @tool" + ENTER)
    browser.wait(IS_LISTED, "Fix the roof")
    browser.type("#add-line", f"Meet for:me due:{day(9)}T14:30 wait:friday" + ENTER)
    browser.wait("return document.getElementById('count').textContent === '2 of 2 tasks'")
    browser.wait(ALL_ANSWERED)
    roof, meet = tasks(board)
    expect("words", {"assignee": "bob", "due": moment(1), "priority": "H", "project": "House.roof", "tags": ["tool"]}, members(roof, "assignee", "due", "priority", "project", "tags"))
    friday = next(ahead for ahead in range(1, 8) if day(ahead).weekday() == 4)
    local = datetime.datetime.combine(day(9), datetime.time(14, 30)).astimezone(datetime.timezone.utc)
    expect("words with times", {"assignee": "ann", "due": f"{local:%Y%m%dT%H%M%SZ}", "wait": moment(friday)}, members(meet, "assignee", "due", "wait"))
    browser.type("#add-line", "Lunch due:tomorrow 9:30" + ENTER)
    browser.wait(IS_LISTED, "Lunch")
    browser.wait(ALL_ANSWERED)
    lunch = datetime.datetime.combine(day(1), datetime.time(9, 30)).astimezone(datetime.timezone.utc)
    expect("a time behind its day", f"{lunch:%Y%m%dT%H%M%SZ}", tasks(board)[2]["due"])
    browser.type("#add-line", "Rest due:tomorow for:zoe pri:X +One +Two at noon")
    for told in ("due:tomorow isn't a day", "for:zoe names nobody", "pri:X isn't a priority", "+Two is a second one"):
        browser.wait(IS_TOLD, told)
    expect("marked in the line", ["due:tomorow", "for:zoe", "pri:X", "+Two"], browser.run("return [...document.querySelectorAll('#add-marks .misread')].map((mark) => mark.textContent)"))
    office.shot("misread")
    browser.type("#add-line", ENTER)
    browser.wait(IS_LISTED, "Rest due:tomorow for:zoe pri:X +Two at noon")
    browser.wait(ALL_ANSWERED)
    expect("in the description", "One", tasks(board)[3]["project"])
    as_people_type(browser, board)
    expect("words from right to left", {"rtl"}, set(browser.run(DIRECTIONS)))


def as_people_type(browser, board):
    """Days and repeats without a name count at the end of the line; a chip keeps its words as words; Tab goes on with what is offered."""
    browser.type("#add-line", "Sunday school every monday 18:00 for:bob !1")
    kinds = "return [...document.querySelectorAll('#add-marks .mark')].map((mark) => mark.textContent)"
    expect("marked", ["every monday", "18:00", "for:bob", "!1"], browser.run(kinds))
    browser.type("#add-line", ENTER)
    browser.wait(ALL_ANSWERED)
    school = next(task for task in tasks(board) if task["status"] == "recurring")
    monday = next(ahead for ahead in range(1, 8) if day(ahead).weekday() == 0)
    local = datetime.datetime.combine(day(monday), datetime.time(18, 0)).astimezone(datetime.timezone.utc)
    expect("a repeat", {"description": "Sunday school", "recur": "weekly", "due": f"{local:%Y%m%dT%H%M%SZ}", "assignee": "bob", "priority": "H"}, members(school, "description", "recur", "due", "assignee", "priority"))
    browser.type("#add-line", "Plan it tomorrow")
    browser.run("[...document.querySelectorAll('#understood button.chip')].find((chip) => chip.textContent.startsWith('due')).click()")
    expect("kept as words", "Plan it \\tomorrow", browser.run("return document.getElementById('add-line').value"))
    browser.type("#add-line", ENTER)
    browser.wait(IS_LISTED, "Plan it tomorrow")
    browser.wait(ALL_ANSWERED)
    expect("without a date", None, next(task for task in tasks(board) if task["description"].startswith("Plan")).get("due"))
    browser.type("#add-line", "Sand it +Hou")
    browser.wait("return document.querySelector('.choices-list [role=option]')?.textContent.startsWith('House.roof')")
    browser.press(TAB)
    expect("gone on with", "Sand it +House.roof ", browser.run("return document.getElementById('add-line').value"))
    browser.type("#add-line", ENTER)
    browser.wait(IS_LISTED, "Sand it")
    browser.wait(ALL_ANSWERED)


def added_aside(office):
    """A new task that the filters hide is told of, and can be shown; of one that is in sight nothing is told."""
    browser, board = office.browser, new_board("Aside", bob="member")
    office.begin(board)
    browser.wait("return [...document.querySelectorAll('#filter-assignee option')].some((option) => option.value === 'bob')")
    choose(browser, assignee="@me")
    browser.type("#add-line", "Mine for:me" + ENTER)
    browser.wait(IS_LISTED, "Mine")
    expect("told of what is in sight", "", browser.run("return document.getElementById('toast').textContent"))
    browser.type("#add-line", "Bob's for:bob" + ENTER)
    browser.wait(IS_TOLD, "Added Bob's, which the filters hide.")
    browser.run("document.querySelector('#toast button').click()")
    browser.wait("return document.getElementById('task-text').textContent === \"Bob's\"")
    browser.wait(ALL_ANSWERED)
    browser.click("#close-panel")


def pasted_list(office):
    """A list that is pasted becomes a task a line, with one way back, or one line, as its person says."""
    browser, board = office.browser, new_board("Pasted")
    office.begin(board)
    paste = """const [line, clipboardData] = [document.getElementById("add-line"), new DataTransfer()];
        clipboardData.setData("text/plain", arguments[0]);
        line.focus();
        setTimeout(() => line.dispatchEvent(new ClipboardEvent("paste", { clipboardData, bubbles: true, cancelable: true })) && document.execCommand("insertText", false, arguments[0]));"""
    listed = "- Buy milk +Shop\r\n\r\n* [ ] Buy bread due:2026-12-01\nCall Bob\n"
    browser.run(paste, listed)
    expect("asked", "Add 3 tasks, one for each line? Otherwise all of it becomes one line.", browser.answer_question())
    browser.wait(IS_TOLD, "Added 3 tasks.")
    browser.wait(ALL_ANSWERED)
    told = [[task.get(name) for name in ("description", "project", "due")] for task in tasks(board)]
    expect("a task a line", [["Buy milk", "Shop", None], ["Buy bread", None, "20261201T000000Z"], ["Call Bob", None, None]], told)
    browser.run("document.querySelector('#toast button').click()")
    browser.wait("return document.querySelectorAll('#list .row').length === 0")
    browser.wait(ALL_ANSWERED)
    expect("taken back", ["deleted"] * 3, [task["status"] for task in tasks(board)])
    browser.run(paste, "Buy tea\nand cups")
    browser.answer_question(False)
    browser.wait("return document.getElementById('add-line').value === 'Buy tea and cups'")
    browser.run(paste, "of glass\nor clay")
    browser.wait("return document.getElementById('add-line').value === 'Buy tea and cupsof glass or clay'")
    browser.type("#add-line", ENTER)
    browser.wait(ALL_ANSWERED)
    expect("one line", "Buy tea and cupsof glass or clay", tasks(board)[-1]["description"])


def assign(office):
    """A task's assignee in its row and its form, filters by person, and one who has no role any more."""
    browser = office.browser
    board = new_board("Whose", bob="member")
    roof = add(board, description="Fix the roof", assignee="bob", priority="H")
    add(board, description="Buy paint", assignee="ann", due=moment(0))
    add(board, description="Sweep")
    office.begin(board)
    browser.wait(ARE_LISTED, ["Buy paint", "Fix the roof", "Sweep"])
    browser.wait("return [...document.querySelectorAll('#list .assignee bdi')].map((name) => name.textContent).join() === 'ann,bob'")
    for who, wanted in (("@me", ["Buy paint"]), ("bob", ["Fix the roof"]), ("@nobody", ["Sweep"]), ("", ["Buy paint", "Fix the roof", "Sweep"])):
        choose(browser, assignee=who)
        browser.wait(ARE_LISTED, wanted)
    choose(browser, group="assignee")
    browser.wait(HEADINGS + ".join() === 'ann 1,bob 1,Nobody\\'s 1'")
    office.go(board, "tasks", roof)
    browser.wait("return document.getElementById('task-facts').textContent.includes('bob')")
    browser.click("#edit")
    browser.run("const select = document.querySelector('#edit-fields select.people-choices'); if (select.checkVisibility()) select.value = 'ann'")
    browser.click("#edit-save")
    browser.wait("return document.getElementById('task-facts').textContent.includes('Assigned toann')")
    browser.wait(ALL_ANSWERED)
    expect("assignee", "ann", tasks(board)[0]["assignee"])
    tell(f"/boards/{board}/tasks/{roof}/modify", assignee="bob")
    tell(f"/boards/{board}/roles", member="bob", role=None)
    office.begin(board)
    browser.wait("return document.querySelector('#list .assignee.gone')?.title === 'bob: no role any more'")
    office.go(board, "tasks", roof)
    browser.wait(IS_TOLD, "bob (no role any more)")
    office.shot("assigned")


# The filters that are narrower than what they say.
CUT_OFF = """return [...document.querySelectorAll('#filter-fields select')].filter((select) => {
    const copy = select.cloneNode(true);
    copy.value = select.value;
    copy.style.cssText = 'position: absolute; width: max-content; max-width: none; field-sizing: content; visibility: hidden';
    select.parentElement.append(copy);
    const isCut = copy.offsetWidth > select.offsetWidth + 1;
    copy.remove();
    return isCut;
}).map((select) => select.selectedOptions[0].textContent)"""


def when(office):
    """Groups and filters by due date, orders, and the words of a search."""
    browser = office.browser
    board = new_board("When", bob="member")
    for text, ahead, more in (
        ("Order paper", 0, {"assignee": "ann"}),
        ("Plan the party", 40, {"project": "Office.party", "tags": ["fun"]}),
        ("Pay the tax", -2, {"project": "Finance.tax", "priority": "H", "tags": ["bank"]}),
        ("Close the books", 6, {"project": "Finance", "assignee": "bob", "tags": ["banking"]}),
        ("Go away", 7, {"project": "Finances"}),
        ("Any time", None, {"priority": "L", "tags": ["cafe\u0301"]}),
    ):
        add(board, description=text, **({} if ahead is None else {"due": moment(ahead)}), **more)
    office.begin(board)
    browser.wait("return document.getElementById('count').textContent === '6 of 6 tasks'")
    choose(browser, sort="title")
    browser.wait(ARE_LISTED, ["Any time", "Close the books", "Go away", "Order paper", "Pay the tax", "Plan the party"])
    choose(browser, sort="project")
    browser.wait(LISTED + ".slice(0, 4).join() === 'Close the books,Pay the tax,Go away,Plan the party'")
    choose(browser, sort="due", group="due")
    browser.wait(HEADINGS + ".join() === 'Overdue 1,Today 1,This week 1,Later 2,No date 1'")
    browser.wait(ARE_LISTED, ["Pay the tax", "Order paper", "Close the books", "Go away", "Plan the party", "Any time"])
    office.shot("groups")
    for due, wanted in (("overdue", "Pay the tax"), ("today", "Order paper"), ("week", "Close the books"), ("none", "Any time")):
        choose(browser, due=due)
        browser.wait(ARE_LISTED, [wanted])
    office.go(board, "tasks", tasks(board)[0]["uuid"])
    browser.wait("return document.querySelector('.with-panel')")
    for group in ("project", "assignee"):
        choose(browser, sort="changed", group=group)
        expect("filters that are cut off beside a task", [], browser.run(CUT_OFF))
    choose(browser, due="", sort="due", project="Finance", group="")
    browser.wait(ARE_LISTED, ["Pay the tax", "Close the books"])
    choose(browser, project="")
    search(browser, "+finance", "Pay the tax", "Close the books")
    search(browser, "@bank", "Pay the tax")
    search(browser, "@ban", "Pay the tax", "Close the books")
    search(browser, "for:me", "Order paper")
    search(browser, "for:bob", "Close the books")
    search(browser, "due:today", "Order paper")
    search(browser, f"due:{day(40)}", "Plan the party")
    search(browser, "due:overdue priority:H", "Pay the tax")
    search(browser, "the for:nobody", "Pay the tax", "Plan the party")
    for word in ("caf\u00e9", "CAFE\u0301", "@caf\u00e9"):
        search(browser, word, "Any time")


def addresses(office):
    """Filters, order and task stand in the address; Back works, a board opens as it was left, and a link that leads nowhere says so."""
    browser = office.browser
    board = new_board("Linked")
    milk = add(board, description="Buy milk", tags=["shop"], due=moment(0))
    add(board, description="Call mom", tags=["phone"])
    office.begin(board)
    both = ["Buy milk", "Call mom"]
    browser.wait(ARE_LISTED, both)
    choose(browser, tag="phone")
    browser.wait(ARE_LISTED, ["Call mom"])
    choose(browser, tag="", group="due", sort="title")
    browser.type("#filter-text", "milk")
    browser.wait(ARE_LISTED, ["Buy milk"])
    browser.wait("return location.hash.includes('text=milk')")
    browser.click("#list .open")
    browser.wait("return location.hash.includes(arguments[0]) && document.getElementById('panel').checkVisibility()", milk)
    link = browser.run("return location.href")
    for parts in ("text=milk", "group=due", "sort=title", f"#/{board}/tasks/{milk}?"):
        expect("in the address", True, parts in link)
    browser.call("POST", "/back")
    browser.wait("return !document.getElementById('panel').offsetParent")
    browser.wait(ARE_LISTED, ["Buy milk"])
    browser.call("POST", "/back")
    browser.wait(ARE_LISTED, both)
    expect("the search", "", browser.run("return document.getElementById('filter-text').value"))
    browser.type("#filter-text", "mom")
    browser.wait(ARE_LISTED, ["Call mom"])
    browser.wait("return location.hash.includes('text=mom')")
    browser.open("about:blank")
    browser.open(f"{office.address}#/{board}/tasks")
    browser.wait(ARE_LISTED, ["Call mom"])
    expect("as it was left", ["mom", "due", "title"], browser.run("return ['text', 'group', 'sort'].map((name) => document.getElementById(`filter-${name}`).value)"))
    browser.open("about:blank")
    browser.open(link)
    browser.wait(ARE_LISTED, ["Buy milk"])
    browser.wait("return document.getElementById('task-text').textContent === 'Buy milk'")
    browser.type("#filter-text", BACKSPACE * 4)
    browser.wait(ARE_LISTED, both)
    office.go(board, "tasks", "00000000-0000-4000-8000-00000000dead")
    browser.wait(IS_TOLD, "The task of this address isn't on this board")
    browser.run("location.hash = '#/9999/tasks'")
    browser.wait(IS_TOLD, "You have no role on board 9999, or it isn't there")
    office.shot("unknown")
    browser.click(f"#boards a[href='#/{board}/tasks']")
    browser.wait(ARE_LISTED, both)


SCENES = (add_words, added_aside, pasted_list, assign, when, addresses)

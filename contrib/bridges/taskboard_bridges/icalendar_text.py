"""An iCalendar text (RFC 5545) of due tasks. Nothing is kept here: the same tasks give the same text."""
import re

from taskboard_bridges.agenda import is_open
from taskboard_bridges.days import day_of

PRIORITIES = {"H": "1", "M": "5", "L": "9"}
MOST_OCTETS = 75


def escaped(text):
    """A text as a value: its backslashes, commas, semicolons and line ends are escaped, and other control characters are spaces."""
    text = re.sub(r"\r\n?", "\n", str(text))
    text = text.replace("\\", "\\\\").replace(";", "\\;").replace(",", "\\,").replace("\n", "\\n")
    return re.sub(r"[\x00-\x1f\x7f]", " ", text)


def folded(line):
    """A line cut into parts of 75 octets, none within a character."""
    parts: list[str] = []
    part: list[str] = []
    size = 0
    for character in line:
        octets = len(character.encode("utf-8", "replace"))
        if size + octets > MOST_OCTETS:
            parts.append("".join(part))
            part, size = [" "], 1
        part.append(character)
        size += octets
    return "\r\n".join([*parts, "".join(part)])


def event(board, task, zone, page):
    """The lines of a task's event. It takes no time of its day, so that nobody looks busy."""
    day = day_of(task["due"], zone)
    address = f"{page}#/{board.number}/tasks/{task['uuid']}" if page else ""
    about = [f"Board {board.title}", *([f"For {task['assignee']}"] if task.get("assignee") else []), *([f"Project {task['project']}"] if "project" in task else [])]
    about += [note["description"] for note in task.get("annotations", ())]
    stamp = task.get("modified", task["entry"])
    yield "BEGIN:VEVENT"
    yield f"UID:{task['uuid']}-{board.number}@taskboard"
    yield f"DTSTAMP:{stamp}"
    yield f"LAST-MODIFIED:{stamp}"
    yield f"CREATED:{task['entry']}"
    yield f"DTSTART;VALUE=DATE:{day:%Y%m%d}" if day else f"DTSTART:{task['due']}"
    yield f"SUMMARY:{escaped(task['description'])}"
    yield f"DESCRIPTION:{escaped(chr(10).join(about))}"
    if task.get("tags"):
        yield "CATEGORIES:" + ",".join(escaped(tag) for tag in task["tags"])
    if "priority" in task:
        yield f"PRIORITY:{PRIORITIES[task['priority']]}"
    if address:
        yield f"URL:{address}"
    yield "TRANSP:TRANSPARENT"
    yield "END:VEVENT"


def no_event():
    """A calendar has one component at least: this one says what UTC is."""
    return ["BEGIN:VTIMEZONE", "TZID:UTC", "BEGIN:STANDARD", "DTSTART:19700101T000000", "TZOFFSETFROM:+0000", "TZOFFSETTO:+0000", "END:STANDARD", "END:VTIMEZONE"]


def calendar(title, found, zone, page):
    """The text of a calendar: an event for each open task that is due, of pairs of a board and a task."""
    lines = ["BEGIN:VCALENDAR", "VERSION:2.0", "PRODID:-//taskboard//taskboard-remind//EN", "CALSCALE:GREGORIAN", f"X-WR-CALNAME:{escaped(title)}", "REFRESH-INTERVAL;VALUE=DURATION:PT1H"]
    events = [line for board, task in found if is_open(task) and "due" in task for line in event(board, task, zone, page)]
    lines += [*(events or no_event()), "END:VCALENDAR"]
    return "".join(folded(line) + "\r\n" for line in lines)

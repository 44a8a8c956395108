"""What a board makes of a task in Taskwarrior's JSON: why it refuses it, and what it drops. Nothing is kept here."""
import datetime
import re

from taskboard_bridges.board_tasks import MOST_BYTES, OTHER, SETTABLE
from taskboard_bridges.lines import UUID
from taskboard_bridges.steps import is_step

STATUSES = ("pending", "waiting", "recurring", "completed", "deleted")
MOMENTS = ("due", "end", "entry", "modified", "scheduled", "start", "until", "wait")
KNOWN = frozenset((*SETTABLE, *OTHER))
MOMENT = re.compile(r"([0-9]{4})([0-9]{2})([0-9]{2})T([0-9]{2})([0-9]{2})([0-9]{2})Z")
BLANK = re.compile(r"[ \t\r\n]")
MASK = re.compile(rf"[-+XW?]{{0,{MOST_BYTES}}}")
NUMBER = re.compile(r"[0-9]+")


def is_text(value):
    return isinstance(value, str)


def is_there(value):
    """Whether a member says something: null and the empty text don't."""
    return value is not None and value != ""


def is_id(value):
    return is_text(value) and bool(UUID.fullmatch(value))


def is_moment(value):
    """Whether a value is a moment of the calendar from 1970 on."""
    found = MOMENT.fullmatch(value) if is_text(value) else None
    if not found or found[1] < "1970":
        return False
    try:
        datetime.datetime.strptime(value, "%Y%m%dT%H%M%SZ")
    except ValueError:
        return False
    return True


def is_note(note):
    return isinstance(note, dict) and is_moment(note.get("entry")) and is_text(note.get("description"))


def is_list(value, fits):
    return isinstance(value, list) and all(map(fits, value))


# What each member has to be, where it is there.
FORMS = {
    "description": (is_text, "a text"),
    "status": (lambda value: value in STATUSES, f"one of {', '.join(STATUSES)}"),
    "priority": (is_text, "a text"),
    "project": (is_text, "a text"),
    "recur": (is_text, "a text"),
    "parent": (is_id, "a uuid"),
    "mask": (lambda value: is_text(value) and bool(MASK.fullmatch(value)), "made of -, +, X, W and ?, or is too long"),
    "tags": (lambda value: is_text(value) or is_list(value, is_text), "a list of texts"),
    "depends": (lambda value: is_list(value.split(",") if is_text(value) else value, is_id), "a list of uuids"),
    "annotations": (lambda value: is_list(value, is_note), "a list of notes, each with its moment and its text"),
    **dict.fromkeys(MOMENTS, (is_moment, "a moment in UTC from 1970 to 9999, such as 20260131T090000Z")),
}


def texts_in(value):
    """The parts of a list, which may be one text with commas."""
    return [part for part in value.split(",") if part] if is_text(value) else value or []


def links_of(task):
    """The tasks that one depends on, each once."""
    return list(dict.fromkeys(link.lower() for link in texts_in(task.get("depends"))))


def status_of(task):
    """The status, which a task need not name."""
    if is_there(task.get("status")):
        return task["status"]
    return "recurring" if is_there(task.get("recur")) and not is_there(task.get("parent")) else "pending"


def makes_instances(task):
    """Whether instances find their template in a task: one that repeats, or a deleted one that did."""
    if status_of(task) != "deleted":
        return status_of(task) == "recurring"
    return is_there(task.get("recur")) and not is_there(task.get("parent")) and is_there(task.get("due")) and is_step(task["recur"])


def place_of(task):
    """The number of an instance; None where it has none."""
    place = task.get("imask")
    if is_text(place) and NUMBER.fullmatch(place):
        place = int(place.lstrip("0")[:11] or 0)
    return place if isinstance(place, int) and not isinstance(place, bool) and 0 <= place < 2**32 else None


def is_instance(task):
    """Whether a task comes as an instance of a template."""
    is_deleted_template = status_of(task) == "deleted" and is_there(task.get("recur")) and not is_there(task.get("parent"))
    return status_of(task) != "recurring" and not is_deleted_template and (is_there(task.get("parent")) or place_of(task) is not None)


def can_keep(value):
    """Whether a board keeps the value of a member of one's own."""
    return value is None or isinstance(value, (str, bool)) or isinstance(value, int) and -(2**63) <= value < 2**63


def fault_in_text(text, most=MOST_BYTES):
    """Why a board keeps no such text; nothing where it does."""
    if any("\ud800" <= character <= "\udfff" for character in text):
        return "bytes or half characters in it that aren't UTF-8"
    if "\0" in text:
        return "the character 0 in it"
    over = len(text.encode()) - most
    return f"{over} bytes too many ({most} at most)" if over > 0 else ""


def faults_in_texts(task):
    """The texts of a task that a board keeps no such of."""
    named = [(f"its {name}", task.get(name)) for name in ("description", "project", "recur")]
    named += [("a tag", tag) for tag in texts_in(task.get("tags"))]
    named += [("a note", note["description"]) for note in task.get("annotations") or ()]
    own = [(name, value) for name, value in task.items() if name not in KNOWN and can_keep(value)]
    named += [("the name of a member", name) for name, _ in own] + [(f"its {name[:80]}", value) for name, value in own]
    found = ((what, fault_in_text(text)) for what, text in named if is_text(text))
    return [f"{what} has {fault}" for what, fault in found if fault]


def faults_in(task):
    """Each reason for which a board refuses a task; none where it takes it, if its links are no circle."""
    faults = [] if is_id(task.get("uuid")) else ["it has no uuid"]
    if not is_there(task.get("description")):
        faults.append("it has no description")
    faults += [f"its {name} isn't {form}" for name, (fits, form) in FORMS.items() if is_there(task.get(name)) and not fits(task[name])]
    if faults:
        return faults
    if any(tag == "" or BLANK.search(tag) for tag in texts_in(task.get("tags"))):
        faults.append("a tag is empty or has a blank in it")
    faults += faults_in_texts(task)
    if status_of(task) == "recurring":
        if not is_there(task.get("due")):
            faults.append("it repeats, and has no due date")
        if not is_step(task.get("recur") or ""):
            faults.append(f"it repeats by {task['recur'][:80]}, which boards can't" if task.get("recur") else "it repeats, and has no step (recur)")
    return faults


def dropped_from(task):
    """The members of a task that an import drops, each with the reason."""
    status, dropped = status_of(task), {}
    repeats, is_deleted = status == "recurring", status == "deleted"
    has_parent, has_place = is_there(task.get("parent")), place_of(task) is not None
    if is_there(task.get("priority")) and task["priority"] not in ("H", "M", "L"):
        dropped["priority"] = "it isn't H, M or L"
    if repeats and has_parent:
        dropped["parent"] = "a template is no instance"
    if has_place and (repeats or is_deleted and is_there(task.get("recur")) and not has_parent):
        dropped["imask"] = "a template is no instance"
    if is_there(task.get("recur")) and not (repeats or has_parent or makes_instances(task)):
        dropped["recur"] = "the task is neither template nor instance"
    if is_there(task.get("mask")) and not makes_instances(task):
        dropped["mask"] = "the task is no template"
    if is_there(task.get("end")) and status not in ("completed", "deleted"):
        dropped["end"] = "the task is open"
    for name, value in task.items():
        if name not in KNOWN and (name == "" or not can_keep(value)):
            dropped[name] = "it is neither a text nor a whole number of 64 bits"
    return dropped

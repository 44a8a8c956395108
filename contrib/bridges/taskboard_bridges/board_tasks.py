"""Tasks of a board: how they are seen, and by which calls they become what they have to be. Nothing is kept here."""
import datetime
import json
import uuid

from taskboard_bridges.merging import LINK, NOTE, STARTED, STATUS, TAG, VALUE

# The attributes that a call sets, and those that no call can set or that another key stands for. All others are the user's own.
SETTABLE = ("description", "project", "priority", "due", "wait", "scheduled", "until")
OTHER = ("uuid", "status", "entry", "modified", "start", "end", "tags", "annotations", "depends", "mask", "imask", "parent", "recur", "id", "urgency")
# Attributes that Taskwarrior keeps for itself: they mean nothing on a board.
FOREIGN = ("rtype", "template", "last")
CLOSED = {"completed": "done", "deleted": "delete"}
MOST_BYTES = 16384


def is_template(task):
    """Whether a task makes others: no bridge takes it along."""
    return task["status"] == "recurring" or "recur" in task and "parent" not in task


def view_of(task):
    """The keys of a task in Taskwarrior's JSON, as boards write it."""
    status = task["status"]
    view = {STATUS: status if status in CLOSED else "open"}
    if "start" in task and status not in CLOSED:
        view[STARTED] = True
    for name, value in task.items():
        if name in SETTABLE or name not in OTHER and name not in FOREIGN and value is not None:
            view[VALUE + name] = value
    for tag in task.get("tags", ()):
        view[TAG + tag] = True
    for link in task.get("depends", ()):
        view[LINK + link] = True
    for note in task.get("annotations", ()):
        view[NOTE + note["description"]] = view.get(NOTE + note["description"], 0) + 1
    return view


def now():
    """This moment, as boards write moments."""
    return datetime.datetime.now(datetime.timezone.utc).strftime("%Y%m%dT%H%M%SZ")


def is_waiting(view, moment):
    """Whether a task waits for a moment after this one."""
    return view.get(VALUE + "wait", "") > moment


class Call:
    """A call on a task: its word, its body, the keys that it changes, and how many equal ones come before it."""

    def __init__(self, word, body, keys, before=0):
        self.word, self.body, self.keys, self.before = word, body, keys, before

    def bytes(self):
        """The body as it is sent, the same each time."""
        return json.dumps(self.body, ensure_ascii=False, sort_keys=True).encode("utf-8", "replace")

    def target(self, board, task):
        """The path of the call."""
        return f"/boards/{board}/tasks" + ("" if self.word == "add" else f"/{task}/{self.word}")

    def text(self):
        """What the call does, by which it is told from the task's other calls."""
        return json.dumps([self.word, self.body, self.before], sort_keys=True)


def identifier(replica, board, task, turn, call):
    """What names a call: the same for the same change from the same base, whoever makes it and however often."""
    return str(uuid.uuid5(uuid.UUID(replica), json.dumps([board, task, turn, call.text()])))


def settings(task, changes):
    """The call that sets attributes and tags; None where none changes."""
    body = {key[1:]: value for key, value in changes.items() if key[0] == VALUE}
    keys = [key for key in changes if key[0] in (VALUE, TAG)]
    tags = {key[1:]: value for key, value in changes.items() if key[0] == TAG}
    if tags:
        kept = [tag for tag in task.get("tags", ()) if tag not in tags]
        body["tags"] = sorted([*kept, *(tag for tag, value in tags.items() if value)])
    return Call("modify", body, keys) if keys else None


def links(changes):
    """A call for each task that it waits for from now on, or no longer."""
    return [Call("depend" if value else "undepend", {"on": key[1:]}, [key]) for key, value in sorted(changes.items()) if key[0] == LINK]


def notes(task, changes):
    """A call for each note that is added or removed."""
    before, calls = view_of(task), []
    for key, value in sorted(changes.items()):
        if key[0] == NOTE:
            more = (value or 0) - before.get(key, 0)
            word = "annotate" if more > 0 else "denotate"
            calls += [Call(word, {"description": key[1:]}, [key], at) for at in range(abs(more))]
    return calls


def calls_of(task, changes, target, is_ours, may_send):
    """The calls that bring a task of a board to its target, in an order in which each is accepted: the task is opened where it has to be,
    and closed last. `is_ours` says that it is open since a run that was stopped opened it to change it; `may_send` which calls are made."""
    status, wanted = view_of(task)[STATUS], target.get(STATUS, "open")
    inner = [call for call in (settings(task, changes), *links(changes)) if call]
    if STARTED in changes and wanted == "open" and not is_waiting(target, now()):
        inner.append(Call("start" if changes[STARTED] else "stop", {}, [STARTED]))
    inner = [call for call in inner if may_send(call)]
    opens = status != "open" and (inner or wanted != status)
    calls = [Call("reopen", {}, [STATUS] if wanted == "open" else [])] if opens else []
    calls += [*inner, *(call for call in notes(task, changes) if may_send(call))]
    if wanted != "open" and (opens or status == "open" and (STATUS in changes or is_ours)):
        calls.append(Call(CLOSED[wanted], {}, [STATUS]))
    return calls


def added(task, view, moments):
    """The call that adds a task as it is on the other side. `moments` has when it was made, ended and started there, and its notes."""
    body = {key[1:]: value for key, value in view.items() if key[0] == VALUE}
    for name, kind in (("tags", TAG), ("depends", LINK)):
        body[name] = sorted(key[1:] for key in view if key[0] == kind)
    if view[STATUS] != "open":
        body["status"] = view[STATUS]
    return Call("add", {**{name: value for name, value in body.items() if value != []}, **moments, "uuid": task}, list(view))

"""What the boards hold for people: due tasks, by day, by person and by board. Nothing is kept here."""
import datetime

from taskboard_bridges.board_tasks import is_template
from taskboard_bridges.days import day_of, local_day, moment_of

OVERDUE, TODAY, WEEK, NEW = "Overdue", "Due today", "Due within a week", "New for you"


def is_open(task):
    """Whether a task is pending or waiting, and no template."""
    return task["status"] in ("pending", "waiting") and not is_template(task)


def is_shown(task, now):
    """Whether a task is to be done: an open one that waits for no later moment."""
    return is_open(task) and task.get("wait", "") <= now.strftime("%Y%m%dT%H%M%SZ")


def assignee(task):
    """The name of the person whose task it is; None where nobody has it."""
    name = task.get("assignee")
    return name if isinstance(name, str) and name else None


class Board:
    """A board as one person sees it: its number, title, tasks, and who has a role on it."""

    def __init__(self, number, title, tasks, people):
        self.number, self.title, self.tasks, self.people = number, title, tasks, people


def boards_of(server, chosen=None):
    """All boards on which the caller has a role, or those of them that were chosen."""
    boards = []
    for board in server.me():
        number = board["board"]
        if chosen is None or number in chosen:
            boards.append(Board(number, board["title"], server.tasks(number), server.people(number)))
    return boards


def part_of(task, now, zone):
    """Under which heading a task stands on a day; None where it isn't due within a week."""
    if "due" not in task:
        return None
    today, day = now.astimezone(zone).date(), local_day(task["due"], zone)
    is_moment = day_of(task["due"], zone) is None
    if day < today or is_moment and moment_of(task["due"]) < now:
        return OVERDUE
    if day == today:
        return TODAY
    return WEEK if day < today + datetime.timedelta(days=7) else None


def parts_of(tasks, now, zone, new=()):
    """The tasks under their headings, in the order of their dates."""
    parts: dict[str, list[dict]] = {OVERDUE: [], TODAY: [], WEEK: [], NEW: []}
    for task in tasks:
        if is_shown(task, now):
            part = part_of(task, now, zone)
            if part:
                parts[part].append(task)
            elif task["uuid"] in new:
                parts[NEW].append(task)
    for found in parts.values():
        found.sort(key=lambda task: (task.get("due", "9"), task["description"]))
    return {name: found for name, found in parts.items() if found}

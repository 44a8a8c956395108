"""Lines of todo.txt, read and written as the boards' server reads and writes them. Nothing is kept here."""
import datetime
import re
import uuid

from taskboard_bridges.merging import STATUS, TAG, VALUE

PRIORITIES = {"A": "H", "B": "M", "C": "L"}
LETTERS = {priority: letter for letter, priority in PRIORITIES.items()}
UUID = re.compile(r"[0-9a-fA-F]{8}(-[0-9a-fA-F]{4}){3}-[0-9a-fA-F]{12}")


def is_blank(text):
    """Whether a text has spaces and tabs alone."""
    return not text.strip(" \t")


def read_date(text):
    """A day as a moment's text, its midnight; None where the text is none from 1970 on."""
    if not re.fullmatch(r"[0-9]{4}-[0-9]{2}-[0-9]{2}", text) or text < "1970":
        return None
    try:
        datetime.date.fromisoformat(text)
    except ValueError:
        return None
    return f"{text.replace('-', '')}T000000Z"


def date_of(moment):
    """The day of a moment, as lines write days."""
    return f"{moment[:4]}-{moment[4:6]}-{moment[6:8]}"


class Line:
    """What a line says: whether it's done, its letter, its two dates, and its words. A mark counts where something other than blanks follows."""

    def __init__(self, text):
        self.done = text.startswith("x ") and not is_blank(text[2:])
        text = text[2:] if self.done else text
        self.letter = None
        if re.match(r"\([A-Z]\) ", text) and not is_blank(text[4:]):
            self.letter, text = text[1], text[4:]
        dates: list[str] = []
        while len(dates) < (2 if self.done else 1):
            date = read_date(text[:10])
            if date is None or text[10:11] != " " or is_blank(text[11:]):
                break
            dates.append(date)
            text = text[11:]
        self.completion = dates.pop(0) if self.done and dates else None
        self.creation = dates[0] if dates else None
        self.body = text
        self.read_words()

    def read_words(self):
        """Takes the marks among the body's words; the others are the description."""
        self.project = self.due = self.uuid = None
        self.tags, others = [], []
        for word in re.findall(r"[^ \t]+", self.body):
            if word[0] == "+" and len(word) > 1 and self.project is None:
                self.project = word[1:]
            elif word[0] == "@" and len(word) > 1:
                self.tags.append(word[1:])
            elif word.startswith("due:") and self.due is None and read_date(word[4:]):
                self.due = read_date(word[4:])
            elif word.startswith("uuid:") and self.uuid is None and UUID.fullmatch(word[5:]):
                self.uuid = word[5:].lower()
            else:
                others.append(word)
        self.is_bare = not others
        self.description = " ".join(others) if others else self.body

    def view(self):
        """The keys of the line's task."""
        values = {"description": self.description, "project": self.project, "due": self.due, "priority": PRIORITIES.get(self.letter or "")}
        view = {VALUE + name: value for name, value in values.items() if value is not None}
        view[STATUS] = "completed" if self.done else "open"
        view.update((TAG + tag, True) for tag in self.tags)
        return view


def replaced(text, by):
    """A text with another sign for each control character."""
    return re.sub(r"[\x00-\x1f\x7f]", by, text)


def spell(task, view, entry, end, letter=None):
    """The line of a task; `letter` is one that no priority stands for."""
    done = view[STATUS] == "completed"
    letter = LETTERS.get(view.get("=priority"), letter)
    words = ["x"] if done else []
    words += [f"({letter})"] if letter else []
    words += [date_of(end or entry)] if done else []
    description = replaced(view["=description"], " ")
    # The first uuid: counts, so a text with that of another task stands behind it.
    is_first = Line(description).uuid not in (None, task)
    words += [date_of(entry), *([f"uuid:{task}"] if is_first else []), description]
    words += ["+" + replaced(view["=project"], "_").replace(" ", "_")] if "=project" in view else []
    words += ["@" + key[1:] for key in sorted(view, key=str.encode) if key[0] == TAG]
    words += [f"due:{date_of(view['=due'])}"] if "=due" in view else []
    return " ".join(words if is_first else [*words, f"uuid:{task}"])


def made_by_import(board, line, before):
    """The identifier that the server's import gives to a line without one; `before` is how many equal lines come before it in its file."""
    return str(uuid.uuid5(uuid.UUID(f"{board:08x}-0000-8000-8000-000000000000"), f"{line}\n{before}"))

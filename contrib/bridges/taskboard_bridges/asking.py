"""A client of the boards' server: views, and calls that are sent again under one identifier until they are answered."""
import functools
import json
import os
import re
import ssl
import stat
import time

from taskboard_bridges.fault import Fault
from taskboard_bridges.forms import fits
from taskboard_bridges.places import place_of, trusting
from taskboard_bridges.wire import NoAnswer, Wire, message

# Answers that come from a server that is away for a while, or from a proxy in front of one: nothing is known of the call, so it is sent again.
AWAY = {429, 500, 502, 503, 504}
# The server ends a connection after 1,000 messages, and an idle one after 120 seconds.
MOST_MESSAGES, MOST_IDLE = 900, 60
# How many seconds nothing may come of an answer.
TIMEOUT = 30
# The highest number that an entry may have.
LAST_NUMBER = 2**32 - 1
# What each task of an export has, and may have.
TASK = {
    **dict.fromkeys(("uuid", "status", "entry", "description"), str),
    **dict.fromkeys(("modified?", "due?", "wait?", "end?", "start?", "project?", "priority?"), str),
    "tags?": [str], "depends?": [str], "annotations?": [{"entry": str, "description": str}],
}
VISIBLE = re.compile("[!-~]+")
# What refusals mean that a user can do something about.
REASONS = {
    "Cycle": "tasks would wait for each other in a circle",
    "Full": "the board takes no more tasks, so go on with a new one",
    "NotAllowed": "your role doesn't allow it, so ask an owner",
    "WrongStatus": "the task's status doesn't allow it",
    "BodyTooLong": "it has over 1,048,576 bytes",
    "BadTask BadText": "a text has over 16,384 bytes or the character 0",
    "BadTask BadTag": "a tag is empty or has a blank in it",
    "BadTask EmptyDescription": "a description or a note is empty",
}


class Answer:
    """What a message was answered, whole: its status and its body."""

    def __init__(self, status, body):
        self.status, self.body = status, body

    def is_accepted(self):
        """Whether the server did, or showed, what was asked for."""
        return self.status == 200

    @functools.cached_property
    def json(self):
        """The body, read as JSON; None where it is none."""
        try:
            return json.loads(self.body)
        except (ValueError, RecursionError):
            return None

    def is_of_boards(self):
        """Whether a server of boards answers so: a proxy in front of it, or another server, answers with a page of its own."""
        if self.is_accepted():
            return isinstance(self.json, (dict, list))
        return isinstance(self.json, dict) and isinstance(self.json.get("name"), str)

    def is_kept(self):
        """Whether the server keeps the answer to a call, so that the identifier of the call is used: all that it accepts, and refusals that
        have a number."""
        return self.is_accepted() or isinstance(self.json.get("refused"), int)

    def name(self):
        """The name of a refusal, with the field that is at fault."""
        return " ".join(str(self.json[it]) for it in ("name", "field") if it in self.json)


def read_key(path):
    """The key in a file that its owner alone may read; it is kept in memory alone."""
    try:
        with open(path, encoding="ascii") as file:
            if stat.S_IMODE(os.fstat(file.fileno()).st_mode) & 0o077:
                raise Fault(f"others may read or write {path}: chmod 600 {path}")
            return file.read().strip()
    except (OSError, UnicodeDecodeError) as fault:
        why = fault.strerror if isinstance(fault, OSError) else "it isn't ASCII"
        raise Fault(f"no key can be read from {path}: {why}. Write the key there, for you alone to read (mode 0600)") from None


class Boards:
    """One person at a server. It keeps a connection, and nothing on the disk."""

    def __init__(self, address, member, key, patience=60, authority=None):
        self.address, self.patience = address, patience
        self.place = place_of(address)
        self.context = trusting(authority) if self.place.is_secure else None
        for what, text in (("the name", member), ("the key", key)):
            if not VISIBLE.fullmatch(text):
                raise Fault(f"{what} has to be visible ASCII characters on one line, without blanks. Nothing was changed")
        self.fields = {"host": self.place.name, "x-member": member, "x-key": key}
        self.wire, self.messages, self.used = None, 0, 0.0

    def connect(self):
        """The kept connection, or a new one where the server ends the old one soon."""
        if self.wire and (self.messages >= MOST_MESSAGES or time.monotonic() - self.used > MOST_IDLE):
            self.disconnect()
        if not self.wire or not self.wire.is_open:
            self.wire, self.messages = Wire(self.place, self.context, TIMEOUT), 0
        return self.wire

    def disconnect(self):
        """Ends the kept connection."""
        if self.wire:
            self.wire.close()
        self.wire = None

    def one_try(self, method, target, body, fields):
        """The answer to a message that is sent once; None where no whole one came."""
        try:
            head, answered = self.connect().ask(message(method, target, {**self.fields, **fields}, body))
        except ssl.SSLCertVerificationError as fault:
            raise Fault(f"the certificate of {self.address} isn't trusted: {fault.verify_message}") from None
        except (OSError, NoAnswer):
            self.disconnect()
            return None
        self.messages, self.used = self.messages + 1, time.monotonic()
        return Answer(head.status, answered)

    def answer_to(self, method, target, body=None, fields=None):
        """Sends a message until it is answered, for as long as the patience lasts."""
        end, pause = time.monotonic() + self.patience, 0.05
        while True:
            answer = self.one_try(method, target, body, fields or {})
            if answer and answer.status not in AWAY:
                return self.looked_at(answer)
            if time.monotonic() + pause > end:
                told = f"answers {answer.status}" if answer else "doesn't answer"
                raise Fault(f"{self.address} {told}: nothing is lost, run it again")
            time.sleep(pause)
            pause = min(2 * pause, 2)

    def looked_at(self, answer):
        """The answer, where it is one of a server of boards that knows the person."""
        if not answer.is_of_boards():
            raise Fault(f"{self.address} answers {answer.status} with something that no server of boards says: look at the address, and at what is in front of the server. "
                        "Nothing is lost: run it again")
        if answer.status == 401:
            raise Fault(f"{self.address} doesn't know this name with this key. Nothing more was changed: look at both")
        return answer

    def view(self, target):
        """What a view shows; a refusal ends the program."""
        answer = self.answer_to("GET", target)
        if not answer.is_accepted():
            raise Fault(f"{self.address}{target}: {answer.name()}")
        return answer.json

    def call(self, identifier, target, body):
        """Sends a call, whose bytes are the same whenever it is made again under this identifier."""
        return self.answer_to("POST", target, body, {"x-request-id": identifier})

    def was_used(self, identifier, target, body):
        """Whether an identifier was used before for another call than this one. Whatever it was, it is used from now on."""
        answer = self.call(identifier, target, body)
        if not answer.is_kept():
            raise Fault(f"{self.address}{target}: {answer.name()}. So it isn't known whether a call of the last run was made: nothing is lost, run it again")
        return not answer.is_accepted() and answer.name() == "IdReused"

    def shown(self, target, form):
        """What a view shows, where it has the form that it should."""
        found = self.view(target)
        if not fits(found, form):
            raise Fault(f"{self.address}{target} shows something else than it should: the server is of another version, or another one")
        return found

    def tasks(self, board):
        """All tasks of a board, in its order."""
        return self.shown(f"/boards/{board}/export", [TASK])

    def task(self, board, uuid):
        """A task as it is now; None where there is none."""
        answer = self.answer_to("GET", f"/boards/{board}/tasks/{uuid}")
        return answer.json if answer.is_accepted() else None

    def me(self):
        """The boards on which the person has a role."""
        return self.shown("/me", {"boards": [{"board": int, "role": str, "title": str}]})["boards"]

    def people(self, board):
        """The names of who has a role on a board."""
        return [person["name"] for person in self.shown(f"/boards/{board}/people", {"people": [{"name": str}]})["people"]]

    def history(self, board, number):
        """The entries of a board from a number on, 100 at most, and the number of the last."""
        return self.shown(f"/boards/{board}/history/{number}", {"entries": [dict], "last": int})

    def last_entry(self, board):
        """The number of a board's last entry."""
        return self.history(board, LAST_NUMBER)["last"]

    def role(self, board):
        """The person's role on a board; None where there is none."""
        return next((it["role"] for it in self.me() if it["board"] == board), None)

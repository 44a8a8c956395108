"""Mails of what is due, once a day for each person, and calendars below paths that can't be guessed."""
import contextlib
import datetime
import email.message
import email.policy
import email.utils
import json
import os
import re
import secrets
import smtplib
import subprocess
import sys
import uuid

from taskboard_bridges.agenda import NEW, OVERDUE, TODAY, WEEK, assignee, boards_of, is_shown, parts_of
from taskboard_bridges.asking import read_key
from taskboard_bridges.days import day_of, moment_of
from taskboard_bridges.fault import Fault
from taskboard_bridges.forms import Either, Values, fits
from taskboard_bridges.icalendar_text import calendar
from taskboard_bridges.keeping import replace_file
from taskboard_bridges.places import trusting
from taskboard_bridges.saying import say

VERSION = 1
KEPT = {"version": int, "people": Values({"day": str, "state": str, "hers": Either([str], None)}), "paths": Values(str)}
SPACE = uuid.UUID("8d7c0a2e-0d0e-5c8a-9a55-6f1b8f5e1c11")


class Kept:
    """What is kept between two runs, in one JSON file that is replaced at once.

    `people` has for each person the `day` of the last mail, its `state` (`sent`, `nothing` to say, `sending`, or `unknown` where a run was
    stopped while it sent), and the tasks that were hers then (`hers`); `paths` has the name of each calendar's file."""

    def __init__(self, path):
        self.path, self.people, self.paths = path, {}, {}
        if os.path.exists(path):
            self.load()

    def load(self):
        """Takes what the file keeps."""
        try:
            with open(self.path, encoding="utf-8") as file:
                kept = json.load(file)
        except (OSError, ValueError, RecursionError) as fault:
            raise Fault(f"{self.path} can't be read: {fault}") from None
        if not fits(kept, KEPT) or kept["version"] != VERSION:
            raise Fault(f"{self.path} can't be read: it is of another version of this program, or something else")
        self.people, self.paths = kept["people"], kept["paths"]

    def save(self):
        """Replaces the file."""
        os.makedirs(os.path.dirname(os.path.abspath(self.path)), mode=0o700, exist_ok=True)
        replace_file(self.path, json.dumps({"version": VERSION, "people": self.people, "paths": self.paths}, sort_keys=True, indent=0).encode())


# What a mail says.


def plain_line(text):
    """A text on one line."""
    return re.sub(r"[\x00-\x1f\x7f-\x9f\u2028\u2029]", " ", str(text))


def when(task, zone):
    """When a task is due, as a mail says it."""
    if "due" not in task:
        return "no date"
    day = day_of(task["due"], zone)
    return f"{day:%Y-%m-%d}" if day else f"{moment_of(task['due']).astimezone(zone):%Y-%m-%d %H:%M}"


def lines_of(board, tasks, settings, now, new):
    """A board's part of a mail: its tasks under their headings; nothing where there are none."""
    lines = []
    for name, found in parts_of(tasks, now, settings.zone, new).items():
        lines.append(f"  {name}")
        for task in found:
            marks = [plain_line(task["project"])] if "project" in task else []
            marks += [f"priority {task['priority']}"] if "priority" in task else []
            marks += ["new for you"] if task["uuid"] in new and name != NEW else []
            lines.append(f"    {when(task, settings.zone)}  {plain_line(task['description'])}" + (f"  ({', '.join(marks)})" if marks else ""))
            if settings.page:
                lines.append(f"      {settings.page}#/{board.number}/tasks/{task['uuid']}")
    return [plain_line(board.title), *lines, ""] if lines else []


def hers(boards, person):
    """The open tasks that are a person's, by their boards and uuids."""
    return {f"{board.number}/{task['uuid']}" for board in boards if person in board.people for task in board.tasks if assignee(task) == person and task["status"] in ("pending", "waiting")}


def mail_text(boards, person, known, settings, now):
    """What a person's mail says, and how much there is under each heading; nothing where there is nothing. `known` are the tasks that were
    hers at the last mail, or None at the first."""
    text, counts = [], dict.fromkeys((OVERDUE, TODAY, WEEK, NEW), 0)
    for heading, owner in (("YOURS", person), ("NOBODY'S", None)):
        part = []
        for board in boards:
            if person in board.people:
                tasks = [task for task in board.tasks if assignee(task) == owner]
                new = {task["uuid"] for task in tasks if owner and known is not None and f"{board.number}/{task['uuid']}" not in known and is_shown(task, now)}
                counts[NEW] += len(new)
                for name, found in parts_of(tasks, now, settings.zone, new).items():
                    counts[name] += len(found) if name != NEW else 0
                part += lines_of(board, tasks, settings, now, new)
        text += [heading, "", *part] if part else []
    return "\n".join(text), counts


def message_of(settings, person, day, text, counts):
    """The mail. Its identifier is the same for a person and a day, so that what came twice all the same is known to be one."""
    message = email.message.EmailMessage()
    names = ((OVERDUE, "overdue"), (TODAY, "due today"), (WEEK, "due within a week"), (NEW, "new for you"))
    message["Subject"] = "Tasks: " + ", ".join(f"{counts[name]} {told}" for name, told in names if counts[name])
    message["From"], message["To"] = settings.need("mail", "from"), settings.people[person]
    message["Date"] = email.utils.localtime()
    domain = email.utils.parseaddr(settings.mail["from"])[1].rpartition("@")[2] or "localhost"
    message["Message-ID"] = f"<{uuid.uuid5(SPACE, f'{person} {day}')}@{domain}>"
    message["Auto-Submitted"] = "auto-generated"
    message.set_content(text, cte="quoted-printable")
    return message


# How it goes.


class Ambiguous(Exception):
    """The mail may have gone or not."""


def send_by_program(settings, message, about_to_send, sent):
    """Hands a mail to a program. `about_to_send` is called before, and `sent` once the program took it."""
    about_to_send()
    ran = subprocess.run([settings.mail["sendmail"], "-i", "-t"], input=message.as_bytes(policy=email.policy.SMTP.clone(linesep="\n")), capture_output=True)
    if ran.returncode:
        raise Fault(f"{settings.mail['sendmail']} ended with {ran.returncode}: {ran.stderr.decode('utf-8', 'replace').strip()}")
    sent()


def smtp_connection(settings):
    """A connection to the mail server, by TLS but where the configuration says that it isn't wanted."""
    host, _, port = settings.need("mail", "smtp").partition(":")
    tls = settings.mail.get("tls", "starttls")
    context = trusting(settings.mail.get("cacert"))
    if tls not in ("starttls", "tls", "none"):
        raise settings.fault(f"tls has to be starttls, tls or none, and is {tls}")
    if tls == "none" and (host not in ("127.0.0.1", "localhost", "::1") or "user" in settings.mail):
        raise settings.fault("tls = none is for a mail server of this machine that asks for no password")
    if not re.fullmatch(r"[0-9]{0,5}", port):
        raise settings.fault(f"smtp has to be HOST:PORT, and is {settings.mail['smtp']}")
    if tls == "tls":
        server: smtplib.SMTP = smtplib.SMTP_SSL(host, int(port or 465), timeout=60, context=context)
    else:
        server = smtplib.SMTP(host, int(port or 587), timeout=60)
    try:
        if tls == "starttls":
            server.starttls(context=context)
        if "user" in settings.mail:
            server.login(settings.mail["user"], read_key(settings.need("mail", "password")))
    except BaseException:
        server.close()
        raise
    return server


def send_by_smtp(settings, message, about_to_send, sent):
    """Sends a mail. `about_to_send` is called before the first byte of it goes, `sent` once it was taken; a fault between leaves open
    whether it came."""
    has_begun = False
    try:
        with contextlib.closing(smtp_connection(settings)) as server:
            server.ehlo_or_helo_if_needed()
            for code, answer in (server.mail(email.utils.parseaddr(message["From"])[1]), server.rcpt(email.utils.parseaddr(message["To"])[1])):
                if code // 100 != 2:
                    raise Fault(f"the mail server answers {code} {answer.decode('utf-8', 'replace')}")
            about_to_send()
            has_begun = True
            code, answer = server.data(message.as_bytes(policy=email.policy.SMTP))
            if code != 250:
                raise Fault(f"the mail server answers {code} {answer.decode('utf-8', 'replace')}")
            sent()
            with contextlib.suppress(OSError, smtplib.SMTPException):
                server.quit()
    except smtplib.SMTPDataError as fault:
        raise Fault(f"the mail server answers {fault.smtp_code}") from None
    except (OSError, smtplib.SMTPException) as fault:
        if has_begun:
            raise Ambiguous(str(fault)) from None
        raise Fault(f"the mail server: {fault}") from None


class Reminder:
    """One run: who gets a mail today, and the calendars. All that it keeps stands in `kept`."""

    def __init__(self, settings, now, is_dry, tell=say):
        self.settings, self.now, self.is_dry, self.tell = settings, now, is_dry, tell
        self.kept = Kept(settings.state)
        self.today = now.astimezone(settings.zone).date().isoformat()
        self.is_whole = True

    def mails(self):
        """Sends each person with an address her mail of this day; whether all went."""
        boards = boards_of(self.settings.server(), self.settings.chosen)
        for person in sorted(self.settings.people):
            try:
                self.mail(boards, person)
            except Fault as fault:
                self.trouble(f"no mail to {person}: {fault}")
        return self.is_whole

    def trouble(self, text):
        """Tells what went wrong; the run's status is 1."""
        self.is_whole = False
        say(f"taskboard-remind: {text}", sys.stderr)

    def mail(self, boards, person):
        """Sends a person her mail of this day, unless `kept` says that it went, or may have gone. Where there was nothing to say it is looked
        again."""
        before = self.kept.people.get(person, {})
        if before.get("day") == self.today and before["state"] != "nothing" and not self.is_dry:
            if before["state"] == "sending":
                self.keep(person, "unknown", before["hers"])
                self.trouble(f"the mail of {self.today} to {person} may have gone or not, since a run was stopped meanwhile: it isn't sent again")
            return
        known = before.get("hers")
        text, counts = mail_text(boards, person, None if known is None else set(known), self.settings, self.now)
        if self.is_dry:
            self.tell(str(message_of(self.settings, person, self.today, text, counts)) if text else f"nothing for {person}")
        elif text:
            self.send(person, message_of(self.settings, person, self.today, text, counts), known, boards)
        else:
            self.keep(person, "nothing", sorted(hers(boards, person)))

    def keep(self, person, state, tasks):
        """Keeps of a person that her mail of this day has a state, and which tasks are hers."""
        self.kept.people[person] = {"day": self.today, "state": state, "hers": tasks}
        self.kept.save()

    def send(self, person, message, known, boards):
        """Sends a mail once. That it is on its way is kept before its first byte goes; where it was refused it may go again."""
        before = self.kept.people.get(person)
        send = send_by_program if "sendmail" in self.settings.mail else send_by_smtp
        try:
            send(self.settings, message, lambda: self.keep(person, "sending", known), lambda: self.keep(person, "sent", sorted(hers(boards, person))))
        except Ambiguous as fault:
            self.trouble(f"the mail of {self.today} to {person} may have gone or not ({fault}): it isn't sent again")
            return
        except Fault:
            self.restore(person, before)
            raise
        self.tell(f"mail to {person}: {message['Subject']}")

    def restore(self, person, before):
        """Keeps of a person what was kept before a mail that was refused."""
        if before is None:
            self.kept.people.pop(person, None)
        else:
            self.kept.people[person] = before
        self.kept.save()

    # Calendars.

    def path(self, name):
        """The name of a calendar's file: it is made once, at random, and kept before the file is there."""
        if name not in self.kept.paths:
            self.kept.paths[name] = f"{secrets.token_hex(24)}.ics"
            self.kept.save()
        return self.kept.paths[name]

    def texts(self):
        """The calendars: one for each board, and one for each person, of what is hers."""
        boards, texts = boards_of(self.settings.server(), self.settings.chosen), {}
        page, zone = self.settings.page, self.settings.zone
        for board in boards:
            texts[f"board {board.number}"] = calendar(board.title, [(board, task) for task in board.tasks], zone, page)
        for person in sorted({person for board in boards for person in board.people}):
            found = [(board, task) for board in boards if person in board.people for task in board.tasks if assignee(task) == person]
            texts[f"person {person}"] = calendar(f"Tasks of {person}", found, zone, page)
        return texts

    def calendars(self):
        """Writes each calendar whole or not at all, and removes those whose board or person is gone."""
        folder, texts = self.settings.need("calendar", "folder"), self.texts()
        if self.is_dry:
            for name, text in texts.items():
                self.tell(f"{name}: {text.count('BEGIN:VEVENT')} events, {len(text.encode())} bytes")
            return True
        for name, text in texts.items():
            path, data = os.path.join(folder, self.path(name)), text.encode("utf-8", "replace")
            if not os.path.exists(path) or read_bytes(path) != data:
                replace_file(path, data, 0o644)
        for name in [name for name in self.kept.paths if name not in texts]:
            del self.kept.paths[name]
        self.kept.save()
        self.remove_old(folder)
        return True

    def remove_old(self, folder):
        """Removes the files of calendars that have another name now, and what a stopped run left."""
        names = set(self.kept.paths.values())
        for name in os.listdir(folder):
            if re.fullmatch(r"\.?[0-9a-f]{48}\.ics(\.taskboard-.*)?", name) and name not in names:
                os.unlink(os.path.join(folder, name))

    def addresses(self):
        """Tells where each calendar is."""
        for name, path in sorted(self.kept.paths.items()):
            self.tell(f"{name}: {self.settings.need('calendar', 'address').rstrip('/')}/{path}")
        return True

    def new_address(self, name):
        """Gives a calendar a new path; the old one is gone at once."""
        if name not in self.kept.paths:
            raise Fault(f"there is no calendar {json.dumps(name)}: it has to be one of {', '.join(sorted(self.kept.paths)) or 'none'}")
        del self.kept.paths[name]
        self.path(name)
        self.kept.save()
        return self.calendars() and self.addresses()


def read_bytes(path):
    """What a file holds."""
    with open(path, "rb") as file:
        return file.read()


def now():
    """This moment."""
    return datetime.datetime.now(datetime.timezone.utc).replace(microsecond=0)

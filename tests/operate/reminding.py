"""Mails and calendars of a served board: reminding.py PROGRAM PORT, in a folder of its own."""
import datetime
import json
import os
import random
import re
import shutil
import subprocess
import sys
import time
import uuid
import zoneinfo

from bridging import BRIDGES, Editor, Server, expect, text
from drawing import seeded
from mailing import STEPS, MailServer

PROGRAM, PORT = sys.argv[1], int(sys.argv[2])
SEED, RANDOM = seeded()
# One in which it is day now, so that no day ends meanwhile.
NAME = next(name for name in ("Europe/Berlin", "Asia/Tokyo", "America/Los_Angeles") if 6 <= datetime.datetime.now(zoneinfo.ZoneInfo(name)).hour < 18)
ZONE = zoneinfo.ZoneInfo(NAME)
PAGE = "https://boards.example.org/"
HEADINGS = ("Overdue", "Due today", "Due within a week", "New for you")
COUNT = 1000


def now():
    return datetime.datetime.now(datetime.timezone.utc)


def due_of(at):
    """A due date of any kind, some of them today and this week, as days and as moments; none of these in the next hours."""
    here = now().astimezone(ZONE)
    day = here.date() + datetime.timedelta(days=RANDOM.choice((-400, -3, -1, 0, 0, 1, 2, 5, 6, 7, 8, 60)))
    if at % 3 == 0:
        return f"{day:%Y%m%d}T000000Z"
    hour = RANDOM.randrange(24)
    if day == here.date() and abs(hour - here.hour) < 3:
        hour = (here.hour + 12) % 24
    there = datetime.datetime(day.year, day.month, day.day, *((0, 0, 0) if at % 3 == 1 else (hour, RANDOM.randrange(60), 1)), tzinfo=ZONE)
    return f"{there.astimezone(datetime.timezone.utc):%Y%m%dT%H%M%SZ}"


def make_task(at):
    task = {"uuid": str(uuid.UUID(int=RANDOM.getrandbits(128), version=4)), "description": text(RANDOM, at) + "," * (at % 5) + ";\\n\\" * (at % 2) + "ü" * RANDOM.choice((0, 0, 40, 200))}
    if RANDOM.random() < 0.7:
        task["due"] = due_of(at)
    if RANDOM.random() < 0.6:
        task["assignee"] = RANDOM.choice(("ann", "bob", "eve"))
    if RANDOM.random() < 0.4:
        task["project"] = f"Office, {at % 7}"
    if RANDOM.random() < 0.3:
        task["priority"] = RANDOM.choice("HML")
    task["tags"] = [f"tag{at % 9}", "b;c"][: RANDOM.randint(0, 2)]
    if RANDOM.random() < 0.2:
        task["annotations"] = [{"description": "first line\nsecond; line, and ü" * RANDOM.randint(1, 9), "entry": "20260101T000000Z"}]
    if RANDOM.random() < 0.1:
        task["wait"] = "20990101T000000Z"
    status = RANDOM.choice(("pending",) * 5 + ("completed", "deleted"))
    return {**task, "status": status} if status != "pending" else task


def heading_of(task):
    """Under which heading a task of today stands, reckoned anew."""
    moment = datetime.datetime.strptime(task["due"], "%Y%m%dT%H%M%SZ").replace(tzinfo=datetime.timezone.utc)
    there, today = moment.astimezone(ZONE), now().astimezone(ZONE).date()
    is_day = moment.time() == datetime.time() or there.time() == datetime.time()
    day = moment.date() if moment.time() == datetime.time() else there.date()
    if day < today or not is_day and moment < now():
        return "Overdue"
    return "Due today" if day == today else "Due within a week" if (day - today).days < 7 else None


def wanted_mail(tasks, owner):
    found = {}
    for task in tasks.values():
        if task["status"] == "pending" and "recur" not in task and "due" in task and task.get("assignee") == owner and heading_of(task):
            found.setdefault(heading_of(task), set()).add(task["uuid"])
    return found


def said(body):
    """Which tasks a mail names for whom and under which heading, by the links behind them."""
    found, whose, heading = {}, None, None
    for line in body.splitlines():
        if line in ("YOURS", "NOBODY'S"):
            whose = line
        elif line.strip() in HEADINGS and line.startswith("  ") and not line.startswith("    "):
            heading = line.strip()
        elif link := re.fullmatch(rf"      {re.escape(PAGE)}#/(\d+)/tasks/([0-9a-f-]+)", line):
            found.setdefault((whose, int(link[1]), heading), set()).add(link[2])
    return found


def summaries(lines):
    """The summary of each task, unfolded and unescaped by the rules."""
    unfolded = b"\r\n".join(lines).replace(b"\r\n ", b"").decode().split("\r\n")
    found, uid = {}, None
    for line in unfolded:
        name, _, value = line.partition(":")
        uid = value.rpartition("-")[0] if name == "UID" else uid
        if name == "SUMMARY":
            found[uid] = re.sub(r"\\(.)", lambda match: "\n" if match[1] in "nN" else match[1], value)
    return found


class Reminding:
    def __init__(self):
        self.server, self.editor = Server(PROGRAM, PORT), Editor(PORT)
        self.certificate = self.make_certificate()
        self.mails = MailServer(self.certificate)
        for name in ("reminder", "bob", "eve"):
            self.editor.ask("POST", "/people", {"name": name, "key": f"{name}-key-1"})
        self.editor.call("roles", {"member": "reminder", "role": "reader"})
        self.editor.call("roles", {"member": "bob", "role": "member"})
        self.editor.ask("POST", "/boards", {"title": "Shop, and; more"})
        Editor(PORT, 2).call("roles", {"member": "reminder", "role": "reader"})
        for start in range(0, COUNT, 500):
            self.editor.call("import", [make_task(at) for at in range(start, start + 500)])
        Editor(PORT, 2).call("tasks", {"description": "Of the second board", "due": "20200101T000000Z"})
        due = f"{now() - datetime.timedelta(days=2):%Y%m%dT%H%M%SZ}"
        self.editor.call("tasks", {"description": "Water the plants", "due": due, "recur": "daily", "assignee": "ann"})
        self.write("key", "reminder-key-1\n")
        self.write("password", "secret\n")

    def make_certificate(self):
        if not shutil.which("openssl"):
            print("mail by TLS: skipped, since openssl isn't there")
            return None
        subprocess.run("openssl req -x509 -newkey rsa:2048 -nodes -days 2 -subj /CN=127.0.0.1 -addext subjectAltName=IP:127.0.0.1 -keyout tls.key -out tls.pem".split(),
                       check=True, capture_output=True)
        return "tls.pem", "tls.key"

    @staticmethod
    def write(name, data, mode=0o600):
        with open(name, "w", opener=lambda path, flags: os.open(path, flags, mode)) as file:
            file.write(data)

    def config(self, name, people, mail=None):
        """A configuration with a state of its own."""
        mail = mail or f"smtp = 127.0.0.1:{self.mails.port}\n" + ("tls = starttls\ncacert = tls.pem\nuser = boards\npassword = password\n" if self.certificate else "tls = none\n")
        lines = "".join(f"{person} = {address}\n" for person, address in people.items())
        self.write(f"{name}.conf", f"[boards]\naddress = 127.0.0.1:{PORT}\nmember = reminder\nkey = key\npage = {PAGE}\nzone = {NAME}  # where they are\nstate = {name}.json\n"
                   f"[mail]\nfrom = Boards <boards@example.org>\n{mail}[calendar]\nfolder = calendars\naddress = https://boards.example.org/calendars\n[people]\n{lines}")
        return ["--config", f"{name}.conf"]

    def start(self, *words):
        return subprocess.Popen([f"{BRIDGES}/taskboard-remind", *words], stdout=subprocess.PIPE, stderr=subprocess.PIPE, text=True)

    def run(self, *words, status=0):
        process = self.start(*words)
        out, error = process.communicate(timeout=300)
        expect(f"{words}: its status, with {out}{error}", status, process.returncode)
        return out + error

    def expect_mail(self, name, to, whose):
        """The last mail went to this address, and has the tasks of these owners, those with a date in a week, each under its heading."""
        addresses, message = self.mails.accepted[-1]
        expect(f"{name}: to whom", [to], addresses)
        tasks, found = self.editor.tasks(), said(message.get_content())
        for heading, owner in whose.items():
            wanted = wanted_mail(tasks, owner)
            expect(f"{name}: {heading}", wanted, {part: them for (who, board, part), them in found.items() if who == heading and board == 1 and part != "New for you"})
        return message, found

    # Mails.

    def whole_mails(self):
        """Each person gets what is hers, then nobody's; once a day; whoever has no role and no task gets nothing."""
        people = {"ann": "ann@example.org", "bob": "bob@example.org", "eve": "eve@example.org", "zed": "zed@example.org"}
        words = self.config("whole", people)
        shown = self.run(*words, "--dry-run", "mail")
        expect("a dry run", (0, False), (len(self.mails.accepted), os.path.exists("whole.json")))
        expect("a dry run tells", True, "To: ann@example.org" in shown and "nothing for zed" in shown)
        self.run(*words, "mail")
        expect("how many mails", ["ann@example.org", "bob@example.org"], [to[0] for to, _ in self.mails.accepted])
        message, found = self.expect_mail("bob's", "bob@example.org", {"YOURS": "bob", "NOBODY'S": None})
        expect("bob sees no board without a role", set(), {board for _, board, _ in found} - {1})
        expect("bob's counts", True, re.fullmatch(r"Tasks: \d+ overdue, \d+ due today, \d+ due within a week", message["Subject"]) is not None)
        first = self.mails.accepted[0]
        found = said(first[1].get_content())
        expect("ann's second board", 1, len(found["NOBODY'S", 2, "Overdue"]))
        expect("hers first", "YOURS", first[1].get_content().splitlines()[0])
        if self.certificate:
            expect("by TLS, with a password", (2, 2), (self.mails.secure, self.mails.logins))
        self.run(*words, "mail")
        expect("once a day", 2, len(self.mails.accepted))
        self.editor.ask("POST", "/people", {"name": "zed", "key": "zed-key-001"})
        self.editor.call("roles", {"member": "zed", "role": "member"})
        self.editor.call("tasks", {"description": "For zed", "due": f"{now():%Y%m%dT000000Z}", "assignee": "zed"})
        for _ in range(2):
            self.run(*words, "mail")
            expect("a mail once there is something to say, and one", ["ann", "bob", "zed"], [to[0].partition("@")[0] for to, _ in self.mails.accepted])
        return len(self.mails.accepted)

    def unread(self):
        """Where nobody reads what is printed, all is done nevertheless."""
        words = self.config("unread", {name: f"{name}@example.org" for name in ("ann", "bob", "zed")})
        reading, writing = os.pipe()
        os.close(reading)
        ran = subprocess.run([f"{BRIDGES}/taskboard-remind", *words, "mail"], stdout=writing, stderr=subprocess.PIPE, text=True, timeout=300)
        os.close(writing)
        expect("nobody reads", (0, "", {"ann", "bob", "zed"}), (ran.returncode, ran.stderr, {to[0].partition("@")[0] for to, _ in self.mails.accepted[-3:]}))

    def next_day(self):
        """What was assigned since the last mail is told as new, and what was hers before isn't."""
        words = self.config("next", {"bob": "bob@example.org"})
        self.run(*words, "mail")
        tasks = {it: task for it, task in self.editor.tasks().items() if task["status"] == "pending" and "recur" not in task}
        given = [it for it, task in tasks.items() if task.get("assignee") == "ann" and "due" not in task][:3]
        for it in given:
            self.editor.change(it, "modify", {"assignee": "bob"})
        with open("next.json") as file:
            kept = json.load(file)
        kept["people"]["bob"]["day"] = "2000-01-01"
        self.write("next.json", json.dumps(kept))
        self.run(*words, "mail")
        message, found = self.expect_mail("the next day", "bob@example.org", {"YOURS": "bob", "NOBODY'S": None})
        expect("what is new", set(given), found["YOURS", 1, "New for you"])
        expect("how much is new", True, message["Subject"].endswith(", 3 new for you"))

    def stops(self):
        """Who sends is killed at each step: the mail goes once, or, where it may have gone, it isn't sent again and that is told."""
        for step in STEPS:
            words, before = self.config(f"stop-{step}", {"bob": "bob@example.org"}), len(self.mails.accepted)
            process = self.start(*words, "mail")
            self.mails.stop_at(step, process.kill)
            process.communicate(timeout=300)
            expect(f"killed at {step}", -9, process.returncode)
            is_open = step in ("DATA", "body", "end")
            told = self.run(*words, "mail", status=1 if is_open else 0)
            expect(f"killed at {step}: what is told", is_open, "may have gone or not" in told)
            expect(f"killed at {step}: what is told again", "", self.run(*words, "mail"))
            wanted = 1 if step in ("end", "QUIT") or not is_open else 0
            expect(f"killed at {step}: mails", wanted, len(self.mails.accepted) - before)

    def refusals(self):
        """A person whose mail is refused keeps no other from hers, and gets it by the next run."""
        words, before = self.config("refused", {"ann": "ann@example.org", "bob": "bob@example.org"}), len(self.mails.accepted)
        self.mails.refused = {"ann@example.org"}
        told = self.run(*words, "mail", status=1)
        expect("what is told", True, "no mail to ann" in told and "550" in told)
        self.mails.refused = set()
        self.run(*words, "mail")
        expect("then both", ["bob@example.org", "ann@example.org"], [to[0] for to, _ in self.mails.accepted[before:]])

    def by_program(self):
        self.write("sendmail", "#!/bin/sh\nexec cat >>sent\n", 0o700)
        words = self.config("program", {"bob": "bob@example.org"}, "sendmail = ./sendmail\n")
        self.run(*words, "mail")
        self.run(*words, "mail")
        with open("sent") as file:
            expect("by sendmail", 1, file.read().count("To: bob@example.org"))

    def bad_words(self):
        """What is wrong in the configuration is told, and nothing is done."""
        self.write("open", "reminder-key-1\n", 0o644)
        os.chmod("open", 0o644)
        wrong = {"key = open": ("key = key", "chmod 600"), "member = nobody": ("member = reminder", "doesn't know"), "zone = Mars": (f"zone = {NAME}", "no time zone"),
                 "[people]\nbob = b\n[cats]": ("[people]", "[cats]"), "tlx = none": ("tls = starttls" if self.certificate else "tls = none", "tlx"),
                 "bob = bob@example.org\n and more": ("bob = bob@example.org", "an address of mail on one line"), "from = Bücher": ("from = Boards", "an address of mail on one line"),
                 "smtp = 127.0.0.1:x": (f"smtp = 127.0.0.1:{self.mails.port}", "smtp has to be HOST:PORT"), "cacert = lacking": ("cacert = tls.pem" if self.certificate else "tls = none", "lacking"),
                 "address = http://10.0.0.1": (f"address = 127.0.0.1:{PORT}", "in the open")}
        self.config("good", {"bob": "bob@example.org"})
        with open("good.conf") as file:
            good = file.read()
        before = len(self.mails.accepted)
        for bad, (part, told) in wrong.items():
            expect(f"{part} is there", True, part in good)
            self.write("bad.conf", good.replace(part, bad, 1).replace("good.json", "bad.json"))
            expect(f"{bad}: what is told", True, told in self.run("--config", "bad.conf", "mail", status=1))
        expect("mails", before, len(self.mails.accepted))

    # Calendars.

    def events(self, path):
        for python in (sys.executable, "/usr/bin/python3"):
            if subprocess.run([python, "-c", "import icalendar"], capture_output=True).returncode == 0:
                ran = subprocess.run([python, os.path.join(os.path.dirname(__file__), "calendar_events.py"), path], capture_output=True, text=True)
                expect(f"{path} is read, {ran.stderr[-500:]}", 0, ran.returncode)
                return json.loads(ran.stdout)
        return None

    def expect_events(self, name, path, tasks):
        """A calendar has these tasks, with all that they say."""
        with open(path, "rb") as file:
            lines = file.read().split(b"\r\n")
        expect(f"{name}: long lines", [], [line for line in lines if len(line) > 75 or b"\n" in line])
        found = self.events(path)
        if found is None:
            return 0
        expect(f"{name}: faults", [], found["errors"])
        by_uid, raw = {event["uid"]: event for event in found["events"]}, summaries(lines)
        expect(f"{name}: events", len(by_uid), len(found["events"]))
        expect(f"{name}: whose", {f"{it}-1@taskboard" for it in tasks}, set(by_uid))
        for it, task in tasks.items():
            event = by_uid[f"{it}-1@taskboard"]
            # (the library takes an escaped backslash for the first half of what comes after it)
            if "\\" not in task["description"]:
                expect(f"{it}: summary", task["description"], event["summary"])
            expect(f"{it}: summary by the rules", task["description"], raw[it])
            expect(f"{it}: tags", sorted(task.get("tags", [])), event["categories"])
            expect(f"{it}: stamp", task.get("modified", task["entry"]), event["dtstamp"])
            expect(f"{it}: link", f"{PAGE}#/1/tasks/{it}", event["url"])
            for note in task.get("annotations", ()):
                expect(f"{it}: note", True, note["description"] in event["description"])
            moment = datetime.datetime.strptime(task["due"], "%Y%m%dT%H%M%SZ").replace(tzinfo=datetime.timezone.utc)
            there = moment.astimezone(ZONE)
            day = moment.date() if moment.time() == datetime.time() else there.date() if there.time() == datetime.time() else None
            expect(f"{it}: date", (day is not None, f"{day:%Y%m%d}" if day else task["due"]), (event["is_day"], event["dtstart"]))
        return len(by_uid)

    def addresses(self, words):
        return dict(line.rsplit(": ", 1) for line in self.run(*words, "addresses").splitlines())

    def calendars(self):
        """A calendar for each board and each person, with what is due; the same files when nothing changed; a new path when it's wanted."""
        words = self.config("calendar", {})
        os.makedirs("calendars")
        self.run(*words, "calendar")
        paths = {name: "calendars/" + address.rpartition("/")[2] for name, address in self.addresses(words).items()}
        expect("which there are", ["board 1", "board 2", "person ann", "person bob", "person reminder", "person zed"], sorted(paths))
        due = {it: task for it, task in self.editor.tasks().items() if task["status"] in ("pending", "waiting") and "due" in task and ("recur" not in task or "parent" in task)}
        count = self.expect_events("board 1", paths["board 1"], due)
        count += self.expect_events("person bob", paths["person bob"], {it: task for it, task in due.items() if task.get("assignee") == "bob"})
        self.expect_events("person reminder", paths["person reminder"], {})
        before = {name: os.stat(path).st_mtime_ns for name, path in paths.items()}
        self.run(*words, "calendar")
        expect("nothing is written anew", before, {name: os.stat(path).st_mtime_ns for name, path in paths.items()})
        told = self.run(*words, "new-address", "person bob")
        expect("the new path", (False, True), (os.path.exists(paths["person bob"]), paths["person bob"] not in told))
        self.editor.call("roles", {"member": "bob", "role": None})
        self.run(*words, "calendar")
        expect("bob has left", 5, len(os.listdir("calendars")))
        return count

    def stopped_calendars(self):
        """A run that is killed leaves each calendar as it was or as it is to be, and the next one clears up."""
        words, generator, kills = self.config("killed", {}), random.Random(SEED), 0
        shutil.rmtree("calendars")
        os.makedirs("calendars")
        begun = time.monotonic()
        self.run(*words, "calendar")
        longest = time.monotonic() - begun
        task = next(it for it, told in self.editor.tasks().items() if told["status"] == "pending" and "due" in told and "recur" not in told)
        for at in range(int(os.environ.get("TRIES", "8"))):
            self.editor.change(task, "modify", {"description": f"Changed {at}"})
            process = self.start(*words, "calendar")
            time.sleep(generator.random() * longest)
            process.kill()
            process.communicate()
            kills += process.returncode == -9
            for name in os.listdir("calendars"):
                with open(f"calendars/{name}", "rb") as file:
                    expect(f"{name} is whole", True, name.startswith(".") or file.read().endswith(b"END:VCALENDAR\r\n"))
        self.run(*words, "calendar")
        expect("no file is left", [], [name for name in os.listdir("calendars") if not re.fullmatch(r"[0-9a-f]{48}\.ics", name)])
        return kills

    def run_all(self):
        begun = time.monotonic()
        self.whole_mails()
        self.unread()
        self.next_day()
        self.stops()
        self.refusals()
        self.by_program()
        self.bad_words()
        events, kills = self.calendars(), self.stopped_calendars()
        if not events:
            print("calendars: not read back, since python3-icalendar isn't there")
        print(f"seed {SEED}: {COUNT} tasks, {len(self.mails.accepted)} mails, who sends killed at each of {len(STEPS)} steps, {events} events read back, "
              f"{kills} runs killed over calendars; {time.monotonic() - begun:.0f} s")


reminding = Reminding()
try:
    reminding.run_all()
finally:
    reminding.server.end()

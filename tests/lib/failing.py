"""A session of calls on a server whose machine fails it, and the judgement of what it left: what faults.py tries in many ways."""
import json
import subprocess
import threading
import time

from talking import KNOWN, Caller, Server, body_of, identified, make_file, message, status_of, without_moments

MILK, RENT, LOST = ("00000001-0000-8000-8000-%012x" % number for number in (1, 3, 77))
TASKS = "".join(json.dumps({"description": "Task " + "of an import " * 40, "uuid": f"dddddddd-dddd-4ddd-8ddd-{at:012d}"}) + "\n" for at in range(200))
CALLS = [
    ("/people", {"name": "bob", "key": "bob-key-01"}),
    ("/boards/1/roles", {"member": "bob", "role": "member"}),
    ("/boards/1/tasks", {"description": "Buy milk"}),
    ("/boards/1/tasks", {"description": "Rent", "due": "29990131T090000Z", "recur": "monthly"}),
    (f"/boards/1/tasks/{MILK}/modify", {"priority": "H", "project": "Home"}),
    (f"/boards/1/tasks/{MILK}/annotate", {"description": "two litres"}),
    (f"/boards/1/tasks/{MILK}/depend", {"on": RENT}),
    (f"/boards/1/tasks/{LOST}/done", {}),
    ("/boards/1/import", TASKS),
    (f"/boards/1/tasks/{RENT}/delete", {}),
    ("/boards/1/ahead", {"ahead": 3}),
    ("/boards/1/roles", {"member": "bob", "role": "reader"}),
    ("/boards", {"title": "Shop"}),
    ("/boards/2/import-todo", "(A) Call Mom +Family @phone\nx 2011-03-03 2011-03-02 Paint\n"),
    (f"/boards/1/tasks/{MILK}/done", {}),
    ("/boards/1/sweep", {}),
]
VIEWS = [("/boards/1/export", KNOWN), ("/boards/2/export", KNOWN), ("/boards/1/list", KNOWN.replace(b"ann", b"bob").replace(b"key-1", b"key-01"))]
# How long an answer may be waited for, in seconds, and how often a message is sent.
PATIENCE = 10
TRIES = 20


class Wrong(Exception):
    """What a machine that fails must not bring about."""


class Program:
    """The program as it serves b.db behind some words, and for some seconds where they are given; it may end at any time."""

    def __init__(self, program, port, before=(), seconds=None, words=("--forever",)):
        self.caller = Caller(port, PATIENCE)
        line = [*before, program, "serve", "b.db", "--port", str(port), *words]
        self.process = subprocess.Popen(line, stdout=subprocess.DEVNULL, stderr=subprocess.DEVNULL)
        if seconds is not None:
            threading.Timer(seconds, self.process.kill).start()

    end, runs, status_line = Server.end, Server.runs, Server.status_line

    def __enter__(self):
        return self

    def __exit__(self, *_):
        self.caller.disconnect()
        self.end()

    def is_connected(self):
        """Whether there is a connection, once the process listens or has ended."""
        last = time.monotonic() + PATIENCE
        while True:
            ended = not self.runs()
            try:
                self.caller.connect()
                return True
            except ConnectionError:
                if ended:
                    return False
            if time.monotonic() > last:
                raise Wrong(f"it neither listens nor ends in {PATIENCE} seconds")
            time.sleep(0.005)

    def ask(self, sent):
        """The answer to a message that is sent again until it comes; None where the process has ended, or ends each connection without one."""
        for _ in range(TRIES):
            if not self.is_connected():
                return None
            try:
                answer = self.caller.one_try(sent)
            except TimeoutError:
                raise Wrong(f"no answer in {PATIENCE} seconds") from None
            if answer and status_of(answer) not in (500, 503):
                return status_of(answer), without_moments(body_of(answer))
        return None

    def call(self, number):
        target, body = CALLS[number]
        body = body if isinstance(body, str) else json.dumps(body)
        return self.ask(message(b"POST", target.encode(), body.encode(), identified(number)))

    def calls_from(self, number):
        """The answers to the calls from this one on, up to the first that gets none."""
        answers = []
        for at in range(number, len(CALLS)):
            answer = self.call(at)
            if answer is None:
                break
            answers.append(answer)
        return answers

    def state(self):
        return [self.ask(message(b"GET", target.encode(), fields=fields)) for target, fields in VIEWS]


def expect(what, wanted, got):
    if wanted != got:
        raise Wrong(f"{what}: wanted {str(wanted)[:300]}, got {str(got)[:300]}")


class Judge:
    """What a run without a fault answers and leaves, to which others are held."""

    def __init__(self, program, port):
        self.program, self.port, self.failing, self.signal = program, port, [], 0
        make_file(program)
        self.answers, self.states = [], []
        with self.start() as it:
            self.states.append(it.state())
            self.least = it.status_line("VmSize")
            for number in range(len(CALLS)):
                self.answers.append(it.call(number))
                self.states.append(it.state())
            self.most = it.status_line("VmPeak")

    def start(self, before=(), seconds=None, words=("--forever",)):
        return Program(self.program, self.port, before, seconds, words)

    def check(self):
        done = subprocess.run([self.program, "check", "b.db"], capture_output=True, text=True, timeout=60)
        if done.returncode or not done.stdout.endswith(" faults 0\n"):
            raise Wrong(f"check: {done.returncode} {done.stdout}{done.stderr}")

    def run(self, before, answered=0, seconds=None):
        """Runs what is left of the session on a machine that fails; gives how many calls are answered, and whether the process ended."""
        with self.start(before, seconds) as it:
            answers = it.calls_from(answered)
            ended = not it.runs()
            self.signal = max(-it.process.returncode, 0) if ended else 0
        self.failing.append(len(answers))
        expect(f"answers from call {answered} on", self.answers[answered : answered + len(answers)], answers)
        return answered + len(answers), ended

    def judge(self, answered):
        """The file as it is opened again: what was answered stands, and one call more at most; all sent again leads where it has to."""
        self.check()
        with self.start() as it:
            state = it.state()
            if state not in self.states[answered : answered + 2]:
                raise Wrong(f"{answered} calls were answered, and the file holds {[at for at, one in enumerate(self.states) if one == state]}")
            expect("all calls sent again", self.answers, it.calls_from(0))
            expect("the state after them", self.states[-1], it.state())
        self.check()

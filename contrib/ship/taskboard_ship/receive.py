"""The other end of the line: takes records from its standard input, writes them into a folder, and says what is synced."""
import errno
import fcntl
import json
import os
import pathlib
import re
import select
import time
import uuid

from . import records
from .series import Store

# How long the line may be silent, in seconds; the sender gives a sign of life each second.
SILENCE = 30
NAME = re.compile(r"[A-Za-z0-9_][A-Za-z0-9._-]*")


class Ended(Exception):
    """There is nothing more to receive."""


class Receiver:
    def __init__(self, folder, keep, input, output):
        self.folder, self.keep, self.input, self.output = pathlib.Path(folder), keep, input, output
        self.data, self.store, self.lock = bytearray(), None, None
        self.token = uuid.uuid4().hex

    def say(self, kind, what):
        raw = memoryview(records.told(kind, records.NOWHERE, what))
        while raw:
            raw = raw[os.write(self.output, raw) :]

    def next(self):
        """The next record that came; Ended where the line is cut, silent or another receiver's."""
        last = time.monotonic() + SILENCE
        while (found := records.next_record(self.data)) is None:
            if select.select([self.input], [], [], 0.5)[0]:
                more = os.read(self.input, 1 << 18)
                if not more:
                    raise Ended("the line was cut")
                self.data += more
                last = time.monotonic() + SILENCE
            elif time.monotonic() > last:
                raise Ended("the line is silent")
            self.look_at_claim()
        kind, where, content, end = found
        raw = bytes(self.data[:end])
        del self.data[:end]
        return kind, where, content, raw

    def claim_path(self):
        return self.folder / f"{self.store.name}.claim"

    def has_claim(self):
        return self.claim_path().read_text() == self.token

    def look_at_claim(self):
        if self.lock is not None and not self.has_claim():
            raise Ended("another receiver goes on")

    def claim(self):
        """Has a receiver that is there already end, since its line is cut where it doesn't know it, and goes on in its place."""
        claim = os.open(self.claim_path(), os.O_RDWR | os.O_CREAT, 0o600)
        # (written over in its place, all at once: each token has the same length)
        os.pwrite(claim, self.token.encode(), 0)
        os.close(claim)
        lock = os.open(self.folder / f"{self.store.name}.lock", os.O_RDWR | os.O_CREAT, 0o600)
        last = time.monotonic() + SILENCE
        while True:
            try:
                fcntl.flock(lock, fcntl.LOCK_EX | fcntl.LOCK_NB)
                break
            except BlockingIOError:
                if time.monotonic() > last or not self.has_claim():
                    raise Ended("another receiver has the folder") from None
                time.sleep(0.02)
        self.lock = lock

    def greet(self):
        kind, _, content, _ = self.next()
        hello = json.loads(content) if kind == records.HELLO else {}
        if not NAME.fullmatch(hello.get("name", "")):
            raise Ended("these are no words of a sender")
        self.store, self.keep = Store(self.folder, hello["name"]), max(self.keep, float(hello["keep"]))
        self.claim()
        self.say(records.STATE, self.store.open())

    def take(self, kind, where, content, raw):
        if kind == records.PAGES:
            self.store.append(where, raw)
        elif kind == records.BEGIN:
            self.store.begin()
        elif kind == records.COMMIT:
            what = json.loads(content)
            self.store.commit(where, raw, what)
            self.say(records.TAKEN, {})
            if where == records.COMING:
                self.store.thin(self.keep, records.seconds_of(what["moment"]))
        elif kind == records.ALIVE:
            looked = json.loads(content)["looked"]
            if looked is not None:
                self.store.live(looked)
            self.say(records.TAKEN, {})

    def run(self):
        self.greet()
        while True:
            self.take(*self.next())


def receive(folder, keep, input=0, output=1):
    """Receives until the line ends, and keeps what is younger than these seconds even if the sender keeps less; what ended it, in words."""
    receiver = Receiver(folder, keep, input, output)
    os.umask(0o077)
    try:
        receiver.run()
    except (Ended, records.Damaged, BrokenPipeError) as end:
        fault = str(end)
    except OSError as error:
        fault = f"{folder}: {os.strerror(error.errno or errno.EIO)}"
    if receiver.store is not None and receiver.lock is not None:
        receiver.store.step_back()
    try:
        receiver.say(records.FAULT, {"fault": fault})
    except OSError:
        pass
    return fault

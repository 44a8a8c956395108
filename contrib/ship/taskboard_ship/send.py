"""The sender: follows a file of boards, and ships what is committed to a receiver, again and again until it's taken."""
import collections
import json
import os
import sys
import time

from . import log, records
from .line import Cut, Line
from .source import Copying, Missing, Source

# Seconds: between two looks at the log at most, between two batches at least, between two signs of life, from a batch that was taken to the
# next one, between two tries.
LOOK, BATCH, ALIVE, AFTER, RETRY = 0.04, 0.25, 1, 0.1, 5
# How long a new series that couldn't be had in the place of one that goes on isn't tried again, in seconds.
POSTPONED = 600
# About how many frames a look shall find, so that none is written over before it's read.
FRAMES = 200
# From how many seconds on it says that it's behind, and how many bytes of pages wait at most while there is no line.
LATE, MOST = 10, 1 << 28
# A series is as large as the file so many times, and these bytes, before another is begun.
TIMES, AND = 4, 1 << 26


class Batch:
    """Pages that are on their way, with what is known once they are taken: nothing is missing then that was committed by `looked`."""

    def __init__(self, source, moment):
        self.pages, self.place, self.size, self.moment = source.pages, source.place, source.size, moment
        self.looked = records.moment_of(source.looked)


class Sender:
    def __init__(self, options, words):
        self.options, self.words = options, words
        self.source, self.line, self.copying = Source(options.file), None, None
        self.has_series, self.greeted = False, False
        self.flying, self.expected = None, collections.deque()
        self.taken, self.whole, self.newest, self.since, self.bytes = None, None, "", None, 0
        self.next_try = self.next_batch = self.next_alive = self.next_look = self.next_status = self.next_anew = 0.0
        self.wait, self.said, self.shown, self.is_late, self.fault, self.gone = 0.1, None, None, False, "", None

    def say(self, what):
        if what != self.said:
            print(f"taskboard-ship: {self.options.file}: {what}", file=sys.stderr, flush=True)
        self.said = what

    def moment(self):
        """The moment of the last look, which is later than any that was shipped, even if the clock went back."""
        text = records.moment_of(self.source.looked)
        if text <= self.newest:
            text = records.moment_of(records.seconds_of(self.newest) + 0.001)
        return text

    # What is committed

    def look(self):
        """Looks at the log when it's time. Where what was committed can't be followed, the file is copied anew."""
        if time.monotonic() < self.next_look:
            return
        begun = time.monotonic()
        try:
            self.source.look()
            if self.source.pages and len(self.source.pages) > MOST // self.source.page_size():
                self.source.follows = False
                raise log.Lost("too much waits while there is no line")
        except log.Lost as lost:
            self.lose(lost)
        except Missing as missing:
            self.miss(missing)
        busy = self.source.frames
        self.next_look = begun + (min(LOOK, LOOK * FRAMES / busy) if busy else LOOK)

    def lose(self, reason):
        """The series that is there ends: what is still on its way for it tells nothing of what comes behind. It has what a cut log has lost."""
        if isinstance(reason, log.WasCut):
            self.gone = f"{reason}: --restore --at {self.newest} has them"
            self.say(self.gone)
        self.has_series, self.copying, self.taken, self.flying, self.source.follows = False, None, None, None, False
        self.expected = collections.deque((where, looked, None) for where, looked, _ in self.expected)
        self.say(f"{reason}: the whole file is copied anew")

    def miss(self, missing):
        if self.has_series:
            self.lose(str(missing))
        self.source.follows, self.fault = False, str(missing)
        self.say(self.fault)

    # The line

    def connect(self):
        if time.monotonic() < self.next_try:
            return
        self.greeted, self.expected = False, collections.deque()
        try:
            self.line = Line(self.words)
        except OSError as error:
            self.cut(f"{self.words[0]}: {error.strerror}")
            return
        self.line.put([records.told(records.HELLO, records.NOWHERE, {"name": self.options.name, "keep": self.options.keep})])

    def cut(self, reason):
        """There is no line any more; it's tried again, at once and then ever later."""
        if self.line is not None:
            self.line.close()
        if self.copying is not None and self.has_series:
            self.next_anew = time.monotonic() + POSTPONED
        self.line, self.copying, self.fault = None, None, reason
        self.say(f"{reason}; trying again")
        self.next_try = time.monotonic() + self.wait
        self.wait = min(RETRY, 2 * self.wait)

    def greet(self, state):
        """Goes on where the receiver is, if that can be told."""
        self.greeted, self.has_series = True, "place" in state
        self.newest = max(self.newest, state.get("newest", ""))
        self.since, self.bytes = state.get("since"), state.get("bytes", 0)
        if "fault" in state:
            self.say(f"the other place: {state['fault']}")
        place, flying = state.get("place"), self.flying
        self.flying = None
        if self.has_series and self.source.follows and self.taken is not None:
            if flying is not None and place == told(flying.place):
                self.taken = flying
                return
            if place == told(self.taken.place):
                self.source.pages = {**(flying.pages if flying else {}), **self.source.pages}
                self.source.size = self.source.size or (flying and flying.size)
                return
        self.taken = None
        self.resume(place)

    def resume(self, place):
        """Follows from the place that the receiver has; the next look tells whether that can be."""
        if not self.has_series:
            self.source.follows = False
        elif place is None:
            self.lose("nothing shows what happened to a file without a log")
        else:
            header = log.Header(bytes.fromhex(place["header"]))
            self.source.start(log.Place(header, place["frames"], bytes.fromhex(place["last"])))
        self.next_look = 0

    # What is sent

    def feed(self):
        """Sends what there is to send, if nothing of before is on its way."""
        if self.copying is None and (not self.has_series or self.is_old()):
            self.begin()
        if self.copying is not None and self.line.is_free() and not self.copying.is_read():
            self.line.put(records.pages_records(records.COMING, self.copying.next_pages()))
        if self.flying is None and self.source.follows and time.monotonic() >= self.next_batch:
            ends = self.copying is not None and self.copying.is_read()
            if self.source.pages or ends:
                self.send(ends)
        if time.monotonic() >= self.next_alive:
            self.next_alive = time.monotonic() + ALIVE
            is_whole = self.has_series and self.source.follows and self.flying is None and not self.source.pages
            self.expect(records.ALIVE, records.NOWHERE, {"looked": records.moment_of(self.source.looked) if is_whole else None}, None)

    def is_old(self):
        """Whether a new series is to be begun, since this one is long or old, and not all of it the file itself."""
        if self.since is None or not self.source.follows or self.taken is None or time.monotonic() < self.next_anew:
            return False
        is_long = self.bytes + self.line.sent > TIMES * os.fstat(self.source.file).st_size + AND
        return is_long or self.taken.moment > records.moment_of(records.seconds_of(self.since) + self.options.anew)

    def begin(self):
        """Begins a new series. Where an earlier one can be followed it is, until the new one is whole."""
        try:
            self.copying = Copying(self.source, self.has_series)
        except log.Lost:
            return
        except Missing as missing:
            self.miss(missing)
            return
        self.line.put([records.told(records.BEGIN, records.NOWHERE, {})])
        self.line.put(records.pages_records(records.COMING, self.copying.first))
        self.next_look = 0

    def send(self, ends):
        """Sends the pages that wait, and the commits behind them."""
        if ends:
            self.source.look()
        source = self.source
        moment = self.moment()
        batch = Batch(source, moment)
        where = records.BOTH if self.has_series and self.copying else records.CURRENT if self.has_series else records.COMING
        source.pages = {}
        self.line.put(records.pages_records(where, batch.pages))
        if self.copying is not None:
            self.copying.went.update(batch.pages)
        page_size = source.page_size()
        size = batch.size or (self.copying and self.copying.size)
        what = {"moment": moment, "looked": batch.looked, "size": size, "page_size": page_size, "place": told(batch.place)}
        if self.has_series and batch.pages:
            self.expect(records.COMMIT, records.CURRENT, what, None if ends else batch)
        if ends:
            self.expect(records.COMMIT, records.COMING, what, batch)
        if self.has_series or ends:
            self.flying = batch
        self.newest = moment
        self.next_batch = time.monotonic() + BATCH

    def expect(self, kind, where, what, batch):
        self.line.put([records.told(kind, where, what)])
        self.expected.append((where, what["looked"], batch))

    def answered(self, kind, content):
        what = json.loads(content)
        if kind == records.STATE:
            self.greet(what)
        elif kind == records.FAULT:
            raise Cut(f"the other place: {what['fault']}")
        elif kind == records.TAKEN:
            self.take()

    def take(self):
        where, looked, batch = self.expected.popleft()
        self.wait = 0.1
        if looked is not None:
            self.whole, self.fault = looked, ""
        if batch is None:
            return
        self.taken, self.flying = batch, None
        self.next_alive = time.monotonic() + AFTER
        if where == records.COMING:
            self.has_series, self.copying = True, None
            self.since, self.bytes = batch.moment, -self.line.sent
            self.say("the whole file was copied, and is followed")

    # All in turn

    def behind(self):
        """How many seconds ago the copy was last known to lack nothing; None where there is none."""
        return None if self.whole is None else max(0.0, time.time() - records.seconds_of(self.whole))

    def tell(self):
        """Writes the status, each second and when it has changed, and says when it's late and when it isn't any more."""
        if time.monotonic() < self.next_status - (ALIVE - AFTER if self.whole != self.shown else 0):
            return
        self.next_status, self.shown = time.monotonic() + ALIVE, self.whole
        behind = self.behind()
        if behind is not None and self.is_late != (behind > LATE):
            self.is_late = behind > LATE
            self.say(f"{behind:.0f} s behind: {self.fault or 'the line is slow'}" if self.is_late else "nothing is missing again")
        if self.options.status:
            self.write_status(behind)

    def write_status(self, behind):
        what = {"file": self.options.file, "to": self.options.to, "whole": self.whole, "behind": behind, "fault": self.fault, "gone": self.gone}
        try:
            with open(self.options.status + ".new", "w") as file:
                file.write(json.dumps(what) + "\n")
            os.replace(self.options.status + ".new", self.options.status)
        except OSError as error:
            self.say(f"{self.options.status} can't be written: {error.strerror}")

    def turn(self):
        self.look()
        if self.line is None:
            self.connect()
        elif self.greeted:
            self.feed()
        wait = max(0.0, min(self.next_look - time.monotonic(), LOOK))
        if self.line is None:
            time.sleep(wait)
        else:
            for kind, content in self.line.exchange(wait):
                self.answered(kind, content)
        self.tell()

    def run(self):
        while True:
            try:
                self.turn()
            except Cut as cut:
                self.cut(str(cut))
            except log.Lost as lost:
                self.lose(lost)
            except Missing as missing:
                self.miss(missing)


def told(place):
    return None if place is None else place.told()

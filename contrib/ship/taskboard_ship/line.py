"""The line to the receiver: a program's standard input and output, which never make the sender wait."""
import collections
import os
import select
import subprocess
import time

from . import records

# How many bytes wait at most before more records are made.
FULL = 1 << 19
SILENCE = 30


class Cut(Exception):
    """The line is no more."""


class Line:
    def __init__(self, words):
        self.process = subprocess.Popen(words, stdin=subprocess.PIPE, stdout=subprocess.PIPE, start_new_session=True)
        self.input, self.output = self.process.stdin.fileno(), self.process.stdout.fileno()
        for file in (self.input, self.output):
            os.set_blocking(file, False)
        self.queue, self.leaving, self.coming = collections.deque(), bytearray(), bytearray()
        self.moved, self.sent = time.monotonic(), 0

    def put(self, them):
        """Sends records, which are made once there is room."""
        self.queue.append(iter(them))

    def is_free(self):
        return not self.queue and len(self.leaving) < FULL

    def fill(self):
        while self.queue and len(self.leaving) < FULL:
            more = next(self.queue[0], None)
            if more is None:
                self.queue.popleft()
            else:
                self.leaving += more

    def exchange(self, wait):
        """Sends and takes what it can, waiting so long at most; the records that came."""
        self.fill()
        writes = [self.input] if self.leaving else []
        reads, writes, _ = select.select([self.output], writes, [], wait)
        try:
            if writes:
                count = os.write(self.input, memoryview(self.leaving)[: 1 << 18])
                del self.leaving[:count]
                self.sent += count
            more = os.read(self.output, 1 << 16) if reads else None
        except OSError as error:
            raise Cut(str(error)) from None
        if reads or writes:
            self.moved = time.monotonic()
        elif time.monotonic() > self.moved + SILENCE:
            raise Cut("the line is silent")
        if more == b"":
            raise Cut("the line was cut")
        self.coming += more or b""
        return list(self.taken())

    def taken(self):
        try:
            while (found := records.next_record(self.coming)) is not None:
                del self.coming[: found[3]]
                yield found[0], found[2]
        except records.Damaged as fault:
            raise Cut(str(fault)) from None

    def close(self):
        """Ends the line, and waits for its program only where it ends at once."""
        for file in (self.process.stdin, self.process.stdout):
            try:
                file.close()
            except OSError:
                pass
        try:
            self.process.wait(0.2)
        except subprocess.TimeoutExpired:
            self.process.kill()
            self.process.wait()

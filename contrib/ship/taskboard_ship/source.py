"""A file of boards and its log, as the sender reads them: what was committed since, and the whole file for a new series."""
import os
import time

from . import log

# How long a log without a header may be in the middle of a checkpoint, in seconds.
CHECKPOINT = 2
CHUNK = 1 << 20


class Missing(Exception):
    """The file can't be read, or is no file of boards."""


class Source:
    """Follows the commits of a file. `pages` are those that were committed and not yet taken, `size` how many pages the file has then, and
    `looked` the moment at which the log was last looked at: what was committed by then is found."""

    def __init__(self, path):
        self.path = os.path.realpath(path)
        self.file = self.log = self.place = self.looked = self.size = None
        self.follows, self.pages, self.frames = False, {}, 0

    def open(self):
        """Opens the file and its log, again where they are others by now."""
        was = self.file
        self.file = opened(self.path, self.file)
        self.log = opened(self.path + "-wal", self.log)
        if self.file is None:
            raise Missing(f"{self.path} can't be read")
        if was not in (None, self.file):
            raise log.Lost("the file is another one")

    def page_size(self):
        head = os.pread(self.file, 100, 0)
        size = int.from_bytes(head[16:18], "big")
        size = 65536 if size == 1 else size
        if not head.startswith(b"SQLite format 3\0") or not log.is_page_size(size):
            raise Missing(f"{self.path} is no file of boards")
        return size

    def start(self, place):
        """Follows from a place on, or from a file without a log."""
        self.place, self.follows, self.pages, self.size = place, True, {}, None

    def header(self):
        return None if self.log is None else log.header_in(self.log)

    def look(self):
        """Takes in what was committed since the last look. Where it can't be known, it follows no more, and it's Lost."""
        now, self.frames = time.time(), 0
        try:
            self.open()
            if not self.follows:
                return
            if self.place is None:
                if self.header() is not None:
                    raise log.Lost("a log was begun")
            elif not self.take_in():
                return
        except log.Lost:
            self.follows = False
            raise
        self.looked = now

    def take_in(self):
        """Whether that was all that was committed."""
        if self.log is None:
            raise log.Lost("the log is gone")
        found = log.look(self.log, self.place)
        self.pages.update(found.pages)
        self.size = found.size or self.size
        self.place, self.frames = found.place, found.frames
        return found.is_all

    def start_of_log(self):
        """The place in front of the log's first frame, or None where there is no log. A checkpoint is waited for."""
        last = time.monotonic() + CHECKPOINT
        while (header := self.header()) is None and time.monotonic() < last and self.log is not None and os.fstat(self.log).st_size:
            time.sleep(0.005)
            self.open()
        return None if header is None else log.Place(header)


def opened(path, file):
    """A descriptor of the file that has this name by now, for reading; the one that was open where it's the same."""
    try:
        now = os.stat(path)
        if file is not None:
            before = os.fstat(file)
            if (before.st_dev, before.st_ino) == (now.st_dev, now.st_ino):
                return file
        new = os.open(path, os.O_RDONLY | os.O_CLOEXEC)
    except OSError:
        new = None
    if file is not None:
        os.close(file)
    return new


class Copying:
    """The whole file, in parts. A page that a checkpoint writes meanwhile may come as it was, as it is, or torn: but it's in the log too,
    and what the log has goes behind it, or in its place where it went before."""

    def __init__(self, source, is_followed):
        source.open()
        self.source, self.page_size, self.at, self.went = source, source.page_size(), 0, set()
        place = source.start_of_log()
        # What the file gets from here on, the log has.
        self.count = os.fstat(source.file).st_size // self.page_size
        self.first, self.size = {}, self.count
        if is_followed and place is not None:
            found = log.look(source.log, place)
            self.first, self.size = found.pages, found.size or self.count
        elif not is_followed:
            source.start(place)
        self.went.update(self.first)

    def is_read(self):
        return self.at >= self.count

    def next_pages(self):
        """The next pages of the file, but for those that went already."""
        count = max(1, CHUNK // self.page_size)
        data = os.pread(self.source.file, count * self.page_size, self.at * self.page_size)
        numbers = range(self.at + 1, self.at + 1 + len(data) // self.page_size)
        first, self.at = self.at + 1, self.at + count
        return {number: data[(number - first) * self.page_size : (number - first + 1) * self.page_size] for number in numbers if number not in self.went}

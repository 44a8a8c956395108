"""Reads the write-ahead log of a file of boards while another process writes it. Nothing is ever written or locked here.

A log is a header and frames. A frame is 24 bytes and a page: the page's number, the file's pages where it commits or else 0, the header's
two salts, and a checksum over all up to there. A checkpoint puts the pages into the file and begins the log anew, with another header:
from then on frames are written over those of before, from the first one on. Frames of before are still there behind the new ones."""
import array
import os
import sys

HEADER, FRAME = 32, 24
VERSION = 3007000
WORD = 0xFFFFFFFF
# How many frames are read at once.
AT_ONCE = 256


class Lost(Exception):
    """What was committed can't be followed from here: the file has to be copied anew."""


class WasCut(Lost):
    """Commits that were read before aren't in the log any more, though it wasn't begun anew."""


class Header:
    """A log's header."""

    def __init__(self, raw):
        words = [int.from_bytes(raw[at : at + 4], "big") for at in range(0, HEADER, 4)]
        self.raw, self.magic, self.version, self.page_size, self.round = raw, *words[:4]
        self.salts, self.sum = raw[16:24], (words[6], words[7])
        self.is_big = self.magic & 1 == 1

    def is_signed(self):
        return self.magic & ~1 == 0x377F0682 and self.version == VERSION and is_page_size(self.page_size) and checksum(self.is_big, (0, 0), self.raw[:24]) == self.sum

    def first_salt(self):
        return int.from_bytes(self.salts[:4], "big")

    def is_behind(self, before):
        """Whether this is the header that the checkpoint of a log with that header writes."""
        salts = {(before.first_salt() + 1) & WORD, max((before.first_salt() + 1) & WORD, 0x1000000)}
        rounds = {(before.round + 1) & WORD, ((before.round + 1) & WORD) % WORD}
        return self.page_size == before.page_size and self.first_salt() in salts and self.round in rounds


class Place:
    """A place in a log, behind a frame that commits or before the first one; `last` is the frame's 24 bytes."""

    def __init__(self, header, frames=0, last=b""):
        self.header, self.frames, self.last = header, frames, last

    def told(self):
        return {"header": self.header.raw.hex(), "frames": self.frames, "last": self.last.hex()}

    def sum(self):
        return sum_in(self.last) if self.last else self.header.sum

    def frame_length(self):
        return FRAME + self.header.page_size

    def offset(self, frames=None):
        return HEADER + (self.frames if frames is None else frames) * self.frame_length()

    def is_there(self, file):
        """Whether the last frame before this place is still in the file."""
        return not self.last or os.pread(file, FRAME, self.offset(self.frames - 1)) == self.last


class Found:
    """The pages that were committed behind a place, each in its newest form; how many pages the file has then, where any were, the place
    behind them, how many frames were read, and whether that is all: in the middle of a checkpoint nothing tells."""

    def __init__(self, place):
        self.place, self.pages, self.size, self.frames, self.is_all = place, {}, None, 0, True

    def take(self, pages, size, place):
        self.pages.update(pages)
        self.size, self.place = size, place

    def add(self, further):
        """Adds what was found behind this."""
        self.take(further.pages, further.size or self.size, further.place)
        self.frames, self.is_all = self.frames + further.frames, further.is_all


def is_page_size(size):
    return 512 <= size <= 65536 and size & (size - 1) == 0


def sum_in(frame):
    return int.from_bytes(frame[16:20], "big"), int.from_bytes(frame[20:24], "big")


def checksum(is_big, start, data):
    """SQLite's checksum of bytes, from a sum on."""
    words = array.array("I", data)
    if is_big == (sys.byteorder == "little"):
        words.byteswap()
    first, second = start
    for at in range(0, len(words), 2):
        first = (first + words[at] + second) & WORD
        second = (second + words[at + 1] + first) & WORD
    return first, second


def lanes(sums):
    return int.from_bytes(array.array("Q", sums).tobytes(), sys.byteorder)


def frame_sums(is_big, length, data, starts):
    """The checksums of many frames at once, each from the sum before it: a number for all first halves, and one for the second.

    Each frame has 64 bits of these numbers, so that one addition adds to all. The sums are let grow for some steps before they are cut."""
    words = array.array("I", data)
    if is_big == (sys.byteorder == "little"):
        words.byteswap()
    pairs, count = array.array("Q", words.tobytes()), len(starts)
    if sys.byteorder == "big":
        pairs = array.array("Q", [(pair & WORD) << 32 | pair >> 32 for pair in pairs])
    low = lanes([WORD] * count)
    first, second = lanes([sum[0] for sum in starts]), lanes([sum[1] for sum in starts])
    for number, at in enumerate((0, *range(FRAME // 8, length // 8))):
        pair = int.from_bytes(pairs[at :: length // 8].tobytes(), sys.byteorder)
        first += (pair & low) + second
        second += (pair >> 32 & low) + first
        if number % 12 == 11:
            first, second = first & low, second & low
    return first & low, second & low


def count_valid(header, before, data):
    """How many of the first frames have the header's salts and the sums that follow from the one before."""
    length = FRAME + header.page_size
    count = len(data) // length
    for number in range(count):
        at = number * length
        if data[at + 8 : at + 16] != header.salts or data[at : at + 4] == b"\0\0\0\0":
            count = number
            break
    if count == 0:
        return 0
    stored = [sum_in(data[at : at + FRAME]) for at in range(0, count * length, length)]
    first, second = frame_sums(header.is_big, length, data[: count * length], [before, *stored[:-1]])
    wrong = (first ^ lanes([sum[0] for sum in stored])) | (second ^ lanes([sum[1] for sum in stored]))
    return count if wrong == 0 else ((wrong & -wrong).bit_length() - 1) // 64


def read_behind(file, place):
    """What the frames behind a place commit, up to the first that isn't one."""
    found, length = Found(place), place.frame_length()
    at, before, pages = place.frames, place.sum(), {}
    while os.pread(file, 8, place.offset(at) + 8) == place.header.salts:
        data = os.pread(file, AT_ONCE * length, place.offset(at))
        count = count_valid(place.header, before, data)
        for start in range(0, count * length, length):
            frame = data[start : start + FRAME]
            pages[int.from_bytes(frame[:4], "big")] = data[start + FRAME : start + length]
            size = int.from_bytes(frame[4:8], "big")
            at, before = at + 1, sum_in(frame)
            if size:
                found.take({number: page for number, page in pages.items() if number <= size}, size, Place(place.header, at, frame))
                pages = {}
        if count < AT_ONCE:
            break
    found.frames = at - place.frames
    return found


def header_in(file):
    """The log's header, or None where it has none, as in the middle of a checkpoint."""
    raw = os.pread(file, HEADER, 0)
    if len(raw) < HEADER:
        return None
    header = Header(raw)
    return header if header.is_signed() else None


def look(file, place):
    """All that was committed behind a place by now. Lost where the log began anew and what stood at its end can't be told any more.

    Frames are written over from the first on. So where the last frame that was read still stands after the bytes behind it were read,
    those hadn't been written over, and the log ended there. A transaction may have several frames that commit, which become valid at once,
    so only what is read up to such an end is whole. A log that began anew gets no more frames: what is read from then on is all it had."""
    found, raw = Found(place), place.header.raw
    while raw == place.header.raw:
        raw = os.pread(file, HEADER, 0)
        found.add(read_behind(file, found.place))
        if not found.place.is_there(file):
            if found.place.frames == place.frames and raw == place.header.raw == os.pread(file, HEADER, 0):
                raise WasCut("the log was cut, and commits are gone from it that were shipped")
            raise Lost("the log was written over or cut before its end was read")
        if raw == place.header.raw == os.pread(file, HEADER, 0):
            return found
    if found.place.frames == 0:
        raise Lost("the log began anew before anything of it was read")
    header = header_in(file)
    if header is None:
        found.is_all = False
        return found
    if not header.is_behind(place.header):
        raise Lost("the log is another one")
    found.add(look(file, Place(header)))
    return found

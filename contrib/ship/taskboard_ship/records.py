"""Records: what goes over the line, and what a series at the other place is made of.

A record is a letter for its kind, a digit for where it goes, the length of its content, a digest of all that, and the content."""
import datetime
import hashlib
import json
import struct
import zlib

HEAD = struct.Struct("<ccI")
DIGEST = 16
# The kinds: pages, the end of a commit, the begin of a new series, a sign of life, the first words, and the other side's answers.
PAGES, COMMIT, BEGIN, ALIVE, HELLO, STATE, TAKEN, FAULT = b"P", b"C", b"B", b"A", b"H", b"S", b"T", b"F"
# Where a record goes: nowhere, to the series that is there, to the one that is coming, or to both.
NOWHERE, CURRENT, COMING, BOTH = b"0", b"1", b"2", b"3"
LONGEST = 1 << 26
# How many bytes of pages one record has at most.
PAGES_AT_ONCE = 1 << 20


class Damaged(Exception):
    """Bytes that are no record."""


def record(kind, where, content):
    head = HEAD.pack(kind, where, len(content))
    return head + digest_of(head, content) + content


def told(kind, where, what):
    return record(kind, where, json.dumps(what).encode())


def digest_of(head, content):
    return hashlib.blake2b(head + content, digest_size=DIGEST).digest()


def pages_records(where, pages):
    """The records of pages by number, each page once."""
    numbers = sorted(pages)
    step = max(1, PAGES_AT_ONCE // len(pages[numbers[0]])) if numbers else 1
    for at in range(0, len(numbers), step):
        some = numbers[at : at + step]
        content = struct.pack(f"<I{len(some)}I", len(some), *some) + b"".join(pages[number] for number in some)
        yield record(PAGES, where, zlib.compress(content, 1))


def pages_in(content):
    """The pages of a record, by number."""
    content = zlib.decompress(content)
    (count,) = struct.unpack_from("<I", content)
    numbers = struct.unpack_from(f"<{count}I", content, 4)
    first = 4 + 4 * count
    size = (len(content) - first) // count
    return {number: content[first + at * size : first + (at + 1) * size] for at, number in enumerate(numbers)}


def next_record(data, at=0):
    """The kind, place and content of the record that begins there, and where it ends; None where the bytes end before it does."""
    start = at + HEAD.size + DIGEST
    if len(data) < start:
        return None
    kind, where, length = HEAD.unpack_from(data, at)
    if length > LONGEST or not (kind.isalpha() and where.isdigit()):
        raise Damaged("a record's length or kind")
    if len(data) < start + length:
        return None
    content = bytes(data[start : start + length])
    if digest_of(bytes(data[at : at + HEAD.size]), content) != data[at + HEAD.size : start]:
        raise Damaged("a record's digest")
    return kind, where, content, start + length


def moment_of(seconds):
    """A moment in UTC as text, to the millisecond; texts are in the order of their moments."""
    when = datetime.datetime.fromtimestamp(seconds, datetime.timezone.utc)
    return when.strftime("%Y%m%dT%H%M%S.") + f"{when.microsecond // 1000:03d}Z"


def seconds_of(moment):
    """The seconds of such a text, with or without milliseconds; ValueError where it is none."""
    form = "%Y%m%dT%H%M%S.%fZ" if "." in moment else "%Y%m%dT%H%M%SZ"
    return datetime.datetime.strptime(moment, form).replace(tzinfo=datetime.timezone.utc).timestamp()

"""JSON as Taskwarrior and other tools write it: the objects of a text in any layout, each with what isn't JSON in it. Nothing is kept here."""
import json
import re

# What may stand between two values: blanks, commas, and the mark that some editors put before a text.
BETWEEN = re.compile(r"[ \t\r\n,\ufeff]*")
QUOTED = re.compile(r'"[^"\\]*(?:\\.[^"\\]*)*"', re.DOTALL)
CONTROL = re.compile(r"[\x00-\x1f]")
ZERO_FRACTION = re.compile(r"-?[0-9]+\.0+")
# Above so many digits no reader takes a number.
MOST_DIGITS = 300


class NotJson(Exception):
    """A text that can't be read, with the line where."""


class Whole(int):
    """A whole number that was written with a fraction of zero."""

    text = ""


def read_float(text):
    """A number with a fraction or an exponent."""
    if len(text) > MOST_DIGITS or not ZERO_FRACTION.fullmatch(text):
        return float(text)
    number = Whole(text.partition(".")[0])
    number.text = text
    return number


def read_int(text):
    """A number of digits alone."""
    return int(text) if len(text) <= MOST_DIGITS else float("inf")


DECODER = json.JSONDecoder(strict=False, parse_float=read_float, parse_int=read_int)


def line_of(text, at):
    """The line of a place in a text, from 1."""
    return text.count("\n", 0, at) + 1


def after_between(text, at):
    """The place after what stands between two values."""
    found = BETWEEN.match(text, at)
    return found.end() if found else at


def value_at(text, at):
    """The value that begins at a place, and where it ends."""
    try:
        return DECODER.raw_decode(text, at)
    except json.JSONDecodeError as fault:
        raise NotJson(f"line {fault.lineno}: {fault.msg[0].lower()}{fault.msg[1:]}") from None
    except RecursionError:
        raise NotJson(f"line {line_of(text, at)}: too many values in each other") from None


def objects_of(given):
    """The objects of bytes with their own texts: in a list, in several, one after the other, or a mixture of these."""
    text = given.decode("utf-8", "surrogateescape")
    found, opened, at = [], None, after_between(text, 0)
    while at < len(text):
        if text[at] == "[" and opened is None or text[at] == "]" and opened is not None:
            opened, end = (at if text[at] == "[" else None), at + 1
        else:
            value, end = value_at(text, at)
            if not isinstance(value, dict):
                raise NotJson(f"line {line_of(text, at)}: a task is an object, with {{ and }} around it")
            found.append((value, text[at:end]))
        at = after_between(text, end)
    if opened is not None:
        raise NotJson(f"line {line_of(text, len(text.rstrip()))}: the text breaks off; the list that begins in line {line_of(text, opened)} has no end")
    return found


def has_controls(text):
    """Whether control characters stand in quotes as they are, which isn't JSON."""
    return bool(CONTROL.search(text)) and any(CONTROL.search(quoted) for quoted in QUOTED.findall(text))


def is_writable(value):
    """Whether a value can be written so that every reader takes it."""
    try:
        return depth(value) < 100 and bool(json.dumps(value, ensure_ascii=False, allow_nan=False).encode())
    except ValueError:
        return False


def depth(value):
    """How many lists and objects stand in each other."""
    inner = value.values() if isinstance(value, dict) else value if isinstance(value, list) else None
    return 0 if inner is None else 1 + max(map(depth, inner), default=0)


def written(value):
    """The text of a value, without blanks between."""
    return json.dumps(value, ensure_ascii=False, allow_nan=False, separators=(",", ":"))

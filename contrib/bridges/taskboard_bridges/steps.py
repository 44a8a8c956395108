"""Steps of recurring tasks: those that boards know, and what Taskwarrior's are called there. Nothing is kept here."""
import re

# The steps that boards know, so many days or months each; weekdays have no number.
DAYS = {"daily": 1, "day": 1, "weekly": 7, "biweekly": 14, "fortnight": 14}
MONTHS = {"monthly": 1, "quarterly": 3, "semiannual": 6, "annual": 12, "yearly": 12, "biannual": 24, "biyearly": 24}
COUNTED = re.compile(r"[1-9][0-9]{0,2}(d|w|mo|y)|P[1-9][0-9]{0,2}[DWMY]")
# How Taskwarrior calls its units of time: so many days, months or years each. A sennight has 14 days there.
UNITS = (
    ("d", 1, "d day days daily"),
    ("d", 7, "w wk wks week weeks weekly"),
    ("d", 14, "fortnight sennight biweekly"),
    ("mo", 1, "m mo mos mth mths mnths month months monthly"),
    ("mo", 2, "bimonthly"),
    ("mo", 3, "q qtr qtrs qrtr qrtrs quarter quarters quarterly"),
    ("mo", 6, "semiannual"),
    ("y", 1, "y yr yrs year years annual yearly"),
    ("y", 2, "biannual biyearly"),
)
BY_NAME = {name: (letters, count) for letters, count, names in UNITS for name in names.split()}
WORDS = {"1d": "daily", "7d": "weekly", "14d": "biweekly", "1mo": "monthly", "3mo": "quarterly", "6mo": "semiannual", "1y": "yearly"}


def is_step(text):
    """Whether boards know a step."""
    return text in DAYS or text in MONTHS or text == "weekdays" or bool(COUNTED.fullmatch(text))


def respelled(text):
    """The step of a board that means the same as one of Taskwarrior; None where there is none."""
    if is_step(text):
        return text
    found = re.fullmatch(r"([0-9]{0,9})\s*([a-z]+)", text)
    if not found or found[2] not in BY_NAME:
        return None
    letters, count = BY_NAME[found[2]]
    short = f"{count * int(found[1] or 1)}{letters}"
    step = WORDS.get(short, short)
    return step if is_step(step) else None

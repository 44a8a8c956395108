"""Days in a time zone. A moment at midnight in UTC says a day alone, the same one in each zone. Nothing is kept here.

A zone is None where it is the machine's own, by TZ or /etc/localtime."""
import datetime
import zoneinfo

from taskboard_bridges.fault import Fault

UTC = datetime.timezone.utc
SPELLED = "%Y%m%dT%H%M%SZ"
MIDNIGHT = "T000000Z"


def zone_named(name):
    """The time zone of a name, or the machine's own where there is no name."""
    try:
        return None if name is None else UTC if name == "UTC" else zoneinfo.ZoneInfo(name)
    except (zoneinfo.ZoneInfoNotFoundError, ValueError, OSError):
        raise Fault(f"there is no time zone {name}") from None


def moment_of(text):
    """A moment's text as a time of UTC."""
    return datetime.datetime.strptime(text, SPELLED).replace(tzinfo=UTC)


def there(text, zone):
    """A moment's text as a time of the zone; of UTC at the ends of the calendar, where the zone has no such day."""
    moment = moment_of(text)
    try:
        local = moment.astimezone(zone)
        return local if local.year >= 1970 else moment
    except (OverflowError, ValueError, OSError):
        return moment


def day_of(text, zone):
    """The day of a moment that says a day alone: midnight of UTC, or midnight where the people are; None of another moment."""
    if text.endswith(MIDNIGHT):
        return moment_of(text).date()
    local = there(text, zone)
    return local.date() if (local.hour, local.minute, local.second) == (0, 0, 0) else None


def local_day(text, zone):
    """The day on which a moment falls where the people are."""
    return moment_of(text).date() if text.endswith(MIDNIGHT) else there(text, zone).date()


def day_alone(text, zone):
    """The moment that says the day of a moment alone."""
    return text if text.endswith(MIDNIGHT) else f"{local_day(text, zone):%Y%m%d}{MIDNIGHT}"


def at(day, time, zone):
    """The moment of a day at a time where the people are; None where the calendar of boards has none."""
    try:
        moment = f"{datetime.datetime.combine(day, time, zone).astimezone(UTC):{SPELLED}}"
    except (OverflowError, ValueError, OSError):
        return None
    return moment if moment >= "1970" else None


def midnight(day, zone):
    """The first moment of a day where the people are; `day` is told as days are, and stays where the calendar of boards has no such moment."""
    return at(moment_of(day).date(), datetime.time(), zone) or day


def moved(text, day, zone):
    """A moment at the same time on another day, which is told as days are; the day alone, where there was no time or it hasn't that time."""
    if not text or text.endswith(MIDNIGHT):
        return day
    moment = at(moment_of(day).date(), there(text, zone).time(), zone)
    return moment if moment and day_alone(moment, zone) == day else day

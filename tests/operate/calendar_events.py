"""Prints what a calendar says, as the library of Debian's python3-icalendar reads it: calendar_events.py FILE"""
import json
import sys

import icalendar


def text_of(value):
    return value.to_ical().decode() if hasattr(value, "to_ical") and not isinstance(value, str) else str(value)


with open(sys.argv[1], "rb") as file:
    calendar = icalendar.Calendar.from_ical(file.read())
events = []
for event in calendar.walk("VEVENT"):
    found = {name.lower(): text_of(value) for name, value in event.items() if name != "CATEGORIES"}
    # (a repeated property comes as a list; of CATEGORIES the values are)
    found["categories"] = sorted(str(tag) for tag in event["CATEGORIES"].cats) if "CATEGORIES" in event else []
    found["is_day"] = event["DTSTART"].params.get("VALUE") == "DATE"
    events.append(found)
print(json.dumps({"name": str(calendar["X-WR-CALNAME"]), "errors": [list(event.errors) for event in calendar.walk() if event.errors], "events": events}))

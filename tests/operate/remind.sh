#!/bin/sh
# Mails and calendars of what is due on a board of 1,000 tasks: a mail server of the test's own, who sends killed at each step, and each
# calendar read back by the library of Debian's python3-icalendar (docs/TESTING.md). It needs python3, openssl for mail by TLS and that
# library for the calendars, and takes half a minute; SEED repeats a run.
set -eu

. "$(dirname "$0")/../lib/prepare.sh"

if [ ! -d /usr/share/zoneinfo ]; then
    echo "reminders: skipped, since Debian's tzdata isn't there"
    exit
fi
python3 "$top/tests/operate/reminding.py" "$program" "$port"

if command -v systemd-analyze >/dev/null 2>&1 && command -v man >/dev/null 2>&1; then
    mkdir units
    sh "$top/contrib/install.sh" --prefix "$folder/opt" >said
    cp "$folder"/opt/lib/systemd/system/taskboard-remind.* "$folder"/opt/lib/systemd/system/taskboard-calendar.* units
    MANPATH="$folder/opt/share/man:" systemd-analyze verify units/*
    "$folder/opt/bin/taskboard-remind" --help >said
    "$folder/opt/bin/taskwarrior-sync" --help >said
else
    echo "the units: skipped, since systemd-analyze or man isn't there"
fi

"""The words of the command."""
import argparse
import pathlib
import re
import shlex
import sys

from .receive import NAME, receive
from .records import seconds_of
from .restore import Refused, name_of, restore, show, verify
from .send import Sender

USAGE = """taskboard-ship [--keep 7d] [--anew 1d] [--ssh COMMAND] [--status STATUS] FILE FOLDER|HOST:FOLDER
       taskboard-ship --restore FOLDER FILE [--at MOMENT]
       taskboard-ship --list FOLDER [--late 60s]
       taskboard-ship --verify FOLDER [--late 60s]
       taskboard-ship --receive [--keep 7d] FOLDER"""
KEPT = 7 * 86400
SECONDS = {"s": 1, "m": 60, "h": 3600, "d": 86400}
SSH = "ssh -o BatchMode=yes -o StrictHostKeyChecking=yes -o ServerAliveInterval=5 -o ServerAliveCountMax=3 -o UpdateHostKeys=no"


def duration(word):
    found = re.fullmatch(r"(\d{1,6})([smhd])", word)
    if not found:
        raise argparse.ArgumentTypeError(f"{word} is no duration, as 90s, 10m, 12h or 7d")
    return int(found[1]) * SECONDS[found[2]]


def moment(word):
    try:
        seconds_of(word)
    except ValueError:
        raise argparse.ArgumentTypeError(f"{word} is no moment in UTC, as 20261125T060725Z") from None
    return word


def parsed(words):
    parser = argparse.ArgumentParser(prog="taskboard-ship", usage=USAGE, allow_abbrev=False, add_help=True)
    parser.add_argument("--restore", action="store_true", help="put the file together as FILE, which may not be there")
    parser.add_argument("--receive", action="store_true", help="take what a sender ships, from standard input, into FOLDER")
    parser.add_argument("--list", action="store_true", help="say until when nothing is missing in FOLDER; the status is 1 if that is too long ago, or a series is damaged")
    parser.add_argument("--verify", action="store_true", help="restore each name in FOLDER, elsewhere and for a moment, and have it checked")
    parser.add_argument("--at", metavar="MOMENT", type=moment, help="the state of that moment in UTC, as 20261125T060725Z")
    parser.add_argument("--late", type=duration, default=60, help="how long ago may be, 60s")
    parser.add_argument("--keep", type=duration, help="how far back states are kept, 7d; a receiver keeps what is younger, whatever the sender says")
    parser.add_argument("--anew", type=duration, default=86400, help="how often the whole file is copied anew, 1d")
    parser.add_argument("--ssh", default=SSH, help="the command that reaches the other machine, with its options")
    parser.add_argument("--status", metavar="STATUS", help="a file to which it writes each second how far behind it is")
    parser.add_argument("paths", nargs="+")
    options = parser.parse_args(words)
    modes = options.restore + options.receive + options.list + options.verify
    if modes > 1 or len(options.paths) != (1 if modes and not options.restore else 2) or options.at and not options.restore:
        parser.error("these words don't go together")
    return parser, options


def words_of(options):
    """The command that runs the receiver: here, or behind ssh where a machine is named as by scp."""
    remote = re.fullmatch(r"([^/:]+):(.+)", options.to)
    if remote:
        return [*shlex.split(options.ssh), "--", remote[1], f"taskboard-ship --receive {shlex.quote(remote[2])}"]
    return [sys.executable, sys.argv[0], "--receive", options.to]


def send(parser, options):
    options.file, options.to = options.paths
    options.keep = KEPT if options.keep is None else options.keep
    options.name = name_of(options.file)
    if not NAME.fullmatch(options.name):
        parser.error(f"the name {options.name} has other signs than letters, digits and . _ -")
    if not options.status or pathlib.Path(options.status).absolute().parent.is_dir():
        Sender(options, words_of(options)).run()
    parser.error(f"{options.status} is in no folder")


def main(words):
    """Carries out the words; the status."""
    parser, options = parsed(words)
    try:
        if options.receive:
            receive(options.paths[0], options.keep or 0)
        elif options.restore:
            restore(*options.paths, options.at)
        elif options.list:
            return 0 if show(options.paths[0], options.late) else 1
        elif options.verify:
            return 0 if show(options.paths[0], options.late) & verify(options.paths[0]) else 1
        else:
            send(parser, options)
    except (Refused, OSError) as fault:
        print(f"taskboard-ship: {fault}", file=sys.stderr)
        return 1
    except KeyboardInterrupt:
        return 130
    return 0

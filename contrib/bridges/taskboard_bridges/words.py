"""The words of the bridges' command lines, and how a run ends. Nothing is kept here."""
import argparse
import os
import re
import sys

from taskboard_bridges.asking import Boards, read_key
from taskboard_bridges.fault import Fault
from taskboard_bridges.keeping import Lock, Marks, State, state_path
from taskboard_bridges.saying import say
from taskboard_bridges.seen import Seen
from taskboard_bridges.syncing import Sync


def parser_of(program, about):
    """The words that both bridges take."""
    parser = argparse.ArgumentParser(prog=program, description=about, allow_abbrev=False)
    parser.add_argument("address", metavar="ADDRESS", help="HOST:PORT of the loopback, or https://HOST")
    parser.add_argument("member", metavar="MEMBER", help="the person's name on the boards")
    parser.add_argument("board", metavar="BOARD", type=board_number, help="the board's number")
    parser.add_argument("--key", metavar="FILE", help="the file with the key, which its owner alone may read (~/.config/taskboard/key); the environment TASKBOARD_KEY goes first")
    parser.add_argument("--cacert", metavar="FILE", help="the certificate to trust, for https")
    parser.add_argument("--state", metavar="FILE", help="what both sides had after the last run (below ~/.local/state/taskboard)")
    parser.add_argument("--for", metavar="SECONDS", dest="patience", type=seconds, default=60, help="how long each message is sent again while the server doesn't answer (60)")
    parser.add_argument("--delete-missing", action="store_true", help="delete on the board what was on the other side and is gone from there")
    parser.add_argument("--again", action="store_true", help="try anew what was refused before")
    parser.add_argument("--dry-run", action="store_true", help="say what a run would do, and change nothing")
    parser.add_argument("--another", action="store_true", help="begin with this board, though the other side is in step with another one")
    parser.add_argument("--quiet", action="store_true", help="say only what you should look at: conflicts, refusals, what is gone")
    return parser


def board_number(text):
    """The number of a board, from 1."""
    if not text.isascii() or not text.isdigit() or int(text) < 1:
        raise argparse.ArgumentTypeError(f"{text} is no number of a board")
    return int(text)


def seconds(text):
    """A number of seconds, of a day at most."""
    try:
        number = float(text)
    except ValueError:
        number = -1
    if not 0 <= number <= 86_400:
        raise argparse.ArgumentTypeError(f"{text} is no number of seconds up to 86400")
    return number


def key_of(options):
    """The key, of the environment or of a file."""
    if not options.key and os.environ.get("TASKBOARD_KEY"):
        return os.environ["TASKBOARD_KEY"]
    return read_key(options.key or os.path.expanduser("~/.config/taskboard/key"))


def state_file(options, kind, more=""):
    """Where the state is."""
    return os.path.abspath(options.state) if options.state else state_path(kind, options.address, options.board, more)


def tell(text, file=None):
    """Prints a line with a space for each control character, which a terminal might obey, and for what breaks a line or turns it round."""
    say(re.sub(r"[\x00-\x1f\x7f-\x9f\u2028-\u202e\u2066-\u2069]", " ", text), file)


def bridge(options, path, more, make_right):
    """Runs a bridge with the state of a path. `more` are words on which it depends besides; `make_right` gets the marks of what it writes, and
    the state. The status is 0 where both sides have the same now, and 1 where something was refused, not taken, or failed."""
    try:
        boards = Boards(options.address, options.member, key_of(options), options.patience, options.cacert)
        lock = Lock(path)
        seen = Seen(path, [boards.address, options.member, str(options.board), *more])
        if not (options.dry_run or options.again or options.delete_missing) and seen.is_as_it_was(boards, options.board):
            return 0
        state = State(path, boards.address, options.board)
        return 0 if Sync(boards, options.board, make_right(Marks(path, lock), state), state, seen, options, tell).run() else 1
    except Fault as fault:
        tell(f"{sys.argv[0].rpartition('/')[2]}: {fault}", sys.stderr)
        return 1
    except OSError as fault:
        tell(f"{sys.argv[0].rpartition('/')[2]}: {fault.filename or 'the system'}: {fault.strerror}. Nothing is lost: mend that, and run it again", sys.stderr)
        return 1

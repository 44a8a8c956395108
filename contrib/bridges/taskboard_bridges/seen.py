"""Whether anything is new since a run that left nothing to do. What tells it is kept in a small file beside the state, so that a run without
news reads nothing else."""
import contextlib
import hashlib
import json
import os

from taskboard_bridges.forms import fits
from taskboard_bridges.keeping import replace_file

MARK = {"number": int, "entry": str, "files": [str], "content": str, "words": [str], "state": [int]}


class Seen:
    """What both sides were when a run left nothing to do: the number of the board's last entry and what it is, the other side's files and
    what they have, and the state that belongs to it. `words` are what else a run depends on: a filter, a zone."""

    def __init__(self, path, words):
        self.path, self.state_path, self.words = f"{path}.seen", path, [*words, *circumstances()]

    def is_as_it_was(self, boards, board):
        """Whether neither side has anything new. The board is asked for its last entry alone."""
        mark = self.kept()
        if not mark or mark["words"] != self.words or mark["state"] != state_of(self.state_path) or mark["content"] != content_of(mark["files"]):
            return False
        last, entry = newest(boards, board, mark["number"])
        return (last, entry) == (mark["number"], mark["entry"])

    def kept(self):
        """What was kept; None where that is nothing."""
        with contextlib.suppress(OSError, ValueError, RecursionError), open(self.path, encoding="utf-8") as file:
            mark = json.load(file)
            return mark if fits(mark, MARK) else None
        return None

    def look(self, boards, board, files):
        """How both sides are now; it is called before they are read."""
        return {"number": boards.last_entry(board), "files": files, "content": content_of(files), "words": self.words}

    def keep(self, mark, boards, board):
        """Keeps how both sides were before a run that left nothing to do, unless the board changed since."""
        last, entry = newest(boards, board, mark["number"])
        if last == mark["number"]:
            replace_file(self.path, json.dumps({**mark, "entry": entry, "state": state_of(self.state_path)}).encode())

    def forget(self):
        """Keeps nothing: the next run reads both sides."""
        with contextlib.suppress(FileNotFoundError):
            os.unlink(self.path)


def newest(boards, board, number):
    """The number of the board's last entry, and what stands at a number if that is the last."""
    shown = boards.history(board, number or 1)
    entries = [json.dumps(entry, sort_keys=True) for entry in shown["entries"]]
    return shown["last"], hashlib.sha256(entries[0].encode()).hexdigest() if len(entries) == 1 else str(len(entries))


def content_of(paths):
    """What tells whether any of the files changed."""
    sums = []
    for path in paths:
        try:
            with open(path, "rb") as file:
                sums.append(hashlib.sha256(file.read()).hexdigest())
        except OSError as fault:
            sums.append(str(fault.errno))
    return " ".join(sums)


def state_of(path):
    """What tells the state's file from each that replaces it."""
    try:
        about = os.stat(path)
    except OSError:
        return []
    return [about.st_size, about.st_mtime_ns, about.st_ino]


def circumstances():
    """What the days and the settings of the machine depend on."""
    zone = os.path.realpath("/etc/localtime")
    return [zone, *(f"{name}={os.environ.get(name, '')}" for name in ("TZ", "HOME", "TASKRC", "TASKDATA"))]

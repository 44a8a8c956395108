"""Files that are there whole or not at all, and what a bridge keeps between two runs."""
import contextlib
import fcntl
import json
import os
import re
import subprocess
import tempfile
import uuid

from taskboard_bridges.fault import Fault
from taskboard_bridges.forms import Either, Values, fits

VERSION = 1
UUID = re.compile(r"[0-9a-f]{8}(-[0-9a-f]{4}){3}-[0-9a-f]{12}")
VIEW = Either(Values(Either(str, int, float, bool)), None)
CALL = {"id": str, "target": str, "body": str, "keys": [str]}
# What is kept, and its form.
KEPT = {
    "replica": str,
    "tasks": Values({"turn": int, "left": VIEW, "right": VIEW, "refused": Values(str)}),
    "pending": Either(Values(Either({"calls": [CALL], "new": [VIEW]}, {"calls": [CALL], "left": [str], "right": [str], "pairs": Values([object])})), None),
    "owed": [{"id": str, "task": str, "key": str, "left_wins": bool, "note": str, "left": object, "right": object}],
    "reopened": Values({"id": str, "status": str}),
    "told": [str],
    "more": dict,
}
# What a state has of the board and of the other side.
ABOUT = {"about": {"address": str, "board": int}, "more": {"place": str}}


def replace_file(path, data, mode=None):
    """Puts bytes in a file's place at once: whoever opens it finds the old ones or the new ones, after a crash too.

    The file keeps its mode where it is there, and is its owner's alone where it isn't and no mode is given."""
    new = write_beside(path, data)
    try:
        os.chmod(new, mode or (os.stat(path).st_mode & 0o7777 if os.path.exists(path) else 0o600))
        os.rename(new, path)
    except BaseException:
        with contextlib.suppress(OSError):
            os.unlink(new)
        raise
    sync_folder(os.path.dirname(os.path.abspath(path)))


def write_beside(path, data):
    """A new file beside a path, with these bytes, which are on the disk."""
    handle, new = tempfile.mkstemp(prefix=beside(path), dir=os.path.dirname(os.path.abspath(path)))
    with open(handle, "wb") as file:
        file.write(data)
        file.flush()
        os.fsync(file.fileno())
    return new


def beside(path):
    """How the names of files begin that are written beside a path, before they go into its place."""
    return f".{os.path.basename(path)}.taskboard-"


def clear_up(path):
    """Removes what a run left beside a path that was killed while it wrote."""
    folder = os.path.dirname(os.path.abspath(path))
    for name in os.listdir(folder):
        if name.startswith(beside(path)):
            os.unlink(os.path.join(folder, name))


def sync_folder(folder):
    """Brings the names of a folder to the disk."""
    handle = os.open(folder, os.O_RDONLY)
    try:
        os.fsync(handle)
    finally:
        os.close(handle)


def state_folder():
    """Where programs keep what they know between two runs, by the desktop's rules."""
    return os.path.join(os.environ.get("XDG_STATE_HOME") or os.path.expanduser("~/.local/state"), "taskboard")


def state_path(kind, address, board, more=""):
    """The file that a bridge keeps for a board, where the user names none."""
    return os.path.join(state_folder(), re.sub(r"[^\w.-]+", "-", f"{kind}-{address}-{board}{more}") + ".json")


def read_json(path):
    """What a file of JSON says."""
    try:
        with open(path, encoding="utf-8") as file:
            return json.load(file)
    except (OSError, ValueError, RecursionError) as fault:
        raise Fault(f"{path} can't be read: {fault}") from None


class Lock:
    """Lets one run at a time have a state: it holds a lock on a file beside it.

    Programs that a run starts get the lock too, so that a run that is killed keeps the next one waiting until they have ended."""

    def __init__(self, path):
        os.makedirs(os.path.dirname(os.path.abspath(path)), mode=0o700, exist_ok=True)
        self.file = open(path + ".lock", "a")
        os.set_inheritable(self.file.fileno(), True)
        fcntl.flock(self.file, fcntl.LOCK_EX)
        clear_up(path)

    def number(self):
        """The descriptor of the lock."""
        return self.file.fileno()


class Marks:
    """Which tasks were written on the other side, also where the run was killed meanwhile: the shell that starts the writing command
    notes them in a file beside the state once it succeeded, and isn't killed with the run."""

    def __init__(self, path, lock):
        self.writing, self.written, self.lock = path + ".writing", path + ".written", lock

    def run(self, tasks, words, text=None):
        """Runs a command that writes these tasks, and what came of it."""
        replace_file(self.writing, "".join(f"{task}\n" for task in tasks).encode())
        script = 'writing=$1 written=$2; shift 2; "$@" && cat "$writing" >>"$written"'
        return subprocess.run(["sh", "-c", script, "sh", self.writing, self.written, *words], input=text, stdout=subprocess.PIPE, stderr=subprocess.PIPE,
                              pass_fds=(self.lock.number(),), start_new_session=True)

    def tasks(self):
        """The tasks that were written since the files were removed."""
        with contextlib.suppress(FileNotFoundError), open(self.written, encoding="ascii") as file:
            return set(file.read().split())
        return set()

    def clear(self):
        """Removes both files, once the state has what they say."""
        for path in (self.writing, self.written):
            with contextlib.suppress(FileNotFoundError):
                os.unlink(path)


class State:
    """What both sides had after the last run; it stands in one JSON file, which `save` replaces at once.

    `tasks` has for each uuid its `turn`, which rises with each change of what is kept of it, what the two sides had (`left`, `right`),
    and the calls that were refused. `told` is what was said once. The rest is kept before anything is done, for the run after one that
    was stopped, and is empty else: `pending` what the run does, `owed` the notes of conflicts that it decided, `reopened` the tasks that
    it opens to change them."""

    def __init__(self, path, address, board):
        self.path = path
        self.replica, self.tasks, self.owed, self.reopened, self.told = str(uuid.uuid4()), {}, [], {}, []
        self.pending, self.more, self.saved = None, {}, None
        self.about = {"address": address, "board": board}
        self.is_new = not os.path.exists(path)
        if not self.is_new:
            self.load()

    def load(self):
        """Takes what the file keeps."""
        kept = read_json(self.path)
        if not fits(kept, {"version": int, "about": {"address": str, "board": int}, **KEPT}) or kept["version"] != VERSION or not UUID.fullmatch(kept["replica"]):
            raise Fault(f"{self.path} is of another version of this program, or no state at all: name another by --state")
        if kept["about"] != self.about:
            raise Fault(f"{self.path} belongs to board {kept['about']['board']} at {kept['about']['address']}: name another by --state")
        for name in KEPT:
            setattr(self, name, kept[name])
        self.saved = self.data()

    def others(self, place):
        """What each other state is about that is of the same place on the other side, beside this one or where states are kept."""
        for folder in {os.path.dirname(os.path.abspath(self.path)), state_folder()}:
            for name in sorted(os.listdir(folder)) if os.path.isdir(folder) else ():
                path = os.path.join(folder, name)
                with contextlib.suppress(Fault):
                    kept = read_json(path) if name.endswith(".json") and path != os.path.abspath(self.path) else None
                    if fits(kept, ABOUT) and kept["more"]["place"] == place and kept["about"] != self.about:
                        yield kept["about"]

    def data(self):
        """The bytes of the file."""
        kept = {"version": VERSION, "about": self.about, **{name: getattr(self, name) for name in KEPT}}
        return json.dumps(kept, ensure_ascii=False, sort_keys=True, indent=0).encode("utf-8", "surrogatepass")

    def save(self):
        """Replaces the file where it would change."""
        data = self.data()
        if data != self.saved:
            replace_file(self.path, data)
        self.saved, self.is_new = data, False

    def entry(self, task):
        """What is kept of a task; an empty entry is made where there is none."""
        return self.tasks.setdefault(task, {"turn": 0, "left": None, "right": None, "refused": {}})

    def tell_once(self, text):
        """Whether this wasn't said before."""
        if text in self.told:
            return False
        self.told.append(text)
        return True

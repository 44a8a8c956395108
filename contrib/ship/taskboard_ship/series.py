"""The series of a file of boards in a folder: each is the whole file as it once was, and what was committed since, in records.

NAME-MOMENT.series is whole from MOMENT on, NAME.coming isn't whole yet. NAME.alive says until when the newest one lacks nothing, and how
many of its bytes were synced by then."""
import json
import os
import pathlib
import re
import time

from . import records

# The sign of life is written over in its place, so it has one length.
LINE = 511
FORM = r"-(\d{8}T\d{6}\.\d{3}Z)\.series"


class Commit:
    """The newest commit of a series up to a moment: what it tells, and where it ends in the file."""

    def __init__(self, what, end):
        self.what, self.end, self.moment = what, end, what["moment"]


def records_of(file):
    """The records of a series with the place at which each ends, up to the first that is torn or damaged."""
    end, need = 0, records.HEAD.size + records.DIGEST
    while len(head := file.read(need)) == need:
        length = records.HEAD.unpack_from(head)[2]
        if length > records.LONGEST:
            return
        try:
            found = records.next_record(head + file.read(length))
        except records.Damaged:
            return
        if found is None:
            return
        end += found[3]
        yield found[0], found[2], end


def last_commit(path, until=None):
    """The last commit by a moment, or None, and how many bytes of the series are whole records."""
    last, whole = None, 0
    with open(path, "rb") as file:
        for kind, content, end in records_of(file):
            whole = end
            if kind == records.COMMIT:
                commit = Commit(json.loads(content), end)
                if until is None or records.seconds_of(commit.moment) <= until:
                    last = commit
    return last, whole


def moment_in(path):
    return re.search(FORM, path.name)[1]


def all_of(folder, name):
    """The series of a name, the oldest first."""
    return sorted(path for path in pathlib.Path(folder).iterdir() if re.fullmatch(re.escape(name) + FORM, path.name))


def names_in(folder):
    found = (re.fullmatch("(.+)" + FORM, path.name) for path in pathlib.Path(folder).iterdir())
    return sorted({each[1] for each in found if each})


def sign_of_life(folder, name):
    """What NAME.alive tells, or nothing where it isn't there."""
    try:
        return json.loads((pathlib.Path(folder) / f"{name}.alive").read_text())
    except (OSError, ValueError):
        return {}


def is_cut(folder, name, path, whole):
    """Whether a series has lost records that were synced, by the sign of life."""
    alive = sign_of_life(folder, name)
    return alive.get("series") == path.name and whole < alive.get("size", 0)


def damage_of(folder, name, path):
    """What is wrong with a series, or None. After a crash the newest one may end in a part of a record, which was never promised."""
    size = path.stat().st_size
    commit, whole = last_commit(path)
    is_newest = path == all_of(folder, name)[-1]
    if commit is None or is_cut(folder, name, path, whole) or whole < size and not (is_newest and is_torn(path, whole)):
        return f"{path} from byte {whole} on, of {size}"
    return None


def is_torn(path, whole):
    """Whether what is after the whole records is the begin of one, which lacks its end."""
    with open(path, "rb") as file:
        file.seek(whole)
        rest = file.read(records.LONGEST + records.HEAD.size + records.DIGEST)
    try:
        return records.next_record(rest) is None
    except records.Damaged:
        return False


def write_pages(path, target, end):
    """Writes the pages of a series into a file, up to a commit, and sets its length."""
    with open(path, "rb") as file:
        for kind, content, at in records_of(file):
            if at > end:
                break
            if kind == records.PAGES:
                for number, page in records.pages_in(content).items():
                    os.pwrite(target, page, (number - 1) * len(page))
            elif at == end:
                what = json.loads(content)
                os.ftruncate(target, what["size"] * what["page_size"])
    os.fsync(target)


class Store:
    """The folder as a receiver writes it."""

    def __init__(self, folder, name):
        self.folder, self.name = pathlib.Path(folder), name
        self.current = self.coming = self.path = self.alive = None
        self.end = 0

    def open(self):
        """Goes on with the newest series, where it is whole; what it has, for the sender."""
        self.coming_path().unlink(missing_ok=True)
        paths = all_of(self.folder, self.name)
        if not paths:
            return {}
        path = paths[-1]
        commit, whole = last_commit(path)
        if commit is None or is_cut(self.folder, self.name, path, whole):
            return {"fault": f"{path.name} is damaged behind byte {whole}", "newest": moment_in(path)}
        self.path, self.end = path, commit.end
        self.current = os.open(path, os.O_RDWR | os.O_APPEND)
        os.ftruncate(self.current, commit.end)
        os.fsync(self.current)
        return {**commit.what, "since": moment_in(path), "bytes": commit.end, "newest": max(commit.moment, moment_in(path))}

    def coming_path(self):
        return self.folder / f"{self.name}.coming"

    def begin(self):
        """A new series comes, and an earlier one that was coming doesn't."""
        if self.coming is not None:
            os.close(self.coming)
        self.coming = os.open(self.coming_path(), os.O_RDWR | os.O_APPEND | os.O_CREAT | os.O_TRUNC, 0o600)

    def append(self, where, raw):
        if where in (records.CURRENT, records.BOTH) and self.current is not None:
            write_all(self.current, raw)
        if where in (records.COMING, records.BOTH) and self.coming is not None:
            write_all(self.coming, raw)

    def commit(self, where, raw, what):
        """Syncs what was appended, with this commit behind it; a series that was coming is whole from then on."""
        self.append(where, raw)
        if where == records.CURRENT:
            os.fdatasync(self.current)
            self.end = os.fstat(self.current).st_size
        elif where == records.COMING:
            self.begin_current(what)
        self.live(what["looked"])

    def begin_current(self, what):
        path = self.folder / f"{self.name}-{what['moment']}.series"
        if not re.fullmatch(re.escape(self.name) + FORM, path.name):
            raise records.Damaged("a commit's moment")
        os.fsync(self.coming)
        os.rename(self.coming_path(), path)
        sync_folder(self.folder)
        if self.current is not None:
            os.close(self.current)
        self.current, self.coming, self.path = self.coming, None, path
        self.end = os.fstat(self.current).st_size

    def live(self, moment):
        """Nothing that was committed by this moment is missing."""
        if self.path is None:
            return
        if self.alive is None:
            self.alive = os.open(self.folder / f"{self.name}.alive", os.O_RDWR | os.O_CREAT, 0o600)
        line = json.dumps({"whole": moment, "series": self.path.name, "size": self.end})
        os.pwrite(self.alive, line.ljust(LINE).encode() + b"\n", 0)

    def step_back(self):
        """Takes away what no commit has, as far as the disk lets it."""
        try:
            if self.current is not None:
                os.ftruncate(self.current, self.end)
            self.coming_path().unlink(missing_ok=True)
        except OSError:
            pass

    def thin(self, keep, now):
        """Removes the series that no moment within these seconds before now needs: one that was followed by another by then."""
        oldest = records.moment_of(min(now, time.time()) - keep)
        paths = all_of(self.folder, self.name)
        for path, newer in zip(paths, paths[1:]):
            if moment_in(newer) <= oldest:
                path.unlink(missing_ok=True)


def write_all(file, raw):
    view = memoryview(raw)
    while view:
        view = view[os.write(file, view) :]


def sync_folder(folder):
    file = os.open(folder, os.O_RDONLY | os.O_DIRECTORY)
    try:
        os.fsync(file)
    finally:
        os.close(file)

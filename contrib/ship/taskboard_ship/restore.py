"""Puts a file of boards together from its series, and says what is in a folder."""
import os
import pathlib
import shutil
import subprocess
import tempfile
import time

from . import records, series


class Refused(Exception):
    """What isn't done, and why."""


def name_for(folder, file):
    """The name whose series are meant: the file's, or the only one that is there."""
    names = series.names_in(folder)
    wanted = name_of(file)
    if wanted in names:
        return wanted
    if len(names) == 1:
        return names[0]
    raise Refused(f"{folder} has no series" if not names else f"{folder} has series of {', '.join(names)}: call the file so, as {names[0]}.db")


def name_of(file):
    return pathlib.Path(file).name.removesuffix(".db")


def choose(folder, name, at):
    """The series and the commit in it to go back to: the newest, or the newest by a moment."""
    paths = series.all_of(folder, name)
    until = None if at is None else records.seconds_of(at)
    fitting = [path for path in paths if until is None or records.seconds_of(series.moment_in(path)) <= until]
    if not fitting:
        raise Refused(f"what {folder} has of {name} begins at {series.moment_in(paths[0])}")
    path = fitting[-1]
    commit, whole = series.last_commit(path, until)
    if commit is None or until is None and series.is_cut(folder, name, path, whole):
        before = commit.moment if commit else series.moment_in(path)
        raise Refused(f"{path} is damaged behind byte {whole}, and has lost what was shipped since {before}: --at with an earlier moment restores what was before")
    return path, commit


def put_together(path, commit, file):
    """Writes the file beside its place, has the program check it, and moves it there; what the check says."""
    program = os.environ.get("TASKBOARD", "taskboard")
    folder = tempfile.mkdtemp(prefix=f".{name_of(file)}.", dir=os.path.dirname(os.path.abspath(file)))
    try:
        new = os.path.join(folder, "restored.db")
        target = os.open(new, os.O_RDWR | os.O_CREAT | os.O_EXCL, 0o600)
        series.write_pages(path, target, commit.end)
        os.close(target)
        try:
            checked = subprocess.run([program, "check", new], capture_output=True, text=True, check=False)
        except OSError as error:
            raise Refused(f"the program {program} can't be run, name it by TASKBOARD: {error.strerror}") from None
        if checked.returncode:
            raise Refused(f"it didn't pass the check: {checked.stdout.strip()} {checked.stderr.strip()}")
        target = os.open(new, os.O_RDONLY)
        os.fsync(target)
        os.close(target)
        os.link(new, file)
        series.sync_folder(os.path.dirname(os.path.abspath(file)))
        return checked.stdout.strip()
    finally:
        shutil.rmtree(folder, ignore_errors=True)


def restore(folder, file, at):
    """Restores, and prints what is there now and what isn't."""
    for path in (file, file + "-wal"):
        if os.path.lexists(path):
            raise Refused(f"{path} is there: put {file} and {file}-wal aside, together")
    os.umask(0o077)
    name = name_for(folder, file)
    path, commit = choose(folder, name, at)
    checked = put_together(path, commit, file)
    print(f"{file} {checked}")
    print(f"the state that was shipped at {commit.moment}")
    if at is None:
        whole = max(commit.what["looked"], series.sign_of_life(folder, name).get("whole", ""))
        print(f"nothing that was answered by {whole} is missing")


def show(folder, late):
    """Prints a line for each name, and one for each series that is damaged; whether none is, or further behind than so many seconds."""
    behind, damaged = [], []
    for name in names_of(folder):
        paths = series.all_of(folder, name)
        whole = series.sign_of_life(folder, name).get("whole", series.moment_in(paths[-1]))
        behind.append(time.time() - records.seconds_of(whole))
        size = sum(path.stat().st_size for path in paths)
        print(f"{name}: nothing missing until {whole}, {behind[-1]:.0f} s ago; back to {series.moment_in(paths[0])}; {len(paths)} series, {size / 1e6:.1f} MB")
        damaged += [why for path in paths if (why := series.damage_of(folder, name, path))]
    for why in damaged:
        print(f"DAMAGED: {why}")
    return max(behind) <= late and not damaged


def names_of(folder):
    names = series.names_in(folder)
    if not names:
        raise Refused(f"{folder} has no series")
    return names


def verify(folder):
    """Restores the newest state of each name into a folder that is gone afterwards; whether each passes the check."""
    is_good = True
    with tempfile.TemporaryDirectory(prefix="taskboard-verify.") as room:
        for name in names_of(folder):
            file = os.path.join(room, f"{name}.db")
            try:
                print(f"{name}: restored, {put_together(*choose(folder, name, None), file)}")
                os.remove(file)
            except (Refused, OSError) as fault:
                print(f"{name}: NOT RESTORED: {fault}")
                is_good = False
    return is_good

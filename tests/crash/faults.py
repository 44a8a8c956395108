"""Has the machine fail the program in one way after the other: python3 faults.py PROGRAM PORT TRIES KIND.., in a folder that it may write to.

Each kind prints a line: how often it was tried, how often the program ended by itself, how many calls were answered, and how often something was wrong."""
import contextlib
import os
import random
import shutil
import subprocess
import sys
import time

from drawing import seeded
from failing import CALLS, TASKS, Judge, Wrong, expect
from talking import make_file
from tracing import counted, injected, without_memory

PROGRAM, PORT, TRIES, KINDS = os.path.abspath(sys.argv[1]), int(sys.argv[2]), int(sys.argv[3]), sys.argv[4:]
IMPORT = next(at for at, (target, _) in enumerate(CALLS) if target == "/boards/1/import")
# Which system calls fail, and how: those of the file once or from there on, those of the sockets once, and then all calls are answered.
FILES = {
    "openat": "EIO EMFILE EINTR",
    "pread64": "EIO EINTR",
    "pwrite64": "EIO ENOSPC EINTR",
    "fsync": "EIO",
    "fdatasync": "EIO ENOSPC EINTR",
    "ftruncate": "EIO ENOSPC EINTR",
    "write": "EIO ENOSPC EINTR",
    "read": "EIO EINTR",
}
SOCKETS = {"accept4": "ECONNABORTED EMFILE EINTR", "recvfrom": "ECONNRESET ENOBUFS EINTR", "sendto": "EPIPE ENOBUFS EINTR", "epoll_wait": "EINTR"}
MEMORY = ("brk", "mmap")
# How often the loader asks for memory before the program does.
LOADED = 10
STOPPED = ("openat", "pread64", "pwrite64", "fsync", "fdatasync", "ftruncate", "recvfrom", "sendto")
wrong = []


def tally(what, trials):
    """Tries each trial, a name and what it does, which gives whether the program ended by itself; prints a line."""
    ended, before, count = 0, len(wrong), 0
    judge.failing.clear()
    for name, trial in trials:
        count += 1
        try:
            make_file(PROGRAM)
            ended += trial()
        except (Wrong, OSError, subprocess.SubprocessError, StopIteration) as fault:
            wrong.append(f"{what}, {name}: {type(fault).__name__} {fault}")
    print(f"{what}: {count} tries, {ended} ended the program, {sum(judge.failing)} calls answered, {len(wrong) - before} wrong", flush=True)


def session(*befores, seconds=None, all_answered=False, signals=True):
    """Sessions in a row, each on a machine that fails in its way; then the file is judged. Where no signal may end one, none does."""

    def trial():
        answered, any_ended = 0, False
        for before in befores:
            answered, ended = judge.run(before, answered, seconds)
            any_ended = any_ended or ended
            if judge.signal and not signals:
                raise Wrong(f"it was ended by the signal {judge.signal}")
        if all_answered and answered < len(CALLS):
            raise Wrong(f"{answered} calls were answered")
        judge.judge(answered)
        return any_ended

    return trial


def making(before):
    """The making of a file fails: then it can be made, or stands whole."""

    def trial():
        for name in ("b.db", "b.db-wal"):
            with contextlib.suppress(FileNotFoundError):
                os.remove(name)
        made = subprocess.run([*before, PROGRAM, "init", "b.db", "ann", "ann-key-1"], capture_output=True, timeout=60)
        again = subprocess.run([PROGRAM, "init", "b.db", "ann", "ann-key-1"], capture_output=True, text=True, timeout=60)
        if (again.returncode, again.stderr.partition("\n")[0]) not in ((0, ""), (1, "taskboard: NotEmpty")) or made.returncode == again.returncode == 0:
            raise Wrong(f"made by {made}, and again by {again}")
        judge.judge(0)
        return made.returncode != 0

    return trial


def importing(before):
    """The order that imports makes the ninth call of the session, behind the others before it."""

    def trial():
        for name in ("b.db", "b.db-wal"):
            shutil.copy("of-eight-calls." + name, name)
        words = [*before, PROGRAM, "import", "b.db", "ann", "ann-key-1", f"00000000-0000-4000-8000-{IMPORT:012d}", "1", "json"]
        done = subprocess.run(words, input=TASKS.encode(), capture_output=True, timeout=60)
        if done.returncode == 0 and done.stdout.rstrip() != judge.answers[IMPORT][1]:
            raise Wrong(f"imported by {done}")
        judge.judge(IMPORT + (done.returncode == 0))
        return done.returncode != 0

    return trial


def before_an_import():
    """Keeps the file of a session up to its import, as a server that was killed left it."""
    make_file(PROGRAM)
    with judge.start() as killed:
        for number in range(IMPORT):
            killed.call(number)
    for name in ("b.db", "b.db-wal"):
        shutil.copy(name, "of-eight-calls." + name)


def some(count, most=TRIES):
    """Some of the numbers up to this one, or all."""
    return sorted(random.sample(range(1, count + 1), min(count, most)))


def calls_fail():
    """One system call fails, or all from one on, in a session, in the making of a file and in an import by the order."""
    before_an_import()
    orders = [(kind, order, counted(lambda before: order(before)())) for kind, order in (("a making", making), ("an import", importing))]
    make_file(PROGRAM)
    in_session = counted(judge.run)
    for call, errors in (FILES | SOCKETS).items():
        trials = []
        for error in errors.split():
            for count in some(in_session[call]):
                # (a call that is interrupted may be made again without end)
                onward = call in FILES and error != "EINTR" and random.random() < 0.5
                failing = injected((call,), f"error={error}", count, onward)
                trials.append((f"{error} at {count}{'+' if onward else ''}", session(failing, all_answered=call in SOCKETS)))
            for kind, order, counts in orders:
                numbers = some(counts[call], max(TRIES // 2, 1))
                trials += [(f"{error} at {count} of {kind}", order(injected((call,), f"error={error}", count))) for count in numbers]
        tally(f"{call} fails with {errors.replace(' ', ' or ')}", trials)
    asked = max(in_session[call] for call in MEMORY)
    # (what the loader is refused ends it before the program begins)
    numbers = [count + LOADED for count in some(asked - LOADED, 3 * TRIES)]
    tally("no memory from one asking on", [(f"at {count}", session(without_memory(count), signals=False)) for count in numbers])


def memory_bounded():
    """About as much as it takes between its opening and its end."""
    sizes = [random.randint(judge.least * 9 // 10, judge.most) for _ in range(3 * TRIES)]
    tally("memory bounded", [(f"{size} KiB", session(("sh", "-c", f'ulimit -v {size} && exec "$@"', "sh"))) for size in sizes])


def files_bounded():
    """A file may grow to some size alone."""
    largest = max(os.path.getsize(name) for name in ("b.db", "b.db-wal"))
    sizes = [random.randint(0, largest // 512) for _ in range(2 * TRIES)]
    tally("size of files bounded", [(f"{size} blocks", session(("sh", "-c", f"trap '' XFSZ; ulimit -f {size} && exec \"$@\"", "sh"))) for size in sizes])


def disk_full():
    """A small disk of its own, on which little is left."""
    os.mkdir("disk")
    if subprocess.run(["mount", "-t", "tmpfs", "-o", "size=8m", "tmpfs", "disk"], capture_output=True).returncode:
        print("a full disk: skipped, since no disk can be mounted here")
        return

    def trial(left):
        def on_what_is_left():
            free = shutil.disk_usage(".").free
            with open("ballast", "wb") as ballast:
                ballast.write(bytes(max(free - left, 0)))
            answered, ended = judge.run(())
            os.remove("ballast")
            judge.judge(answered)
            return ended

        return on_what_is_left

    try:
        os.chdir("disk")
        tally("a full disk", [(f"{left} pages left", trial(4096 * left)) for left in (random.randint(0, 300) for _ in range(2 * TRIES))])
    finally:
        os.chdir("..")
        subprocess.run(["umount", "disk"], check=True)


def stops():
    """Killed at a system call, and again in the session that follows."""
    make_file(PROGRAM)
    counts = counted(judge.run)
    at_calls = [injected((call,), "signal=SIGKILL", count) for call in STOPPED for count in some(counts[call], TRIES)]
    tally("killed at a system call", [(" ".join(before[-1:]), session(before)) for before in at_calls])
    again = [(random.choice(at_calls), random.choice(at_calls)) for _ in range(2 * TRIES)]
    tally("killed at a system call, and once more", [(f"{first[-1]}, {second[-1]}", session(first, second)) for first, second in again])


def whole_session(after=lambda it: None, **how):
    """A session in which each call is answered, and what is done after it; then the file is judged."""

    def trial():
        with judge.start(**how) as it:
            answers = it.calls_from(0)
            after(it)
            ended = not it.runs()
        expect("the answers", judge.answers, answers)
        judge.failing.append(len(answers))
        judge.judge(len(answers))
        return ended

    return trial


def at_the_end(seconds):
    """Killed that long after its last connection is over, when it ends by itself."""

    def leave(it):
        it.caller.disconnect()
        time.sleep(seconds)

    return whole_session(leave, words=("--connections", "1"))


def kills():
    """Killed at any moment of its start, of its serving, and of its end."""
    make_file(PROGRAM)
    begun = time.monotonic()
    with judge.start() as it:
        it.is_connected()
        start = time.monotonic() - begun
        it.calls_from(0)
        whole = time.monotonic() - begun
    for what, first, last, trial in (("start", 0, start, None), ("serving", start, whole, None), ("end", 0, 0.02, at_the_end)):
        moments = [random.uniform(first, last) for _ in range(TRIES)]
        tally(f"killed at any moment of its {what}", [(f"after {at:.4f} s", trial(at) if trial else session((), seconds=at)) for at in moments])


def streams_closed():
    """Standard streams are closed, and no connection gets their descriptors: else the log would go to a client."""

    def trial(closed):
        return whole_session(before=("sh", "-c", f'exec "$@" {closed}', "sh"), words=("--forever", "--log"))

    tally("standard streams closed", [(closed, trial(closed)) for closed in ("2>&-", "<&- 2>&-", "<&- >&- 2>&-")])


TRIED = {"calls": calls_fail, "stops": stops, "kills": kills, "memory": memory_bounded, "size": files_bounded, "disk": disk_full, "streams": streams_closed}
begun = time.monotonic()
seeded()
judge = Judge(PROGRAM, PORT)
for kind in KINDS:
    TRIED[kind]()
for told in wrong[:20]:
    print(f"wrong: {told[:1000]}")
print(f"sessions of {len(CALLS)} calls, in {time.monotonic() - begun:.0f} s")
sys.exit(1 if wrong else 0)

"""Loses power in a session: python3 power.py PROGRAM PORT TRIES, in a folder that it may write to.

The writes of a session, or of the making of a file, are taken down by strace. Each try breaks off at one of its system calls. Of what wasn't synced by then, each
512 bytes of a file hold what some first of the writes made of them, and its length is what some first of them made of it. Then the file is judged."""
import os
import random
import re
import subprocess
import sys

from drawing import seeded
from failing import CALLS, Judge, Wrong
from talking import make_file
from tracing import taken_down

PROGRAM, PORT, TRIES = os.path.abspath(sys.argv[1]), int(sys.argv[2]), int(sys.argv[3])
FILES = ("b.db", "b.db-wal")
SECTOR = 512
WHOLE = ("-xx", "-s", "10000000", "--trace=openat,pwrite64,ftruncate,fdatasync,fsync,sendto,close")
LINE = re.compile(r'\d+ +(\w+)\((.*)\) += (\d+)')


def unhex(text):
    return bytes.fromhex(text.replace("\\x", ""))


def steps_of(lines):
    """What a process did to the files and told by its socket, in order: (what, file, bytes or length, offset)."""
    steps, files = [], {}
    for line in lines:
        found = LINE.match(line)
        if not found:
            continue
        call, arguments, result = found[1], found[2], int(found[3])
        quoted = re.search(r'"([^"]*)"', arguments)
        descriptor = arguments.split(",")[0]
        if call == "openat":
            files[str(result)] = os.path.basename(unhex(quoted[1]).decode())
        elif call == "close":
            files.pop(descriptor, None)
        elif call == "sendto":
            steps.append(("told", None, None, None))
        elif files.get(descriptor) in FILES:
            name, last = files[descriptor], int(re.search(r"(\d+)\)?$", arguments)[1])
            if call == "pwrite64":
                steps.append(("write", name, unhex(quoted[1])[:result], last))
            elif call == "ftruncate":
                steps.append(("length", name, last, None))
            else:
                steps.append(("sync", name, None, None))
    return steps


def after(content, step):
    """A file's content after a step of it."""
    what, _, value, offset = step
    if what == "length":
        return content[:value].ljust(value, b"\0")
    return content[:offset].ljust(offset, b"\0") + value + content[offset + len(value) :]


def left_of(content, pending):
    """What may be left of a file's content and of the steps behind its last sync."""
    contents = [content]
    for step in pending:
        contents.append(after(contents[-1], step))
    length = len(random.choice(contents))
    longest = max(map(len, contents))
    padded = [one.ljust(longest, b"\0") for one in contents]
    sectors = (random.choice(padded)[at : at + SECTOR] for at in range(0, longest, SECTOR))
    return b"".join(sectors)[:length].ljust(length, b"\0")


def break_off(started, steps, at):
    """Writes the files as a loss of power at this step may leave them; gives how many answers were told by then."""
    told = 0
    stands, pending = dict(started), {name: [] for name in FILES}
    for what, name, *rest in steps[:at]:
        if what == "told":
            told += 1
        elif what == "sync":
            for step in pending.pop(name):
                stands[name] = after(stands[name], step)
            pending[name] = []
        else:
            pending[name].append((what, name, *rest))
    for name in FILES:
        with open(name, "wb") as file:
            file.write(left_of(stands[name], pending[name]))
    return told


def contents():
    found = {}
    for name in FILES:
        with open(name, "rb") as file:
            found[name] = file.read()
    return found


def made_again():
    """After a loss of power in the making a file can be made, or stands whole."""
    again = subprocess.run([PROGRAM, "init", "b.db", "ann", "ann-key-1"], capture_output=True, text=True, timeout=60)
    if (again.returncode, again.stderr.partition("\n")[0]) not in ((0, ""), (1, "taskboard: NotEmpty")):
        raise Wrong(f"made again by {again}")


def tally(what, started, steps, first=0, before_judging=lambda: None):
    """Loses power in these steps, behind so many calls that were answered; prints a line, and gives what was wrong."""
    wrong, answered = [], 0
    # A loss where nothing waits to be synced is a kill; most tries have something that waits.
    waits = [at for at in range(1, len(steps) + 1) if steps[at - 1][0] in ("write", "length")]
    for number in range(TRIES):
        at = random.choice(waits) if number % 4 else random.randint(0, len(steps))
        try:
            told = break_off(started, steps, at)
            answered += told
            before_judging()
            judge.judge(first + told)
        except (Wrong, subprocess.SubprocessError) as fault:
            wrong.append(f"{what}, at step {at} of {len(steps)}: {fault}")
    print(f"{what}: {TRIES} tries at {len(steps)} steps, {answered} calls answered, {len(wrong)} wrong", flush=True)
    return wrong


def in_a_session():
    make_file(PROGRAM)
    return tally(f"power lost in a session of {len(CALLS)} calls", contents(), steps_of(taken_down(judge.run, WHOLE)))


def behind_a_kill():
    """In the opening of a file whose log has calls, and what follows."""
    make_file(PROGRAM)
    first = len(CALLS) - 4
    with judge.start() as killed:
        for number in range(first):
            killed.call(number)
    return tally("power lost behind a kill", contents(), steps_of(taken_down(lambda before: judge.run(before, first), WHOLE)), first)


def in_the_making():
    for name in FILES:
        os.remove(name)
    words = [PROGRAM, "init", "b.db", "ann", "ann-key-1"]
    lines = taken_down(lambda before: subprocess.run([*before, *words], check=True), WHOLE)
    return tally("power lost in the making of a file", dict.fromkeys(FILES, b""), steps_of(lines), before_judging=made_again)


seeded()
judge = Judge(PROGRAM, PORT)
wrong = [*in_a_session(), *behind_a_kill(), *in_the_making()]
for told in wrong[:20]:
    print(f"wrong: {told[:1000]}")
sys.exit(bool(wrong))

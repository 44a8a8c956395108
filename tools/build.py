#!/usr/bin/env python3
"""Builds the program, proving every crate below it, in a copy that has the program's crates alone, without their must-fail edits.

The copy is a temporary folder (where TMPDIR says), since `rt ci` takes a whole repository.

The program stays in `out/taskboard`, beside it the SHA-256 over the sources that it was built of. Two at once: the second waits, and
builds only what isn't built then (with `--anew` in any case). What was interrupted starts again from nothing."""
import fcntl
import os
import re
import shutil
import subprocess
import sys
import tempfile
import time

import proving

TOP = os.path.dirname(os.path.dirname(os.path.abspath(__file__)))
PROGRAM = f"{TOP}/out/taskboard"


def sources():
    return subprocess.run([f"{TOP}/taskboard", "--sources"], check=True, capture_output=True, text=True).stdout.strip()


def is_built(wanted):
    try:
        with open(f"{PROGRAM}.sources") as it:
            return it.read().strip() == wanted and os.access(PROGRAM, os.X_OK)
    except OSError:
        return False


def copy_crates(room, names, left_out=("out", "must-fail")):
    """Copies these crates without what they made and, as a rule, their must-fail edits, and a crates.txt of these alone. An empty `.git` says that this is the top
    of a repository."""
    os.mkdir(f"{room}/.git")
    shutil.copy(f"{TOP}/HANDLES", room)
    for name in names:
        shutil.copytree(f"{TOP}/crates/{name}", f"{room}/crates/{name}", ignore=shutil.ignore_patterns(*left_out))
    with open(f"{TOP}/crates.txt") as whole, open(f"{room}/crates.txt", "w") as cut:
        cut.writelines(line for line in whole if re.split(r"[\s:]", line, maxsplit=1)[0] in names)


def put(built, wanted):
    """Puts a program that was built into its place, whole, and then says what it was built of."""
    shutil.copy(built, f"{PROGRAM}.new")
    if os.path.exists(f"{PROGRAM}.sources"):
        os.remove(f"{PROGRAM}.sources")
    os.replace(f"{PROGRAM}.new", PROGRAM)
    with open(f"{PROGRAM}.sources", "w") as it:
        it.write(wanted + "\n")


def build(wanted):
    with tempfile.TemporaryDirectory(prefix="taskboard-build-") as room:
        os.chmod(room, 0o755)
        copy_crates(room, proving.all_below("taskboard", proving.crates_of(TOP)))
        print("taskboard: building, which proves every crate below the program first", file=sys.stderr, flush=True)
        began = time.time()
        status, lines, sums = proving.prove(room, f"{TOP}/out/build.log")
        proving.write_times(f"{TOP}/out/build-times.txt", sums, began)
        if status:
            print("\n".join(proving.failures(lines)), file=sys.stderr)
            sys.exit(f"taskboard: the build failed; {TOP}/out/build.log has all that was said")
        if sources() != wanted:
            sys.exit("taskboard: a source changed while it was built; build again")
        put(f"{room}/crates/taskboard/out/taskboard", wanted)
    print("taskboard: built and proved; out/build-times.txt has the processor minutes of each crate", file=sys.stderr)


def main():
    if not shutil.which("rt"):
        sys.exit("taskboard: dist/ has no program of these sources for this machine, and without the Rattle kit (the command rt) none can be built")
    os.makedirs(f"{TOP}/out", exist_ok=True)
    with open(f"{TOP}/out/build.lock", "w") as lock:
        fcntl.flock(lock, fcntl.LOCK_EX)
        wanted = sources()
        if "--anew" in sys.argv[1:] or not is_built(wanted):
            build(wanted)


if __name__ == "__main__":
    main()

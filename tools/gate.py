#!/usr/bin/env python3
"""Proves and tests all crates by `rt ci`, from nothing, compares the program that it built with the one in `dist/`, and tries every must-fail edit.

It says first which kit it met. It proves in a copy in a temporary folder (where TMPDIR says), without the edits: `wrong_bodies.py` tries those of each crate once it
is proved, beside the proofs of the others. Where the kit at hand has other functions than that calls, the copy has the edits, and `rt ci` tries them. `out/times.txt` has the processor minutes of
each crate, the longest first; `out/gate.log` all that `rt ci` said, and `out/edits.log` what each edit came to. It says last how many crates are proved, tests passed, programs
ran and edits refused, of how many, and fails where one of them isn't named (`demands.py`)."""
import gzip
import os
import re
import subprocess
import sys
import tempfile
import time

import build
import demands
import proving
import wrong_bodies

TOP = build.TOP
LOG = f"{TOP}/out/gate.log"


def manifest():
    try:
        with open(f"{TOP}/dist/manifest") as it:
            return dict(line.rstrip("\n").split(" ", 1) for line in it)
    except OSError:
        return {}


def kit():
    return subprocess.run(["rt", "version"], check=True, capture_output=True, text=True).stdout.strip()


def is_as_shipped(wanted, program):
    """Whether the program of `dist/` is the one that was built here, byte for byte, or is of other sources. One by another kit is compared too, and may differ."""
    said = manifest()
    if said.get("sources") != wanted:
        print("dist/ is of other sources, so its program isn't compared")
        return True
    with gzip.open(f"{TOP}/dist/taskboard.gz") as shipped, open(program, "rb") as built:
        if shipped.read() == built.read():
            print("the program of dist/ is the one that was built here")
            return True
    made_by, here = said.get("kit", "no kit").split()[0], kit().split()[0]
    if made_by != here:
        print(f"the program of dist/ isn't the one that was built here: {made_by} built it, and this kit is {here}")
        return True
    print("THE PROGRAM OF dist/ IS NOT THE ONE THAT WAS BUILT HERE")
    return False


def prove(room, wanted, heard):
    """Proves the crates of the folder; each is heard once it is proved. Returns whether all is well, what the kit said, and the processor seconds that it took."""
    status, lines, sums = proving.prove(room, LOG, heard)
    for line in proving.failures(lines):
        print(line)
    is_well, program = status == 0, f"{room}/crates/taskboard/out/taskboard"
    if is_well and not os.path.exists(program):
        print("rt ci built no program")
        is_well = False
    elif os.path.exists(program):
        is_well = is_as_shipped(wanted, program) and is_well
        if is_well:
            build.put(program, wanted)
    print(lines[-1] if lines else "rt ci said nothing", flush=True)
    return is_well, lines, sums


class Edits:
    """The must-fail edits, which are tried while crates are proved in the folder."""

    def __init__(self, room):
        words = [sys.executable, wrong_bodies.__file__, TOP, room, LOG]
        reads, names = os.pipe()
        self.names = os.fdopen(names, "w", buffering=1)
        self.command = proving.Command(words, TOP, f"{TOP}/out/edits.log", lambda line: None, reads)
        os.close(reads)

    def begin(self, name):
        """Lets the edits of a crate be tried, which is proved."""
        try:
            print(name, file=self.names)
        except BrokenPipeError:
            # (what tries them has ended, and its status says why)
            pass

    def end(self):
        """Waits for all that have begun. Returns whether each is refused, what is said of them, and the processor seconds that they took."""
        self.names.close()
        status, lines, sums = self.command.end()
        for line in lines:
            if not re.fullmatch(r"must-fail \S+: refused, as it must be.*", line):
                print(line)
        return status == 0, lines, sums


def prove_and_try(room, wanted):
    """Proves the crates of the folder, and tries their edits beside. Returns whether all is well, all that was said, and the processor seconds that it took."""
    edits = Edits(room)
    try:
        is_well, lines, sums = prove(room, wanted, edits.begin)
        if not is_well:
            return False, lines, sums
        is_well, of_edits, more = edits.end()
        return is_well, lines + of_edits, sums | more
    finally:
        edits.command.stop()


def main():
    os.makedirs(f"{TOP}/out", exist_ok=True)
    wanted, began, names = build.sources(), time.time(), proving.crates_of(TOP)
    wants = demands.wanted(TOP)
    print(f"the kit is {kit()}", flush=True)
    with tempfile.TemporaryDirectory(prefix="taskboard-gate-") as room:
        os.chmod(room, 0o755)
        if wrong_bodies.fits():
            build.copy_crates(room, names)
            is_well, lines, sums = prove_and_try(room, wanted)
        else:
            build.copy_crates(room, names, left_out=("out",))
            is_well, lines, sums = prove(room, wanted, lambda name: None)
    is_whole, told = demands.compare(wants, lines)
    # (a release takes the times of its own sources, where all passed)
    heading = f"Processor minutes of each crate. sources {wanted}, kit {kit()}\n" if is_well and is_whole else "Not all passed.\n"
    proving.write_times(f"{TOP}/out/times.txt", sums, began, heading)
    with open(f"{TOP}/out/times.txt") as it:
        print(it.read(), end="")
    print("\n".join(told))
    sys.exit(0 if is_well and is_whole else 1)


if __name__ == "__main__":
    main()

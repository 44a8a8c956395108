"""Meets the tools of the test command with kits that are made up here: python3 kits.py

`fits` of `tools/wrong_bodies.py` and of `tools/plan.py` takes a kit that has the functions which it calls, and none that lacks one or has it in another form. A plan
begins each task after those that it waits for, the longest chain first, within the jobs and the memory that there are. `is_as_shipped` of `tools/gate.py` compares the program of `dist/` whatever kit built it: a difference under the same letter fails, and under another it is told. `demands.py` wants a line of each
crate, test, program and edit."""
import contextlib
import gzip
import io
import os
import pathlib
import sys
import tempfile
import time

TOP = pathlib.Path(__file__).resolve().parents[2]
sys.path.insert(0, str(TOP / "tools"))
import demands
import gate
import plan
import wrong_bodies

FORMS = {
    "read_edit": "edit, folder",
    "unread": "line, texts",
    "checked": "crate, texts, flags, reader",
    "must_fail": "crate, edit, flags",
    "edits_of": "crate",
    "handles_of": "room",
}
PLANNED = {"in_lanes": "tasks", "processors": "", "free": "", "ending": "", "main": "words"}
KIT = """import types

class Crate:
    pass

rtlib = types.SimpleNamespace(crates_below=lambda top: [], guarded=lambda: [])
"""


def kit_of(forms):
    return KIT + "".join(f"\ndef {name}({words}):\n    pass\n" for name, words in forms.items())


KITS = {
    "one with all functions": (kit_of(FORMS), True),
    "one with a further parameter that may be left out": (kit_of(FORMS | {"checked": "crate, texts, flags, reader, jobs=1"}), True),
    "one that lacks a function": (kit_of({name: words for name, words in FORMS.items() if name != "unread"}), False),
    "one whose function takes fewer values": (kit_of(FORMS | {"checked": "crate, texts, flags"}), False),
    "one whose function wants more values": (kit_of(FORMS | {"must_fail": "crate, edit, flags, room"}), False),
    "one whose library lacks a function": (kit_of(FORMS).replace("guarded=", "unguarded="), False),
    "one that can't be read": ("this is no Python", False),
    "one that ends where it is read": (kit_of(FORMS) + "\nraise SystemExit(2)\n", False),
    "no kit": (None, False),
}
PLANNED_KITS = {
    "one that plans": (kit_of(FORMS | PLANNED), True),
    "one without lanes": (kit_of(FORMS | {name: words for name, words in PLANNED.items() if name != "in_lanes"}), False),
    "one whose lanes want a number": (kit_of(FORMS | PLANNED | {"in_lanes": "tasks, number"}), False),
    "one whose edits aren't tried here": (kit_of(PLANNED), False),
}
# Crates of a made-up repository: those that each waits for, its lines, and its memory.
TASKS = {
    "values": ((), 10, 1e9), "rows": (("values",), 30, 6e9), "calls": (("values",), 20, 6e9), "names": ((), 5, 9e9), "keeper": (("rows", "calls"), 40, 20e9),
}
faults = []


def expect(what, wanted, got):
    if wanted != got:
        faults.append(f"{what}: wanted {wanted}, got {got}")


def fits(text, tool=wrong_bodies):
    """Whether the kit with this command fits a tool, or where there is none whether that does."""
    path = os.environ["PATH"]
    with tempfile.TemporaryDirectory() as folder:
        if text:
            rt = pathlib.Path(folder) / "rt"
            rt.write_text(text)
            rt.chmod(0o755)
        os.environ["PATH"] = folder
        try:
            return tool.fits()
        finally:
            os.environ["PATH"] = path


def shipped(folder, manifest, built):
    """Whether a program that was built is as one of these bytes in `dist/` has to be, and what is said of it."""
    (folder / "dist/manifest").write_text(manifest)
    (folder / "built").write_bytes(built)
    said = io.StringIO()
    with contextlib.redirect_stdout(said):
        is_good = gate.is_as_shipped("abc", folder / "built")
    return is_good, said.getvalue()


def try_programs(folder):
    gate.TOP, gate.kit = folder, lambda: "kit-b logic 1"
    (folder / "dist").mkdir()
    with gzip.open(folder / "dist/taskboard.gz", "wb") as it:
        it.write(b"program")
    for what, manifest, built, wanted, words in (
        ("the same under one kit", "sources abc\nkit kit-b\n", b"program", True, "is the one"),
        ("the same under two", "sources abc\nkit kit-a\n", b"program", True, "is the one"),
        ("another under one kit", "sources abc\nkit kit-b\n", b"another", False, "IS NOT THE ONE"),
        ("another under one kit that is named with its logic", "sources abc\nkit kit-b logic 1\n", b"another", False, "IS NOT THE ONE"),
        ("another under two", "sources abc\nkit kit-a\n", b"another", True, "kit-a built it, and this kit is kit-b"),
        ("one of other sources", "sources abd\nkit kit-b\n", b"another", True, "other sources"),
    ):
        is_good, said = shipped(folder, manifest, built)
        expect(what, (wanted, True), (is_good, words in said))


def try_demands(folder):
    """A made-up repository: a library with a test and an edit, and a program; then the same with a line less, each in turn."""
    (folder / "crates.txt").write_text("values:\nboard: values # a program\n")
    for path, text in (("values/src/lib.rt", "#[test]\nfn adds() {}\n"), ("values/must-fail/subtracts.edit", "file: src/lib.rt\n"), ("values/must-fail/README.md", ""), ("board/src/main.rt", "fn main() {}\n")):
        (folder / "crates" / path).parent.mkdir(parents=True, exist_ok=True)
        (folder / "crates" / path).write_text(text)
    wants = demands.wanted(folder)
    said = [
        "rt: values is kept: an earlier run on this machine proved the same", "rt: board proved", "rt: values: its tests passed",
        "rt: board ran, and wrote what its file stdout has",
        "must-fail values/subtracts.edit: refused, as it must be: fn adds: not proved",
    ]
    others = ["rt: board ran (built by Rattle's own compiler), and wrote what its file stdout has", "rt: values: its tests are proved", "rt: must-fail values/subtracts.edit: BAD EDIT: there is no file src/lib.rt", "5 passed, 0 failed"]
    expect("all that is demanded", (True, ["2 of 2", "1 of 1", "1 of 1", "1 of 1"]), whole(wants, said + others))
    for at, line in enumerate(said):
        expect(f"without {line}", False, whole(wants, said[:at] + said[at + 1 :] + others)[0])


def whole(wants, lines):
    """Whether all is heard, and how much of each kind."""
    is_whole, told = demands.compare(wants, lines)
    return is_whole, [line.rpartition(": ")[2] for line in told]


def planned(most_jobs, memory):
    """What a plan did with the made-up crates: whether each began after those that it waits for, and how often more than there is was taken."""
    begun, ended, taken, beyond = [], set(), {}, []

    def work(name, below, size):
        def call(given, jobs):
            begun.append((name, set(below) <= ended and all(given[it] for it in below)))
            taken[name] = jobs, size * plan.TAKEN
            jobs_taken, memory_taken = map(sum, zip(*list(taken.values())))
            beyond.append(jobs_taken > most_jobs or memory_taken > memory and len(taken) > 1)
            time.sleep(0.02)
            del taken[name]
            ended.add(name)
            return True
        return call

    tasks = {name: (below, lines, size, work(name, below, size)) for name, (below, lines, size) in TASKS.items()}
    return plan.Lanes(tasks, most_jobs, memory).run(), begun, sum(beyond)


for most_jobs, memory in ((1, 1e9), (2, 6e9), (5, 8e9), (5, 50e9)):
    wanted = dict.fromkeys(TASKS, True), [(name, True) for name in sorted(TASKS)], 0
    given, begun, beyond = planned(most_jobs, memory)
    expect(f"a plan with {most_jobs} jobs", wanted, (given, sorted(begun), beyond))
    if most_jobs == 1:
        expect("the longest chain first", ["values", "rows", "calls", "keeper", "names"], [name for name, _ in begun])
with tempfile.TemporaryDirectory() as room:
    try_demands(pathlib.Path(room))
for kit, (command, is_wanted) in PLANNED_KITS.items():
    expect(f"{kit}, to plan", is_wanted, fits(command, plan))
for kit, (command, is_wanted) in KITS.items():
    expect(kit, is_wanted, fits(command))
with tempfile.TemporaryDirectory() as room:
    try_programs(pathlib.Path(room))
print("\n".join(faults) or f"{len(KITS) + len(PLANNED_KITS)} kits are taken or not as they fit, and programs of two kits are compared")
sys.exit(bool(faults))

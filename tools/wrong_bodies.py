#!/usr/bin/env python3
"""Tries must-fail edits of crates that `rt ci` proves in a folder: none may leave what it changes provable.

    wrong_bodies.py TOP ROOM LOG

TOP has the edits, ROOM is the folder of the proofs, and LOG what `rt ci` says. Standard input has the name of each crate once it is proved, a line each, and ends
with the proofs: until then edits are tried beside them, with what processors and memory they leave, and from then on with all.

`rt ci` and `rt must-fail` prove a whole crate for its edits. An edit is refused as soon as one function that it changes isn't proved, so this checks those alone
(`rattle check --only`), over the statements that `rt ci` left of the libraries below. A function is proved over the contracts of what it calls, never over their
bodies: so edits of a crate that change different functions are tried at once, each by what is told of its own. Where that tells nothing the edit is tried alone,
and where what it changes is still proved the whole crate is tried, as `rt must-fail` does it. Edits are read, applied and judged by the kit's own functions, which
are taken from its command `rt`; of a kit whose functions have other forms `fits` says so, and then `rt ci` has to try the edits."""
import importlib.machinery
import importlib.util
import inspect
import json
import os
import re
import shutil
import sys
import tempfile
import threading
import types

FUNCTION = re.compile(r"\s*(?:pub(?:\(crate\))? )?(?:const )?fn (\w+)")

# How many edits are tried at once while the proofs go on, and how many bytes have to be free for one more, then and behind them.
BESIDE = 2
FREE_BESIDE = 9_000_000_000
FREE_BEHIND = 4_000_000_000

# The kit's functions that are called here, with a value for each of their parameters.
CALLED = {"read_edit": 2, "unread": 2, "checked": 4, "must_fail": 3, "edits_of": 1, "handles_of": 1}


def load_kit():
    """The kit's command `rt` as a module, which checks crates over the statements of their libraries, as `rt ci` does."""
    loader = importlib.machinery.SourceFileLoader("kit_rt", os.path.realpath(shutil.which("rt")))
    kit = importlib.util.module_from_spec(importlib.util.spec_from_loader(loader.name, loader))
    words, sys.argv = sys.argv, ["rt"]
    loader.exec_module(kit)
    sys.argv = words
    kit.rtlib.Crate = kit.Crate
    kit.Crate.cuts_libraries = True
    return kit


def fits():
    """Whether the kit at hand has the functions that are called here, in these forms."""
    try:
        kit = load_kit()
        for name, count in CALLED.items():
            inspect.signature(getattr(kit, name)).bind(*[None] * count)
        inspect.signature(kit.rtlib.crates_below).bind(None)
        inspect.signature(kit.rtlib.guarded).bind()
        return True
    except (Exception, SystemExit):
        return False


def is_refused(kit, kind):
    """Whether the kit's word for what a try came to means that the edit was refused. Some kits say True, others a word of theirs."""
    words = [getattr(kit, it) for it in ("REFUSED", "AT_LIMIT") if hasattr(kit, it)]
    return kind in (words or [True])


def module_of(path):
    """The module of a source file, below the crate."""
    return re.sub(r"^src/|\.rt$", "", path).replace("/", "::")


def changed_functions(old, new):
    """The functions that have a line of the old text which isn't in the new one as well, or None where such a line stands in none."""
    found, function, kept = set(), None, new.split("\n")
    for line in old.split("\n"):
        begins = FUNCTION.match(line)
        if begins:
            function = begins[1]
        elif line.startswith("}") or line and not line.startswith((" ", "{", ")", "#", "/")):
            function = None
        if line not in kept:
            if not function:
                return None
            found.add(function)
    return found or None


def functions_of(crate, texts, proved):
    """The functions that an edit changes, by their paths, or none where a line of it stands outside of all."""
    found = []
    for path, text in texts.items():
        with open(f"{crate.folder}/{path}", encoding="utf-8") as it:
            names = changed_functions(it.read(), text)
        if not names:
            return []
        # A method goes by the module of its type, wherever its block stands.
        named = [it for it in proved if it.startswith(f"{crate.name}::") and it.split("::")[-1] in names]
        inside = [it for it in named if it.startswith(f"{crate.name}::{module_of(path)}::")]
        found += [it.removeprefix(f"{crate.name}::") for it in inside or named]
    return found


def what_fails(kit, lines, texts):
    """The first line that says what isn't proved with the edit, or None where its text can't even be read."""
    if any(kit.unread(it, texts) for it in lines):
        return None
    return next((it for it in lines if re.match(r"fn \S+: (not proved|no proof)|\S+:\d+:\d+: error", it)), None)


def only(paths):
    """The flags by which a check looks at these alone, with what they call."""
    return ["--jobs", "1", *[word for path in paths for word in ("--only", path)]]


def own_failure(lines, functions):
    """The line that says that one of the functions isn't proved for a reason of its own, and not only since something that it calls isn't."""
    own = re.compile(rf"fn ({'|'.join(map(re.escape, functions))}): (not proved|no proof: expected answers)")
    return next((it for it in lines if own.match(it)), None)


class TriedCrate:
    """A crate's edits, with what each changes, and how those fail that were tried at once."""

    def __init__(self, kit, crate, edits, proved):
        self.kit, self.crate, self.edits, self.failures = kit, crate, edits, {}
        self.texts = [kit.read_edit(it, crate.folder)[0] for it in edits]
        self.functions = [functions_of(crate, texts, proved) if texts else [] for texts in self.texts]
        self.modules = [[module_of(it) for it in texts or ()] for texts in self.texts]

    def joined(self, wanted):
        """The texts with as many of these edits as change different functions, and the numbers of those."""
        texts, numbers, taken = {}, [], set()
        with tempfile.TemporaryDirectory(prefix="rt-joined-") as room:
            shutil.copytree(f"{self.crate.folder}/src", f"{room}/src")
            for number in wanted:
                changed = self.kit.read_edit(self.edits[number], room)[0]
                if not changed or taken & set(self.functions[number]):
                    continue
                for path, text in changed.items():
                    with open(f"{room}/{path}", "w", encoding="utf-8") as it:
                        it.write(text)
                texts |= changed
                taken |= set(self.functions[number])
                numbers.append(number)
        return texts, numbers

    def try_together(self):
        """Tries edits at once, as many as change different functions, then those that are left, and keeps how each fails. What one check proved of the functions that
        they call isn't proved again by the next."""
        left = [number for number, functions in enumerate(self.functions) if functions]
        with tempfile.TemporaryDirectory(prefix="rt-tried-") as proved:
            while left:
                texts, numbers = self.joined(left)
                if not numbers:
                    return
                self.try_joined(texts, numbers, proved)
                left = [it for it in left if it not in numbers]

    def try_joined(self, texts, numbers, proved):
        """Tries these edits at once. Where one of them can't be read all are left to be tried alone."""
        ran = self.kit.checked(self.crate, texts, only([it for number in numbers for it in self.functions[number]]), proved)
        lines = ran.stdout.rstrip("\n").split("\n")
        if ran.returncode != 1 or any(self.kit.unread(it, texts) for it in lines):
            return
        for number in numbers:
            failure = own_failure(lines, [f"{self.crate.name}::{it}" for it in self.functions[number]])
            if failure:
                self.failures[number] = failure

    def fails_alone(self, number, paths):
        """How an edit fails where these paths are checked, or None."""
        ran = self.kit.checked(self.crate, self.texts[number], only(paths), None)
        lines = ran.stdout.rstrip("\n").split("\n")
        ended = re.fullmatch(r"only=(\d+) proved=(\d+)", lines[-1])
        if ran.returncode == 1 and ended and ended[1] != ended[2]:
            return what_fails(self.kit, lines, self.texts[number])
        return None

    def try_edit(self, number):
        """Whether an edit is refused, and what to say of it, by the kit's words."""
        failure = self.failures.get(number)
        for paths in (self.functions[number], self.modules[number]):
            if paths and not failure:
                failure = self.fails_alone(number, paths)
        if not failure:
            kind, text = self.kit.must_fail(self.crate, self.edits[number], ["--jobs", "1"])
            return is_refused(self.kit, kind), text
        label = f"must-fail {self.crate.name}/{os.path.basename(self.edits[number])}"
        return True, f"{label}: refused, as it must be: {failure[:160]}"


def proved_functions(log):
    """The functions that `rt ci` proved, as it names them."""
    with open(log, errors="replace") as it:
        return re.findall(r"(?m)^fn (\S+): proved$", it.read())


def built_functions(crate):
    """The functions of a library as it was built: those of one that was taken from an earlier run stand in no log."""
    try:
        with open(f"{crate.folder}/out/rlib/{crate.name}.rlib/toolchain/mir.json", encoding="utf-8") as it:
            return [function[0] for function in json.load(it)]
    except OSError:
        return []


def free_memory():
    with open("/proc/meminfo") as it:
        return 1024 * int(re.search(r"(?m)^MemAvailable:\s+(\d+)", it.read())[1])


class Lanes:
    """Runs calls side by side: few of them while the proofs go on, then one a processor, as many as memory holds."""

    def __init__(self):
        self.waiting, self.running, self.is_beside, self.faults = [], 0, True, []
        self.changed = threading.Condition()
        self.most = len(os.sched_getaffinity(0))
        self.threads = [threading.Thread(target=self.work, daemon=True) for _ in range(self.most)]
        for it in self.threads:
            it.start()

    def put(self, calls):
        with self.changed:
            self.waiting += calls
            self.changed.notify_all()

    def may_begin(self):
        most, wanted = (BESIDE, FREE_BESIDE) if self.is_beside else (self.most, FREE_BEHIND)
        has_room = free_memory() >= wanted or not self.is_beside and self.running == 0
        return bool(self.waiting) and self.running < most and has_room

    def is_over(self):
        return not self.is_beside and not self.waiting and self.running == 0

    def work(self):
        while True:
            with self.changed:
                while not self.may_begin():
                    if self.is_over():
                        return
                    self.changed.wait(2)
                call = self.waiting.pop(0)
                self.running += 1
            try:
                call()
            except BaseException as fault:
                self.faults.append(fault)
            with self.changed:
                self.running -= 1
                self.changed.notify_all()

    def end(self):
        """Has all processors work, and waits until nothing is left."""
        with self.changed:
            self.is_beside = False
            self.changed.notify_all()
        for it in self.threads:
            it.join()
        if self.faults:
            raise self.faults[0]


class Trial:
    """The edits of all crates, and what each came to."""

    def __init__(self, top, room, log):
        self.top, self.log, self.told, self.lanes = top, log, [], Lanes()
        self.kit = load_kit()
        # (its first call sets the handler of a signal, which only the main thread may)
        self.kit.rtlib.guarded()
        self.kit.Crate.allowed = self.kit.handles_of(room)
        self.crates = {it.name: it for it in self.kit.rtlib.crates_below(room)}

    def tell(self, is_good, text):
        self.told.append(is_good)
        print(text, flush=True)

    def begin(self, name):
        """Lets a crate's edits be tried: first those that can be tried at once, then what that left."""
        crate = self.crates[name]
        edits, strange = self.kit.edits_of(types.SimpleNamespace(folder=f"{self.top}/crates/{name}"))
        for it in strange:
            self.tell(False, f"must-fail {name}: {it} is no edit")
        if edits:
            own = [it for it in proved_functions(self.log) if it.startswith(f"{name}::")] or built_functions(crate)
            tried = TriedCrate(self.kit, crate, edits, own)
            self.lanes.put([lambda: self.try_crate(tried)])

    def try_crate(self, tried):
        tried.try_together()
        self.lanes.put([lambda number=number: self.tell(*tried.try_edit(number)) for number in range(len(tried.edits))])

    def end(self):
        self.lanes.end()
        return sum(self.told), len(self.told) - sum(self.told)


def give_way():
    """Has this program, and all that it starts, take what processors others leave: by itself, and as a group of the scheduler where a session is one."""
    os.nice(19)
    try:
        with open("/proc/self/autogroup", "w") as it:
            it.write("19")
    except OSError:
        # (the system has no such groups)
        pass


def main():
    give_way()
    top, room, log = (os.path.abspath(it) for it in sys.argv[1:4])
    os.chdir(room)
    trial = Trial(top, room, log)
    for line in sys.stdin:
        trial.begin(line.strip())
    refused, failed = trial.end()
    print(f"{refused} edits refused, {failed} not")
    sys.exit(1 if failed else 0)


if __name__ == "__main__":
    main()

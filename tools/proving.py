"""Runs `rt ci` in a folder, tells on standard error how far it is, and measures the processor time of each crate.

`rt ci` proves crates side by side, each over the statements of those below, the longest chain first, by the plan of `plan.py`.
What each crate costs is read from /proc while its provers run, so it may miss the last half second of each."""
import os
import re
import signal
import subprocess
import sys
import threading
import time

import plan

TICKS = os.sysconf("SC_CLK_TCK")
BETWEEN_LOOKS = 0.5

# What a crate costs in lines beside its own: the loading of what lies below it, and for a program its two compilers.
LINES_OF_LOADING = 500
LINES_OF_COMPILING = 10_000

# The share of the work that has to be done before what is left can be reckoned from it.
LEAST_SHARE = 0.1


def crates_of(top):
    """Each crate of crates.txt, with those of the repository that it stands on."""
    below = {}
    for line in open(f"{top}/crates.txt"):
        name, colon, others = line.partition("#")[0].partition(":")
        if colon:
            below[name.split()[0]] = others.split()
    return {name: [it for it in others if it in below] for name, others in below.items()}


def all_below(name, below):
    found = {name}
    for it in below[name]:
        found |= all_below(it, below)
    return found


def lines_of(folder):
    """What a crate costs, in lines."""
    count = LINES_OF_LOADING
    if os.path.exists(f"{folder}/src/main.rt"):
        count += LINES_OF_COMPILING
    for at, folders, files in os.walk(folder):
        folders[:] = [it for it in folders if it not in ("out", "must-fail")]
        for name in files:
            if name.endswith((".rt", ".antt")):
                with open(f"{at}/{name}", "rb") as it:
                    count += it.read().count(b"\n")
    return count


class Progress:
    """How far the proofs are. What is left is reckoned from the longest chain of crates that wait for each other, and from all lines."""

    def __init__(self, top):
        self.below = crates_of(top)
        self.lines = {it: lines_of(f"{top}/crates/{it}") for it in self.below}
        self.began = time.time()
        self.done = set()
        self.whole = self.left()

    def left(self):
        """The lines of the longest chain that isn't proved, and those of all crates that aren't."""
        chains = {}

        def chain(name):
            if name not in chains:
                own = 0 if name in self.done else self.lines[name]
                chains[name] = own + max(map(chain, self.below[name]), default=0)
            return chains[name]

        longest = max(map(chain, self.below), default=0)
        return longest, sum(lines for name, lines in self.lines.items() if name not in self.done)

    def tell(self, name):
        self.done.add(name)
        elapsed = time.time() - self.began
        shares = [left / whole for left, whole in zip(self.left(), self.whole) if whole]
        share = max(shares, default=0)
        text = f"{len(self.done)} of {len(self.below)} crates are proved"
        if 0 < share < 1 - LEAST_SHARE:
            text += f", about {max(1, round(elapsed * share / (1 - share) / 60))} minutes left"
        print(text, file=sys.stderr, flush=True)


class Times:
    """The processor seconds of provers, by crate and by what they did for it."""

    def __init__(self, group):
        self.group, self.seen, self.is_over = group, {}, False
        self.looking = threading.Thread(target=self.look_on, daemon=True)
        self.looking.start()

    def look_on(self):
        while not self.is_over:
            self.look()
            time.sleep(BETWEEN_LOOKS)

    def look(self):
        for number in filter(str.isdigit, os.listdir("/proc")):
            try:
                with open(f"/proc/{number}/stat", "rb") as it:
                    fields = it.read().rpartition(b")")[2].split()
                if int(fields[3]) != self.group:
                    continue
                key = number, fields[19]
                seen = self.seen.setdefault(key, [None, 0])
                # (a process is its parent's copy until it has started its program)
                seen[0] = seen[0] or self.work_of(number)
                seen[1] = (int(fields[11]) + int(fields[12])) / TICKS
            except (OSError, ValueError, IndexError):
                continue

    @staticmethod
    def work_of(number):
        with open(f"/proc/{number}/cmdline", "rb") as it:
            words = it.read().decode(errors="replace").split("\0")
        if "--crate-name" not in words:
            return None
        name = words[words.index("--crate-name") + 1]
        if os.readlink(f"/proc/{number}/cwd").rpartition("/")[2].startswith("rt-edit-"):
            return name, "edits"
        return name, "tests" if "--test" in words else "proof"

    def by_crate(self):
        self.is_over = True
        sums = {}
        for work, seconds in self.seen.values():
            if work:
                sums[work] = sums.get(work, 0) + seconds
        return sums


def table_of(sums, wall):
    """A line a crate, the longest first: processor minutes in all, of its proof, of its tests' proof, of its must-fail edits."""
    kinds = ("proof", "tests", "edits")
    rows = []
    for name in {name for name, _ in sums}:
        minutes = [sums.get((name, kind), 0) / 60 for kind in kinds]
        rows.append((sum(minutes), name, minutes))
    lines = [f"{'crate':<18} {'all':>7} " + " ".join(f"{kind:>7}" for kind in kinds)]
    for whole, name, minutes in sorted(rows, reverse=True):
        lines.append(f"{name:<18} {whole:7.1f} " + " ".join(f"{it:7.1f}" for it in minutes))
    of_kinds = [sum(minutes[at] for _, _, minutes in rows) for at in range(len(kinds))]
    lines.append(f"{'all':<18} {sum(of_kinds):7.1f} " + " ".join(f"{it:7.1f}" for it in of_kinds))
    lines.append(f"wall {wall / 60:.1f} minutes, {os.cpu_count()} processors, {len(os.sched_getaffinity(0))} used")
    return "\n".join(lines) + "\n"


def end_by_signals():
    """Has a signal that ends this program end its provers too."""
    for number in (signal.SIGTERM, signal.SIGHUP, signal.SIGINT):
        signal.signal(number, lambda number, _: sys.exit(128 + number))


class Command:
    """A command that runs in a folder. What it says goes into a file, each line is heard, and the processor time of its provers is measured."""

    def __init__(self, words, top, log, hear, reads=subprocess.DEVNULL):
        self.child = subprocess.Popen(
            words, cwd=top, stdin=reads, stdout=subprocess.PIPE, stderr=subprocess.STDOUT,
            text=True, errors="replace", start_new_session=True,
        )
        self.measured, self.lines, self.fault = Times(self.child.pid), [], None
        self.listening = threading.Thread(target=self.listen, args=(log, hear), daemon=True)
        self.listening.start()

    def listen(self, log, hear):
        with open(log, "w") as kept:
            for line in self.child.stdout:
                kept.write(line)
                kept.flush()
                self.lines.append(line.rstrip("\n"))
                self.let_hear(hear)

    def let_hear(self, hear):
        """Lets the last line be heard. A fault is raised in the end, since the command would wait for ever where nobody reads on."""
        try:
            hear(self.lines[-1])
        except Exception as fault:
            self.fault = self.fault or fault

    def end(self):
        """Waits until it has ended. Returns its status, its lines, and the processor seconds of its provers."""
        self.listening.join()
        if self.fault:
            raise self.fault
        return self.child.wait(), self.lines, self.measured.by_crate()

    def stop(self):
        """Ends it, if it hasn't ended."""
        if self.child.poll() is None:
            os.killpg(self.child.pid, signal.SIGTERM)
            self.child.wait()


def prove(top, log, heard=lambda name: None):
    """Runs `rt ci` at the top of a repository, and tells how far it is. The name of each crate is heard once it is proved."""
    end_by_signals()
    progress = Progress(top)

    def hear(line):
        proved = re.fullmatch(r"rt: (\w+) (?:proved|is kept: .*)", line)
        if proved:
            progress.tell(proved[1])
            heard(proved[1])
        elif re.fullmatch(r"rt: .* NOT PROVED.*", line):
            print(line, file=sys.stderr, flush=True)

    command = Command(plan.command(), top, log, hear)
    try:
        return command.end()
    except BaseException:
        command.stop()
        raise


def write_times(file, sums, began, heading=""):
    with open(file, "w") as it:
        it.write(heading + table_of(sums, time.time() - began))


def failures(lines):
    """What `rt ci` said of each crate that failed, and its last lines."""
    said, told, section = [], [], []
    for line in lines:
        if line.startswith("== "):
            section = [line]
        elif re.fullmatch(r"rt: .* NOT PROVED.*", line):
            told += [*[it for it in section if not re.match(r"(fn|struct|impl|trait|enum|statements) ", it)][-60:], line]
            section = []
        else:
            section.append(line)
        if re.search(r"NOT REFUSED|BAD EDIT|FAILED|differ first at|the program (ended|was stopped|had not)", line):
            said.append(line)
    return told + said

#!/usr/bin/env python3
"""Runs the kit's `rt ci` by a plan of its own: `plan.py` in place of `rt ci`, at the top of a repository.

The kit reckons with about twice the memory that a check takes: of 24 GiB it gives the largest crates all, so that they wait for each other while processors are
idle. This plan reckons with what was measured. It has one job more than there are processors, since a check with several has parts that run alone, and gives two to
the first crate of the longest chain where two are free. It says nothing of what is proved: the kit does, and `gate.py` looks for its word on each crate. Where the kit
has other forms `fits` says so, and then the kit's plan holds."""
import concurrent.futures
import inspect
import os
import sys

import wrong_bodies

# Of the memory that the kit reckons with, the part that a check takes.
TAKEN = 0.55
# Of the free memory, the part that is used; of a job's memory, what one more job of the same check takes; how many jobs a check has at most.
USED, ONE_MORE, MOST_JOBS = 0.85, 0.6, 4

# The kit's functions that are called or replaced here, with a value for each of their parameters.
CALLED = {"in_lanes": 1, "processors": 0, "free": 0, "ending": 0, "main": 1}


def fits():
    """Whether the kit at hand has the functions that are called here, in these forms, and leaves the edits to `wrong_bodies.py`."""
    if not wrong_bodies.fits():
        return False
    try:
        kit = wrong_bodies.load_kit()
        for name, count in CALLED.items():
            inspect.signature(getattr(kit, name)).bind(*[None] * count)
        return True
    except (Exception, SystemExit):
        return False


def command():
    """The words that prove all crates of the folder where they are called."""
    return [sys.executable, os.path.abspath(__file__)] if fits() else ["rt", "ci"]


def chains(tasks):
    """The lines of each task and of the longest chain of others that wait for it."""
    lines = {key: task[1] for key, task in tasks.items()}
    behind = dict.fromkeys(tasks, 0)
    # (a task comes after those that it waits for)
    for key in reversed([*tasks]):
        behind[key] += lines[key]
        for below in tasks[key][0]:
            behind[below] = max(behind[below], behind[key])
    return behind


class Lanes:
    """Tasks that run side by side: each is what it waits for, its lines, its memory, and a call that gets what the others gave and how many jobs it has."""

    def __init__(self, tasks, jobs, memory):
        behind = chains(tasks)
        self.tasks, self.jobs, self.memory = tasks, jobs, memory
        self.left, self.running, self.given = sorted(tasks, key=lambda key: -behind[key]), {}, {}

    def room(self):
        """The jobs and the bytes that nothing has that runs."""
        taken = self.running.values()
        return self.jobs - sum(jobs for _, jobs, _ in taken), self.memory - sum(size for _, _, size in taken)

    def share(self, ready, at):
        """How many jobs this task of those that are ready may have now, and the bytes that it takes with them; none where it has to wait."""
        size, (idle, free) = self.tasks[ready[at]][2] * TAKEN, self.room()
        if idle < 1 or self.running and size > free:
            return 0, 0
        # (a crate without tests has a task for them that ends at once)
        waiting = sum(self.tasks[key][1] > 0 for key in ready[at:])
        wanted = max(idle // max(waiting, 1), 2 if at == 0 else 1)
        jobs = max(1, min(MOST_JOBS, idle, wanted, 1 + int((free / size - 1) / ONE_MORE)))
        return jobs, size * (1 + ONE_MORE * (jobs - 1))

    def begin(self, pool):
        """Begins what can begin."""
        ready = [key for key in self.left if all(below in self.given for below in self.tasks[key][0])]
        for at, key in enumerate(ready):
            jobs, size = self.share(ready, at)
            if jobs:
                self.left.remove(key)
                self.running[pool.submit(self.tasks[key][3], self.given, jobs)] = key, jobs, size

    def run(self):
        """Runs all, and returns what each gave."""
        with concurrent.futures.ThreadPoolExecutor(self.jobs) as pool:
            while self.left or self.running:
                self.begin(pool)
                done = concurrent.futures.wait(self.running, return_when=concurrent.futures.FIRST_COMPLETED).done
                for call in done:
                    self.given[self.running.pop(call)[0]] = call.result()
        return self.given


def main():
    kit = wrong_bodies.load_kit()

    def in_lanes(tasks):
        with kit.ending():
            return Lanes(tasks, kit.processors() + 1, USED * kit.free()).run()

    kit.in_lanes = in_lanes
    sys.exit(kit.main(["ci"]))


if __name__ == "__main__":
    main()

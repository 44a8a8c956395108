"""Taskwarrior and boards of each number: sync_boards.py PROGRAM PORT, in a folder of its own. The uuid of a task that a board makes begins with
the board's number, and Taskwarrior may read it as a sum or a duration."""
import os
import sys

sys.path.insert(0, os.path.join(os.path.dirname(os.path.abspath(__file__)), "..", "..", "contrib", "bridges"))
sys.dont_write_bytecode = True
from bridging import Editor, expect, run_whole
from ledger import expect_alike
from syncing import SEED, Week
from taskboard_bridges.taskwarrior import Taskwarrior, named

NUMBERS = range(1, 257)
# Boards whose numbers Taskwarrior reads as durations (d) or powers of ten (e), and one that it doesn't.
WHOLE = (13, 14, 28, 29)


def made(board, place):
    """The uuid of a task that a board made."""
    return f"{board:08x}-0000-8000-8000-{place:012x}"


class Boards(Week):
    def each_number(self):
        """A task of a board of each number is found by its name, alone and among others."""
        self.user.bring(*({"uuid": made(board, 1), "description": f"of board {board}", "entry": "20260101T000000Z", "status": "pending"} for board in NUMBERS))
        right = Taskwarrior([], None)
        for board in NUMBERS:
            expect(f"board {board}", [made(board, 1)], [task["uuid"] for task in right.exported(*named([made(board, 1)]))])
        expect("all by their names", len(NUMBERS), len(right.exported(*named(made(board, 1) for board in NUMBERS))))

    def whole_runs(self):
        """What is made and changed on either side of such a board comes to the other."""
        for number in range(2, max(WHOLE) + 1):
            self.editor.ask("POST", "/boards", {"title": f"Board {number}"})
        self.user.task("rc.bulk=0", "status:pending", "delete")
        for number in WHOLE:
            editor = Editor(self.editor.port, number)
            self.runs.words = [*(word.replace("state.json", f"{number}.json") for word in self.words[:-1]), "--another", str(number), f"project:B{number}"]
            task = editor.call("tasks", {"description": "Made on the board", "project": f"B{number}"})["uuid"]
            expect(f"the uuid on board {number}", made(number, 1), task)
            self.runs.complete()
            editor.change(task, "modify", {"priority": "H"})
            self.runs.complete()
            self.user.task(f"uuid:{task}", "modify", "+tagged")
            self.runs.complete()
            expect(f"both changes on board {number}", ("H", ["tagged"]), (editor.tasks()[task]["priority"], editor.tasks()[task]["tags"]))
            expect_alike(f"board {number}", {task: editor.tasks()[task]}, {task: self.user.tasks()[task]})

    def run(self):
        self.each_number()
        self.whole_runs()
        print(f"tasks of {len(NUMBERS)} board numbers found by their names; whole runs on boards {', '.join(map(str, WHOLE))}")


if __name__ == "__main__":
    run_whole(Boards(), SEED)

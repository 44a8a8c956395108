"""What a bridge to Taskwarrior does where something is wrong: sync_scenes.py PROGRAM PORT, in a folder of its own."""
import json
import os
import random
import re
import shutil
import sys
import time
import uuid as uuids

sys.path.insert(0, os.path.join(os.path.dirname(os.path.abspath(__file__)), "..", "..", "contrib", "bridges"))
sys.dont_write_bytecode = True
from taskboard_bridges.lines import Line as TodoLine
from taskboard_bridges.lines import spell
from bridging import Editor, expect, run_whole
from ledger import expect_alike
from syncing import PORT, SEED, Week

A, B, C, D, E, F = (f"dddddddd-dddd-4ddd-8ddd-00000000000{at}" for at in range(1, 7))
BASE = {"entry": "20260102T081500Z", "modified": "20260103T101010Z", "status": "pending"}


class Scenes(Week):
    def first(self):
        """A filter: what it doesn't have stays in Taskwarrior; what left it later is still brought."""
        self.runs.words.append("project:Office")
        self.user.bring({**BASE, "uuid": A, "description": "In the office", "project": "Office"}, {**BASE, "uuid": B, "description": "At home", "project": "Home"})
        told = self.runs.complete("--dry-run")
        expect("a dry run", (True, {}, False), ('board: add "In the office"' in told, self.editor.tasks(), os.path.exists("state.json")))
        self.runs.complete()
        expect("what the filter has", {A}, {*self.editor.tasks()})
        self.user.task(A, "modify", "project:Home")
        self.runs.complete()
        expect("what left the filter", "Home", self.editor.tasks()[A]["project"])
        self.runs.words.pop()
        self.runs.complete()
        expect_alike("all", self.editor.tasks(), self.user.tasks())

    def unfit(self):
        """What one side can't hold stays on the other, is told once, and is neither lost nor brought again and again."""
        odd = {"uuid": C, "description": "Odd", "due": "19750101T000000Z", "tags": ["a,b", "plain", "when:status"], "weird name": "x", "annotation_1": "y", "flag": True, "pages": 24,
               "until": "20200101T000000Z", "annotations": [{"entry": "20260101T000000Z", "description": ""}], "review": "soon"}
        self.editor.call("tasks", odd)
        before = self.editor.tasks()[C]
        told = self.runs.complete()
        expect("what is told", True, told.count("can't be kept in Taskwarrior, and stays on the board") == 6 and all(what in told for what in (" due can't", "tag a,b", "tag when:status")))
        there = self.user.tasks()[C]
        expect("what came", (["plain"], "true", "24", "pending"), (there["tags"], there["flag"], there["pages"], there["status"]))
        expect("what isn't there", set(), {"due", "until", "review", "weird name", "annotations"} & set(there))
        expect("told once", "", self.runs.complete())
        self.user.bring({**there, "priority": "X", "pages": "25", "flag": "false"})
        self.runs.complete()
        now = self.editor.tasks()[C]
        expect("what stayed", {name: before[name] for name in odd if name not in ("pages", "flag")}, {name: now[name] for name in odd if name not in ("pages", "flag")})
        expect("its types", (25, False), (now["pages"], now["flag"]))
        expect("the own priority", ("X", None), (self.user.tasks()[C]["priority"], now.get("priority")))

    def refused(self):
        """A call that is refused is told by each run, and made once; --again makes it anew."""
        self.user.bring({**BASE, "uuid": D, "description": "First"}, {**BASE, "uuid": E, "description": "Second", "depends": [D]})
        self.runs.complete()
        self.user.bring({**BASE, "uuid": D, "description": "First\u009b31m", "depends": [E]})
        told = self.runs.complete(statuses=(1,))
        expect("a circle", True, re.search(r'refused: \d+ "First": depend waits for \d+ "Second": Cycle', told) is not None)
        posts = self.line.posts
        told = self.runs.complete(statuses=(1,))
        expect("a circle again", (True, posts), ("Cycle, as before" in told, self.line.posts))
        expect("nothing is printed that a terminal might obey", (True, False), ("\"First 31m\"" in told, "\u009b" in told))
        self.runs.complete("--again", statuses=(1,))
        expect("tried anew", posts + 1, self.line.posts)
        self.editor.change(E, "undepend", {"on": D})
        self.runs.complete("--again")
        expect("the circle is open", [E], self.editor.tasks()[D]["depends"])
        long = "l" * 20000
        self.user.bring({**self.user.tasks()[D], "description": long, "priority": "H"})
        self.runs.complete()
        expect("a text that is too long", ("First\u009b31m", "H"), (self.editor.tasks()[D]["description"], self.editor.tasks()[D]["priority"]))
        self.user.bring({**self.user.tasks()[D], "description": "First"})
        self.runs.complete()
        expect_alike("the end of refusals", *({it: task for it, task in side.items() if it != C} for side in (self.editor.tasks(), self.user.tasks())))

    def stopped(self):
        """What a stopped run had brought over counts as brought: who takes it back on the other side isn't overruled."""
        self.editor.change(D, "modify", {"tags": ["brought"]})
        open("stop after", "w").close()
        self.runs.finish(self.runs.start(), (-9,))
        expect("brought to Taskwarrior", ["brought"], self.user.tasks()[D].get("tags"))
        self.user.task(D, "modify", "-brought")
        self.runs.complete()
        expect("taken back in Taskwarrior", ([], []), tuple(side[D].get("tags", []) for side in (self.editor.tasks(), self.user.tasks())))
        self.user.task(D, "modify", "+brought")
        # (the messages: who one is, the board's last entry, the board, the task, the call)
        expect("the fifth message", True, self.runs.stop(5, "run after"))
        expect("brought to the board", ["brought"], self.editor.tasks()[D].get("tags"))
        self.editor.change(D, "modify", {"tags": []})
        self.runs.complete()
        expect("taken back on the board", ([], []), tuple(side[D].get("tags", []) for side in (self.editor.tasks(), self.user.tasks())))

    def cut(self):
        """A run is stopped once its call was made, a colleague takes it back, and the answer that says that it was made is cut within its
        head: it isn't made again."""
        cut = []

        def whether_made(message, answer):
            if cut or b"/denotate " not in message.partition(b"\r")[0]:
                return None
            cut.append(message)
            return answer.index(b"\n") + 1

        for words, back, body in ((("done",), "reopen", {}), (("annotate", "Noted once"), "denotate", {"description": "Noted once"}), (("modify", "+once"), "modify", {"tags": []})):
            self.user.task(D, *words)
            # (the messages: who one is, the board's last entry, the board, the task, the call)
            expect("the fifth message", True, self.runs.stop(5, "run after"))
            self.editor.change(D, back, body)
            calls = self.calls(D)
            self.cut_by(whether_made)
            expect(f"{words}: the answer was cut", 1, len(cut))
            cut.clear()
            expect(f"{words}: the calls on the task", calls, self.calls(D))
            expect_alike(f"{words}, taken back", *({D: side[D]} for side in (self.editor.tasks(), self.user.tasks())))

    def cut_by(self, cuts):
        """A whole run, some of whose answers are cut."""
        self.line.cuts = cuts
        self.runs.complete()
        self.line.cuts = lambda _message, _answer: None

    def cut_anywhere(self):
        """Whichever answers are cut after whichever byte, each call is made once."""
        draw, cut = random.Random(7), []

        def some(_message, answer):
            if draw.random() < 0.6:
                return None
            cut.append(answer)
            return draw.randrange(len(answer))

        for number in range(8):
            self.user.task(D, "annotate", f"cut {number}")
            self.user.task(D, "modify", f"project:C{number}")
            before = self.calls(D)
            self.cut_by(some)
            expect(f"the calls of run {number}", ["annotate", "modify"], sorted(self.calls(D)[len(before) :]))
        return len(cut)

    def calls(self, task):
        """The calls on a task of the board, in their order."""
        return [entry["what"] for entry in self.editor.ask("GET", f"/boards/1/tasks/{task}/history")[1]["entries"]]

    @staticmethod
    def next_second():
        """Waits until the clock shows another second."""
        begun = int(time.time())
        while int(time.time()) == begun:
            time.sleep(0.02)

    def conflicts(self):
        """Of two new values one counts and the other is a note, once, wherever the run is stopped; so with a task that is closed."""
        stops, at = 0, 3
        for closed in (False, True):
            came = True
            while came:
                one, other = f"board {at} {closed}", f"task {at} {closed}"
                self.editor.change(D, "modify", {"project": one})
                is_later = at % 4 < 2
                if is_later:
                    self.next_second()
                self.user.task(D, "modify", f"project:{other}")
                if closed:
                    self.user.task(D, "done")
                if not is_later:
                    self.next_second()
                    self.editor.change(D, "modify", {"project": one})
                came = self.runs.stop(at, ("run before", "run after")[at % 2])
                self.runs.complete()
                left, right = self.editor.tasks()[D], self.user.tasks()[D]
                counts, lost = (other, one) if is_later else (one, other)
                notes = [note["description"] for note in left["annotations"]]
                expect(f"at {at}, one counts", (counts, counts), (left["project"], right["project"]))
                expect(f"at {at}, the other is noted once", 1, sum(f'"{lost}"' in note for note in notes))
                expect(f"at {at}, and in Taskwarrior", sorted(notes), sorted(note["description"] for note in right["annotations"]))
                expect(f"at {at}, the status", "completed" if closed else "pending", left["status"])
                if closed:
                    self.editor.change(D, "reopen")
                    self.runs.complete()
                stops, at = stops + came, at + 1 if came else 3
        return stops

    def closed(self):
        """An edit of a completed task opens it on the board, changes it and closes it again, wherever the run is stopped."""
        self.user.task(D, "done")
        self.runs.complete()
        at, came = 3, True
        while came:
            task = self.user.tasks()[D]
            self.user.bring({**task, "project": f"closed {at}", "tags": [f"closed{at}"]})
            came = self.runs.stop(at, ("run before", "run after")[at % 2])
            self.runs.complete()
            for side in (self.editor.tasks(), self.user.tasks()):
                expect(f"closed, at {at}", ("completed", f"closed {at}", [f"closed{at}"]), (side[D]["status"], side[D]["project"], side[D]["tags"]))
            at += 1
        self.editor.change(D, "reopen")
        self.runs.complete()
        return at - 4

    def expect_both(self, name, task, **wanted):
        """What both sides have to say of a task."""
        for side in (self.editor.tasks(), self.user.tasks()):
            expect(name, wanted, {it: side[task].get(it) for it in wanted})

    def taken_over(self):
        """Who opens, closes or deletes a completed task, after a stopped run had opened it to change it or before it came so far, isn't
        overruled."""
        # (the messages: who one is, the board's last entry, the board, the task, that it is opened, changed and closed)
        for at, stop, told, status in ((7, "run after", ("reopen",), "pending"), (5, "run before", ("reopen", "delete"), "deleted"), (5, "run after", ("delete",), "deleted")):
            self.user.task(D, "done")
            self.runs.complete()
            self.user.bring({**self.user.tasks()[D], "project": f"{at} {stop}"})
            expect(f"{stop} message {at}", True, self.runs.stop(at, stop))
            for word in told:
                self.editor.change(D, word)
            self.runs.complete()
            self.expect_both(f"{told} after a run stopped at {at}", D, status=status, project=f"{at} {stop}")
            if status != "pending":
                self.editor.change(D, "reopen")
                self.runs.complete()
        self.user.task(D, "done")
        self.runs.complete()
        self.user.bring({**self.user.tasks()[D], "project": "opened"})
        expect("the fifth message", True, self.runs.stop(5, "run after"))
        self.user.bring({**{name: value for name, value in self.user.tasks()[D].items() if name != "end"}, "status": "pending"})
        self.runs.complete()
        self.expect_both("opened in Taskwarrior too", D, status="pending", project="opened")
        self.editor.change(D, "done")
        self.runs.complete()
        self.expect_both("closed after that", D, status="completed")
        self.editor.change(D, "reopen")
        self.runs.complete()

    def met_first(self):
        """What both sides had when a run first saw them counts, also where that run was stopped: what goes from one side goes from both."""
        task = {**BASE, "uuid": F, "description": "On both", "due": "20300102T030405Z", "tags": ["both"]}
        self.user.bring(task)
        self.editor.call("import", [task])
        self.user.task(D, "modify", "project:first")
        expect("the fifth message", True, self.runs.stop(5, "run after"))
        self.user.task(F, "modify", "due:")
        self.editor.change(F, "modify", {"tags": []})
        self.runs.complete()
        self.expect_both("what went after the first look", F, due=None, tags=None)

    def templates(self):
        """A template of Taskwarrior's is handed over with what it made, wherever the run is stopped: the board repeats it from then on, and
        each instance is there once."""
        stops, at, came = 0, 4, True
        while came:
            name = f"Rent {at}"
            self.user.task("add", "recur:monthly", "due:2098-01-05", name)
            self.user.task("rc.recurrence=on", "list")
            told = self.runs.complete("--dry-run")
            expect(f"a dry run: {told}", True, f'board: add "{name}", which repeats' in told)
            came = self.runs.stop(at, ("run before", "run after")[at % 2])
            self.runs.complete()
            stops, at = stops + came, at + 1
            left = [task for task in self.editor.tasks().values() if task["description"] == name]
            right = [task for task in self.user.tasks().values() if task["description"] == name]
            (template,), made = [task for task in left if task["status"] == "recurring"], [task for task in left if "parent" in task]
            expect(f"{name} on the board", ("monthly", {template["uuid"]}), (template["recur"], {task["parent"] for task in made}))
            expect(f"{name} once each", len({task["imask"] for task in made}), len(made))
            expect(f"{name} in Taskwarrior", ({task["uuid"] for task in left}, "deleted"),
                   ({task["uuid"] for task in right}, next(task["status"] for task in right if task["uuid"] == template["uuid"])))
            self.user.task(made[0]["uuid"], "done")
            self.user.task("rc.recurrence=on", "list")
            self.runs.complete()
            expect(f"an instance of {name}", ("completed", len(left)), (self.editor.tasks()[made[0]["uuid"]]["status"], sum(task["description"] == name for task in self.editor.tasks().values())))
        expect("nothing is new", "", self.runs.complete())
        self.user.task("add", "recur:90min", "due:2098-01-05", "Blink")
        told = self.runs.complete()
        expect(f"no step of boards: {told}", True, '"Blink" is a template of Taskwarrior\'s: boards know no step "90min"' in told)
        expect("told once", "", self.runs.complete())
        return stops

    def unchanged(self):
        """A run without news asks for the board's last entry alone, and what changes on either side is seen by the next."""
        self.runs.complete()
        for change in (None, lambda: self.editor.change(D, "annotate", {"description": "seen"}), None, lambda: self.user.task(D, "modify", "+seen"), None):
            if change:
                change()
                self.runs.complete()
                expect_alike("what changed", *({D: side[D]} for side in (self.editor.tasks(), self.user.tasks())))
                self.runs.complete()
            self.line.stop_at(None, None)
            expect("nothing new", ("", 1), (self.runs.complete(), self.line.count))

    def another(self):
        """Taskwarrior that is in step with a board isn't poured into another by mistake."""
        self.editor.ask("POST", "/boards", {"title": "Another"})
        words = self.runs.words
        self.runs.words = [*(word.replace("state.json", "another.json") for word in words[:-1]), "2"]
        told = self.runs.complete(statuses=(1,))
        expect(f"another board: {told}", (True, {}), ("is in step with board 1 at" in told and "--another" in told, Editor(PORT, 2).tasks()))
        self.runs.words = words

    def purged(self):
        """What is gone from Taskwarrior stays on the board, is told once, and is deleted where that is asked for."""
        for task in (A, B):
            self.user.task(task, "delete")
            self.user.task("rc.gc=on", "all")
            self.user.task(task, "purge")
        told = self.runs.complete()
        expect("gone", (2, "pending"), (told.count("gone from Taskwarrior"), self.editor.tasks()[A]["status"]))
        expect("told once", "", self.runs.complete())
        self.editor.change(A, "modify", {"priority": "L"})
        self.runs.complete()
        expect("an edit brings it again", "L", self.user.tasks()[A]["priority"])
        self.user.task(A, "delete")
        self.user.task("rc.gc=on", "all")
        self.user.task(A, "purge")
        self.runs.complete("--delete-missing")
        expect("deleted", ("deleted", "deleted"), (self.editor.tasks()[A]["status"], self.editor.tasks()[B]["status"]))

    def strangers(self):
        """Where a side isn't the one of the last run, or may not be changed, nothing is changed."""
        said = self.runs.words
        os.rename("data", "away")
        os.mkdir("data")
        expect("another Taskwarrior", True, "look whether it is where it was" in self.runs.complete(statuses=(1,)))
        shutil.rmtree("data")
        os.rename("away", "data")
        with open("state.json") as file:
            kept = json.load(file)
        lost = json.loads(json.dumps(kept))
        lost["tasks"][str(uuids.uuid4())] = lost["tasks"][D]
        self.put("lost.json", lost)
        self.runs.words = [word.replace("state.json", "lost.json") for word in said]
        expect("a board that was restored", True, "can't be found on board 1" in self.runs.complete(statuses=(1,)))
        self.put("open", "ann-key-1")
        for name, bad, told in (("ann", "zed", "doesn't know"), ("key", "open", "chmod 600"), ("1", "7", "none on which you have a role")):
            self.runs.words = [bad if word == name else word.replace("state.json", f"{bad}.json") for word in said]
            expect(f"{bad}", True, told in self.runs.complete(statuses=(1,)))
        self.runs.words = said

    @staticmethod
    def put(name, value):
        with open(name, "w", opener=lambda path, flags: os.open(path, flags, 0o644)) as file:
            json.dump(value, file)

    def hook(self):
        """A hook of Taskwarrior's own brings each change to the board."""
        os.makedirs("data/hooks")
        with open("data/hooks/on-exit.taskboard", "w") as file:
            file.write("#!/bin/sh\ncat >/dev/null\n" + " ".join(self.runs.words) + " --quiet --for 1 2>&1 || true\n")
        os.chmod("data/hooks/on-exit.taskboard", 0o755)
        self.user.task("add", "By the hook", "project:Office")
        expect("by the hook", 1, [task["description"] for task in self.editor.tasks().values()].count("By the hook"))
        self.server.kill()
        self.user.task("add", "While the server is away")
        self.server.start()
        self.user.task("add", "Once it is there")
        expect("both", 2, sum(task["description"] in ("While the server is away", "Once it is there") for task in self.editor.tasks().values()))

    def lines(self):
        """2,000 lines of all kinds are read as the server reads them, and tasks are written as the server writes them."""
        generator, board = random.Random(5), Editor(PORT, 2)
        board.ask("POST", "/boards", {"title": "Lines"})
        pieces = ["x", "(A)", "(D)", "(a)", "2026-01-31", "2026-02-30", "1969-12-31", "+p", "+", "@t", "@", "+q", "due:2026-03-01", "due:soon", "due:", "uuid:1", "word", "  ", "\t", "é", "a\x01b", "\x7f", "\\", "t:1", "\u00a0", "\u2028"]
        lines = {}
        for _ in range(2000):
            text = generator.choice(("", "", " ")) + " ".join(generator.choices(pieces, k=generator.randint(1, 7)))
            task = str(uuids.UUID(int=generator.getrandbits(128), version=4))
            lines[task] = f"{text} uuid:{task}"
        for start in range(0, 2000, 1000):
            board.ask("GET", "/me")
            board.connection.request("POST", "/boards/2/import-todo", "".join(f"{line}\n" for line in list(lines.values())[start : start + 1000]).encode(),
                                     {"x-member": "ann", "x-key": "ann-key-1", "x-request-id": str(uuids.uuid4())})
            answer = board.connection.getresponse()
            expect(f"import: {answer.read()}", 200, answer.status)
        tasks = board.tasks()
        for task, text in lines.items():
            line, there = TodoLine(text), tasks[task]
            expect(repr(text), (line.description, line.project, line.due, sorted({*line.tags}), line.done, line.view().get("=priority")),
                   (there["description"], there.get("project"), there.get("due"), there.get("tags", []), there["status"] == "completed", there.get("priority")))
        board.connection.request("GET", "/boards/2/todo", headers={"x-member": "ann", "x-key": "ann-key-1"})
        written = board.connection.getresponse().read().decode().split("\n")[:-1]
        for line, (task, there) in zip(written, tasks.items()):
            expect(task, line, spell(task, TodoLine(lines[task]).view(), there["entry"], there.get("end")))
        return len(lines)

    def run(self):
        self.first()
        self.unfit()
        self.refused()
        self.stopped()
        self.cut()
        cut = self.cut_anywhere()
        stops = self.conflicts() + self.closed()
        self.taken_over()
        self.met_first()
        handed = self.templates()
        self.unchanged()
        self.another()
        self.purged()
        self.strangers()
        self.hook()
        print(f"filters, unfit values, refusals, templates, purged tasks, strangers, a hook; conflicts and edits of a completed task stopped at {stops} messages in turn, templates handed over at {handed}, {cut} answers cut anywhere; {self.lines()} lines read and written as the server does")


if __name__ == "__main__":
    run_whole(Scenes(), SEED)

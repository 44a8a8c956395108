"""One run of a bridge: both sides are read and merged with what both had after the last run, and each gets what changed on the other.

A run may be stopped anywhere. What it does is kept before it is done. Calls are named by what they do, so the next run learns of each
whether it was made, and makes none twice; it takes what was done as what both sides have, and finds the rest changed again."""
import hashlib
import json
import re
import uuid

from taskboard_bridges import board_tasks
from taskboard_bridges.asking import REASONS
from taskboard_bridges.board_tasks import Call, calls_of, identifier, is_template, view_of
from taskboard_bridges.fault import Fault
from taskboard_bridges.merging import LINK, NOTE, STARTED, STATUS, TAG, UNFIT, VALUE, after, merge, plain

MOST_PASSES = 5
# A note has to be shorter than a text of the board.
MOST_NOTE = 8000


class Change:
    """What a task of the other side becomes: its view, the keys that change, the board's task, and what was read of it there."""

    def __init__(self, task, target, keys, left, read):
        self.task, self.target, self.keys, self.left, self.read = task, target, keys, left, read
        self.is_new = read is None


class Plan:
    """What one pass does: the tasks that are new on the board, those that change, and the changes of the other side."""

    def __init__(self):
        self.lefts, self.rights, self.linkable, self.places = {}, {}, set(), {}
        self.adds, self.merges, self.changes, self.bases, self.templates = {}, {}, {}, {}, {}
        self.skipped, self.calls = set(), {}

    def is_empty(self):
        """Whether there is nothing to do."""
        return not (self.adds or self.merges or self.changes or self.templates or self.skipped)


class Sync:
    """A run between a board and another tool. What it keeps stands in its state alone, which is saved before calls that a stopped run
    has to know of, and after each pass."""

    def __init__(self, boards, board, right, state, seen, options, tell=print):
        self.boards, self.board, self.right, self.state, self.seen, self.options, self.tell_user = boards, board, right, state, seen, options, tell
        self.counts = dict.fromkeys(("added", "changed", "made", "written", "conflicts", "refused", "gone"), 0)
        self.refusals, self.not_taken = set(), 0

    def say(self, text, is_important=False):
        """Tells the user something; only what is important where it has to be quiet."""
        if is_important or not self.options.quiet:
            self.tell_user(text)

    def run(self):
        """Passes until nothing changed meanwhile on either side; whether all was taken."""
        role = self.boards.role(self.board)
        if role not in ("owner", "member"):
            raise Fault(f"board {self.board}: " + ("there is none on which you have a role" if role is None else f"a {role} may change nothing") + ". Ask an owner for the role member")
        self.right.begin()
        self.look_elsewhere()
        if self.options.dry_run:
            self.dry_run()
            return True
        self.seen.forget()
        self.right.prepare(self)
        self.state.save()
        for _ in range(MOST_PASSES):
            self.settle()
            files = self.right.files()
            mark = self.seen.look(self.boards, self.board, files) if files else None
            self.not_taken = 0
            plan = self.plan()
            self.act(plan)
            if not plan.skipped:
                break
        else:
            self.say(f"{counted(len(plan.skipped), 'task')} changed again and again meanwhile: run it again", True)
        self.summary()
        is_whole = not self.refusals and not plan.skipped and not self.not_taken
        if is_whole and mark and plan.is_empty():
            self.seen.keep(mark, self.boards, self.board)
        return is_whole

    def look_elsewhere(self):
        """Ends a first run where the other side is in step with another board already, but where that is wanted."""
        place = self.right.identity()
        if self.state.is_new and not self.options.another:
            for about in self.state.others(place):
                raise Fault(f"{self.right.place()} is in step with board {about['board']} at {about['address']}. Nothing was changed. "
                            f"To have the tasks of both on board {self.board} and there, say --another")
        self.state.more["place"] = place

    def summary(self):
        """Tells how much was done."""
        if any(self.counts.values()):
            self.say("board: {added} new, {changed} changed; {name}: {made} new, {written} changed; conflicts {conflicts}, refused {refused}, gone {gone}".format(
                name=self.right.name, **self.counts))
        if self.refusals:
            self.say("what was refused stays where it is; it is tried anew once its task changes, or by --again", True)

    def dry_run(self):
        """Says what a run would do, and changes nothing, the state neither."""
        plan = self.plan()
        for template in plan.templates.values():
            self.say(f"board: add {template.name()}, which repeats, and delete it {self.right.where}", True)
        for task in plan.adds:
            self.say(f"board: add {self.label(plan, task)}", True)
        for task, merged in plan.merges.items():
            for call in self.calls(plan, task, merged):
                self.say(f"board: {call.word} {self.label(plan, task)}{self.named(plan, call.keys)}", True)
        for change in plan.changes.values():
            self.say(f"{self.right.name}: {'add' if change.is_new else 'change'} {self.label(plan, change.task)}{'' if change.is_new else self.named(plan, change.keys)}", True)

    # What a stopped run left.

    def settle(self):
        """Makes the notes of conflicts that a stopped run may have made or not, and learns which tasks it opened and hasn't closed; then
        takes what it did as what both sides have."""
        for owed in self.state.owed:
            self.boards.call(owed["id"], f"/boards/{self.board}/tasks/{owed['task']}/annotate", Call("annotate", {"description": owed["note"]}, []).bytes())
        for task, opened in list(self.state.reopened.items()):
            if not self.was_made(task, {"id": opened["id"], "target": f"/boards/{self.board}/tasks/{task}/reopen", "body": "{}"}):
                del self.state.reopened[task]
        if self.state.pending:
            pending, written = self.state.pending, self.right.marks.tasks()
            known = {owed["id"] for owed in self.state.owed}
            for task, done in pending.items():
                made = {call["id"]: call["id"] in known or self.was_made(task, call) for call in done["calls"]}
                self.take(task, done, made, task in written)
                if any(made[call["id"]] and call["target"].endswith(("/done", "/delete")) for call in done["calls"]):
                    # It is closed again: whoever opens it from now on is somebody else.
                    self.state.reopened.pop(task, None)
            self.state.pending = None
        self.state.save()
        self.right.marks.clear()

    def was_made(self, task, call):
        """Whether a call was made and accepted. Its identifier is used for what is refused in any case: where it was used before, the
        answer says so, and the call itself gets the answer that was kept; where not, it is used now, and the call can't come any more."""
        probe = Call("denotate", {"description": str(call["id"])}, [])
        return (self.boards.was_used(call["id"], probe.target(self.board, task), probe.bytes())
                and self.boards.call(call["id"], call["target"], call["body"].encode("utf-8", "replace")).is_accepted())

    def take(self, task, done, made, is_written):
        """Takes what was done for a task as what both sides have; what wasn't is found again."""
        entry = self.state.entry(task)
        entry["turn"] += 1
        if "new" in done:
            if is_written or any(made.values()):
                entry["left"], entry["right"] = done["new"]
                entry.pop("gone", None)
            return
        failed = {key for call in done["calls"] if not made[call["id"]] for key in call["keys"]}
        missing = set(done["left"]) - {key for call in done["calls"] for key in call["keys"]} | failed
        if not is_written:
            missing |= set(done["right"])
        if STATUS in missing:
            missing.add(STARTED)
        pairs = {key: pair for key, pair in done["pairs"].items() if key not in missing}
        for side, at in (("left", 0), ("right", 1)):
            kept = {key: value for key, value in (entry[side] or {}).items() if key not in pairs}
            entry[side] = {**kept, **{key: pair[at] for key, pair in pairs.items() if pair[at] is not None}}

    # What is to be done.

    def plan(self):
        """Reads both sides and merges them. Nothing is changed."""
        plan = Plan()
        plan.lefts = {task["uuid"]: task for task in self.boards.tasks(self.board)}
        plan.places = {task: at for at, task in enumerate(plan.lefts, 1)}
        plan.rights, plan.templates = self.right.read(self, plan.lefts)
        self.look_first(plan)
        handed_over = {it.raw["uuid"] for template in plan.templates.values() for it in template.made}
        plan.linkable = {task for task in {*plan.lefts, *plan.rights} - handed_over if self.is_shared(plan, task)}
        for task in [*plan.lefts, *(it for it in plan.rights if it not in plan.lefts)]:
            if task in plan.linkable:
                self.plan_task(plan, task)
        return plan

    def base(self, task):
        """What both sides had of a task after the last run; None at the first meeting."""
        entry = self.state.tasks.get(task)
        return (entry["left"], entry["right"]) if entry and entry["left"] is not None else None

    def look_first(self, plan):
        """Ends the run where a side isn't the one of the last run, before anything is changed."""
        known = [task for task in self.state.tasks if self.base(task)]
        lost = [task for task in known if task not in plan.lefts]
        if lost:
            raise Fault(f"{len(lost)} of the last run's {counted(len(known), 'task')} can't be found on board {self.board}: it was restored from a copy, or is another one. "
                        f"Nothing was changed. To begin anew, with both sides as they are, remove {self.state.path}")
        present = [task for task in known if not self.state.tasks[task].get("gone")]
        if len(present) > 2 and not any(task in plan.rights for task in present):
            raise Fault(f"none of the {len(present)} tasks of the last run is in {self.right.place()}: look whether it is where it was. "
                        f"Nothing was changed. To begin anew, with both sides as they are, remove {self.state.path}")

    def is_shared(self, plan, task):
        """Whether a task is on both sides or comes to the other: templates are the board's alone."""
        left, right = plan.lefts.get(task), plan.rights.get(task)
        if left and is_template(left):
            return False
        if left and right or self.base(task):
            return True
        return self.right.takes(left) if left else right.is_wanted and right.view[STATUS] != "deleted"

    @staticmethod
    def view(plan, view):
        """A view without the links that one side doesn't know."""
        return {key: value for key, value in view.items() if key[0] != LINK or key[1:] in plan.linkable}

    def left_view(self, plan, task):
        """A board's task as the other side can know it. One that a stopped run opened counts as closed."""
        view = self.view(plan, view_of(plan.lefts[task]))
        if task in self.state.reopened and view[STATUS] == "open":
            view[STATUS] = self.state.reopened[task]["status"]
        return self.right.seen(view)

    def plan_task(self, plan, task):
        """Plans what becomes of a task."""
        left, right = plan.lefts.get(task), plan.rights.get(task)
        if not left:
            plan.adds[task] = self.view(plan, right.view)
        elif not right:
            self.plan_missing(plan, task)
        else:
            self.plan_merge(plan, task, right)

    def plan_missing(self, plan, task):
        """A task that the other side lacks: it is new there, or gone from there."""
        entry, view = self.state.tasks.get(task), self.left_view(plan, task)
        if self.base(task) and not comes_again(entry, view):
            if not entry.get("gone") or self.options.delete_missing:
                self.gone(plan, task, entry, view)
            return
        target = {}
        for key, value in view.items():
            fit = self.right.to_right(key, value, None)
            if fit is UNFIT:
                self.tell_unfit(plan, task, key, False)
            elif fit is not None:
                target[key] = fit
        plan.changes[task] = Change(task, target, list(target), plan.lefts[task], None)
        plan.bases[task] = (view, self.right.read_back(task, target))

    def gone(self, plan, task, entry, view):
        """A task that was on the other side, and isn't any more. It is told of once, and deleted where that was asked for."""
        if view[STATUS] == "open":
            self.counts["gone"] += 1
            if self.options.delete_missing:
                merged = merge((view, view), view, {**view, STATUS: "deleted"}, Alike, None)
                plan.merges[task] = merged
                plan.bases[task] = (view, view)
                return
            self.say(f"gone from {self.right.name}: {self.label(plan, task)} stays on the board (--delete-missing deletes it there)", True)
        entry.update(gone=True, left=view)

    def plan_merge(self, plan, task, right):
        """Plans what becomes of a task that both sides have."""
        left_view, right_view = self.left_view(plan, task), self.view(plan, right.view)
        if task not in self.state.reopened and left_view[STATUS] != "deleted" and self.right.read_back(task, left_view) == right_view:
            plan.bases[task] = (left_view, right_view)
            return
        wins = self.winner(task, plan.lefts[task].get("modified", ""), right.modified)
        merged = merge(self.base(task), left_view, right_view, self.right, wins)
        for key, is_by_board in merged.unfit.items():
            self.tell_unfit(plan, task, key, is_by_board)
        for conflict in merged.conflicts:
            self.note_conflict(plan, task, merged, conflict, left_view, right_view)
        if merged.left or task in self.state.reopened:
            plan.merges[task] = merged
        plan.bases[task] = merged
        if merged.right:
            target = self.right.target(merged, right_view)
            merged.read_back(self.right.read_back(task, target), right_view)
            plan.changes[task] = Change(task, target, list(merged.right), plan.lefts[task], right)

    def owed(self, task, key, left, right):
        """The note that a stopped run decided on for this conflict."""
        return next((it for it in self.state.owed if (it["task"], it["key"], it["left"], it["right"]) == (task, key, left, right)), None)

    def winner(self, task, left_modified, right_modified):
        """Which of two new values counts: as a run decided that was stopped, else that of the side that was changed last; the board's
        where both were in the same second."""
        def left_wins(key, left, right):
            owed = self.owed(task, key, left, right)
            return owed["left_wins"] if owed else left_modified >= right_modified
        return left_wins

    def note_conflict(self, plan, task, merged, conflict, left_view, right_view):
        """Tells of a conflict, and makes the value that lost a note on both sides."""
        name, lost = conflict.key.removeprefix(VALUE), conflict.lost()
        if conflict.key == STARTED or lost is None and not self.base(task) or self.owed(task, conflict.key, conflict.left, conflict.right):
            return
        note = re.sub(r"[\x00-\x1f\x7f]", " ", f"sync: {name} {was(lost)} {self.right.where if conflict.left_wins else 'on the board'}")[:MOST_NOTE]
        key = NOTE + note
        if key in left_view:
            return
        self.counts["conflicts"] += 1
        self.say(f"conflict: {self.label(plan, task)}: {note.removeprefix('sync: ')}, which is kept as a note; "
                 f"{name} {was(conflict.left if conflict.left_wins else conflict.right)} {'on the board' if conflict.left_wins else self.right.where}, which counts", True)
        count, other = left_view.get(key, 0), right_view.get(key, 0)
        fits = self.right.to_right(key, other + 1, None) is not UNFIT
        merged.put(key, count or None, other or None, count + 1, other + 1 if fits else other or None)
        conflict.owed = {"task": task, "key": conflict.key, "left": conflict.left, "right": conflict.right, "left_wins": conflict.left_wins,
                         "note": note, "id": self.identifier(task, Call("annotate", {"description": note}, [key]))}

    # How it is done.

    def act(self, plan):
        """Does what is planned. The plan is kept before, and what both sides have is kept after."""
        self.keep_plan(plan)
        for template in plan.templates.values():
            self.hand_over(plan, template)
        for task in plan.adds:
            self.add(plan, task)
        done = {task: self.change(plan, task, merged) for task, merged in plan.merges.items()}
        changes = {task: change for task, change in plan.changes.items() if task not in plan.skipped}
        written, refused = self.right.write(changes) if changes else (set(), {})
        for task, why in refused.items():
            self.refuse(plan, task, self.right.name, why)
        for task in written:
            self.counts["made" if changes[task].is_new else "written"] += 1
            self.say(f"{self.right.name}: {'add' if changes[task].is_new else 'change'} {self.label(plan, task)}{'' if changes[task].is_new else self.named(plan, changes[task].keys)}")
        plan.skipped |= set(changes) - written - set(refused)
        self.keep_bases(plan, plan.bases, done, written)
        for task in plan.adds:
            if task not in plan.bases:
                # The next try is another call.
                self.state.entry(task)["turn"] += 1
        self.state.pending = None
        self.state.save()
        self.right.marks.clear()

    def keep_plan(self, plan):
        """Keeps what the run is about to do, as the next one has to know of it where this one is stopped; and which tasks both sides have
        alike, so that the next one sees what changes from now on."""
        alike = {task: merged for task, merged in plan.bases.items() if task not in plan.changes and task not in plan.merges}
        self.keep_bases(plan, alike, {}, set())
        for merged in plan.bases.values():
            self.state.owed += [conflict.owed for conflict in getattr(merged, "conflicts", ()) if hasattr(conflict, "owed")]
        for task, merged in plan.merges.items():
            plan.calls[task] = calls = self.calls(plan, task, merged)
            if len(calls) > 1 and calls[0].word == "reopen" and calls[-1].word in ("done", "delete"):
                self.state.reopened[task] = {"id": self.identifier(task, calls[0]), "status": plan.lefts[task]["status"]}
        plan.adds = {task: plan.adds[task] for task in in_order(plan.adds)}
        for task in plan.adds:
            plan.calls[task] = [self.adding(plan, task, {*plan.lefts, *plan.calls})]
        tasks = {*plan.calls, *plan.changes}
        if tasks:
            self.state.pending = {task: self.pending(plan, task) for task in sorted(tasks)}
            self.state.save()

    def pending(self, plan, task):
        """What is kept of a task before it is changed."""
        merged, calls = plan.bases[task], plan.calls.get(task, ())
        kept = [{"id": self.identifier(task, call), "target": call.target(self.board, task), "body": call.bytes().decode(), "keys": call.keys}
                for call in calls if call.keys]
        if isinstance(merged, tuple):
            return {"calls": kept, "new": merged} if task not in plan.merges else {"calls": [], "left": [], "right": [], "pairs": {}}
        return {"calls": kept, "left": list(merged.left), "right": list(merged.right), "pairs": merged.base}

    def identifier(self, task, call):
        """What names a call on a task from its present base."""
        return identifier(self.state.replica, self.board, task, self.state.entry(task)["turn"], call)

    def calls(self, plan, task, merged):
        """The calls that bring a board's task to what it has to be, but for those that were refused."""
        entry = self.state.tasks.get(task)
        left, base = plan.lefts[task], merged.base
        target = {key: pair[0] for key, pair in base.items() if pair[0] is not None}
        refused = {} if self.options.again or not entry else entry["refused"]
        return calls_of(left, merged.left, target, task in self.state.reopened, lambda call: self.digest(plan, task, call) not in refused)

    def digest(self, plan, task, call):
        """What tells whether a call that was refused would be made for the same reason: the call, and how the task is on both sides."""
        right, left = plan.rights.get(task), plan.lefts.get(task)
        about = [call.text(), right and right.modified, left and view_of(left)[STATUS]]
        return hashlib.sha256(json.dumps(about).encode()).hexdigest()[:16]

    def send(self, plan, task, call):
        """Whether a call is accepted. A refusal is kept with what it was about: the call isn't made again until that changes."""
        entry = self.state.entry(task)
        digest = self.digest(plan, task, call)
        if digest in entry["refused"] and not self.options.again:
            self.refuse(plan, task, self.told(plan, call), f"{entry['refused'][digest]}, as before (--again tries it anew)")
            return False
        answer = self.boards.call(self.identifier(task, call), call.target(self.board, task), call.bytes())
        if answer.is_accepted():
            entry["refused"].pop(digest, None)
            self.say(f"board: {call.word} {self.label(plan, task)}{self.told(plan, call).removeprefix(call.word)}")
            return True
        if call.word == "modify" and len(call.keys) > 1:
            return None
        entry["refused"][digest] = answer.name()
        why = answer.name()
        self.refuse(plan, task, self.told(plan, call), f"{why} ({REASONS[why]})" if why in REASONS else why)
        return False

    def refuse(self, plan, task, what, why):
        """Tells of a refusal, once a run."""
        if (task, what) not in self.refusals:
            self.refusals.add((task, what))
            self.counts["refused"] += 1
            self.say(f"refused: {self.label(plan, task)}: {what}: {why}", True)

    def adding(self, plan, task, there):
        """The call that adds a task to the board, with those of its links whose tasks are there."""
        right, view = plan.rights[task], {}
        for key, value in plan.adds[task].items():
            fit = self.right.to_left(key, value, None)
            if fit is UNFIT:
                self.tell_unfit(plan, task, key, True)
            elif fit is not None and (key[0] != LINK or key[1:] in there):
                view[key] = fit
        kept = {key: value for key, value in plan.adds[task].items() if key[0] != LINK or key in view}
        plan.bases[task] = (view, kept)
        return board_tasks.added(task, view, right.moments())

    def hand_over(self, plan, template):
        """Brings a template to the board with what it made, and then ends it on the other side: from then on the board alone repeats it.
        A run that was stopped between is gone on with by the next, since an import brings nothing twice."""
        why = None if template.task in plan.lefts else self.import_template(template)
        if why:
            # What it made comes as plain tasks, by the next pass.
            self.state.entry(template.task)["refused"]["template"] = why
            self.refuse(plan, template.task, "to repeat it", why)
        elif self.right.end(template):
            self.counts["added"] += 1
            self.say(f"handed over: {template.name()} repeats on the board from now on; {self.right.where} it is deleted, and what it made stays", True)
        else:
            self.refuse(plan, template.task, f"to delete it {self.right.where}", "the board repeats it too, so each comes twice: delete it there")
            return
        plan.skipped.add(template.task)

    def import_template(self, template):
        """Brings a template to the board with what it made; why that was refused, or None."""
        for tasks in template.parts():
            data = json.dumps(tasks, ensure_ascii=False, sort_keys=True).encode("utf-8", "replace")
            name = uuid.uuid4() if self.options.again else uuid.uuid5(uuid.UUID(self.state.replica), hashlib.sha256(data).hexdigest())
            answer = self.boards.call(str(name), f"/boards/{self.board}/import", data)
            if not answer.is_accepted():
                return answer.name()
        return None

    def add(self, plan, task):
        """Adds a task to the board. Where a task that it waits for couldn't be added it comes without that link."""
        call = plan.calls[task][0]
        if any(key[0] == LINK and key[1:] not in plan.lefts for key in plan.bases[task][0]):
            call = self.adding(plan, task, plan.lefts)
            plan.calls[task] = [call]
            self.state.pending[task] = self.pending(plan, task)
            self.state.save()
        if self.send(plan, task, call):
            self.counts["added"] += 1
            plan.lefts[task] = {"uuid": task}
            if len(plan.bases[task][1]) < len(plan.adds[task]):
                # Links that close a circle are refused by themselves.
                plan.skipped.add(task)
        else:
            del plan.bases[task]

    def change(self, plan, task, merged):
        """Brings a task of the board to what it has to be; the keys for which that was done."""
        if self.boards.task(self.board, task) != plan.lefts[task]:
            plan.skipped.add(task)
            return set()
        done, failed, calls = set(), set(), list(plan.calls[task])
        made: list[Call] = []
        if task in self.state.reopened and merged.left.get(STATUS) == "open" == view_of(plan.lefts[task])[STATUS]:
            # It stays as a stopped run opened it.
            done.add(STATUS)
        self.tell_refused_before(plan, task, merged, calls)
        while calls:
            call = calls.pop(0)
            accepted = self.send(plan, task, call)
            if accepted is None:
                calls = [*split(call), *calls]
                plan.calls[task] = [*made, *calls]
                self.state.pending[task] = self.pending(plan, task)
                self.state.save()
            elif accepted:
                made.append(call)
                done |= set(call.keys)
            else:
                failed |= set(call.keys)
                if call.word == "reopen":
                    break
        if done:
            self.counts["changed"] += 1
        return done - failed

    def tell_refused_before(self, plan, task, merged, calls):
        """Tells of changes for which no call is made, since it was refused before."""
        entry = self.state.tasks.get(task)
        if entry and entry["refused"] and not self.options.again:
            missing = set(merged.left) - {key for call in calls for key in call.keys}
            for why in sorted(set(entry["refused"].values())) if missing else ():
                self.refuse(plan, task, f"change{self.named(plan, sorted(missing))}", f"{why}, as before (--again tries it anew)")

    def keep_bases(self, plan, bases, done, written):
        """Takes what both sides have now of some tasks as what they have in common."""
        for task, merged in bases.items():
            entry = self.state.entry(task)
            before = json.dumps([entry["left"], entry["right"]], sort_keys=True)
            if isinstance(merged, tuple):
                if task in written or task not in plan.changes and task not in plan.merges:
                    entry["left"], entry["right"] = merged
                    entry.pop("gone", None)
                elif task in done and STATUS in done[task]:
                    entry.update(gone=True, left={**merged[0], STATUS: "deleted"})
            else:
                keys = set(merged.right) if task in written else set()
                entry["left"], entry["right"] = after(self.base(task), merged, done.get(task, set()), keys)
                entry.pop("gone", None)
            self.settled(plan, task, entry, before)

    def settled(self, plan, task, entry, before):
        """What was kept for a stopped run goes, and so do refusals where nothing is to be changed any more; the next calls on a task that
        changed get new identifiers."""
        if task not in plan.skipped:
            self.state.owed = [owed for owed in self.state.owed if owed["task"] != task]
            self.state.reopened.pop(task, None)
        if task not in plan.merges and task not in plan.adds:
            entry["refused"] = {}
        if task in plan.merges or json.dumps([entry["left"], entry["right"]], sort_keys=True) != before:
            entry["turn"] += 1

    # How it is told.

    def label(self, plan, task):
        """A task as it is told to the user."""
        left, right = plan.lefts.get(task, {}), plan.rights.get(task)
        text = left.get("description") or (right.view.get(VALUE + "description") if right else "")
        place = f"{plan.places[task]} " if task in plan.places else ""
        return place + json.dumps(str(text)[:60], ensure_ascii=False)

    def named(self, plan, keys):
        """The keys as a user knows them."""
        names = []
        for key in keys:
            rest = key[1:81]
            if key[0] == LINK:
                names.append(f"waits for {self.label(plan, key[1:])}")
            else:
                names.append({VALUE: rest, TAG: f"tag {rest}", NOTE: f"note {json.dumps(rest[:40], ensure_ascii=False)}"}.get(key[0], key))
        return " " + ", ".join(names) if names else ""

    def told(self, plan, call):
        """A call as it is told: a new task's is told by its word."""
        return call.word + ("" if call.word == "add" else self.named(plan, call.keys))

    def tell_unfit(self, plan, task, key, is_by_board):
        """Tells once, ever, that a value stays on one side; the state keeps that it was told."""
        if self.state.tell_once(f"{task} {key}"):
            lacking, keeping = ("on the board", self.right.where) if is_by_board else (self.right.where, "on the board")
            self.say(f"not taken: {self.label(plan, task)}:{self.named(plan, [key])} can't be kept {lacking}, and stays {keeping}", True)


def comes_again(entry, view):
    """Whether a task of the board that went from the other side comes there anew: it was opened since, or changed after that was told."""
    was_closed = entry["left"].get(STATUS, "open") != "open"
    return view[STATUS] == "open" and (was_closed or bool(entry.get("gone")) and view != entry["left"])


class Alike:
    """Both sides hold the same."""

    @staticmethod
    def to_left(_key, value, _like):
        return value

    @staticmethod
    def to_right(_key, value, _like):
        return value


def was(value):
    """A value as notes and messages tell it."""
    return "was removed" if value is None else f"was {json.dumps(plain(value), ensure_ascii=False)}"


def counted(number, what):
    """A number of things."""
    return f"{number} {what}{'' if number == 1 else 's'}"


def split(call):
    """The calls that set one attribute each, in place of one that sets all and was refused."""
    parts: list[Call] = []
    for key in call.keys:
        name = key[1:] if key[0] == VALUE else "tags"
        part = Call(call.word, {name: call.body[name]}, [key])
        if not any(it.body == part.body for it in parts):
            parts.append(part)
        else:
            next(it for it in parts if it.body == part.body).keys.append(key)
    return parts


def in_order(adds):
    """The new tasks, each after those that it waits for."""
    ordered, seen = [], set()
    for first in adds:
        stack = [(first, False)]
        while stack:
            task, is_left = stack.pop()
            if is_left:
                ordered.append(task)
            elif task not in seen:
                seen.add(task)
                stack.append((task, True))
                stack += [(key[1:], False) for key in sorted(adds[task]) if key[0] == LINK and key[1:] in adds]
    return ordered

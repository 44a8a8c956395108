// Undo and redo of what was done in this tab: each group of changes that was made together has its way back, which expects what the group set. What
// somebody else has changed since isn't overwritten without a word.
import { changes } from "../core/calls.js";
import { changedSince, inverseOf, wordOf } from "../core/inverse.js";
import { listen } from "../core/news.js";
import { keepEach, keepGroups } from "../sync/outbox.js";
import { state } from "./store.js";

const MOST = 50;
// What can be undone and what can be redone, the last at the end: each with the steps that take it back.
let [done, undone] = [[], []];
// Whether what is made just now takes something back, or does it once more.
let mode = "do";

const toldOf = ({ board, task }) => (state.board?.number === board ? state.board.byId.get(task)?.told : undefined);

// A title or a role as it was before a change of it.
function valueBefore(change) {
    const word = wordOf(change);
    if (word === "title") return state.boards.find(({ board }) => board === change.board)?.title;
    if (word !== "roles" || change.board !== state.number || !state.people) return undefined;
    const { member } = JSON.parse(change.body);
    return state.people.find(({ name }) => name === member)?.role ?? null;
}

function stepsBack(change) {
    const steps = inverseOf(change, { told: toldOf(change), before: valueBefore(change) });
    return steps.map((step) => ({ ...step, board: change.board, task: change.task, subject: change.subject }));
}

// Notes changes as they are made: by then the tasks are shown as they were.
function note(made) {
    // (of what others follow there is no way back)
    const steps = made.map((change) => (change.follows ? [] : stepsBack(change)));
    if (steps.some((back) => back.length === 0)) return;
    const { verb, subject, group } = made[0];
    const noted = { steps: steps.reverse().flat(), ids: made.map(({ id }) => id), verb, subject, count: made.length, isWhole: group !== "" };
    if (mode === "undo") undone = [...undone, noted].slice(-MOST);
    else done = [...done, noted].slice(-MOST);
    if (mode === "do") undone = [];
}

// The change that a step is, of its task as it is by now.
function changeOf({ word, content, expects, board, task: uuid, subject }) {
    const task = (state.board?.number === board && state.board.byId.get(uuid)) || { uuid, description: subject, told: {} };
    if (word === "title") return changes.title(board, content.title);
    if (word === "roles") return changes.role(board, content.member, content.role);
    if (word === "modify") return { ...changes.modify(board, task, content), base: expects };
    if (word === "annotate" || word === "denotate") return changes[word](board, task, content.description);
    if (word === "depend" || word === "undepend") return changes[word](board, task, content.on);
    return changes.act(board, task, word);
}

// What somebody has changed since of what a group had set: the members with what they are now.
function conflictsOf({ steps }) {
    return steps.filter(({ word }) => word === "modify").flatMap((step) => {
        const told = toldOf(step);
        return told ? changedSince(step, told).map((other) => ({ ...other, task: step.task, subject: step.subject })) : [];
    });
}

function take(group, wanted) {
    const made = group.steps.map((step) => ({ ...changeOf(step), isOneOfMany: true }));
    mode = wanted;
    // (what is made is noted before anything is awaited)
    const sent = group.isWhole || group.count === 1 ? keepGroups([made]) : keepEach(made);
    mode = "do";
    return sent;
}

// Does what makes changes, and gives the group that they are, where there is a way back from all of them.
export function doing(work) {
    const before = done.at(-1);
    const sent = work();
    const group = done.at(-1);
    return { sent, group: group === before ? null : group };
}

export const lastDone = () => done.at(-1);
export const groupOf = ({ id }) => done.find(({ ids }) => ids.includes(id));

// Takes a group back, the last one where none is given. Where somebody has changed the same since nothing is sent, unless it is meant all the same.
export function undo(group = done.at(-1), isMeant = false) {
    if (!group) return {};
    const conflicts = isMeant ? [] : conflictsOf(group);
    if (conflicts.length > 0) return { group, conflicts };
    done = done.filter((other) => other !== group);
    return { group, conflicts, sent: take(group, "undo") };
}

// Does once more what was taken back last.
export function redo() {
    const group = undone.at(-1);
    undone = undone.slice(0, -1);
    return group ? { group, sent: take(group, "redo") } : {};
}

export function beginUndo() {
    listen("made", note);
    listen("left", () => ([done, undone] = [[], []]));
}

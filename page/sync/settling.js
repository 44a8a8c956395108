// What becomes of a change on this device once it is answered, and whether one that waited over a broken line may still be sent.
import { withoutOne } from "../import/cut.js";
import { lookAtDeedsOf, sets } from "./entries.js";
import { look, NoAnswer } from "./http.js";

// How a task looks after each action: where it looks so already, somebody else did the same before.
const AFTER = {
    done: ({ status }) => status === "completed",
    delete: ({ status }) => status === "deleted",
    reopen: ({ status }) => status === "pending" || status === "waiting",
    start: ({ start }) => Boolean(start),
    stop: ({ status, start }) => status === "pending" && !start,
};

const actionOf = (change) => change.path.split("/").at(-1);
const taskOf = async (who, change) => JSON.parse(await look(who, `/boards/${change.board}/tasks/${change.task}`));

// Who did something to a task last, of those deeds that count; where the server has no history, the only other person who may change the board.
async function lastOf(who, { board, task }, counts) {
    const told = await lookAtDeedsOf(who, board, task);
    if (told) return told.entries.findLast(counts)?.member ?? "";
    const { people } = JSON.parse(await look(who, `/boards/${board}/people`));
    const others = people.filter(({ name, role }) => name !== who.name && role !== "reader");
    return others.length === 1 ? others[0].name : "";
}

// Where a refused action has happened all the same: who did it, where that is known. Nothing where it hasn't.
async function doneBefore(who, change, body) {
    const action = actionOf(change);
    if (body.name !== "WrongStatus" || !AFTER[action]) return null;
    try {
        return AFTER[action](await taskOf(who, change)) ? { by: await lastOf(who, change, ({ what }) => what === action) } : null;
    } catch {
        return null;
    }
}

// What is set of a change that was answered, which is told until it is read; nothing where all is said. A refused one keeps its text, and
// those of its group that were to follow it; a part of an import keeps what is left without the task that was refused.
export async function afterAnswer(who, change, { status, body }, behind) {
    if (status === 200) return change.reports || change.follows ? { state: "done", body: "", answer: body } : null;
    const before = await doneBefore(who, change, body);
    if (before) return { ...before, state: "already" };
    const refused = { state: "refused", answer: body, behind, takenBack: behind.length };
    if (!change.reports) return refused;
    const { culprit, rest } = body.at === undefined ? { culprit: "", rest: "" } : withoutOne(change.path, change.body, body.at);
    return { ...refused, culprit, body: rest };
}

const isSame = (one, other) => JSON.stringify(one ?? null) === JSON.stringify(other ?? null);

// What has changed of the task while a change waited, so that its person has to be asked: its description, and what is edited. Its own
// effect is no such news, since it may have acted with its answer lost.
export async function doubtAbout(who, change) {
    if (!change.task || change.adds) return null;
    const whoSet = (name) => lastOf(who, change, sets(name));
    try {
        const now = await taskOf(who, change);
        const edits = change.base ? JSON.parse(change.body) : {};
        if (![...change.known, edits.description].includes(now.description)) return { name: "description", was: change.subject, is: now.description, by: await whoSet("description") };
        const name = Object.keys(edits).find((name) => !isSame(now[name], change.base[name]) && !isSame(now[name], edits[name]));
        return name ? { name, was: change.base[name], is: now[name] ?? null, by: await whoSet(name) } : null;
    } catch (fault) {
        if (fault instanceof NoAnswer) throw fault;
        return null; // It is refused when it is sent.
    }
}

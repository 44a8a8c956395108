// Tasks as changes that the server hasn't told of yet will leave them.
import { momentOf, now } from "./moments.js";
import { Task } from "./task.js";

const isTemplate = (told) => told.recur && !told.parent;
const settled = (told) => ({ ...told, status: isTemplate(told) ? "recurring" : told.wait > momentOf(now()) ? "waiting" : "pending" });

function without(told, ...names) {
    return Object.fromEntries(Object.entries(told).filter(([name]) => !names.includes(name)));
}

// Links and tags as a task has them: each once, in their order.
const inOrder = (texts) => [...new Set(texts)].sort();

// Members that a task is without where they are empty; those of one's own may be.
const KNOWN = ["priority", "project", "tags", "due", "wait", "scheduled", "until"];

function withEdits(told, edits) {
    const removed = Object.keys(edits).filter((name) => edits[name] === null || (edits[name] === "" && KNOWN.includes(name)));
    const edited = without({ ...told, ...edits, ...(Array.isArray(edits.tags) && { tags: inOrder(edits.tags) }) }, ...removed);
    return ["pending", "waiting"].includes(told.status) ? settled(edited) : edited;
}

// (a board that was asked for before a change was answered may have it already, beside those of the same text that it had before)
function withNote(told, { description }, { had = 0 }) {
    const notes = told.annotations ?? [];
    if (notes.filter((note) => note.description === description).length > had) return told;
    return { ...told, annotations: [...notes, { entry: momentOf(now()), description }] };
}

function withoutNote(told, text) {
    const at = (told.annotations ?? []).findIndex(({ description }) => description === text);
    return { ...told, annotations: (told.annotations ?? []).filter((_, place) => place !== at) };
}

// What each call makes of a task, as the server does it.
const CALLS = {
    tasks: (_, task) => settled({ entry: momentOf(now()), ...task }),
    done: (told) => ({ ...without(told, "start"), status: "completed", end: momentOf(now()) }),
    delete: (told) => ({ ...without(told, "start"), status: "deleted", end: momentOf(now()) }),
    reopen: (told) => settled(without(told, "end")),
    start: (told) => ({ ...told, start: momentOf(now()) }),
    stop: (told) => without(told, "start"),
    modify: withEdits,
    annotate: withNote,
    denotate: (told, { description }) => withoutNote(told, description),
    depend: (told, { on }) => ({ ...told, depends: inOrder([...(told.depends ?? []), on]) }),
    undepend: (told, { on }) => ({ ...told, depends: (told.depends ?? []).filter((id) => id !== on) }),
};

// A task as the server told it, and with a change; nothing before it is added.
function changed(told, change) {
    const call = CALLS[change.path.split("/").at(-1)];
    if (!call || (!told && !change.adds) || (told && change.adds)) return told;
    return call(told, change.body ? JSON.parse(change.body) : {}, change);
}

// A task with a change, which knows how it was before; a new one how it was added.
function withChange(last, change) {
    const told = changed(last?.told, change);
    return told && told !== last?.told ? Object.assign(new Task(JSON.stringify(told)), { before: last?.before ?? last }) : last;
}

// The tasks, of which `at` has the places, with the changes of some of them; and what came of each change. `known` is what came of them before:
// thousands may wait, and a change that finds the same task as before isn't made anew.
export function laidOver(tasks, at, changes, known) {
    const [laid, made] = [new Map(), new Map()];
    for (const change of changes) {
        const last = laid.get(change.task) ?? tasks[at.get(change.task)];
        const before = known.get(change.id);
        const task = before && before.last === last ? before.task : withChange(last, change);
        made.set(change.id, { last, task });
        if (task !== last) laid.set(change.task, task);
    }
    const shown = [...tasks];
    for (const [uuid, task] of laid) {
        if (at.has(uuid)) shown[at.get(uuid)] = task;
        else shown.push(task);
    }
    return { shown, made };
}

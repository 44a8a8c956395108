// What each change is to the server (path and body) and to people (a verb and what it's about), and why one was refused, in plain words.
import { newIdentifier } from "./identifier.js";

const VERBS = { done: "Complete", delete: "Delete", reopen: "Reopen", start: "Start", stop: "Stop" };
const OWN_KEY = "/me/key";

export const isOwnKey = ({ path }) => path === OWN_KEY;
// Whether the first person alone may make it.
export const isOfFirst = ({ path }) => /^\/people|\/take$/.test(path);

function change(board, path, content, verb, subject) {
    return { board, path, body: content === null ? "" : JSON.stringify(content), verb, subject };
}

// The descriptions by which the task is known here: as it is shown, and as the server told it before what isn't answered yet.
function ofTask(board, task, action, content, verb) {
    const known = [task.description, task.before?.description];
    return { ...change(board, `/boards/${board}/tasks/${task.uuid}/${action}`, content, verb, task.description), task: task.uuid, known };
}

// A change that was typed into a form has what opens the form anew, as `form`.
export const changes = {
    board: (title) => ({ ...change(0, "/boards", { title }, "Make the board", title), form: { title } }),
    person: (name, key, form) => ({ ...change(0, "/people", { name, key }, "Add the person", name), form, isSecret: true }),
    ownKey: (name, before, after) => ({ ...change(0, OWN_KEY, { key: after, old: before }, "Change the key of", name), form: {}, isSecret: true }),
    // Another one's key, or none: then they are let go.
    key: (name, key) => ({ ...change(0, `/people/${name}/key`, { key }, key ? "Give a new key to" : "Lock out", name), form: {}, isSecret: key !== null }),
    title: (board, title) => change(board, `/boards/${board}/title`, { title }, "Rename the board to", title),
    take: (board, title) => change(board, `/boards/${board}/take`, null, "Take over the board", title),
    role: (board, member, role) => ({
        ...change(board, `/boards/${board}/roles`, { member, role }, role ? `Give the role ${role} to` : "End the role of", member),
        form: role ? { member, role } : undefined,
    }),
    // A new task is named here, so that what is done with it can be held before it is answered.
    add: (board, task) => {
        const named = { uuid: newIdentifier(), ...task };
        return { ...change(board, `/boards/${board}/tasks`, named, "Add", task.description), adds: true, task: named.uuid };
    },
    act: (board, task, action) => ofTask(board, task, action, null, VERBS[action]),
    // What is changed keeps what it changes, to see later whether somebody else changed the same.
    modify: (board, task, edits) => ({
        ...ofTask(board, task, "modify", edits, "Change"),
        base: Object.fromEntries(Object.keys(edits).map((name) => [name, task.told[name] ?? null])),
    }),
    annotate: (board, task, description) => ({
        ...ofTask(board, task, "annotate", { description }, "Note on"),
        form: { description },
        had: task.notes.filter((note) => note.description === description).length,
    }),
    denotate: (board, task, description) => ofTask(board, task, "denotate", { description }, "Take a note off"),
    depend: (board, task, on) => ofTask(board, task, "depend", { on }, "Add a dependency to"),
    undepend: (board, task, on) => ofTask(board, task, "undepend", { on }, "Take a dependency off"),
    ahead: (board, ahead) => change(board, `/boards/${board}/ahead`, { ahead }, "Look ahead", `${ahead} of each repeating task`),
    sweep: (board) => change(board, `/boards/${board}/sweep`, null, "Make what is due", "of the repeating tasks"),
    // A task that comes from another board, as the server there tells it.
    moveIn: (board, task, line) => ({ ...change(board, `/boards/${board}/import`, null, "Move here", task.description), body: line }),
    // One part of an import, as it is written; its answer is kept until it was read.
    part: (board, path, body, name) => ({ ...change(board, `/boards/${board}/${path}`, null, "Import", name), body, reports: true }),
};

const TASK_FAULTS = {
    EmptyDescription: "A task needs a description.",
    BadTag: "A tag can't be empty, and has no spaces in it.",
    BadText: "A text is longer than 16,384 bytes or has the character 0 in it. Make it shorter.",
    BadPair: "A repeating task needs a due date and a step such as weekly, monthly or 3d. Look at both.",
};

const CHANGED_BEFORE = "Your key was changed elsewhere before this came, so the key of this change did nothing. Your key is the one that you sign in with now.";

const REFUSALS = {
    IdReused: () => "Another change had the same identifier, so this one did nothing. Make it again.",
    UnknownCaller: () => CHANGED_BEFORE,
    NoBoard: ({ path }) => {
        if (path.endsWith("/take")) return "There is no board of this number, or you didn't set up this server: who did takes boards over.";
        return "You have no role on this board, or it isn't there. Ask an owner of the board to let you in.";
    },
    NotAllowed: ({ path }) => {
        if (path === "/people") return "Only whoever set up this server adds people. Ask them to.";
        if (path.startsWith("/people/")) return "Only whoever set up this server gives other people keys, and locks them out. Ask them to.";
        if (path.endsWith("/take")) return "Only whoever set up this server takes boards over. Ask them to.";
        if (path.endsWith("/title")) return "Only owners rename a board. Ask an owner of the board.";
        if (path.endsWith("/ahead")) return "Only owners say how far a board looks ahead. Ask an owner of the board.";
        return path.endsWith("/roles") ? "Only owners set roles. Ask an owner of the board." : "Your role doesn't allow it. Ask an owner of the board.";
    },
    NoTask: () => "There is no such task on this board. Look at the list again, and choose another.",
    WrongStatus: () => "The task's status doesn't allow it: perhaps someone completed, deleted or reopened it. Look at it; reopen it first where it is closed.",
    UuidTaken: () => "The board has a task with this identifier already, so nothing was added.",
    BadTask: ({ answer }) => TASK_FAULTS[answer.field] ?? "The board doesn't take such a task.",
    TemplateFixed: () => "The due date and the step of a repeating task stay. Delete it, and add a new one.",
    NoLink: () => "That note or dependency isn't there any more, so nothing is left to do.",
    Cycle: () => "The tasks would wait for each other in a circle. Take another dependency off first.",
    Full: ({ path }) => {
        if (path === "/boards") return "The server is full: it takes 10,000 boards. Use one that is there.";
        if (path === "/people") return "The server is full: it takes 10,000 people. Ask whoever runs it for another one.";
        return "The board is full: it takes 10,000 tasks, completed and deleted ones too. Make a new board for what is to come.";
    },
    NoPerson: () => "The server knows nobody of that name. Look at the spelling, or have whoever set up this server add them.",
    LastOwner: () => "The board would be left without an owner. Make someone else owner first.",
    NameTaken: () => "Someone has this name already. Choose another.",
    KeyDiffers: () => CHANGED_BEFORE,
    BadBody: ({ answer, reports }) => {
        if (reports) return "The file isn't a Taskwarrior export or todo.txt that can be read. Look at it, and import it again.";
        return `The server can't read ${answer.field ? `what was given for “${answer.field}”` : "it"}. Look at it, and try again.`;
    },
    BodyTooLong: () => "It is longer than 1 MiB. Make it shorter.",
};

// Why a change was refused, and what to do.
export function reason(change) {
    const { name } = change.answer;
    return REFUSALS[name]?.(change) ?? `The server answers ${name}. Load this page anew, and make the change again.`;
}

// What an import of a file would do, before anything is sent: the bodies of its calls, which tasks can't be taken and why, what is spelled
// anew, and what is lost.
import { breathe } from "../core/breathe.js";
import { counted, oneLine } from "../core/format.js";
import { inCircles } from "../core/graph.js";
import { faultInText, MOST_TASKS } from "../core/rules.js";
import { clean, membersOf } from "./clean.js";
import { cut, cutLines, inOrder, linesOf, listOf, mostEqual, objectTexts } from "./cut.js";
import { dependsOf, faultIn, lossesOf, placesFor } from "./judge.js";

// How many tasks are looked at until the browser may draw.
const AT_ONCE = 200;
const SHORT = 80;
const FULL = `the board is full: it takes ${counted(MOST_TASKS)} tasks`;

function read(text) {
    try {
        return JSON.parse(text);
    } catch {
        return null;
    }
}

// Whole numbers of 64 bits, as the server reads them: 1e3 is none, nor is -0.
const isWhole = (text) => /^(0|-?[1-9]\d{0,18})$/.test(text) && BigInt.asIntN(64, BigInt(text)) === BigInt(text);

// The task of a text. A number that isn't whole is NaN, since one that JavaScript has read doesn't show how it was written; what the server
// ignores stays.
function taskOf(text) {
    const task = read(text);
    const names = Object.keys(task ?? {}).filter((name) => Number.isFinite(task[name]) && !["id", "urgency"].includes(name));
    const values = names.length > 0 ? new Map(membersOf(text).map(({ name, value }) => [name, value])) : null;
    for (const name of names) if (!isWhole(values.get(name))) task[name] = NaN;
    return task;
}

async function each(list, make) {
    const made = [];
    for (const [at, item] of list.entries()) {
        if (at % AT_ONCE === 0) await breathe();
        made.push(make(item, at));
    }
    return made;
}

function entryOf(given, at) {
    const { text, changes } = clean(given);
    const task = taskOf(text);
    const id = String(task?.uuid ?? "").toLowerCase();
    return { text, changes, task, id, fault: faultIn(task, text), subject: oneLine(String(task?.description || task?.uuid || `task ${at + 1} of the file`), SHORT) };
}

const soundIn = (entries) => entries.filter(({ fault }) => !fault);

// Of tasks with the same uuid the server takes the first.
function markDoubles(entries) {
    const seen = new Set();
    for (const entry of soundIn(entries)) {
        if (seen.has(entry.id)) entry.fault = "an earlier task of the file has its uuid";
        seen.add(entry.id);
    }
}

// What names a task of the file as its template that can't be taken waits with it: without that it would be a plain task for good.
function markInstances(entries, board) {
    const refused = new Map(entries.filter(({ fault, id }) => fault && id && !board?.byId.has(id)).map((entry) => [entry.id, entry.subject]));
    for (const { id } of soundIn(entries)) refused.delete(id);
    for (const entry of soundIn(entries)) {
        const parent = String(entry.task.parent || "").toLowerCase();
        if (refused.has(parent)) entry.fault = `its template can't be taken: ${refused.get(parent)}`;
    }
}

// 11 Cycle: marks the tasks that would wait for themselves. Those that the board has stay as they are.
function markCircles(entries, board) {
    const byId = new Map(soundIn(entries).filter(({ id }) => !board?.byId.has(id)).map((entry) => [entry.id, entry]));
    const linksOf = (id) => dependsOf(byId.get(id).task).filter((other) => byId.has(other));
    for (const id of inCircles(byId.keys(), linksOf)) byId.get(id).fault = "it waits for itself, in a circle of tasks";
}

// 12 Full: marks the new tasks for which the board has no room.
function markRest(entries, board) {
    const room = MOST_TASKS - (board?.tasks.length ?? 0);
    const added = soundIn(entries).filter(({ id }) => !board?.byId.has(id));
    for (const entry of added.slice(Math.max(0, room))) entry.fault = FULL;
}

// What the tasks lose, which stand here as they are sent. A part knows the board, itself and the parts before it.
function noteLosses(entries, parts, board) {
    const numbers = parts.flatMap((part, at) => part.map(() => at));
    const partOf = new Map(entries.map(({ id }, at) => [id, numbers[at]]));
    const added = entries.filter(({ id }) => !board?.byId.has(id));
    const places = placesFor(added.map(({ task }) => task), board);
    const reachFrom = (here) => (id) => (board?.byId.has(id) || partOf.get(id) <= here ? "there" : partOf.has(id) ? "later" : "");
    for (const entry of added) entry.losses = lossesOf(entry.task, places, reachFrom(partOf.get(entry.id)));
}

const told = (entries, name) => entries.filter((entry) => entry[name]?.length > 0).map((entry) => ({ subject: entry.subject, what: [entry[name]].flat() }));

function planOf(path, entries, parts) {
    const taken = soundIn(entries);
    return {
        path,
        count: taken.length,
        parts,
        faults: told(entries, "fault"),
        changes: told(taken, "changes"),
        losses: told(taken, "losses"),
    };
}

async function planTasks(text, board) {
    const { texts, rest } = objectTexts(text);
    const entries = await each(texts, entryOf);
    if (rest) entries.push({ fault: "the file breaks off in it", subject: oneLine(rest, SHORT) });
    for (const mark of [markDoubles, markCircles, markInstances, markRest]) {
        await breathe();
        mark(entries, board);
    }
    const ordered = inOrder(soundIn(entries));
    await breathe();
    const parts = cut(ordered.map((entry) => entry.text));
    noteLosses(ordered, parts, board);
    return planOf("import", entries, parts.map(listOf));
}

function lineOf(text) {
    const [letter] = /^(x )?\([D-Z]\)(?= \S)/.exec(text.trimStart()) ?? [""];
    return { text, changes: [], losses: letter ? [`its priority ${letter.slice(-3)}`] : [], fault: faultInText(text), subject: oneLine(text, SHORT) };
}

// Marks those of equal lines that are too many for one part: in another one they would be the same tasks.
function markRepeated(entries) {
    for (const [line, equal] of Map.groupBy(soundIn(entries), ({ text }) => text)) {
        for (const entry of equal.slice(mostEqual(line))) entry.fault = `the same line stands ${counted(equal.length)} times in the file, and ${counted(mostEqual(line))} are the most`;
    }
}

async function planLines(text, board) {
    const lines = text.split(/\r?\n/).filter((line) => !/^[ \t]*$/.test(line));
    const entries = await each(lines, lineOf);
    markRepeated(entries);
    const room = MOST_TASKS - (board?.tasks.length ?? 0);
    for (const entry of soundIn(entries).slice(Math.max(0, room))) entry.fault = FULL;
    return planOf("import-todo", entries, cutLines(soundIn(entries).map((entry) => entry.text)).map(linesOf));
}

export const plan = (text, board) => (/^\s*[[{]/.test(text) ? planTasks(text, board) : planLines(text, board));

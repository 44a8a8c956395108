// Which tasks of a board are shown: what a filter and the words of a search say of each.
import { folded } from "./format.js";
import { clockAt, dayText, readWhen } from "./dates.js";
import { MOMENTS, nameIn, partsOf, priorityOf } from "./grammar.js";
import { dayOf, fromFields, seconds } from "./moments.js";
import { testsOf as testsOfQuery } from "./query.js";
import { DUES } from "./urgency.js";

export const STATUSES = {
    open: ["Open", (task) => task.isListed],
    ready: ["Ready to do", (task) => task.status === "pending" && !task.isBlocked],
    started: ["Started", (task) => task.isListed && Boolean(task.told.start)],
    waiting: ["Waiting", (task) => task.status === "waiting"],
    blocked: ["Blocked", (task) => task.isListed && task.isBlocked],
    completed: ["Completed", (task) => task.status === "completed"],
    deleted: ["Deleted", (task) => task.status === "deleted"],
    all: ["All", (task) => task.status !== "recurring"],
};

// What stands for the person who is signed in, and for nobody: no person can have such a name.
export const [MINE, NOBODYS] = ["@me", "@nobody"];

const nameOf = (assignee, me) => (assignee === MINE ? me : assignee === NOBODYS ? "" : assignee);

// Whether a task's project is that one or a part of it, as Finance.a is of Finance.
export const isWithin = (project, whole) => project === whole || project.startsWith(`${whole}.`);

// Those of the texts that are meant: the one itself and its parts, or else those that begin so, as while someone types.
function meant(texts, wanted, hasParts) {
    const [text, front] = [folded(wanted), hasParts ? `${folded(wanted)}.` : "\n"];
    const same = texts.filter((one) => folded(one) === text || folded(one).startsWith(front));
    return new Set(same.length > 0 ? same : texts.filter((one) => folded(one).startsWith(text)));
}

function dayTest(name, value) {
    if (name === "due" && Object.hasOwn(DUES, value.toLowerCase())) return (task) => task.dueGroup === value.toLowerCase();
    const said = readWhen([value.toLowerCase()], 0, clockAt(), true).find(({ day, count }) => day !== undefined && count === 1);
    if (!said) return null;
    if (said.time) return (task) => task.told[name] === fromFields({ day: dayText(said.day), time: said.time });
    return (task) => Boolean(task.told[name]) && dayOf(seconds(task.told[name])) === said.day;
}

const TESTS = {
    project: (value, board) => {
        const projects = meant(board.projects, value, true);
        return projects.size > 0 && ((task) => projects.has(task.project));
    },
    tag: (value, board) => {
        const tags = meant(board.tags, value, false);
        return tags.size > 0 && ((task) => task.tags.some((tag) => tags.has(tag)));
    },
    for: (value, board, me) => {
        const names = ["nobody", "none"].includes(value) ? new Set([""]) : meant([...board.assignees, me], nameIn(value, board.assignees, me), false);
        return names.size > 0 && ((task) => names.has(task.assignee));
    },
    priority: (value) => priorityOf(value) && ((task) => task.priority === priorityOf(value)),
};

// The test that a word of a search makes of a task, by what it says of one; nothing of a plain word, and where no task is so.
function testOf(word, board, me) {
    const { name, value } = partsOf(word);
    return value ? (MOMENTS.includes(name) ? dayTest(name, value) : TESTS[name]?.(value, board, me)) : null;
}

// The tests that a filter makes of each task; `me` is the name of who looks.
function testsOf({ text, status, assignee, due, project, tag }, board, me) {
    const tests = [STATUSES[Object.hasOwn(STATUSES, status) ? status : "open"][1]];
    const name = nameOf(assignee, me);
    if (assignee) tests.push((task) => task.assignee === name);
    if (due) tests.push((task) => task.dueGroup === due);
    if (project) tests.push((task) => isWithin(task.project, project));
    if (tag) tests.push((task) => task.tags.includes(tag));
    return [...tests, ...testsOfQuery(text, (word) => testOf(word, board, me))];
}

// The tasks that pass a filter, in its order; also those that won't pass any more once their change is answered.
export function shown(board, filter, me) {
    const tests = testsOf(filter, board, me);
    const passes = (task) => tests.every((test) => test(task));
    return board.sorted(filter.sort).filter((task) => passes(task) || (task.before && passes(task.before)));
}

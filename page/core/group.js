// The orders of a board's tasks, and their groups.
import { DUES } from "./urgency.js";

export const SORTS = { urgency: "By urgency", due: "By due date", project: "By project", title: "By title", changed: "By last change" };
export const GROUPS = { "": "No groups", due: "Due groups", project: "Project groups", assignee: "Assignee groups" };
// The texts that sort by each word; moments do so as they are written. What is equal stays by urgency.
const KEYS = {
    due: (task) => task.told.due ?? LAST,
    project: (task) => task.project.toLowerCase() || LAST,
    title: (task) => (task.title ??= task.description.toLowerCase().normalize("NFD")),
    changed: (task) => task.told.modified ?? task.told.entry,
};
const LAST = "\uFFFF";
const FALLING = ["changed"];

// Tasks in the order of a word; in that of urgency as they come.
export function sortedBy(word, tasks) {
    if (!Object.hasOwn(KEYS, word)) return tasks;
    const byKey = Map.groupBy(tasks, KEYS[word]);
    const keys = [...byKey.keys()].sort();
    if (FALLING.includes(word)) keys.reverse();
    return keys.flatMap((key) => byKey.get(key));
}

const MOST_PARTS = 8;
// A project, and those of which it is a part, Finance.tax of Finance; a text with very many dots is none.
export const withWholes = (project) => [project, ...project.split(".", MOST_PARTS).map((_, at, parts) => parts.slice(0, at + 1).join("."))];
export const sortedTexts = (texts) => [...new Set(texts)].filter(Boolean).sort((one, other) => (one < other ? -1 : 1));

const compareTexts = (one, other) => (one < other ? -1 : 1);
const namesFirst = (one, other) => Number(one === "") - Number(other === "") || compareTexts(one, other);

const GROUPINGS = {
    due: { keyOf: (task) => task.dueGroup, order: (keys) => Object.keys(DUES).filter((key) => keys.includes(key)), label: (key) => DUES[key] },
    project: { keyOf: (task) => task.project, order: (keys) => keys.sort(namesFirst), label: (key) => key || "No project" },
    assignee: { keyOf: (task) => task.assignee, order: (keys) => keys.sort(namesFirst), label: (key) => key || "Nobody's" },
};

// The tasks in groups, each behind a heading; without a grouping as they are.
export function grouped(tasks, group) {
    if (!Object.hasOwn(GROUPINGS, group)) return tasks;
    const { keyOf, order, label } = GROUPINGS[group];
    const groups = Map.groupBy(tasks, keyOf);
    return order([...groups.keys()]).flatMap((key) => [{ heading: label(key), count: groups.get(key).length, uuid: `${group} ${key}` }, ...groups.get(key)]);
}

// Cuts the texts of an import into parts that the server takes: at most 1,000 tasks and 1 MiB each. A part knows only tasks of
// its own and of parts before it, so templates go before their instances, and a task goes behind those on which it depends.
import { inCircles } from "../core/graph.js";
import { makesInstances } from "./judge.js";

const MOST_AT_ONCE = 1000;
const MOST_BYTES = 1048576;
const encoder = new TextEncoder();

// The texts of the objects in a JSON list, in an object, or in lines of objects: from each outermost brace to the one that closes it; and the
// rest, where the last one isn't closed.
export function objectTexts(text) {
    const texts = [];
    const mark = /"[^"\\]*(?:\\.[^"\\]*)*"|[{}]/gs;
    let depth = 0;
    let from = 0;
    for (let match = mark.exec(text); match; match = mark.exec(text)) {
        if (match[0] === "{" && depth++ === 0) from = match.index;
        else if (match[0] === "}" && --depth === 0) texts.push(text.slice(from, mark.lastIndex));
    }
    return { texts, rest: depth > 0 ? text.slice(from) : "" };
}

function read(text) {
    try {
        return JSON.parse(text) ?? {};
    } catch {
        return {};
    }
}

// What has to go before a task: its template, and those on which it depends. A text that is no JSON is left for the server to refuse.
function nodeOf(item) {
    const task = item.task ?? read(item.text);
    const { uuid = "", parent = "", depends = "" } = task;
    return { item, task, id: String(uuid).toLowerCase(), before: `${depends},${parent}`.toLowerCase().split(","), isBegun: false };
}

// A template that waits for an instance of its own goes first all the same: the instance would be none.
function freeTemplates(nodes, byId) {
    const circled = inCircles(byId.keys(), (id) => byId.get(id).before.filter((other) => byId.has(other)));
    const templates = nodes.filter(({ id, task }) => circled.has(id) && makesInstances(task));
    for (const node of templates) node.before = node.before.filter((other) => !circled.has(other));
}

// What has such texts, and maybe their tasks, in such an order. Of those with the same uuid the first counts; those in a circle stay as they come.
export function inOrder(items) {
    const nodes = items.map(nodeOf);
    const byId = new Map(nodes.map((node) => [node.id, node]).reverse());
    freeTemplates(nodes, byId);
    const ordered = [];
    const path = [];
    const begin = (node) => {
        node.isBegun = true;
        path.push(node);
    };
    for (const root of nodes) {
        if (!root.isBegun) begin(root);
        while (path.length > 0) {
            const ahead = byId.get(path.at(-1).before.shift());
            if (ahead && !ahead.isBegun) begin(ahead);
            else if (path.at(-1).before.length === 0) ordered.push(path.pop().item);
        }
    }
    return ordered;
}

const sizeOf = (text) => encoder.encode(text).length + 2;

// As many texts in a part as it may have; those of a group are in one part.
function cutGroups(groups) {
    const parts = [];
    let bytes = MOST_BYTES;
    for (const group of groups) {
        const size = group.reduce((sum, text) => sum + sizeOf(text), 0);
        if (parts.length === 0 || parts.at(-1).length + group.length > MOST_AT_ONCE || bytes + size > MOST_BYTES - 4) {
            parts.push([]);
            bytes = 0;
        }
        parts.at(-1).push(...group);
        bytes += size;
    }
    return parts;
}

export const cut = (texts) => cutGroups(texts.map((text) => [text]));

// The same of lines of todo.txt. Equal ones are told apart by their number within a part, so they all go into the part of the first.
export const cutLines = (lines) => cutGroups([...Map.groupBy(lines, (line) => line).values()]);

// How often a line may stand in a file: as often as in a part.
export const mostEqual = (line) => Math.min(MOST_AT_ONCE, Math.floor((MOST_BYTES - 4) / sizeOf(line)));

// The bodies of the calls that take tasks of Taskwarrior, and lines of todo.txt.
export const listOf = (part) => `[${part.join(",\n")}]`;
export const linesOf = (part) => `${part.join("\n")}\n`;
export const cutTasks = (texts) => cut(inOrder(texts.map((text) => ({ text }))).map(({ text }) => text)).map(listOf);

const isOfLines = (path) => path.endsWith("import-todo");
const textsIn = (path, body) => (isOfLines(path) ? body.split("\n").filter((line) => !/^[ \t]*$/.test(line)) : objectTexts(body).texts);

// Of a part whose task at that place was refused: what names that task, and the part without it; empty where it has no other.
export function withoutOne(path, body, at) {
    const texts = textsIn(path, body);
    const others = texts.filter((_, place) => place !== at);
    const culprit = isOfLines(path) ? texts[at] ?? "" : String(read(texts[at]).description ?? "");
    return { culprit, rest: others.length === 0 ? "" : (isOfLines(path) ? linesOf : listOf)(others) };
}

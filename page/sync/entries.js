// What a server's history tells: who did what on a board, and when. An entry has what its call said; what was changed to what is read from
// the entries of a task in a row. A server before the history has none of its views, and then the page does without them.
import { inFull, seconds } from "../core/moments.js";
import { PRIORITIES } from "../core/task.js";
import { look } from "./http.js";

// What two people change within so many seconds counts as changed at once.
const AT_ONCE = 60;
// A number beyond those of all entries: who asks from there on is told the last number alone.
export const BEYOND = 4294967295;
const MOMENTS = ["due", "wait", "scheduled", "until", "start", "entry", "end"];
// Whether the server has a history; null until it was asked.
let isThere = null;

export const hasHistory = () => isThere !== false;
export const isHistoryKnown = () => isThere === true;

// What a view of a history shows; null where the server has none.
async function lookAtHistory(who, path, patience) {
    if (!hasHistory()) return null;
    try {
        const told = JSON.parse(await look(who, path, patience));
        isThere = true;
        return told;
    } catch (fault) {
        if (fault.message !== "NoRoute") throw fault;
        isThere = false;
        return null;
    }
}

export const lookFrom = (who, board, number) => lookAtHistory(who, `/boards/${board}/history/${Math.min(number, BEYOND)}`);
export const lookAtLast = (who, board) => lookAtHistory(who, `/boards/${board}/history`);
export const lookAtDeedsOf = (who, board, task, patience) => lookAtHistory(who, `/boards/${board}/tasks/${task}/history`, patience);

function parsed(text) {
    try {
        return JSON.parse(text || "{}");
    } catch {
        return null;
    }
}

// The arguments of a script's line, by the names that a message has for them.
const ARGUMENTS = {
    add: ([json]) => parsed(json),
    modify: ([, json]) => parsed(json),
    annotate: ([, description]) => ({ description }),
    denotate: ([, description]) => ({ description }),
    depend: ([, on]) => ({ on }),
    undepend: ([, on]) => ({ on }),
    role: ([member, role]) => ({ member, role: role === "none" ? null : role }),
    ahead: ([ahead]) => ({ ahead }),
    title: ([title]) => ({ title }),
};

// What a call said: a message has it as its body, below the line of its path; a script's line has its word and arguments with tabs between.
// Null where the history leaves it out, as it does where that is long.
/** @param {{content?: string, what: string}} entry */
export function saidBy({ content, what }) {
    if (content === undefined) return null;
    if (content.startsWith("POST ")) return parsed(content.slice(content.indexOf("\n") + 1));
    const [, , ...words] = content.split("\t");
    return ARGUMENTS[what]?.(words) ?? {};
}

// Whether a deed sets a member of its task.
export const sets = (name) => (entry) => entry.what === "modify" && Object.hasOwn(saidBy(entry) ?? {}, name);

export const isSame = (one, other) => JSON.stringify(one ?? null) === JSON.stringify(other ?? null);
const valueOf = (value) => (value === "" || (Array.isArray(value) && value.length === 0) ? null : value ?? null);

// What a modify changed: each member with its value before, where that is known, and after, and who had set it at the same time.
function changesOf(entry, said, known, isWhole) {
    return Object.entries(said).map(([name, given]) => {
        const before = known.get(name);
        const from = before ? before.value : isWhole ? null : undefined;
        const isAtOnce = before?.by && before.by !== entry.member && Math.abs(seconds(entry.moment) - before.at) <= AT_ONCE;
        return { name, from, to: valueOf(given), over: isAtOnce && !isSame(from, valueOf(given)) ? before : null };
    });
}

// The entries of a task, by rising number, each with what it said and what it changed.
export function deedsIn(entries) {
    let [known, isWhole] = [new Map(), false];
    return entries.map((entry) => {
        const said = saidBy(entry);
        if (!["add", "modify"].includes(entry.what)) return { ...entry, said, changes: [] };
        if (entry.what === "add") isWhole = said !== null;
        const changes = entry.what === "modify" && said ? changesOf(entry, said, known, isWhole) : [];
        for (const [name, value] of Object.entries(said ?? {})) known.set(name, { value: valueOf(value), by: entry.what === "modify" ? entry.member : "", at: seconds(entry.moment) });
        if (!said) [known, isWhole] = [new Map(), false];
        return { ...entry, said, changes };
    });
}

const LABELS = { description: "description", project: "project", priority: "priority", assignee: "assignee", due: "due date", wait: "date until which it waits", scheduled: "scheduled date", until: "date until which it repeats or counts", recur: "repeat", tags: "tags", start: "start" };
export const labelOf = (name) => `the ${Object.hasOwn(LABELS, name) ? LABELS[name] : `attribute “${name}”`}`;

// A member's value in words.
export function worded(name, value) {
    if (value === null || value === undefined) return "nothing";
    if (name === "priority") return PRIORITIES[value] ?? value;
    if (name === "tags") return [value].flat().map((tag) => `@${tag}`).join(" ");
    const second = MOMENTS.includes(name) && /^\d{8}T\d{6}Z$/.test(value) ? seconds(value) : undefined;
    return second === undefined ? String(value) : inFull(second);
}

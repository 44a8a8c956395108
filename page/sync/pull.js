// Brings what is known of a board up to date by what its history tells: each task that is named there is asked for once, and shown as it is by
// then. The whole board is asked for where that doesn't do: there is no copy, the history was cut back, much has happened, or something that
// changes tasks which no entry names, as an import.
import { seconds } from "../core/moments.js";
import { dueOf, stepOf } from "../core/recurrence.js";
import { BEYOND, saidBy } from "./entries.js";

const [MOST_ENTRIES, MOST_NAMED, AT_ONCE] = [1000, 200, 6];
// The calls that change the task which their entry names, and those that change none.
const NAMED = ["add", "done", "delete", "reopen", "start", "stop", "modify", "annotate", "denotate", "depend", "undepend"];
const OTHERS = ["role", "take", "title"];
// Those by which a template may get instances, beside time.
const MAKING = ["add", "reopen", "modify"];

const isTemplate = ({ recur, parent }) => Boolean(recur && !parent);

// The second from which on a call may make an instance of a template that was brought up to date by a call of that moment.
function dateOf({ told, mask }, moment) {
    const [first, step, until = Infinity] = [seconds(told.due), stepOf(told.recur), seconds(told.until)];
    const next = dueOf(first, step, mask.length);
    if (next === undefined || next > until) return Infinity;
    let date = -Infinity;
    for (let number = mask.length - 1; number >= 0; number--) {
        const due = dueOf(first, step, number);
        if (due <= moment) break;
        date = due;
    }
    return date;
}

// The same of all templates of a board.
const dateIn = (board, moment) => Math.min(...board.told().filter(({ status }) => status === "recurring").map((task) => dateOf(task, moment)));

// Whether an entry says all that its call changed, on a board as it is known. `date` is the second from which on instances may come with it.
function isTelling({ what, task, moment, content }, board, date) {
    if (OTHERS.includes(what)) return seconds(moment) < date;
    if (!NAMED.includes(what) || seconds(moment) >= date) return false;
    const known = board.toldOf(task);
    if (what === "add") return !saidBy({ what, content })?.recur;
    return Boolean(known) && !(isTemplate(known.told) && MAKING.includes(what));
}

// The tasks that entries in a row changed, by their uuids; those that were added in their order. Nothing where the entries don't say all.
function changedBy(entries, board, known) {
    const date = dateIn(board, known.moment);
    const [names, added] = [new Set(), new Set()];
    for (const entry of entries) {
        const isAdded = entry.what === "add" && !board.toldOf(entry.task);
        if (!added.has(entry.task) && !isTelling(entry, board, date)) return null;
        if (added.has(entry.task) && seconds(entry.moment) >= date) return null;
        if (!NAMED.includes(entry.what)) continue;
        names.add(entry.task);
        if (isAdded) added.add(entry.task);
        const parent = board.toldOf(entry.task)?.parent;
        if (board.toldOf(parent)) names.add(parent);
    }
    const isMuch = names.size > MOST_NAMED || 4 * names.size > Math.max(AT_ONCE * 4, board.told().length);
    return isMuch ? null : { names: [...names], added };
}

// Asks for some tasks, a few at a time, and gives their lines in the same order.
async function linesOf(ask, uuids) {
    const lines = [];
    let next = 0;
    const work = async () => {
        for (let at = next++; at < uuids.length; at = next++) lines[at] = (await ask.task(uuids[at])).trim();
    };
    await Promise.all(Array.from({ length: Math.min(AT_ONCE, uuids.length) }, work));
    return lines;
}

// The entries from a number on, and the last number; without entries where they are very many.
async function entriesFrom(ask, from) {
    let told = await ask.history(from);
    const entries = [...(told?.entries ?? [])];
    while (told && entries.length > 0 && entries.length < MOST_ENTRIES && entries.at(-1).number < told.last) {
        told = await ask.history(entries.at(-1).number + 1);
        entries.push(...told.entries);
    }
    return told && { entries, last: told.last };
}

// What the entries from the last known one on changed; nothing where the whole board has to be asked for.
async function changesOf(ask, board, known) {
    const told = await entriesFrom(ask, known.last + 1);
    if (!told) return null;
    const { entries, last } = told;
    if (last === known.last) return { known, entries, lines: [] };
    if (last < known.last || entries.at(-1)?.number !== last) return null;
    const changed = changedBy(entries, board, known);
    if (!changed) return null;
    const lines = await linesOf(ask, changed.names);
    const isStrange = (line, at) => changed.added.has(changed.names[at]) && isTemplate(JSON.parse(line));
    if (lines.some(isStrange)) return null;
    let end = board.told().length;
    const places = changed.names.map((uuid) => board.placeOf(uuid) ?? end++);
    /** @type {[number, string][]} */
    const placed = lines.map((line, at) => [places[at], line]);
    return { known: { ...known, last, moment: seconds(entries.at(-1).moment) }, entries, lines: placed };
}

// All tasks, with the last entry that they surely have.
async function loadWhole(ask) {
    const last = (await ask.history(BEYOND))?.last ?? 0;
    const entries = last > 0 ? (await ask.history(last)).entries : [];
    const at = Date.now();
    const text = await ask.export();
    return { known: { last, moment: entries.length > 0 ? seconds(entries[0].moment) : at / 1000, checkedAt: at }, text };
}

/**
 * What has to be taken into a board so that it is up to date: lines by their places, or the text of the whole. `known` is what is known of it,
 * or null; `ask` has the views that may be asked for.
 * @param {{history: (from: number) => Promise<{entries: Entry[], last: number} | null>, task: (uuid: string) => Promise<string>, export: () => Promise<string>}} ask
 * @returns {Promise<{known: any, entries?: Entry[], lines?: [number, string][], text?: string}>}
 */
export async function pull(ask, board, known) {
    return (known && (await changesOf(ask, board, known))) ?? loadWhole(ask);
}

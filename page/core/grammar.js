// The line that adds a task: words, some of which say something of it. What is understood is marked where it stands in the line, and leaves the
// title; what looks as if it said something and isn't understood stays in the title, marked with the reason. Dates and repeats without a name
// count at the end of the line only, so "Sunday school" stays a title.
//
//     line   = { word | token } [ tail ]        tail = { when | repeat | token }
//     token  = +project | @tag | for:name | column:name | !1 to !3 | (A) to (C) first | due: wait: until: scheduled: before a when
//     when   = day [ [ at ] time ] | time       (dates.js has the days, times and repeats)
//
// Quotes around words and a backslash before one keep them as words.
import { clockAt, dayNumber, dayOfTime, dayText, readRepeat, readTime, readWhen } from "./dates.js";
import { fromFields } from "./moments.js";
import { PRIORITIES } from "./task.js";

const LETTERS = { A: "H", B: "M", C: "L" };
export const MOMENTS = ["due", "wait", "scheduled", "until"];
const NAMES = { tags: "tag", assignee: "for", recurrence: "recur" };
const KNOWN = [...MOMENTS, "priority", "project", "tag", "for", "column"];
// Names that Taskwarrior or todo.txt would understand, and the line doesn't.
const OTHERS = ["recur", "rec", "repeat", "start", "end", "entry", "depends", "dep", "status", "t", "pr"];
const UUID = /^uuid:[0-9a-f]{8}(-[0-9a-f]{4}){3}-[0-9a-f]{12}$/i;
const DAYS = "tomorrow, friday, next week, 15.12. or 2026-12-01T14:00";
const [SECOND, ONE_DAY] = ["is a second one, and a task has one", "says several days, and a task has one"];
const FROM_DONE = "isn't understood: a repeat goes by its dates, not by when it was done";
// Behind such a word a day is a thing: "enjoy the sun", "plan our weekend".
const ARTICLES = /^(?:the|a|an|my|our|your|of)$/;
const JOINING = /^(?:and|or|&|to|till|-|–)$/;

// The words of a line with their places. Words in quotes are one.
function wordsIn(line) {
    const words = [...line.matchAll(/(?:[+@]|[a-z]+:)?"[^"]*"(?=\s|$)|\S+/gi)];
    return words.map(({ 0: text, index }) => {
        const isKept = /^\\[+@!(\w]/.test(text);
        return { text: isKept ? text.slice(1) : text, low: isKept || text.startsWith('"') ? "" : text.toLowerCase(), from: index, to: index + text.length, isKept };
    });
}

const unquoted = (text) => text.replace(/^"(.*)"$/s, "$1").trim();
const isPhone = (words, at) => /^\+\d[\d()/-]*$/.test(words[at].text) && /^[\d()/-]+$/.test(words[at + 1]?.text ?? "");

// A word such as name:value, with the name in full; names may be cut to three letters.
/** @param {{text: string, low: string}} word @returns {{name?: string, value?: string}} */
function namedIn({ text, low }) {
    const [, given, value] = low ? (/^([a-z]+):(.*)$/is.exec(text) ?? []) : [];
    if (given === undefined) return {};
    const short = Object.hasOwn(NAMES, given.toLowerCase()) ? NAMES[given.toLowerCase()] : given.toLowerCase();
    const name = KNOWN.find((known) => known === short || (short.length > 2 && known.startsWith(short))) ?? OTHERS.find((known) => known === short);
    return { name, value: unquoted(value) };
}

// The name and the value of a word of a search: +project, @tag, for:name, due:friday.
export function partsOf(word) {
    if (/^[+@]./s.test(word)) return { name: word[0] === "+" ? "project" : "tag", value: word.slice(1) };
    return namedIn({ text: word, low: word });
}

// Whoever types is "me", unless somebody on the board has that name.
export const nameIn = (value, people, me) => (value.toLowerCase() === "me" && !people?.includes("me") ? me : value.toLowerCase());

export function priorityOf(text) {
    const word = text.toLowerCase();
    return Object.keys(PRIORITIES).find((letter) => word === letter.toLowerCase() || word === PRIORITIES[letter]);
}

const misread = (why, count = 1) => ({ kind: "misread", why, count });
const said = (kind, member, value, count = 1) => ({ kind, member, value, count });

// A moment that a name says: with the longest date that follows it.
function readMoment(name, value, words, at, { clock, lows }) {
    const given = value ? [value.toLowerCase(), ...lows.slice(at + 1)] : lows.slice(at + 1);
    const when = readWhen(given, 0, clock, true)[0];
    if (when) return said("day", name, { day: when.day ?? dayOfTime(when.time, clock), time: when.time ?? "" }, when.count + (value ? 0 : 1));
    return misread(value ? `isn't a day: ${DAYS}` : `needs a day: ${DAYS}`);
}

/** @param {{name?: string, value?: string}} named @param {any[]} words @param {number} at @param {any} context */
function readNamed({ name, value }, words, at, context) {
    if (OTHERS.includes(name)) return misread(["recur", "rec", "repeat"].includes(name) ? "isn't understood: write “every week” or “every monday” at the end" : "isn't understood in this line");
    if (MOMENTS.includes(name)) return readMoment(name, value, words, at, context);
    if (value === "") return misread(`needs something after ${name}:`);
    if (name === "priority") return priorityOf(value) ? said("priority", "priority", priorityOf(value)) : misread("isn't a priority: H, M or L");
    if (name !== "for") return said(name === "tag" ? "tag" : "project", name, value);
    const { people, me } = context;
    const person = nameIn(value, people, me);
    return !people || people.includes(person) ? said("person", "assignee", person) : misread("names nobody on this board");
}

// What a word says of the task, with as many words behind it as belong to it; nothing of a plain word.
function readToken(words, at, context) {
    const { text, low } = words[at];
    if (!low) return null;
    if (/^@\d{1,2}(?::\d{2})?(?:am|pm|h)?$/.test(low) && readTime([low], 0).length > 0) return null;
    if (/^[+@]./s.test(text) && !isPhone(words, at)) {
        const value = unquoted(text.slice(1));
        return value && said(text[0] === "+" ? "project" : "tag", text[0] === "+" ? "project" : "tag", value);
    }
    if (/^!\d$/.test(text)) return "123".includes(text[1]) ? said("priority", "priority", "HML"[text[1] - 1]) : misread("isn't a priority: !1, !2 or !3");
    if (UUID.test(text)) return said("uuid", "uuid", text.slice(5).toLowerCase());
    const named = namedIn(words[at]);
    return named.name ? readNamed(named, words, at, context) : null;
}

// What a word or several say without a name, where they stand at the end of the line.
function readBare(words, at, { clock, lows }) {
    if (!lows[at] || ARTICLES.test(lows[at - 1] ?? "")) return [];
    const repeats = readRepeat(lows, at, clock).map(({ recur, day, count }) => ({ kind: "repeat", recur, day, count }));
    const whens = readWhen(lows, at, clock).map(({ day, time, count }) => ({ kind: "day", day, time, count }));
    return [...repeats, ...whens];
}

// The parts of the tail, from the first word on from which all is understood to the end; at least one plain word stands before it. Of several
// ways to read a part the longest that leads to the end is taken.
function tailOf(words, tokens, context) {
    const taken = new Array(words.length);
    const isEnd = new Array(words.length + 1).fill(false);
    isEnd[words.length] = true;
    const first = words.findIndex((_, at) => !tokens.has(at));
    for (let at = words.length - 1; first >= 0 && at >= first; at--) {
        const token = tokens.get(at);
        const ways = token ? (token.isInside ? [] : [token]) : readBare(words, at, context);
        taken[at] = ways.find(({ count }) => isEnd[at + count]);
        isEnd[at] = Boolean(taken[at]);
    }
    const begin = isEnd.indexOf(true);
    if (begin === first) return [];
    const parts = [];
    for (let at = begin; at < words.length; at += taken[at].count) if (!tokens.has(at)) parts.push({ ...taken[at], at });
    return parts;
}

// What is wrong with a part of the tail that goes on something before it: one of several days, as in "monday and thursday", or a repeat that the
// server lacks; and from which word on.
function faultBefore({ at }, { clock, lows }) {
    const before = at - 1;
    if (lows[before] === "every!") return { from: before, why: FROM_DONE };
    if (!JOINING.test(lows[before] ?? "")) return null;
    const endsThere = (from) => from >= 0 && [...readRepeat(lows, from, clock), ...readWhen(lows, from, clock)].some(({ count }) => from + count === before);
    const from = [4, 3, 2, 1].map((count) => before - count).find(endsThere);
    return from === undefined ? null : { from, why: ONE_DAY };
}

class Reading {
    /** @type {any} */
    task = { tags: [] };
    /** @type {any[]} */
    marks = [];

    constructor(words, context) {
        this.words = words;
        this.context = context;
    }

    mark(at, count, kind, about = {}) {
        const [from, to] = [this.words[at].from, this.words[at + count - 1].to];
        this.marks.push({ from, to, at, count, kind, ...about });
    }

    // Sets a member once; a second value stays in the title.
    /** @param {number} at @param {any} token */
    take(at, { kind, member, value, count, why }) {
        if (kind === "misread") return this.mark(at, count, kind, { why });
        if (member === "tag") this.task.tags = [...new Set([...this.task.tags, value])];
        else if (this.task[member]) return this.mark(at, count, "misread", { why: SECOND });
        else this.task[member] = MOMENTS.includes(member) ? fromFields({ day: dayText(value.day), time: value.time }) : value;
        this.mark(at, count, kind, { member, value: member === "tag" ? value : this.task[member] });
    }

    // Dates and repeats of the tail, which make one due date together.
    takeTail(parts) {
        let [day, time, isSaid] = [undefined, undefined, false];
        for (const part of parts) {
            const fault = faultBefore(part, this.context) ?? this.faultIn(part, { day, time });
            if (fault) {
                this.mark(fault.from, part.at + part.count - fault.from, "misread", { why: fault.why });
                continue;
            }
            if (part.recur) this.task.recur = part.recur;
            day = part.day ?? day;
            time = part.time ?? time;
            isSaid = true;
            this.mark(part.at, part.count, part.kind, { member: part.recur ? "recur" : "due", value: part.recur });
        }
        if (isSaid) this.setDue(day, time);
    }

    faultIn({ at, recur, day, time }, known) {
        const isSecond = (recur && this.task.recur) || (day !== undefined && known.day !== undefined) || (time && known.time) || ((day !== undefined || time) && this.task.due);
        return isSecond ? { from: at, why: SECOND } : null;
    }

    // A repeat without a day begins today; where its time is past, tomorrow.
    setDue(day, time = "") {
        if (this.task.due) return;
        const { clock } = this.context;
        this.task.due = fromFields({ day: dayText(day ?? (time ? dayOfTime(time, clock) : clock.today)), time });
    }

    titleFrom(line) {
        const isTaken = new Set(this.marks.filter(({ kind }) => kind !== "misread").flatMap(({ at, count }) => Array.from({ length: count }, (_, more) => at + more)));
        const plain = this.words.filter((_, at) => !isTaken.has(at)).map(({ text }) => text);
        return plain.join(" ") || line;
    }
}

// The marks of todo.txt at the beginning: "x", "(A)" and the days of the end and of the beginning.
function takeFirst(reading) {
    const { words, task } = reading;
    const textAt = (at) => (at < words.length - 1 && words[at].low ? words[at].text : "");
    const isDay = (at) => /^\d{4}-\d{2}-\d{2}$/.test(textAt(at)) && dayText(dayNumber(textAt(at)) || 0) === textAt(at);
    let at = 0;
    const isDone = textAt(at) === "x";
    if (isDone) {
        task.status = "completed";
        reading.mark(at++, 1, "status", { member: "status", value: "completed" });
    }
    const letter = /^\(([A-Z])\)$/.exec(textAt(at))?.[1];
    if (LETTERS[letter]) reading.take(at++, said("priority", "priority", LETTERS[letter]));
    else if (letter) reading.mark(at++, 1, "misread", { why: "isn't a priority: (A), (B) or (C)" });
    for (const member of isDone && isDay(at) && isDay(at + 1) ? ["end", "entry"] : isDay(at) ? [isDone ? "end" : "entry"] : []) {
        task[member] = fromFields({ day: textAt(at), time: "" });
        reading.mark(at++, 1, "made", { member, value: task[member] });
    }
}

// What a line says: the task, and the marks of what was understood or wasn't, in the order of the line, each with where it stands (`from`, `to`).
// `people` are the names on the board, or null while they aren't known; `me` is the name of who types.
export function readLine(line, { people = null, me = "", clock = clockAt() } = {}) {
    const words = wordsIn(line);
    const context = { people, me, clock, lows: words.map(({ low }) => low) };
    const reading = new Reading(words, context);
    takeFirst(reading);
    const begun = reading.marks.length;
    /** @type {Map<number, any>} */
    const tokens = new Map(reading.marks.map(({ at }) => [at, { count: 1 }]));
    /** @type {[number, any][]} */
    const found = [];
    for (let at = begun; at < words.length; at++) {
        const token = readToken(words, at, context);
        if (!token) continue;
        tokens.set(at, token);
        for (let more = 1; more < token.count; more++) tokens.set(at + more, { isInside: true });
        found.push([at, token]);
        at += token.count - 1;
    }
    for (const [at, token] of found) reading.take(at, token);
    reading.takeTail(tailOf(words, tokens, context));
    reading.marks.sort((one, other) => one.from - other.from);
    const task = { ...reading.task, description: reading.titleFrom(line.trim()) };
    return { task, marks: reading.marks, misread: reading.marks.filter(({ kind }) => kind === "misread").map(({ from, to, why }) => [line.slice(from, to), why]) };
}

// The line with a part of it kept as words: a backslash stands before each of its words.
export const keptAsWords = (line, { from, to }) => line.slice(0, from) + line.slice(from, to).replace(/(^|\s)(?=\S)/g, "$1\\") + line.slice(to);

// The lines of a list that is pasted: without the marks of its points, each with whether it is ticked, or is a heading of those that follow.
export function linesOf(text) {
    const lines = text.split(/[\r\n]+/).map((line) => line.trim()).filter(Boolean);
    return lines.map((line) => {
        const bare = line.replace(/^(?:[-*•]|\d{1,3}[.)])\s+/, "");
        const [, box, rest] = /^\[([ xX])\]\s+(.*)$/.exec(bare) ?? [];
        return { text: rest ?? bare, isDone: box?.toLowerCase() === "x", isHeading: box === undefined && bare === line && /\S:$/.test(line) };
    });
}

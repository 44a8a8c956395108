// What an import's tasks are made to be, so that the server takes them as they were meant: what Taskwarrior writes is spelled as the server
// reads it. All else of a text stays, byte for byte.
import { fromFields, isTimed, momentOf, seconds, toFields } from "../core/moments.js";
import { stepOf } from "../core/recurrence.js";

// A text between quotes, a mark, or anything else, as a number; from an object's text, one after the other.
const PIECE = /"[^"\\]*(?:\\.[^"\\]*)*"|[{}[\],:]|[^\s"{}[\],:]+/gs;

// The members of an object's text: their names, where their values stand, and the values' texts.
export function membersOf(text) {
    const members = [];
    let [depth, name, from] = [0, "", -1];
    for (const { 0: piece, index } of text.matchAll(PIECE)) {
        const end = index + piece.length;
        if (piece === "}" || piece === "]") depth -= 1;
        if ((depth === 1 && piece === ",") || depth === 0) {
            if (from >= 0) members.push({ name, from, to: text.slice(0, index).trimEnd().length });
            [name, from] = ["", -1];
        } else if (depth === 1 && piece.startsWith('"') && from < 0 && name === "") name = nameIn(piece);
        else if (depth === 1 && piece === ":" && from < 0) from = end;
        if (piece === "{" || piece === "[") depth += 1;
    }
    return members.map((member) => ({ ...member, value: text.slice(member.from, member.to).trim() }));
}

function nameIn(piece) {
    try {
        return JSON.parse(piece);
    } catch {
        return piece;
    }
}

// Control characters aren't JSON where they stand as they are, though Taskwarrior writes them so.
const CONTROL = /[\u0000-\u001F]/g;
const escaped = (piece) => piece.replace(CONTROL, (character) => `\\u${character.charCodeAt(0).toString(16).padStart(4, "0")}`);
const withoutControls = (text) => text.replace(PIECE, (piece) => (piece.startsWith('"') ? escaped(piece) : piece));

// How Taskwarrior calls its units of time: so many days, months or years each. A sennight has 14 days there.
/** @type {[string, number, string][]} */
const UNITS = [
    ["d", 1, "d day days daily"],
    ["d", 7, "w wk wks week weeks weekly"],
    ["d", 14, "fortnight sennight biweekly"],
    ["mo", 1, "m mo mos mth mths mnths month months monthly"],
    ["mo", 2, "bimonthly"],
    ["mo", 3, "q qtr qtrs qrtr qrtrs quarter quarters quarterly"],
    ["mo", 6, "semiannual"],
    ["y", 1, "y yr yrs year years annual yearly"],
    ["y", 2, "biannual biyearly"],
];
const byName = new Map(UNITS.flatMap(([letters, count, names]) => names.split(" ").map((name) => [name, { letters, count }])));
const WORDS = { "1d": "daily", "7d": "weekly", "14d": "biweekly", "1mo": "monthly", "3mo": "quarterly", "6mo": "semiannual", "1y": "yearly" };

// The step of the server that means the same; nothing where there is none.
export function respelled(recur) {
    if (stepOf(recur)) return recur;
    const [, times, name] = /^(\d*)\s*([a-z]+)$/.exec(recur) ?? [];
    const unit = byName.get(name);
    if (!unit) return "";
    const short = `${unit.count * Number(times || 1)}${unit.letters}`;
    const step = WORDS[short] ?? short;
    return stepOf(step) ? step : "";
}

const DATES = ["due", "wait", "scheduled", "until"];

// The day alone, of a moment at which a day begins where its reader is, as Taskwarrior writes days. Each board has that day everywhere.
function dayAlone(value) {
    const [, text] = /^"(\d{8}T\d{6}Z)"$/.exec(value) ?? [];
    const second = text && seconds(text);
    // (a day that no month has stays, and is refused)
    if (!text || Number.isNaN(second) || momentOf(second) !== text || isTimed(second)) return value;
    const day = fromFields({ ...toFields(second), time: "" });
    return day === text ? value : `"${day}"`;
}

// A task's text as the server takes it, and what was changed for that.
export function clean(given) {
    const text = given.search(CONTROL) >= 0 ? withoutControls(given) : given;
    const changes = text === given ? [] : ["control characters, written as JSON has them"];
    let [cleaned, from] = ["", 0];
    for (const { name, value, from: begin, to } of membersOf(text)) {
        const now = cleanValue(name, value);
        if (now === value) continue;
        changes.push(`${name} ${value} is ${now}`);
        cleaned += text.slice(from, begin) + now;
        from = to;
    }
    return { text: cleaned + text.slice(from), changes };
}

// The place of an instance, where it is a text with a fraction of zeros.
function wholePlace(value) {
    const place = Number(value.match(/^"(\d+)\.0+"$/)?.[1]);
    return place < 2 ** 32 ? String(place) : value;
}

function cleanValue(name, value) {
    if (name === "imask" && value.startsWith('"')) return wholePlace(value);
    if (DATES.includes(name)) return dayAlone(value);
    if (/^-?\d+\.0+$|^-0$/.test(value)) return value.replace(/\.0+$/, "").replace(/^-0$/, "0");
    if (name !== "recur" || !value.startsWith('"')) return value;
    const recur = nameIn(value);
    const step = respelled(recur);
    return step && step !== recur ? JSON.stringify(step) : value;
}

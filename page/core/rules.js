// What the server takes, so that the page can say what is wrong before it sends anything. The server decides: where a rule here is missing,
// its refusal is shown. Each rule names the refusal that it foretells, by the number or status and the name in docs/HTTP.md.
import { counted } from "./format.js";
import { now, seconds } from "./moments.js";
import { stepOf } from "./recurrence.js";

// (a call of 1 MiB, without the brackets of its list)
const LONGEST = { text: 16384, title: 200, name: 32, key: 64, call: 1048574 };
const SHORTEST_KEY = 8;
export const MOST_AHEAD = 12;
// 12 Full: the tasks on a board, those that are completed or deleted too.
export const MOST_TASKS = 10000;

const encoder = new TextEncoder();
const bytesOf = (text) => encoder.encode(text).length;

function tooLong(text, most) {
    const over = bytesOf(text) - most;
    return over > 0 ? `This is ${counted(over)} bytes too long: ${counted(most)} are the most, and letters beyond a to z take 2 to 4 each.` : "";
}

const unreadable = (text) => (text.isWellFormed?.() === false ? "This has half a character in it, which can't be sent. Take it out." : "");

// 8 BadTask, field BadText: descriptions, notes, projects, tags, and what the user's own attributes say.
export function faultInText(text) {
    if (text.includes("\0")) return "This has the character 0 in it, which a task can't keep. Take it out.";
    return tooLong(text, LONGEST.text) || unreadable(text);
}

// 413 BodyTooLong: the JSON of a task.
export const faultInCall = (text) => tooLong(text, LONGEST.call);

// 8 BadTask, field EmptyDescription, or BadText.
export const faultInDescription = (text) => (text ? faultInText(text) : "A task needs a description.");

// 8 BadTask, field BadTag (a tag that is empty or has a blank in it can't be typed: blanks part tags), or BadText of a tag.
export const faultInTags = (text) => text.split(/[\s,]+/).map(faultInText).find(Boolean) ?? "";

// 8 BadTask, field BadPair: a step that can't be read.
export function faultInStep(text) {
    if (!text || stepOf(text)) return "";
    return "This isn't a repeat that the server knows. Use daily, weekdays, weekly, biweekly, monthly, quarterly, semiannual, yearly, or a number from 1 to 999 with d, w, mo or y, as 3d.";
}

// 8 BadTask, field BadPair: a repeating task without its due date.
export const faultInPair = (step, due) => (step && !due ? "A repeating task needs a due date." : "");

// The faults of a draft as a whole, each with the field that tells it: a rule that reads two fields judges both as they are now.
/** @param {{recur?: string, due?: string | null}} draft @returns {{field: string, text: string}[]} */
export const faultsIn = ({ recur = "", due = null }) =>
    [
        { field: "recur", text: faultInStep(recur) },
        { field: "recur", text: faultInPair(recur, due) },
    ].filter(({ text }) => text);

// 400 BadBody, with the field: a moment outside the years 1970 to 9999. A time without its day can't be sent at all.
export function faultInMoment(day, time, moment) {
    if (!day && time) return "A time needs its day. Choose one, or take the time out.";
    return moment && !/^(19[7-9]|[2-9]\d\d)\d{5}T\d{6}Z$/.test(moment) ? "Days go from 1970 to 9999." : "";
}

// No refusal: a task whose wait is over doesn't wait.
export const faultInWait = (moment) => (moment && seconds(moment) <= now() ? "This is past, so the task wouldn't wait. Choose a later day, or a later time." : "");

// A name as it is meant: without the capital or the space that a keyboard or a mail added.
export const nameMeant = (text) => text.trim().toLowerCase();

// 400 BadBody: the name of a person.
export function faultInName(text) {
    if (!text) return "";
    return /^[a-z0-9_-]+$/.test(text) ? tooLong(text, LONGEST.name) : "A name has small letters a to z, digits, _ and -, and nothing else.";
}

// 400 BadBody: the key of a person.
export function faultInKey(text) {
    if (!text) return "";
    if (!/^[!-~]+$/.test(text)) return "A key has letters a to z and A to Z, digits and signs of ASCII, and no spaces.";
    return text.length < SHORTEST_KEY ? `A key has ${SHORTEST_KEY} characters at least.` : tooLong(text, LONGEST.key);
}

// 400 BadBody: the title of a board.
export function faultInTitle(text) {
    if (!text) return "";
    return /[\u0000-\u001F]/.test(text) ? "A title has no control characters, such as tabs and line breaks." : tooLong(text, LONGEST.title) || unreadable(text);
}

// 400 BadBody: how many instances stand on a board ahead of their dates.
export function faultInAhead(text) {
    const isIn = /^[1-9]\d?$/.test(text) && Number(text) <= MOST_AHEAD;
    return !text || isIn ? "" : `A board looks 1 to ${MOST_AHEAD} instances ahead.`;
}

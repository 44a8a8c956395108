// What a repeat comes to: its next dates as they will be where its reader is, what summer time does to them, and how many tasks come at once.
import { counted } from "../core/format.js";
import { inFull, now, timeOf, utcTimeOf } from "../core/moments.js";
import { countAtOnce, dueOf, stepOf } from "../core/recurrence.js";
import { make, refill } from "../ui/element.js";

const [SHOWN, YEAR] = [3, 400 * 86400];
// So many tasks at once are asked about: a board looks no further ahead.
const MANY = 12;

// The dates from now on, as seconds; of a repeat that begins later from its first on.
function* datesFrom(first, step, begin) {
    for (let number = 0; dueOf(first, step, number) !== undefined; number++) {
        if (dueOf(first, step, number) >= begin) yield dueOf(first, step, number);
    }
}

// The first date within a year on which the clock shows another time than on the one before it.
function shiftOf(first, step, begin) {
    let before;
    for (const second of datesFrom(first, step, begin)) {
        if (before !== undefined && timeOf(second) !== timeOf(before)) return { second, before };
        if (second > begin + YEAR) return null;
        before = second;
    }
    return null;
}

function aboutClock(first, step, begin) {
    if (!utcTimeOf(first)) return "";
    const shift = shiftOf(first, step, begin);
    const change = shift ? ` Where you are that is ${timeOf(shift.before) || "midnight"}, and from ${inFull(shift.second)} on ${timeOf(shift.second) || "midnight"}, as summer time begins or ends.` : "";
    return `It repeats at ${utcTimeOf(first)} by the clock of UTC, which knows no summer time.${change}`;
}

const tasksAtOnce = (first, recur, until) => (first !== undefined && stepOf(recur ?? "") ? countAtOnce(first, stepOf(recur), now(), until) : 0);

// Whether so many tasks at once are what is wanted; asks where they are many.
export function isMeant(first, recur, until) {
    const count = tasksAtOnce(first, recur, until);
    return count <= MANY || confirm(`The first date is past, so ${counted(count)} tasks come at once. Add them all?`);
}

// Draws the preview of a step from a due date, in seconds.
export function drawPreview(place, first, recur) {
    const step = first === undefined ? undefined : stepOf(recur);
    if (!step) return refill(place);
    const begin = Math.max(first, now());
    const next = [];
    for (const second of datesFrom(first, step, begin)) if (next.push(inFull(second)) === SHOWN) break;
    const count = tasksAtOnce(first, recur);
    const warning = count > 1 && first < now() ? `${counted(count)} tasks come at once, since the first date, ${inFull(first)}, is past.` : "";
    refill(place, warning ? make("p", { class: "fault" }, warning) : "", make("p", {}, `Next: ${next.join("; ")}. ${aboutClock(first, step, begin)}`));
}

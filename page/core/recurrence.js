// Steps of recurrence, as the server reads them, and when the instances of a recurring task are due. Days and clock times are UTC's.

const DAY = 86400;
const LAST = 253402300799; // the last second of the year 9999
const WORDS = { daily: 1, day: 1, weekly: 7, biweekly: 14, fortnight: 14 };
const MONTHS = { monthly: 1, quarterly: 3, semiannual: 6, annual: 12, yearly: 12, biannual: 24, biyearly: 24 };
const UNITS = { d: ["days", 1], w: ["days", 7], mo: ["months", 1], y: ["months", 12], D: ["days", 1], W: ["days", 7], M: ["months", 1], Y: ["months", 12] };
// What the form suggests.
export const STEPS = ["daily", "weekdays", "weekly", "biweekly", "monthly", "quarterly", "semiannual", "yearly", "3d", "2w"];

// The step that a text writes, as a number of days or months or as weekdays; nothing where it writes none.
export function stepOf(text) {
    if (text === "weekdays") return { weekdays: true };
    if (Object.hasOwn(WORDS, text)) return { days: WORDS[text] };
    if (Object.hasOwn(MONTHS, text)) return { months: MONTHS[text] };
    const [, short, letters, long, capital] = /^(?:([1-9]\d{0,2})(d|w|mo|y)|P([1-9]\d{0,2})([DWMY]))$/.exec(text) ?? [];
    const [unit, times] = UNITS[letters ?? capital] ?? [];
    return unit && { [unit]: times * Number(short ?? long) };
}

const isWeekday = (day) => (day + 3) % 7 < 5;

function weekdayAfter(day, count) {
    if (count === 0) return day;
    const weeks = Math.floor((count - 1) / 5);
    let later = day + 7 * weeks;
    for (let left = count - 5 * weeks; left > 0; left--) {
        do later += 1;
        while (!isWeekday(later));
    }
    return later;
}

// The day so many months later, or the last of a month that is too short.
function monthsLater(day, count) {
    const date = new Date(day * DAY * 1000);
    const [year, month] = [date.getUTCFullYear(), date.getUTCMonth() + count];
    const longest = new Date(Date.UTC(year, month + 1, 0)).getUTCDate();
    return Date.UTC(year, month, Math.min(date.getUTCDate(), longest)) / 1000 / DAY;
}

// When the instance of this number is due, counted from 0, in seconds; nothing after the year 9999.
export function dueOf(first, step, number) {
    const day = Math.floor(first / DAY);
    const later = step.weekdays ? weekdayAfter(day, number) : step.days ? day + step.days * number : monthsLater(day, step.months * number);
    const second = later * DAY + (first % DAY);
    return second <= LAST ? second : undefined;
}

// How many instances the server makes at once: all that are due, the next one, and as many more as the board looks ahead.
export function countAtOnce(first, step, now, until = Infinity) {
    for (let count = 0; ; count++) {
        const due = dueOf(first, step, count);
        const before = count === 0 ? -Infinity : dueOf(first, step, count - 1);
        if (due === undefined || due > until || before > now) return count;
    }
}

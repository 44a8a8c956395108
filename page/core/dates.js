// Days, times and repeats as people type them: "next friday 18:00", "15.12.", "in 2 weeks", "every monday". Each reader takes words in small
// letters and a place among them, and gives all that can be read from there: what it says and how many words that takes, the longest first.
import { stepOf } from "./recurrence.js";

const MILLISECONDS = 86400000;
const WEEKDAYS = "sunday monday tuesday wednesday thursday friday saturday".split(" ");
const MONTHS = "january february march april may june july august september october november december".split(" ");
const COUNTS = { a: 1, an: 1, one: 1, two: 2, three: 3, four: 4, five: 5, six: 6, other: 2 };
const UNITS = { day: "d", week: "w", month: "mo", year: "y" };
const [SATURDAY, MONDAY] = [6, 1];

// The habits of a place: the first day of its week, from 0 for Sunday, and whether it writes 12/24 for Christmas Eve.
function habitsOf(locale = globalThis.navigator?.language ?? "en-GB") {
    /** @type {any} a newer locale than the types know */
    const place = new Intl.Locale(locale);
    const info = place.getWeekInfo?.() ?? place.weekInfo ?? {};
    const order = new Intl.DateTimeFormat(locale).formatToParts(0).map(({ type }) => type);
    return { weekStart: (info.firstDay ?? 1) % 7, isMonthFirst: order.indexOf("month") < order.indexOf("day") };
}

// What the readers go by: the day of today, counted from the first of 1970, the minute of the day, and the habits of the place.
export function clockAt(now = new Date(), habits = habitsOf()) {
    const today = Date.UTC(now.getFullYear(), now.getMonth(), now.getDate()) / MILLISECONDS;
    return { today, minute: 60 * now.getHours() + now.getMinutes(), ...habits };
}

export const weekdayOf = (day) => (((day + 4) % 7) + 7) % 7;
export const dayText = (day) => new Date(day * MILLISECONDS).toISOString().slice(0, 10);
export const dayNumber = (text) => Date.parse(`${text}T00:00:00Z`) / MILLISECONDS;

const partsOf = (day) => {
    const date = new Date(day * MILLISECONDS);
    return { year: date.getUTCFullYear(), month: date.getUTCMonth(), date: date.getUTCDate() };
};

// The day of a date, where there is one.
function dayAt(year, month, date) {
    const day = Date.UTC(year, month, date) / MILLISECONDS;
    const parts = partsOf(day);
    return year >= 1970 && year <= 9999 && parts.month === month && parts.date === date ? day : null;
}

// The day so many months later, or the last of a month that is too short.
export function monthsLater(day, count) {
    const { year, month, date } = partsOf(day);
    const longest = new Date(Date.UTC(year, month + count + 1, 0)).getUTCDate();
    return Date.UTC(year, month + count, Math.min(date, longest)) / MILLISECONDS;
}

// The next day of that weekday, which is never today.
const weekdayAhead = (today, weekday) => today + ((weekday - weekdayOf(today) + 6) % 7) + 1;
const nextWeek = ({ today, weekStart }) => weekdayAhead(today, weekStart);

// The place of a name that a word is, or begins with three letters or more.
function placeIn(names, word = "") {
    const bare = word.replace(/\.$/, "");
    const place = names.findIndex((name) => name === bare || (bare.length >= 3 && bare.length <= 5 && name.startsWith(bare)));
    return place < 0 ? null : place;
}

// A date without a year is the next such day; today counts.
function dateWithoutYear({ today }, month, date) {
    const { year } = partsOf(today);
    for (let later = 0; later <= 8; later++) {
        const day = dayAt(year + later, month, date);
        if (day !== null && day >= today) return day;
    }
    return null;
}

// The day of a date with a year or, where none is said, the next such day.
const dateIn = (clock, year, month, date) => (year ? dayAt(year, month - 1, date) : dateWithoutYear(clock, month - 1, date));
const fullYear = (text) => Number(text) + (text.length === 2 ? 2000 : 0);
const found = (day, count) => (day === null || day === undefined ? [] : [{ day, count }]);

// Dates in digits, in one word.
function readDigits(word, clock) {
    const [iso, isoTime] = /^(\d{4}-\d{2}-\d{2})(?:t(\d{1,2}:\d{2}))?$/.exec(word)?.slice(1) ?? [];
    if (iso) {
        const [year, month, date] = iso.split("-").map(Number);
        const day = dayAt(year, month - 1, date);
        const time = isoTime ? readTime([isoTime], 0)[0]?.time : undefined;
        return day === null || (isoTime && !time) ? [] : [{ day, count: 1, ...(time && { time }) }];
    }
    const [date, month, year] = /^(\d{1,2})\.(\d{1,2})\.(\d{4}|\d{2})?$/.exec(word)?.slice(1) ?? [];
    if (date) return found(dateIn(clock, year && fullYear(year), Number(month), Number(date)), 1);
    const [one, other, slashed] = /^(\d{1,2})\/(\d{1,2})(?:\/(\d{4}))?$/.exec(word)?.slice(1) ?? [];
    if (!one) return [];
    const [m, d] = (clock.isMonthFirst ? [one, other] : [other, one]).map(Number);
    return found(dateIn(clock, slashed && Number(slashed), m, d), 1);
}

// "4 dec 2026", "december 4th".
function readMonthName(words, at, clock) {
    const dateOf = (word = "") => Number(/^(\d{1,2})(?:st|nd|rd|th|\.)?,?$/.exec(word)?.[1] ?? NaN);
    const [date, month] = [dateOf(words[at]), placeIn(MONTHS, words[at + 1])];
    const [monthFirst, behind] = [placeIn(MONTHS, words[at]), dateOf(words[at + 1])];
    const [m, d] = !Number.isNaN(date) && month !== null ? [month, date] : monthFirst !== null && !Number.isNaN(behind) ? [monthFirst, behind] : [];
    if (m === undefined) return [];
    const year = /^\d{4}$/.test(words[at + 2] ?? "") ? found(dayAt(Number(words[at + 2]), m, d), 3) : [];
    return [...year, ...found(dateWithoutYear(clock, m, d), 2)];
}

const countOf = (word = "") => (/^\d{1,3}$/.test(word) ? Number(word) : word !== "other" && Object.hasOwn(COUNTS, word) ? COUNTS[word] : NaN);
// What a table has under a word of its own, as no table has "constructor".
const own = (table, word) => (Object.hasOwn(table, word) ? table[word] : undefined);
const unitOf = (word = "") => own(UNITS, word) ?? own(UNITS, word.replace(/s$/, ""));

// The day so many units ahead.
export function daysAhead(today, count, unit) {
    if (unit === "d" || unit === "w") return today + count * (unit === "w" ? 7 : 1);
    return monthsLater(today, count * (unit === "y" ? 12 : 1));
}

function readNamed(words, at, clock) {
    const { today, weekStart } = clock;
    const word = words[at];
    const { year, month } = partsOf(today);
    const named = own({ today: 0, tomorrow: 1 }, word);
    if (named !== undefined) return found(today + named, 1);
    if (word === "weekend") return found(weekdayOf(today) === SATURDAY ? today : weekdayAhead(today, SATURDAY), 1);
    if (word === "eow") return found(nextWeek(clock) - 1, 1);
    if (word === "eom") return found(Date.UTC(year, month + 1, 0) / MILLISECONDS, 1);
    const weekday = placeIn(WEEKDAYS, word);
    if (weekday !== null) return found(weekdayAhead(today, weekday), 1);
    if (word === "next") {
        const ahead = placeIn(WEEKDAYS, words[at + 1]);
        const first = nextWeek(clock);
        if (ahead !== null) return found(first + ((ahead - weekStart + 7) % 7), 2);
        const begins = { week: first, month: Date.UTC(year, month + 1, 1) / MILLISECONDS, year: Date.UTC(year + 1, 0, 1) / MILLISECONDS, weekend: first + ((SATURDAY - weekStart + 7) % 7) };
        return found(own(begins, words[at + 1] ?? ""), 2);
    }
    return [];
}

// The days that can be read from there. Behind a word such as due: more is one: 3d, 2w, 15th, yesterday.
export function readDay(words, at, clock, isBehindName = false) {
    const word = words[at] ?? "";
    if (["this", "on", "by"].includes(word)) {
        const days = readDay(words, at + 1, clock).filter(({ day }) => word !== "this" || /^(weekend|\D+day|[a-z]{3,5})$/.test(words[at + 1]) && day !== clock.today);
        return days.map((one) => ({ ...one, count: one.count + 1 }));
    }
    const later = word === "in" && !Number.isNaN(countOf(words[at + 1])) && unitOf(words[at + 2]);
    if (later) return found(daysAhead(clock.today, countOf(words[at + 1]), later), 3);
    const days = [...readMonthName(words, at, clock), ...readNamed(words, at, clock), ...readDigits(word, clock)];
    if (days.length > 0 || !isBehindName) return days;
    const [, count, unit] = /^(\d{1,3})(d|w|mo|y)$/.exec(word) ?? [];
    if (count) return found(daysAhead(clock.today, Number(count), unit), 1);
    if (word === "yesterday") return found(clock.today - 1, 1);
    const date = ordinalOf(word);
    return date ? found(dateAhead(clock.today, date), 1) : [];
}

const ordinalOf = (word = "") => {
    const date = Number(/^(\d{1,2})(?:st|nd|rd|th)$/.exec(word)?.[1] ?? 0);
    return date >= 1 && date <= 31 ? date : 0;
};

// The next day of a month's date: the last of a month that is too short isn't one.
function dateAhead(today, date) {
    const { year, month } = partsOf(today);
    for (let later = 0; ; later++) {
        const day = dayAt(year + Math.floor((month + later) / 12), (month + later) % 12, date);
        if (day !== null && day >= today) return day;
    }
}

const clockTime = (hour, minute) => (hour < 24 && minute < 60 ? `${String(hour).padStart(2, "0")}:${String(minute).padStart(2, "0")}` : null);

// A time: 18:00, 6 pm, 6:30pm, 18h; also after "at" or "@".
export function readTime(words, at) {
    const word = (words[at] ?? "").replace(/^@(?=\d)/, "");
    if (word === "at") return readTime(words, at + 1).map((one) => ({ ...one, count: one.count + 1 }));
    const [, hour, minute, half] = /^(\d{1,2})(?::(\d{2}))?(am|pm)?$/.exec(word) ?? [];
    const behind = half ?? (/^(am|pm)$/.test(words[at + 1] ?? "") ? words[at + 1] : undefined);
    if (hour && behind && Number(hour) >= 1 && Number(hour) <= 12) {
        const time = clockTime((Number(hour) % 12) + (behind === "pm" ? 12 : 0), Number(minute ?? 0));
        return time ? [{ time, count: half ? 1 : 2 }] : [];
    }
    const [, whole] = /^(\d{1,2})h$/.exec(word) ?? [];
    const time = whole ? clockTime(Number(whole), 0) : hour && minute && !half ? clockTime(Number(hour), Number(minute)) : null;
    return time ? [{ time, count: 1 }] : [];
}

// A day, a day with a time, or a time.
export function readWhen(words, at, clock, isBehindName = false) {
    const days = readDay(words, at, clock, isBehindName);
    const timed = days.filter(({ time }) => !time).flatMap((one) => readTime(words, at + one.count).map(({ time, count }) => ({ ...one, time, count: one.count + count })));
    return [...timed, ...days, ...readTime(words, at)].sort((one, other) => other.count - one.count);
}

// The moment of time alone: today, or tomorrow where that is past.
export const dayOfTime = (time, { today, minute }) => (Number(time.slice(0, 2)) * 60 + Number(time.slice(3)) <= minute ? today + 1 : today);

const EVERY = { day: "daily", weekday: "weekdays", week: "weekly", month: "monthly", quarter: "quarterly", year: "yearly" };
const ALONE = ["daily", "weekly", "monthly", "yearly"];

// A repeat: its step as the server knows it, and the day of its first date where the words say one.
export function readRepeat(words, at, { today }) {
    const word = words[at];
    if (ALONE.includes(word)) return [{ recur: word, count: 1 }];
    if (word !== "every") return [];
    const next = words[at + 1] ?? "";
    if (Object.hasOwn(EVERY, next)) return [{ recur: EVERY[next], count: 2, ...(next === "weekday" && { day: weekdayFrom(today) }) }];
    const [count, unit] = [next === "other" ? COUNTS.other : countOf(next), unitOf(words[at + 2])];
    const recur = unit && `${count}${unit}`;
    if (recur && stepOf(recur)) return [{ recur, count: 3 }];
    const weekday = placeIn(WEEKDAYS, next);
    if (weekday !== null) return [{ recur: "weekly", day: weekdayAhead(today, weekday), count: 2 }];
    const date = ordinalOf(next);
    return date ? [{ recur: "monthly", day: dateAhead(today, date), count: 2 }] : [];
}

// The first weekday from that day on.
function weekdayFrom(day) {
    const weekday = weekdayOf(day);
    return weekday === SATURDAY ? day + 2 : weekday === 0 ? day + MONDAY : day;
}

// Moments. The server has seconds in UTC, as 20260131T090000Z. A day without a time is the first second of that day in UTC, as in a line of
// todo.txt, and is shown as that day everywhere. So is, to whoever is there, the moment at which a day begins where they are: Taskwarrior's
// day. Any other moment is shown in the time of whoever looks.

const DAY = 86400;
const MONTHS = "Jan Feb Mar Apr May Jun Jul Aug Sep Oct Nov Dec".split(" ");
const WEEKDAYS = "Thursday Friday Saturday Sunday Monday Tuesday Wednesday".split(" ");

export const now = () => Math.floor(Date.now() / 1000);

// The second of a moment's text; nothing where there is none.
export function seconds(text) {
    if (!text) return undefined;
    const [day, time] = [Number(text.slice(0, 8)), Number(text.slice(9, 15))];
    const pair = (number, place) => Math.floor(number / place) % 100;
    return Date.UTC(Math.floor(day / 10000), pair(day, 100) - 1, pair(day, 1), pair(time, 10000), pair(time, 100), pair(time, 1)) / 1000;
}

export const momentOf = (second) => `${new Date(second * 1000).toISOString().slice(0, 19).replace(/[-:]/g, "")}Z`;
const isUtcDay = (second) => second % DAY === 0;

const dayNumber = (date) => Date.UTC(date.getFullYear(), date.getMonth(), date.getDate()) / 1000 / DAY;

// Whether a day begins then where its reader is: at midnight, or later where the clock skips that.
function beginsDay(date) {
    if (date.getMinutes() + date.getSeconds() > 0 || date.getHours() > 2) return false;
    return new Date(date.getFullYear(), date.getMonth(), date.getDate()).getTime() === date.getTime();
}

// The day that a moment falls on where its reader is, counted from the first of 1970, and its minute there (900 is 15:00); no minute where
// only a day is said.
function placed(second) {
    if (isUtcDay(second)) return { day: second / DAY };
    const date = new Date(second * 1000);
    return beginsDay(date) ? { day: dayNumber(date) } : { day: dayNumber(date), minute: 60 * date.getHours() + date.getMinutes() };
}

export const dayOf = (second) => placed(second).day;
export const isTimed = (second) => placed(second).minute !== undefined;
export const today = () => dayNumber(new Date());

const twoDigits = (number) => String(number).padStart(2, "0");

// A second as day (2026-01-31) and time (09:00) for the fields of a form; the time is empty where only a day was said.
export function toFields(second) {
    if (second === undefined) return { day: "", time: "" };
    const { day, minute } = placed(second);
    const time = minute === undefined ? "" : `${twoDigits(Math.floor(minute / 60))}:${twoDigits(minute % 60)}`;
    return { day: new Date(day * DAY * 1000).toISOString().slice(0, 10), time };
}

// The clock's time of a moment where its reader is, and in UTC; empty where only a day is said.
export const timeOf = (second) => toFields(second).time;
export const utcTimeOf = (second) => (isUtcDay(second) ? "" : new Date(second * 1000).toISOString().slice(11, 16));

// The moment's text of what the fields say; null where no day is said. A time that falls on the second by which a day is told is sent as the
// next second, which is shown as the same minute.
export function fromFields({ day, time }) {
    if (!day) return null;
    if (!time) return momentOf(Date.parse(`${day}T00:00:00Z`) / 1000);
    const second = Date.parse(`${day}T${time}`) / 1000;
    return momentOf(isUtcDay(second) ? second + 1 : second);
}

// A day is over when it has ended where its reader is; any other moment once it is past.
export function isOver(second) {
    const { day, minute } = placed(second);
    return minute === undefined ? day < today() : second < now();
}

function dayText(day, withYear) {
    const date = new Date(day * DAY * 1000);
    return `${date.getUTCDate()} ${MONTHS[date.getUTCMonth()]}${withYear ? ` ${date.getUTCFullYear()}` : ""}`;
}

// The day in few words: today, tomorrow, Friday, 31 Jan, 31 Jan 2027.
export function dayInWords(second) {
    const day = dayOf(second);
    const ahead = day - today();
    if (ahead >= -1 && ahead <= 1) return ["yesterday", "today", "tomorrow"][ahead + 1];
    if (ahead > 1 && ahead < 7) return WEEKDAYS[day % 7];
    return dayText(day, Math.abs(ahead) > 300);
}

// So too, and of today its time, where there is one.
export const inWords = (second) => (dayOf(second) === today() && isTimed(second) ? `today, ${timeOf(second)}` : dayInWords(second));

// The whole of a moment: its day and, where there is one, its time.
export function inFull(second) {
    const { time } = toFields(second);
    return `${dayText(dayOf(second), true)}${time ? `, ${time}` : ""}`;
}

export const agoInWords = (milliseconds) => (Date.now() - milliseconds < 60000 ? "less than a minute ago" : ago(milliseconds));

export function ago(milliseconds) {
    const past = Math.max(0, Math.round((Date.now() - milliseconds) / 1000));
    return past < 60 ? `${past} s ago` : past < 3600 ? `${Math.floor(past / 60)} min ago` : `${Math.floor(past / 3600)} h ago`;
}

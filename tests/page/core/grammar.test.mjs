// What people type into the line that adds a task, and what it is read as: node --test tests/page/core/
import assert from "node:assert/strict";
import { test } from "node:test";
import { clockAt } from "../../../page/core/dates.js";
import { keptAsWords, linesOf, readLine } from "../../../page/core/grammar.js";

// Monday, 30 November 2026, at noon; weeks begin on Monday, and days stand before months.
const NOON = new Date(2026, 10, 30, 12, 0);
const clock = clockAt(NOON, { weekStart: 1, isMonthFirst: false });
const american = clockAt(NOON, { weekStart: 0, isMonthFirst: true });
const CREW = { people: ["ann", "bob", "emil"], me: "ann" };

const read = (line, more = {}) => readLine(line, { ...CREW, clock, ...more });

// A moment as day, or as day and clock time where its reader is.
function shown(moment) {
    if (!moment) return undefined;
    const text = moment.replace(/^(\d{4})(\d\d)(\d\d)T(\d\d)(\d\d)(\d\d)Z$/, "$1-$2-$3T$4:$5:$6Z");
    if (text.endsWith("T00:00:00Z")) return text.slice(0, 10);
    const date = new Date(text);
    const two = (number) => String(number).padStart(2, "0");
    return `${date.getFullYear()}-${two(date.getMonth() + 1)}-${two(date.getDate())} ${two(date.getHours())}:${two(date.getMinutes())}`;
}

// The title, and what else is said, in few signs: due and repeat as texts, the others under their names.
function told(line, more) {
    const { task } = read(line, more);
    const { description, due, wait, scheduled, until, recur, project, priority, assignee, tags, column, status } = task;
    const facts = { due: shown(due), wait: shown(wait), scheduled: shown(scheduled), until: shown(until), recur, project, priority, assignee, column, status, ...(tags.length > 0 && { tags: tags.join(" ") }) };
    return [description, Object.fromEntries(Object.entries(facts).filter(([, value]) => value !== undefined))];
}

const DAYS = {
    today: "2026-11-30",
    tomorrow: "2026-12-01",
    TOMORROW: "2026-12-01",
    monday: "2026-12-07",
    tuesday: "2026-12-01",
    wednesday: "2026-12-02",
    thursday: "2026-12-03",
    friday: "2026-12-04",
    Friday: "2026-12-04",
    fri: "2026-12-04",
    tues: "2026-12-01",
    thurs: "2026-12-03",
    saturday: "2026-12-05",
    sunday: "2026-12-06",
    "on friday": "2026-12-04",
    "by friday": "2026-12-04",
    "this friday": "2026-12-04",
    "next friday": "2026-12-11",
    "next monday": "2026-12-07",
    "next sunday": "2026-12-13",
    weekend: "2026-12-05",
    "this weekend": "2026-12-05",
    "next weekend": "2026-12-12",
    "next week": "2026-12-07",
    "next month": "2026-12-01",
    "next year": "2027-01-01",
    eow: "2026-12-06",
    eom: "2026-11-30",
    "in 1 day": "2026-12-01",
    "in 3 days": "2026-12-03",
    "in 2 weeks": "2026-12-14",
    "in a week": "2026-12-07",
    "in two months": "2027-01-30",
    "in 3 months": "2027-02-28",
    "in 1 year": "2027-11-30",
    "2026-12-24": "2026-12-24",
    "2028-02-29": "2028-02-29",
    "15.12.": "2026-12-15",
    "1.1.": "2027-01-01",
    "30.11.": "2026-11-30",
    "29.11.": "2027-11-29",
    "29.2.": "2028-02-29",
    "15.12.2026": "2026-12-15",
    "15.12.27": "2027-12-15",
    "24/12": "2026-12-24",
    "24/12/2027": "2027-12-24",
    "4 dec": "2026-12-04",
    "4 December": "2026-12-04",
    "dec 4": "2026-12-04",
    "December 4th": "2026-12-04",
    "4th december": "2026-12-04",
    "4 dec 2028": "2028-12-04",
    "dec 4 2028": "2028-12-04",
    "1 jan": "2027-01-01",
    "31 march": "2027-03-31",
    "friday 18:00": "2026-12-04 18:00",
    "friday at 18:00": "2026-12-04 18:00",
    "friday 6pm": "2026-12-04 18:00",
    "friday 6 pm": "2026-12-04 18:00",
    "friday 6:30pm": "2026-12-04 18:30",
    "friday 12 am": "2026-12-04 00:00",
    "friday 12pm": "2026-12-04 12:00",
    "friday 9h": "2026-12-04 09:00",
    "18:00 friday": "2026-12-04 18:00",
    "next friday at 9:30": "2026-12-11 09:30",
    "tomorrow 7 am": "2026-12-01 07:00",
    "15.12. 20:15": "2026-12-15 20:15",
    "2026-12-24T14:00": "2026-12-24 14:00",
    "18:00": "2026-11-30 18:00",
    "at 18:00": "2026-11-30 18:00",
    "@18:00": "2026-11-30 18:00",
    "9:00": "2026-12-01 09:00",
    "12:00": "2026-12-01 12:00",
    "1pm": "2026-11-30 13:00",
};

const REPEATS = {
    daily: ["daily", "2026-11-30"],
    weekly: ["weekly", "2026-11-30"],
    monthly: ["monthly", "2026-11-30"],
    yearly: ["yearly", "2026-11-30"],
    "every day": ["daily", "2026-11-30"],
    "every weekday": ["weekdays", "2026-11-30"],
    "every week": ["weekly", "2026-11-30"],
    "every month": ["monthly", "2026-11-30"],
    "every quarter": ["quarterly", "2026-11-30"],
    "every year": ["yearly", "2026-11-30"],
    "every 3 days": ["3d", "2026-11-30"],
    "every 2 weeks": ["2w", "2026-11-30"],
    "every other week": ["2w", "2026-11-30"],
    "every 6 months": ["6mo", "2026-11-30"],
    "every 2 years": ["2y", "2026-11-30"],
    "every monday": ["weekly", "2026-12-07"],
    "Every Friday": ["weekly", "2026-12-04"],
    "every monday 10:00": ["weekly", "2026-12-07 10:00"],
    "every monday at 10:00": ["weekly", "2026-12-07 10:00"],
    "10:00 every monday": ["weekly", "2026-12-07 10:00"],
    "every day 9:00": ["daily", "2026-12-01 09:00"],
    "every day 18:00": ["daily", "2026-11-30 18:00"],
    "every 1st": ["monthly", "2026-12-01"],
    "every 15th": ["monthly", "2026-12-15"],
    "every 31st": ["monthly", "2026-12-31"],
    "every month friday": ["monthly", "2026-12-04"],
    "weekly friday": ["weekly", "2026-12-04"],
    "friday weekly": ["weekly", "2026-12-04"],
    "weekly due:friday": ["weekly", "2026-12-04"],
};

const WHOLE = [
    ["Call the bakery friday for:me", "Call the bakery", { due: "2026-12-04", assignee: "ann" }],
    ["Cake list every monday 18:00 for:emil +Food", "Cake list", { recur: "weekly", due: "2026-12-07 18:00", assignee: "emil", project: "Food" }],
    ["Design the poster due:next week", "Design the poster", { due: "2026-12-07" }],
    ["Design due:in 2 weeks the poster", "Design the poster", { due: "2026-12-14" }],
    ["Design due:friday 18:00 the poster", "Design the poster", { due: "2026-12-04 18:00" }],
    ["Pay due:3d", "Pay", { due: "2026-12-03" }],
    ["Pay due:2w", "Pay", { due: "2026-12-14" }],
    ["Pay due:1mo", "Pay", { due: "2026-12-30" }],
    ["Pay due:1y", "Pay", { due: "2027-11-30" }],
    ["Pay due:15th", "Pay", { due: "2026-12-15" }],
    ["Pay due:yesterday", "Pay", { due: "2026-11-29" }],
    ["Pay due: friday", "Pay", { due: "2026-12-04" }],
    ["Pay DUE:Friday", "Pay", { due: "2026-12-04" }],
    ["Sow wait:1.3. due:1.4.", "Sow", { wait: "2027-03-01", due: "2027-04-01" }],
    ["Sow scheduled:monday until:eom", "Sow", { scheduled: "2026-12-07", until: "2026-11-30" }],
    ["(A) Call Mom +Family @phone", "Call Mom", { priority: "H", project: "Family", tags: "phone" }],
    ["(B) Call Mom", "Call Mom", { priority: "M" }],
    ["(C) Call Mom", "Call Mom", { priority: "L" }],
    ["Call Mom !1", "Call Mom", { priority: "H" }],
    ["!2 Call Mom", "Call Mom", { priority: "M" }],
    ["Call !3 Mom", "Call Mom", { priority: "L" }],
    ["Call Mom pri:h", "Call Mom", { priority: "H" }],
    ["Call Mom priority:low", "Call Mom", { priority: "L" }],
    ["Fix +House.roof @tool @ladder", "Fix", { project: "House.roof", tags: "tool ladder" }],
    ["Fix project:House tag:tool", "Fix", { project: "House", tags: "tool" }],
    ['Bake +"Food and drink" tomorrow', "Bake", { project: "Food and drink", due: "2026-12-01" }],
    ['Bake column:"Under way"', "Bake", { column: "Under way" }],
    ["Bake column:Ideas", "Bake", { column: "Ideas" }],
    ["Bake for:BOB", "Bake", { assignee: "bob" }],
    ["Bake assignee:bob", "Bake", { assignee: "bob" }],
    ["Meet friday for:bob @hall", "Meet", { due: "2026-12-04", assignee: "bob", tags: "hall" }],
    ["Meet @hall friday +Fair 18:00", "Meet", { tags: "hall", project: "Fair", due: "2026-12-04 18:00" }],
    ["x 2026-01-02 2026-01-01 Call Mom", "Call Mom", { status: "completed" }],
    ["Sleep in tomorrow", "Sleep in", { due: "2026-12-01" }],
    ["Monday meeting friday", "Monday meeting", { due: "2026-12-04" }],
    ["Plan our weekend saturday", "Plan our weekend", { due: "2026-12-05" }],
];

// What stays a title, without a mark.
const PLAIN = ["Sunday school", "Friday", "next friday", "friday saturday", "18:00", "tomorrow", "Monday blues at work", "Enjoy the sun", "Plan our weekend", "End of today", "Upgrade to 2.6", "Buy 2 weeks of food", "Ring 15.12", "Wash every shirt", "Bake for bob", "Mail bob@example.org", "Call +49 821 4412", "C++ book", "Ask a + b", "Pay 40/60", "Meet 25:00", "Read 13 pm", "Buy 5\" pipe", "see http://a.example/b:c", "Note: call", 'Read "next friday"', 'Read "every monday"', "a \\\\server\\share", "Meet @18:00 at the hall", "Party (A)", "x", "Pay 31.2.", "Go in 0 turns", "30.2.2027 was never"].map((line) => [line, line]);
const KEPT = [["Buy \\friday", "Buy friday"], ["Meet \\next \\friday", "Meet next friday"], ["Call \\+Home", "Call +Home"], ["Write \\due:friday", "Write due:friday"], ["Mark \\!1", "Mark !1"], ["\\(A) is a grade", "(A) is a grade"]];

// What looks as if it said something and isn't understood: it stays, with the reason.
const MISREAD = [
    ["Rest due:tomorow", "due:tomorow", "isn't a day"],
    ["Rest due:", "due:", "needs a day"],
    ["Rest wait:never", "wait:never", "isn't a day"],
    ["Rest due:31.2.", "due:31.2.", "isn't a day"],
    ["Rest due:2026-02-30", "due:2026-02-30", "isn't a day"],
    ["Bake for:zoe", "for:zoe", "names nobody"],
    ["Bake for:", "for:", "needs something"],
    ["Bake pri:X", "pri:X", "isn't a priority"],
    ["Bake !4", "!4", "isn't a priority"],
    ["(D) low one", "(D)", "isn't a priority"],
    ["(Z) low one", "(Z)", "isn't a priority"],
    ["Bake +One +Two", "+Two", "is a second one"],
    ["Bake !1 !2", "!2", "is a second one"],
    ["Bake for:ann for:bob", "for:bob", "is a second one"],
    ["Bake due:friday due:monday", "due:monday", "is a second one"],
    ["Bake due:friday saturday", "saturday", "is a second one"],
    ["Bake friday saturday", "saturday", "is a second one"],
    ["Bake monday and thursday", "monday and thursday", "says several days"],
    ["Bake every monday and thursday", "every monday and thursday", "says several days"],
    ["Open 3pm to 5pm", "3pm to 5pm", "says several days"],
    ["Water every! monday", "every! monday", "not by when it was done"],
    ["Water weekly daily", "daily", "is a second one"],
    ["Water recur:weekly", "recur:weekly", "every week"],
    ["Water rec:1w", "rec:1w", "every week"],
    ["Bake dep:3", "dep:3", "isn't understood"],
    ["Bake status:waiting", "status:waiting", "isn't understood"],
];

const samples = [
    ...Object.entries(DAYS).map(([text, due]) => [`Call Mom ${text}`, "Call Mom", { due }]),
    ...Object.entries(REPEATS).map(([text, [recur, due]]) => [`Call Mom ${text}`, "Call Mom", { recur, due }]),
    ...WHOLE,
    ...[...PLAIN, ...KEPT].map(([line, title]) => [line, title, {}]),
];

test(`${samples.length + MISREAD.length} samples of what people type`, () => {
    assert.ok(samples.length + MISREAD.length >= 200);
    for (const [line, title, facts] of samples) {
        assert.deepEqual(told(line), [title, facts], line);
        assert.deepEqual(read(line).misread, [], line);
    }
});

test("what isn't understood stays in the title, with its reason", () => {
    for (const [line, part, why] of MISREAD) {
        const { task, misread } = read(line);
        assert.equal(misread.length, 1, line);
        assert.equal(misread[0][0], part, line);
        assert.ok(misread[0][1].includes(why), `${line}: ${misread[0][1]}`);
        assert.ok(task.description.includes(part), `${line}: ${task.description}`);
    }
});

test("each place reads its own weeks and slashes", () => {
    assert.deepEqual(told("Call Mom 12/24", { clock: american }), ["Call Mom", { due: "2026-12-24" }]);
    assert.deepEqual(told("Call Mom 12/24"), ["Call Mom 12/24", {}]);
    assert.deepEqual(told("Call Mom next week", { clock: american }), ["Call Mom", { due: "2026-12-06" }]);
    assert.deepEqual(told("Call Mom next friday", { clock: american }), ["Call Mom", { due: "2026-12-11" }]);
});

test("while the people aren't known any name may have the task", () => {
    assert.equal(read("Bake for:zoe", { people: null }).task.assignee, "zoe");
    assert.equal(read("Bake for:me", { people: ["ann", "me"] }).task.assignee, "me");
});

test("the marks say where in the line each part stands", () => {
    const line = "Cake list every monday 18:00 for:emil +Fo for:zoe";
    const marks = read(line).marks.map(({ from, to, kind }) => [line.slice(from, to), kind]);
    assert.deepEqual(marks, [["every monday", "repeat"], ["18:00", "day"], ["for:emil", "person"], ["+Fo", "project"], ["for:zoe", "misread"]]);
});

test("a part that is kept as words is read as words", () => {
    for (const line of ["Cake list every monday", "Cake +Food list", "Cake due:next week list"]) {
        const [mark] = read(line).marks;
        const kept = keptAsWords(line, mark);
        assert.deepEqual(read(kept).marks, [], kept);
        assert.equal(read(kept).task.description, line);
    }
});

// A source of numbers that gives the same ones at each run.
function chance(seed) {
    let state = seed;
    return (below) => {
        state = (Math.imul(state, 1664525) + 1013904223) >>> 0;
        return Math.floor((state / 2 ** 32) * below);
    };
}

test("no word of 10,000 lines is lost: each is in the title or in a mark that was understood", () => {
    const pick = chance(7);
    const pool = [...Object.keys(DAYS), ...Object.keys(REPEATS), ...PLAIN.flat(), ...MISREAD.map(([line]) => line), "+Home", "@phone", "for:ann", "for:zoe", "!1", "(A)", "(D)", "x", "and", "every", "next", '"a b"', "due:", "due:next", "@", "+"];
    for (let count = 0; count < 10000; count++) {
        const line = Array.from({ length: 1 + pick(5) }, () => pool[pick(pool.length)]).join(" ");
        const { task, marks } = read(line);
        const isTaken = (at) => marks.some(({ kind, from, to }) => kind !== "misread" && from <= at && at < to);
        const words = [...line.matchAll(/(?:[+@]|[a-z]+:)?"[^"]*"(?=\s|$)|\S+/gi)];
        const left = words.filter(({ index }) => !isTaken(index)).map(([text]) => text.replace(/^\\(?=[+@!(\w])/, ""));
        assert.equal(task.description, left.join(" ") || line.trim(), line);
        assert.deepEqual(marks, [...marks].sort((one, other) => one.from - other.from), line);
        for (const [at, mark] of marks.entries()) assert.ok(at === 0 || marks[at - 1].to <= mark.from, `${line}: marks lie over each other`);
        assert.ok(!task.recur || task.due, `${line}: a repeat without a due date`);
    }
});

test("a pasted list loses its points and numbers, and keeps what is ticked", () => {
    const list = "Shopping list:\n- [x] butter\r\n* [ ] bread\n\n1. sausages\n2) beans\n• tea\nCall: Bob\n";
    assert.deepEqual(linesOf(list), [
        { text: "Shopping list:", isDone: false, isHeading: true },
        { text: "butter", isDone: true, isHeading: false },
        { text: "bread", isDone: false, isHeading: false },
        { text: "sausages", isDone: false, isHeading: false },
        { text: "beans", isDone: false, isHeading: false },
        { text: "tea", isDone: false, isHeading: false },
        { text: "Call: Bob", isDone: false, isHeading: false },
    ]);
});

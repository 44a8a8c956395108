// My day: what is overdue, due today or this week, or started, on all boards of a person; what is theirs comes first.
import { counted } from "../core/format.js";
import { agoInWords } from "../core/moments.js";
import { listen, listenAll } from "../core/news.js";
import { DUES } from "../core/urgency.js";
import { NoAnswer } from "../sync/http.js";
import { waiting } from "../sync/outbox.js";
import { openBoard, pullBoard } from "../store/boards.js";
import { state } from "../store/store.js";
import { fill, find, make, refill } from "../ui/element.js";
import { List } from "../ui/windowed.js";
import { lookOf, makeRow, setUnanswered } from "./row.js";

export const MARKUP = `
<section id="day-view" aria-label="My day" hidden>
    <div class="line spread"><p id="day-told" class="about" role="status"></p><p class="switch"><a id="day-all" href="#/day">Everyone’s</a><a id="day-mine" href="#/day/mine">Mine alone</a></p></div>
    <p id="day-nothing" class="empty"></p>
    <div id="day-list" class="assigned" role="list" aria-label="Tasks of all boards: arrows move, Enter opens, e completes, d changes the date"></div>
</section>
`;

const GROUPS = { overdue: DUES.overdue, today: DUES.today, week: DUES.week, started: "Started" };
// All boards are asked for again after so many milliseconds.
const EVERY = 60000;
// The boards that came, by their numbers; whether they are being asked for, when that began last, and how many don't answer.
let [boards, isAsking, askedAt, missing] = [new Map(), false, -Infinity, 0];
// When those boards were seen that didn't answer last, by their numbers.
let seenAt = new Map();
let list;

const isShown = () => state.view === "day" && Boolean(state.who);

function groupOf(task) {
    if (!task.isListed) return "";
    return task.dueGroup in GROUPS ? task.dueGroup : task.told.start ? "started" : "";
}

// Mine before nobody's, and those before what others have; then what is due first, then what is most urgent.
const rankOf = (task) => (task.assignee === state.who.name ? 0 : task.assignee ? 2 : 1);
const compare = (one, other) => one.rank - other.rank || one.task.dueDay - other.task.dueDay || other.task.parts - one.task.parts;

// The tasks of the day, each with the board on which it is.
function collect() {
    const groups = new Map(Object.keys(GROUPS).map((name) => [name, []]));
    for (const { board: number, role, title } of state.boards) {
        const place = { number, role, title };
        for (const task of boards.get(number)?.tasks ?? []) {
            if (state.isMineOnly && task.assignee !== state.who.name) continue;
            groups.get(groupOf(task))?.push({ uuid: `${number} ${task.uuid}`, task, place, rank: rankOf(task) });
        }
    }
    return groups;
}

function draw() {
    if (!isShown()) return;
    setUnanswered(waiting().map((one) => one.task));
    const groups = [...collect()].filter(([, items]) => items.length > 0);
    const count = groups.reduce((sum, [, items]) => sum + items.length, 0);
    find("day-list").hidden = count === 0;
    list.show(groups.flatMap(([name, items]) => [{ heading: GROUPS[name], count: items.length, uuid: name }, ...items.sort(compare)]), false);
    const known = state.boards.filter(({ board }) => boards.has(board)).length;
    const lacks = missing > 0 ? `; ${counted(missing)} of the boards can't be asked now` : "";
    const ofAll = known < state.boards.length ? `${counted(known)} of ` : "";
    const told = `${counted(count)} ${count === 1 ? "task" : "tasks"} of ${ofAll}${counted(state.boards.length)} ${state.boards.length === 1 ? "board" : "boards"}${lacks}`;
    const ages = state.boards.map(({ board }) => seenAt.get(board)).filter(Boolean);
    refill(find("day-told"), told, ages.length > 0 ? [", as seen here ", make("span", { "aria-live": "off" }, agoInWords(Math.min(...ages)))] : []);
    const nothing = state.isMineOnly ? "Nothing of yours is due in the next seven days, and nothing is started." : "Nothing is due in the next seven days, and nothing is started.";
    fill(find("day-nothing"), count > 0 ? [] : isAsking ? "Asking the server for your boards." : nothing);
    find("day-all").ariaCurrent = state.isMineOnly ? null : "page";
    find("day-mine").ariaCurrent = state.isMineOnly ? "page" : null;
}

function take(number, board) {
    board.rank();
    boards.set(number, board);
    draw();
}

// Shows a board as it was seen last, and then as it is. Without an answer it stays as it was seen.
async function ask(number) {
    const { who } = state;
    const seen = boards.has(number) ? null : await openBoard(number);
    if (seen && state.who === who) take(number, seen.board);
    try {
        const { board } = await pullBoard(number);
        seenAt.delete(number);
        if (state.who === who) take(number, board);
    } catch (fault) {
        const known = await openBoard(number);
        if (!(fault instanceof NoAnswer) || !known) throw fault;
        seenAt.set(number, known.at);
    }
}

async function askForAll() {
    if (isAsking || !isShown() || state.boards.length === 0) return;
    [isAsking, askedAt, missing] = [true, performance.now(), 0];
    draw();
    // (boards that come meanwhile are asked for too)
    const asked = new Set();
    const next = () => (isShown() ? state.boards.find(({ board }) => !asked.has(board)) : undefined);
    for (let one = next(); one; one = next()) {
        asked.add(one.board);
        await ask(one.board).catch(() => (missing += 1));
    }
    isAsking = false;
    draw();
}

const askIfOld = () => performance.now() - askedAt > EVERY && askForAll();

export function beginDay() {
    list = new List(find("day-list"), ({ task, place }) => makeRow(task, place), ({ task, place }) => lookOf(task, place));
    listen("route", () => {
        draw();
        askForAll();
    });
    listen("boards", askForAll);
    listen("tick", askIfOld);
    listenAll(["kept", "other"], draw);
    // (of many changes of a board the last one has it asked for)
    const isLast = ({ board }) => board > 0 && !waiting().some((one) => one.board === board);
    listen("answered", ({ change }) => isShown() && isLast(change) && ask(change.board).catch(console.warn));
    listen("left", () => ([boards, seenAt, askedAt] = [new Map(), new Map(), -Infinity]));
}

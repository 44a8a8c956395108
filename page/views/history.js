// Who did what, and when: the view of a board's history, what happened to the open task, what others did since its reader looked last, and
// what two people changed at once. Where the server has no history none of it is shown.
import { changes } from "../core/calls.js";
import { counted } from "../core/format.js";
import { dayInWords, inFull, seconds, timeOf } from "../core/moments.js";
import { announce, listen, listenAll } from "../core/news.js";
import { deedsIn, hasHistory, isHistoryKnown, labelOf, lookAtDeedsOf, lookAtLast, lookFrom, saidBy, worded } from "../sync/entries.js";
import { NoAnswer } from "../sync/http.js";
import { keep } from "../sync/outbox.js";
import { keepDraft, readDraft } from "../store/drafts.js";
import { baseOf } from "../store/pending.js";
import { names } from "../store/people.js";
import { go } from "../store/route.js";
import { here, state } from "../store/store.js";
import { button, fill, find, make, refill, said, span } from "../ui/element.js";
import { options } from "../ui/select.js";
import { toldOf, WORDS } from "./deed.js";
import { tellFault } from "./faults.js";

export const NEWS = `
<p id="news" class="notice line spread" role="status" hidden><span id="news-told"></span> <span class="line"><button id="news-show" type="button">Show what was done</button><button id="news-dismiss" type="button" class="quiet">Dismiss</button></span></p>
<ul id="overlaps" class="notices" aria-label="Changed at once" aria-live="polite"></ul>
`;

export const MARKUP = `
<section id="history-view" aria-label="History" hidden>
    <div class="line"><select id="history-person" aria-label="By whom"></select><select id="history-what" aria-label="What was done"></select><span id="history-told" class="about" role="status"></span></div>
    <p id="history-nothing" class="empty"></p>
    <ol id="history-list" class="deeds"></ol>
    <div><button id="history-older" type="button" hidden></button></div>
</section>
`;

export const OF_TASK = `<div id="history-part" hidden><h3>History</h3><ul id="task-history" class="deeds"></ul></div>`;

// How many entries an answer has at most, how many of a task are shown at first, how many answers are looked through for one that passes the
// filters, and how many entries are kept while the view isn't shown.
const [PAGE, FEW, MOST_TRIES, MOST_KEPT] = [100, 5, 10, 1000];
// The entries of the shown board that came, by their numbers; the last number; and whether the last ones came.
let board = { number: 0, entries: new Map(), last: 0, isRead: false };
// The entries of the open task, whether all of them are shown, and the deeds that they tell.
let task = { number: 0, uuid: "", entries: new Map(), isWhole: false, deeds: [] };
// From which number on entries are new to the reader, and the first of those that were when they were told; and what two changed at once.
let [newFrom, firstNew, overlaps] = [0, Infinity, []];

const inOrder = (entries) => [...entries.values()].sort((one, other) => one.number - other.number);
const isMine = ({ member }) => member === state.who.name;
const who = (entry) => (isMine(entry) ? "You" : said(entry.member, 40));
const taskHere = (uuid) => (state.board?.number === state.number ? state.board.byId.get(uuid) : undefined);

// Another task by its uuid, or this one.
function taskLink(uuid) {
    const known = taskHere(String(uuid).toLowerCase());
    const label = known ? said(known.description, 120) : "a task that isn't here";
    return known ? button(label, () => go(state.number, "tasks", known.uuid), { class: known.isOpen ? "link" : "link ended" }) : span("about", label);
}

// What is told of the notes and moments of the open task, once its history came: who wrote a note, and who did something last.
export const authorOf = (uuid, { description, entry }) => deedsOf(uuid).find((deed) => deed.what === "annotate" && deed.moment === entry && deed.said?.description === description)?.member ?? "";
export const lastBy = (uuid, ...words) => deedsOf(uuid).findLast((deed) => words.includes(deed.what))?.member ?? "";
const deedsOf = (uuid) => (task.uuid === uuid && task.number === state.number ? task.deeds : []);

// Undoes what somebody changed, where it is known what it was, and nobody has changed it since. (JavaScript rounds larger numbers.)
function undoOf(deed) {
    const one = taskHere(deed.task);
    const isKnown = ({ from }) => from !== undefined && (typeof from !== "number" || Number.isSafeInteger(from));
    const isStill = ({ name, to }) => JSON.stringify(one.told[name] ?? null) === JSON.stringify(to);
    const undone = one && deed.changes.filter((change) => isKnown(change) && isStill(change));
    if (!undone?.length || !one.isOpen || here()?.role === "reader") return null;
    return () => keep(changes.modify(state.number, one, Object.fromEntries(undone.map(({ name, from }) => [name, from])))).catch(tellFault);
}

const undoLabel = (deed) => (isMine(deed) ? "Undo my change" : "Undo their change");
const undoButton = (deed) => (undoOf(deed) ? button(undoLabel(deed), () => undoOf(deed)?.(), { class: "quiet" }) : "");

// Whether one's own change knew what somebody else had set, as it does where its form showed that; of changes that weren't made here nobody knows.
function isSeen(deed, { name, over }) {
    const base = baseOf(deed.call);
    return isMine(deed) && (!base || JSON.stringify(base[name] ?? null) === JSON.stringify(over.value));
}

// What somebody else had changed of the same at the same time.
function atOnce(deed) {
    const over = deed.changes.filter((change) => change.over && !isSeen(deed, change));
    const quoted = (name, value) => make("q", {}, said(String(worded(name, value)), 80));
    const when = (at) => (seconds(deed.moment) > at ? `${seconds(deed.moment) - at} s before` : "in the same second");
    return over.map(({ name, over: { by, at, value } }) => span("once", by === state.who.name ? "You" : said(by, 40), ` had set ${labelOf(name)} to `, quoted(name, value), ` ${when(at)}.`));
}

function deedRow(deed) {
    return make("li", { class: "deed" }, make("span", {}, make("strong", {}, who(deed)), " ", toldOf(deed, taskLink), atOnce(deed)), span("about", inFull(seconds(deed.moment)), undoButton(deed)));
}

function drawTask() {
    const all = task.deeds.toReversed();
    find("history-part").hidden = !isHistoryKnown() || all.length === 0;
    const more = button(`Show all ${counted(all.length)}`, () => {
        task.isWhole = true;
        drawTask();
    }, { class: "quiet" });
    const isCut = !task.isWhole && all.length > FEW + 1;
    refill(find("task-history"), all.slice(0, isCut ? FEW : undefined).map(deedRow), isCut ? make("li", {}, more) : "");
}

function setDeeds() {
    task.deeds = deedsIn(inOrder(task.entries));
    drawTask();
    announce("told", task.uuid);
}

// Asks what happened to the task that is open. What happens later comes with the news of its board.
async function askForTask() {
    const { who, number, chosen } = state;
    if (!here() || !chosen || (task.uuid === chosen && task.number === number)) return;
    task = { number, uuid: chosen, entries: new Map(), isWhole: false, deeds: [] };
    drawTask();
    // (a task that isn't on the server yet comes with the news)
    const told = await lookAtDeedsOf(who, number, chosen).catch((fault) => (fault instanceof NoAnswer ? null : { entries: [] }));
    if (task.uuid !== chosen || task.number !== number || state.who !== who) return;
    if (!told) return void (task.uuid = "");
    for (const entry of told.entries) task.entries.set(entry.number, entry);
    setDeeds();
}

// The view.
const wanted = () => ({ person: find("history-person").value, what: find("history-what").value });
const passes = (entry, { person, what }) => (!person || entry.member === person) && (!what || entry.what === what);

function dayRow(day) {
    return make("li", {}, make("h3", {}, day));
}

function entryRow(entry) {
    const about = make("span", { class: "about", title: `Number ${counted(entry.number)}` }, timeOf(seconds(entry.moment)) || "00:00");
    const what = make("span", {}, make("strong", {}, who(entry)), " ", toldOf(entry, taskLink, entry.task && taskLink(entry.task)));
    return make("li", { class: entry.number >= firstNew ? "deed new" : "deed" }, what, about);
}

// What each entry changed to what, as far as the entries that came tell it.
function readEntries() {
    const all = inOrder(board.entries);
    const read = [...Map.groupBy(all, (entry) => entry.task ?? entry.number).values()].flatMap(deedsIn);
    return read.sort((one, other) => other.number - one.number);
}

function drawView() {
    if (state.view !== "history" || board.number !== state.number) return;
    const all = readEntries();
    drawFilters(all);
    const found = all.filter((entry) => passes(entry, wanted()));
    const days = Map.groupBy(found, (entry) => dayInWords(seconds(entry.moment)));
    refill(find("history-list"), [...days].flatMap(([day, entries]) => [dayRow(day), ...entries.map(entryRow)]));
    const first = all.at(-1)?.number ?? 0;
    find("history-older").hidden = first <= 1;
    find("history-older").textContent = `Show older ones, from ${counted(Math.max(1, first - PAGE))} on`;
    if (board.isRead) drawCounts(found.length, first);
}

// How many of the entries are shown, where they were looked at down to this one.
function drawCounts(count, first) {
    const lookedAt = first > 1 ? `, looked at down to number ${counted(first)}` : "";
    find("history-told").textContent = `${counted(count)} of ${counted(board.last)} changes${lookedAt}`;
    const none = first > 1 ? "None of those that were looked at is so." : "Nothing is so.";
    find("history-nothing").textContent = count > 0 ? "" : board.last > 0 ? none : "Nothing has happened on this board since its server keeps a history.";
}

function drawFilters(all) {
    const { person, what } = wanted();
    const people = [...new Set([...(names() ?? []), ...all.map(({ member }) => member)])].sort();
    const words = [["", "All that was done"], ...Object.entries(WORDS)];
    const told = JSON.stringify(people);
    if (find("history-person").told === told) return;
    find("history-person").told = told;
    fill(find("history-person"), options([["", "Everyone"], ...people.map((name) => [name, name === state.who.name ? `${name} (you)` : name])], person));
    if (find("history-what").length === 0) fill(find("history-what"), options(words, what));
}

function add(number, entries, last) {
    if (board.number !== number) board = { number, entries: new Map(), last: 0, isRead: false };
    for (const entry of entries) board.entries.set(entry.number, entry);
    board.last = last;
    if (board.entries.size <= MOST_KEPT || state.view === "history") return;
    board.entries = new Map(inOrder(board.entries).slice(-PAGE).map((entry) => [entry.number, entry]));
    board.isRead = false;
}

// Asks for the last entries, which the view begins with. Those that came before and don't reach up to them are left out.
async function askForLast() {
    const { who, number, view } = state;
    if (view !== "history" || !here() || (board.number === number && board.isRead)) return;
    const told = await lookAtLast(who, number).catch(() => null);
    if (!hasHistory()) fill(find("history-nothing"), "This server keeps no history.");
    else if (!told && board.number !== number) fill(find("history-nothing"), "The server doesn't answer. The history comes when it does.");
    if (!told || state.who !== who || state.number !== number) return;
    if (board.number === number) board.entries = new Map();
    add(number, told.entries, told.last);
    board.isRead = true;
    drawView();
}

// Asks for older entries, until some pass the filters.
async function askForOlder() {
    const { who, number } = state;
    const count = () => [...board.entries.values()].filter((entry) => passes(entry, wanted())).length;
    const before = count();
    for (let tries = 0; tries < MOST_TRIES && count() === before; tries++) {
        const first = Math.min(...board.entries.keys());
        if (first <= 1) break;
        const told = await lookFrom(who, number, Math.max(1, first - PAGE)).catch(() => null);
        if (!told || state.who !== who || board.number !== number) return;
        add(number, told.entries.filter((entry) => entry.number < first), told.last);
    }
    drawView();
}

// What others did since the reader looked last.
const isOthers = (entry) => entry.number >= newFrom && !isMine(entry) && entry.what !== "sweep";

// The window's title says it too, for who looks at another one.
function drawTitle(count) {
    const title = document.title.replace(/^\(\d+\) /, "");
    document.title = count > 0 ? `(${count}) ${title}` : title;
}

function drawNews() {
    const news = inOrder(board.entries).filter(isOthers);
    const counts = [...Map.groupBy(news, ({ member }) => member)].map(([name, { length }]) => [length, name]).sort(([one], [other]) => other - one);
    const isCut = news.length > 0 && board.last - newFrom >= PAGE;
    const parts = counts.slice(0, 3).flatMap(([count, name], at) => [at === 0 ? "" : ", ", counted(count), at === 0 ? (count === 1 ? " change by " : " changes by ") : " by ", said(name, 40)]);
    find("news").hidden = news.length === 0;
    drawTitle(news.length);
    fill(find("news-told"), ...parts, counts.length > 3 ? ` and ${counts.length - 3} others` : "", isCut ? " and more" : "", " since you looked");
    return news.length;
}

function noteLooked() {
    newFrom = board.last + 1;
    keepDraft("looked", "", { last: board.last }, board.number);
    find("news").hidden = true;
    drawTitle(0);
}

function showNews() {
    firstNew = newFrom;
    noteLooked();
    go(state.number, "history");
}

// What one of two set a moment before the other, who hadn't seen it.
function overlapOf(entry) {
    const said = entry.what === "modify" && saidBy(entry);
    if (!said) return [];
    const deeds = deedsIn(inOrder(board.entries).filter((other) => other.task === entry.task && other.number <= entry.number));
    const deed = deeds.at(-1);
    const over = deed.changes.filter((change) => change.over && !isSeen(deed, change) && (isMine(entry) || change.over.by === state.who.name));
    return over.length > 0 ? [{ ...deed, changes: over }] : [];
}

function drawOverlaps() {
    const dismiss = (deed) => {
        overlaps = overlaps.filter((other) => other !== deed);
        drawOverlaps();
    };
    const row = (deed) => {
        const other = isMine(deed) ? deed.changes[0].over.by : deed.member;
        const quoted = (name, value) => make("q", {}, said(String(worded(name, value)), 300));
        const [now, before] = isMine(deed) ? ["yours", [said(other, 40), "’s was "]] : [[said(other, 40), "’s"], ["Yours was "]];
        const texts = deed.changes.map(({ name, from, to }) => make("p", {}, `T${labelOf(name).slice(1)} is now `, now, ": ", quoted(name, to), ". ", before, quoted(name, from), "."));
        const take = () => {
            undoOf(deed)?.();
            dismiss(deed);
        };
        const told = make("div", {}, make("p", {}, make("strong", {}, "You and ", said(other, 40)), " changed ", taskLink(deed.task), " at once."), texts);
        return make("li", { class: "notice asks" }, told, make("div", { class: "line" }, undoOf(deed) ? button(undoLabel(deed), take) : "", button("Keep it", () => dismiss(deed), { class: "quiet" })));
    };
    refill(find("overlaps"), overlaps.filter((deed) => deed.board === state.number).map(row));
}

// Takes what the board's history told: at first what happened since its reader looked last, and then what happens.
function take({ number, entries, last, isFirst, isWatched }) {
    add(number, entries, last);
    // (of very many that came at once the answer has the first ones)
    if (entries.length > 0 && entries.at(-1).number < last) board.isRead = false;
    if (isFirst) [newFrom, firstNew, task.uuid] = [Math.min(readDraft("looked", "", number)?.last ?? last, last) + 1, Infinity, ""];
    find("to-history").hidden = false;
    if (!isFirst) overlaps = [...overlaps, ...entries.flatMap(overlapOf).map((deed) => ({ ...deed, board: number }))];
    const isTold = !isFirst && !find("news").hidden;
    if ((isWatched && !isFirst && !isTold) || drawNews() === 0) noteLooked();
    for (const entry of entries.filter((entry) => entry.task && entry.task === task.uuid)) task.entries.set(entry.number, entry);
    if (entries.some((entry) => entry.task === task.uuid)) setDeeds();
    drawOverlaps();
    drawView();
}

export function beginHistory() {
    listen("deeds", take);
    for (const id of ["history-person", "history-what"]) find(id).addEventListener("input", drawView);
    find("history-older").addEventListener("click", () => askForOlder().catch(console.error));
    find("news-show").addEventListener("click", showNews);
    find("news-dismiss").addEventListener("click", noteLooked);
    listen("board", (isNew) => isNew && [drawOverlaps, drawTask, drawView].forEach((part) => part()));
    listenAll(["route", "deeds", "reach"], (told) => told === false || [askForTask, askForLast].forEach((part) => part().catch(console.error)));
    listen("route", () => {
        if (board.number !== state.number && !find("news").hidden) {
            find("news").hidden = true;
            drawTitle(0);
        }
        drawView();
    });
}

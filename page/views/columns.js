// The board's tasks in columns. A card that is moved, by the mouse or by keys, is started, stopped, completed or reopened.
import { changes } from "../core/calls.js";
import { counted } from "../core/format.js";
import { momentOf, now, seconds } from "../core/moments.js";
import { listen } from "../core/news.js";
import { faultInWait } from "../core/rules.js";
import { keep } from "../sync/outbox.js";
import { go } from "../store/route.js";
import { state } from "../store/store.js";
import { doing } from "../store/undo.js";
import { isWhole, whenSent } from "../ui/check.js";
import { button, fill, find, make, said, span } from "../ui/element.js";
import { tellFault } from "./faults.js";
import { MomentField } from "./fields.js";
import { assigneeOf, chipsOf, dueOf, lookOf, nameOf, shownBoard } from "./row.js";
import { offerUndo } from "./undoing.js";
import { changeValue, KEYS } from "./value.js";

export const MARKUP = `<div id="columns" aria-label="Columns: arrows go from card to card, Shift and an arrow moves one, w hides one until a day, Enter opens, e completes or reopens, d changes the date, a the person" role="group" hidden></div>`;

export const DIALOG = `
<dialog id="wait-dialog" aria-label="Hide until">
    <form id="wait-form">
        <h2>Until when is it hidden?</h2><div id="wait-fields"></div>
        <div class="line"><button class="primary">Hide it</button><button id="cancel-wait" type="button">Cancel</button></div>
    </form>
</dialog>
`;

const RECENT = 14 * 86400;
const [FIRST, MORE] = [25, 200];
const COLUMNS = { todo: "To do", started: "Started", waiting: "Waiting", done: "Done in the last 14 days" };
const NAMES = Object.keys(COLUMNS);
// The tasks of each column, their cards by their uuids, and how many of each column are shown at most on which board.
let [byColumn, cards, most, number] = [new Map(), new Map(), {}, 0];
// The task that had the focus last, the one that is dragged, and what to do with the date until which one shall wait.
let [current, dragged, whenDated] = ["", null, null];

// The column of a task, none where it is in none; what ended before that moment is in none.
function columnOf({ status, told }, since = momentOf(now() - RECENT)) {
    if (status === "waiting") return "waiting";
    if (status === "pending") return told.start ? "started" : "todo";
    return status === "completed" && told.end > since ? "done" : "";
}

function hold(task, steps, name) {
    const made = steps.map((step) => (typeof step === "string" ? changes.act(state.number, task, step) : changes.modify(state.number, task, step)));
    const { sent, group } = doing(() => keep(...made));
    sent.catch(tellFault);
    offerUndo(group, make("q", {}, said(task.description, 60)), ` is in ${COLUMNS[name]} now.`);
}

// Asks until when a task waits.
function askToWait(task, steps) {
    const field = new MomentField("Hide until", undefined, false, faultInWait);
    field.day.required = true;
    fill(find("wait-fields"), field.element);
    whenDated = () => hold(task, [...steps, { wait: field.read() }], "waiting");
    find("wait-dialog").showModal();
}

// What takes a card to a column: actions, and what is changed of the task.
function stepsTo(task, name) {
    const { start, wait } = task.told;
    const isActive = name === "todo" || name === "started";
    return [
        task.isOpen ? "" : "reopen",
        isActive && seconds(wait) > now() ? { wait: null } : "",
        name === "started" && !start ? "start" : "",
        name === "todo" && start ? "stop" : "",
        name === "done" ? "done" : "",
    ].filter(Boolean);
}

function moveTo(task, name) {
    if (!name || columnOf(task) === name) return;
    if (name === "waiting") askToWait(task, stepsTo(task, name));
    else hold(task, stepsTo(task, name), name);
}

// The column beside one, of those that count.
const beside = (name, step, names) => names[names.indexOf(name) + step];

function makeCard(task, place) {
    const settings = { class: "open", "aria-label": `${nameOf(task, place)}, ${COLUMNS[columnOf(task)]}`, tabindex: -1 };
    const open = button(said(task.description), () => go(state.number, "tasks", task.uuid), settings);
    const isOpen = task.uuid === state.chosen;
    const hasFoot = task.due !== undefined || task.assignee;
    const about = { class: isOpen ? "card chosen" : "card", draggable: place.role === "reader" ? null : "true", "aria-current": isOpen ? "true" : null };
    return make("li", about, open, span("chips", ...chipsOf(task, place, true)), hasFoot ? span("foot", dueOf(task, place), assigneeOf(task, place)) : "");
}

function cardOf(task, place) {
    const look = `${lookOf(task, place)} ${columnOf(task)}`;
    const known = cards.get(task.uuid);
    if (known?.task === task && known.look === look) return known;
    const card = Object.assign(makeCard(task, place), { task, look });
    card.dataset.uuid = task.uuid;
    return card;
}

// What shows more of a column: as it stands there, where it says the same.
function moreOf({ lastChild: known }, name, count, left) {
    const label = `Show ${counted(Math.min(left, MORE))} more`;
    if (known?.count === count && known.textContent === label) return known;
    const show = () => {
        most[name] = count + MORE;
        draw();
    };
    return Object.assign(make("li", {}, button(label, show, { class: "quiet" })), { count });
}

function drawColumn(name, tasks, place, drawn) {
    const column = find(`column-${name}`);
    const first = tasks.slice(0, most[name] ?? FIRST).map((task) => cardOf(task, place));
    for (const card of first) drawn.set(card.task.uuid, card);
    const left = tasks.length - first.length;
    column.querySelector(".about").textContent = counted(tasks.length);
    const list = column.querySelector("ul");
    const wanted = left > 0 ? [...first, moreOf(list, name, first.length, left)] : first;
    if (wanted.length !== list.children.length || wanted.some((card, at) => list.children[at] !== card)) list.replaceChildren(...wanted);
}

// Shows those of the tasks that are in a column, and gives how many they are. While a card is dragged they wait.
export function showColumns(tasks) {
    if (number !== state.number) [most, number] = [{}, state.number];
    const since = momentOf(now() - RECENT);
    byColumn = Map.groupBy(tasks, (task) => columnOf(task, since));
    if (!dragged) draw();
    return NAMES.reduce((sum, name) => sum + (byColumn.get(name)?.length ?? 0), 0);
}

// The card that had the focus keeps it, also in another column.
function draw() {
    const hadFocus = find("columns").contains(document.activeElement);
    const drawn = new Map();
    const place = shownBoard();
    for (const name of NAMES) drawColumn(name, byColumn.get(name) ?? [], place, drawn);
    cards = drawn;
    const stop = cards.get(current) ?? cards.values().next().value;
    for (const card of cards.values()) card.firstChild.tabIndex = card === stop ? 0 : -1;
    if (hadFocus && current && cards.has(current)) cards.get(current).firstChild.focus({ preventScroll: true });
}

const cardsIn = (name) => [...find(`column-${name}`).querySelectorAll(".card")];

function focusOn(card) {
    if (!card) return;
    cards.get(current)?.firstChild.setAttribute("tabindex", -1);
    card.firstChild.tabIndex = 0;
    card.firstChild.focus();
    card.scrollIntoView({ block: "nearest", inline: "nearest" });
}

function steer(event) {
    const card = event.target.closest(".card");
    if (!card || event.ctrlKey || event.metaKey || event.altKey) return;
    const name = columnOf(card.task);
    const sideways = { ArrowLeft: -1, ArrowRight: 1 }[event.key];
    const upright = { ArrowUp: -1, ArrowDown: 1, k: -1, j: 1 }[event.key];
    const isReader = shownBoard().role === "reader";
    // (a key that is held acts once)
    const act = (wanted) => event.repeat || moveTo(card.task, wanted);
    // Waiting asks for a date, so a card goes there by a key of its own, and those that move cards pass it over.
    if (sideways && event.shiftKey && !isReader) act(beside(name, sideways, NAMES.filter((other) => other !== "waiting" || name === other)));
    else if (sideways) {
        const names = NAMES.filter((other) => other === name || cardsIn(other).length > 0);
        const others = cardsIn(beside(name, sideways, names) ?? name);
        focusOn(others[Math.min(cardsIn(name).indexOf(card), others.length - 1)]);
    } else if (upright) focusOn(cardsIn(name)[cardsIn(name).indexOf(card) + upright]);
    else if (event.key === "e" && !isReader) act(name === "done" ? "todo" : "done");
    else if (event.key === "w" && !isReader) act("waiting");
    else if (event.key in KEYS && !isReader && !event.repeat && event.target === card.firstChild) changeValue(card.firstChild, card.task, KEYS[event.key], shownBoard(), () => cards.get(card.task.uuid)?.firstChild);
    else return;
    event.preventDefault();
}

function beginDragging(place) {
    place.addEventListener("dragstart", (event) => {
        dragged = event.target.closest(".card")?.task ?? null;
        event.dataTransfer.effectAllowed = "move";
        event.dataTransfer.setData("text/plain", dragged?.description ?? "");
    });
    const over = (event) => (dragged ? event.target.closest(".column") : null);
    const mark = (column) => NAMES.forEach((name) => find(`column-${name}`).classList.toggle("target", find(`column-${name}`) === column));
    place.addEventListener("dragover", (event) => {
        const column = over(event);
        if (column) event.preventDefault();
        mark(column);
    });
    place.addEventListener("drop", (event) => {
        const column = over(event);
        if (!column) return;
        event.preventDefault();
        moveTo(state.board.byId.get(dragged.uuid) ?? dragged, column.id.slice("column-".length));
    });
    document.addEventListener("dragend", () => {
        dragged = null;
        mark(null);
        draw();
    });
}

export function beginColumns() {
    const place = find("columns");
    fill(place, NAMES.map((name) => make("section", { class: "column", id: `column-${name}`, "aria-label": COLUMNS[name] }, make("h3", {}, `${COLUMNS[name]} `, span("about")), make("ul", {}))));
    place.addEventListener("focusin", (event) => (current = event.target.closest(".card")?.dataset.uuid ?? current));
    place.addEventListener("keydown", steer);
    beginDragging(place);
    listen("kept", () => find("columns").hidden || dragged || draw());
    // (closed first, so that the card has the focus again before it is drawn in another column)
    whenSent("wait-form", (form) => {
        if (!isWhole(form)) return;
        find("wait-dialog").close();
        whenDated();
    });
    find("cancel-wait").addEventListener("click", () => find("wait-dialog").close());
}

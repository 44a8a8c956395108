// A task as a row of a list.
import { changes } from "../core/calls.js";
import { oneLine } from "../core/format.js";
import { dayOf, inWords, isOver, seconds, today } from "../core/moments.js";
import { PRIORITIES } from "../core/task.js";
import { keep } from "../sync/outbox.js";
import { isGone } from "../store/people.js";
import { go } from "../store/route.js";
import { isPicked, pick, pickTo } from "../store/selection.js";
import { here, state } from "../store/store.js";
import { button, make, said, span } from "../ui/element.js";
import { dot, face } from "../ui/face.js";
import { tellFault } from "./faults.js";
import { pickByClick } from "./picking.js";
import { canChange, changeValue, KEYS, labelOfValue } from "./value.js";

// The uuids of tasks with a change that has no answer yet.
let unanswered = new Set();

export const setUnanswered = (uuids) => (unanswered = new Set(uuids));
// The board of a row where none is given: the one that is shown.
export const shownBoard = () => ({ number: state.number, role: here()?.role, title: "" });
const chip = (kind, ...children) => span(`chip ${kind}`, ...children);

// The row or card of a task, by the name that it has in its list.
const rowOf = (task, place) => document.querySelector(`[data-uuid="${place.title ? `${place.number} ` : ""}${task.uuid}"] .open`);
// On other boards than the shown one nobody knows who may have a task, and which tags and projects there are.
const isOfShown = (name, place) => !place.title || ["due", "priority"].includes(name);

// A value that a click changes, where it can be changed.
function valued(name, task, place, kind, ...children) {
    if (place.role === "reader" || !canChange(task, name) || !isOfShown(name, place)) return span(kind, ...children);
    const change = (event) => changeValue(event.currentTarget, task, name, place, () => rowOf(task, place));
    return make("button", { type: "button", class: `${kind} value`, tabindex: -1, title: `Change: ${labelOfValue(name)}`, click: change }, children);
}

// What is said of a task beside its title. A row has its priority in its ring; `hasPriority` says it in words, as on a card.
export function chipsOf(task, place, hasPriority = false) {
    const { title, number } = place;
    const value = (name, kind, ...children) => valued(name, task, place, `chip ${kind}`, ...children);
    return [
        title ? chip("board", dot(number), said(title, 40)) : "",
        unanswered.has(task.uuid) ? chip("unanswered", "not saved yet") : "",
        hasPriority && task.priority ? value("priority", `priority-${task.priority}`, PRIORITIES[task.priority]) : "",
        task.isListed && task.told.start ? chip("started", "started") : "",
        task.status === "waiting" ? value("wait", "waiting", `hidden until ${inWords(seconds(task.told.wait))}`) : "",
        task.isBlocked ? chip("blocked", "blocked") : "",
        task.isBlocking ? chip("blocking", "blocks others") : "",
        task.isOpen ? "" : chip("closed", task.status),
        task.project && state.filter.group !== "project" ? value("project", "project", said(task.project, 40)) : "",
        ...task.tags.slice(0, 4).map((tag) => value("tags", "tag", said(`@${tag}`, 30))),
        task.tags.length > 4 ? value("tags", "tag", `${task.tags.length - 4} more`) : "",
    ];
}

const capital = (text) => text.slice(0, 1).toUpperCase() + text.slice(1);
// How near its date is: late, now for today, soon for tomorrow.
function nearness(task) {
    if (!task.isOpen) return "";
    if (isOver(task.due)) return " late";
    return [" now", " soon"][dayOf(task.due) - today()] ?? "";
}

export function dueOf(task, place) {
    if (task.due === undefined) return span("due");
    const near = nearness(task);
    return valued("due", task, place, `due${near}`, span("hidden", near === " late" ? "was due " : "due "), capital(inWords(task.due)));
}

// Who has a task: the first letter in a circle, and the name.
export function assigneeOf(task, place) {
    const name = task.assignee;
    if (!name) return span("assignee");
    const isOver = !place.title && isGone(name);
    const kind = isOver ? "gone" : name === state.who?.name ? "mine" : "";
    const about = isOver ? "no role any more" : "assignee";
    const shown = valued("assignee", task, place, `assignee ${kind}`.trim(), face(name), make("span", { class: "hidden" }, "assignee ", said(name, 40), isOver ? " (no role any more)" : ""));
    shown.title = `${oneLine(name, 60)}: ${about}`;
    return shown;
}

// A row's name, as it is heard: what the chips beside it show stands in it too.
export function nameOf(task, { title }) {
    const { description, priority, due, isBlocked, isOpen, assignee, told } = task;
    const about = [
        priority && `priority ${PRIORITIES[priority]}`,
        due !== undefined && `${isOpen && isOver(due) ? "was due" : "due"} ${inWords(due)}`,
        isBlocked && "blocked",
        isOpen && told.start && "started",
        task.status === "waiting" && "waiting",
        !isOpen && task.status,
        title && `on ${oneLine(title, 40)}`,
        assignee && `for ${oneLine(assignee, 40)}`,
        unanswered.has(task.uuid) && "not saved yet",
    ].filter(Boolean);
    return [oneLine(description), ...about].join(", ");
}

// A box that chooses a task, to change several at once; the keys of the list do so too.
function boxOf(task) {
    const isChecked = isPicked(task.uuid);
    const choose = (event) => (event.shiftKey ? pickTo(task.uuid) : pick(task.uuid));
    return make("input", { type: "checkbox", class: "choose", checked: isChecked, "aria-label": `Choose: ${oneLine(task.description, 80)}`, tabindex: -1, click: choose });
}

// The ring before a task, which completes or reopens it; its colour and its sign tell the priority.
function ringOf(task, isReader, change) {
    const [act, word, kind] = task.isOpen ? ["done", "Complete", `tick priority-${task.priority}`] : ["reopen", "Reopen", "tick ticked"];
    const settings = { type: "button", class: kind, "aria-label": `${word}: ${oneLine(task.description, 80)}`, title: word, tabindex: -1, click: () => change(act) };
    return isReader ? span(kind) : make("button", settings, make("i", { "aria-hidden": "true" }));
}

// The keys of a row: e completes or reopens the task, others change a value.
function actByKey(event, task, place, change) {
    if (event.repeat || event.ctrlKey || event.metaKey || event.altKey) return;
    if (event.key === "e") change(task.isOpen ? "done" : "reopen");
    else if (event.key in KEYS && isOfShown(KEYS[event.key], place)) changeValue(event.currentTarget, task, KEYS[event.key], place, () => rowOf(task, place));
    else return;
    event.preventDefault();
    event.stopPropagation();
}

export function makeRow(task, place = shownBoard()) {
    const isReader = place.role === "reader";
    const change = (action) => keep(changes.act(place.number, task, action)).catch(tellFault);
    const canBePicked = !isReader && !place.title;
    const show = (event) => (canBePicked && pickByClick(event, task.uuid)) || go(place.number, "tasks", task.uuid);
    const open = button(said(task.description), show, { class: "open", "aria-label": nameOf(task, place) });
    if (!isReader) open.addEventListener("keydown", (event) => actByKey(event, task, place, change));
    const isChosen = task.uuid === state.chosen;
    const kinds = ["row", isChosen ? "chosen" : "", isPicked(task.uuid) ? "picked" : "", task.isOpen ? "" : "closed"].filter(Boolean).join(" ");
    const about = { class: kinds, role: "listitem", "aria-current": isChosen ? "true" : null };
    const facts = [dueOf(task, place), span("chips", ...chipsOf(task, place)), assigneeOf(task, place)];
    return make("div", about, canBePicked ? boxOf(task) : "", ringOf(task, isReader, change), open, facts);
}

// What of a row comes from elsewhere than the task's own line.
export function lookOf(task, place = shownBoard()) {
    const due = task.due === undefined ? "" : inWords(task.due) + isOver(task.due);
    return [place.role, place.title, task.uuid === state.chosen, isPicked(task.uuid), unanswered.has(task.uuid), task.isBlocked, task.isBlocking, state.filter.group, due, isGone(task.assignee)].join();
}

// The palette, by Ctrl+K: a line that leads to each task and board and does what a button does.
import { oneLine } from "../core/format.js";
import { fitOf } from "../core/query.js";
import { go, setFilter } from "../store/route.js";
import { here, state } from "../store/store.js";
import { lastDone } from "../store/undo.js";
import { fill, find, make, said, span } from "../ui/element.js";
import { dot, face } from "../ui/face.js";
import { icon } from "../ui/icons.js";
import { startAdding } from "./sidebar.js";
import { takeBack } from "./undoing.js";
import { canChange, changeValue, labelOfValue, PICTURES } from "./value.js";

export const DIALOG = `
<dialog id="palette" aria-label="Go anywhere, do anything">
    <form id="palette-form" method="dialog"><input id="palette-text" role="combobox" aria-expanded="true" aria-controls="palette-list" aria-autocomplete="list" aria-label="A task, a board or what to do" placeholder="A task, a board or what to do" autocomplete="off" dir="auto"></form>
    <ul id="palette-list" role="listbox" aria-label="What fits"></ul>
    <p id="palette-told" class="about" role="status"></p>
</dialog>
`;

const [MOST, MOST_TASKS] = [10, 5];
// What a press of these does is offered under their names.
const BUTTONS = ["side-add", "side-search", "to-day", "as-list", "as-columns", "to-tasks", "to-repeating", "to-people", "to-files", "to-history", "choose", "print", "new-board", "account", "show-keys", "sign-out"];
const NAMES = { "side-add": "Add a task", "side-search": "Search this board", "as-list": "Show a list", "as-columns": "Show columns", account: "Change my key" };
// What is offered now, and which of that is chosen.
let [offered, at] = [[], 0];

const isReader = () => here()?.role === "reader";

function commands() {
    const shown = BUTTONS.map(find).filter((element) => !element.hidden && !element.disabled && !element.closest("[hidden]"));
    const fitting = isReader() ? shown.filter(({ id }) => id !== "side-add" && id !== "choose") : shown;
    const about = (element) => element.getAttribute("aria-keyshortcuts") ?? element.querySelector("kbd")?.textContent ?? "";
    const buttons = fitting.map((element) => ({ label: NAMES[element.id] ?? (element.ariaLabel || element.textContent.trim()), picture: icon(element.dataset.icon ?? "next"), about: about(element), act: () => element.click() }));
    return [...buttons, ...(lastDone() ? [{ label: "Undo", picture: icon("undo"), about: "Ctrl Z", act: () => takeBack(lastDone()) }] : [])];
}

// What can be changed of the open task.
function valuesOfChosen() {
    const task = state.board?.number === state.number ? state.board.byId.get(state.chosen) : null;
    if (!task || isReader()) return [];
    const place = { number: state.number, role: here()?.role, title: "" };
    const names = ["due", "assignee", "priority", "tags", "project"].filter((name) => canChange(task, name));
    return names.map((name) => ({ label: `${labelOfValue(name)} of “${oneLine(task.description, 40)}”`, picture: icon(PICTURES[name]), about: "", act: () => changeValue(find("task-text"), task, name, place, () => find("rename")) }));
}

function tasks(text) {
    if (state.board?.number !== state.number) return [];
    const fitting = state.board.ordered.map((task) => ({ task, fit: fitOf(task.description, text) })).filter(({ fit }) => fit > 0);
    fitting.sort((one, other) => other.task.isOpen - one.task.isOpen || other.fit - one.fit);
    return fitting.slice(0, MOST_TASKS).map(({ task }) => ({ label: task.description, picture: make("i", { class: task.isOpen ? `tick priority-${task.priority}` : "tick ticked", "aria-hidden": "true" }), about: task.isOpen ? here().title : task.status, act: () => go(state.number, task.status === "recurring" ? "repeating" : "tasks", task.uuid) }));
}

const boards = () => state.boards.map(({ board, title }) => ({ label: title, picture: dot(board), about: "board", act: () => go(board, "tasks") }));
const people = () => (state.people ?? []).map(({ name }) => ({ label: `Tasks of ${name}`, picture: face(name), about: "person", act: () => (state.view === "tasks" || go(state.number, "tasks"), setTimeout(() => setFilter({ assignee: name }))) }));

// With nothing typed the boards and commands; else what fits, tasks first, and the task that the words would be.
function offersFor(text) {
    if (!text.trim()) return [...valuesOfChosen(), ...boards(), ...commands()];
    const fits = (all) => all.map((one) => ({ one, fit: fitOf(one.label, text) })).filter(({ fit }) => fit > 0).sort((one, other) => other.fit - one.fit).map(({ one }) => one);
    const adds = { label: `Add the task “${oneLine(text.trim(), 60)}”`, picture: icon("add"), about: "", act: () => addTask(text.trim()) };
    const all = { label: `Search “${oneLine(text.trim(), 40)}” in done tasks too`, picture: icon("search"), about: "", act: () => (state.view === "tasks" || go(state.number, "tasks"), setTimeout(() => setFilter({ text: text.trim(), status: "all" }))) };
    return [...tasks(text), ...fits([...boards(), ...people(), ...valuesOfChosen(), ...commands()]).slice(0, MOST), ...(state.number && !isReader() ? [adds] : []), ...(state.number ? [all] : [])];
}

function addTask(text) {
    startAdding();
    setTimeout(() => {
        find("add-line").value = text;
        find("add-line").dispatchEvent(new Event("input", { bubbles: true }));
    });
}

function choose(place) {
    at = Math.min(offered.length - 1, Math.max(0, place));
    [...find("palette-list").children].forEach((row, index) => row.setAttribute("aria-selected", String(index === at)));
    const row = find("palette-list").children[at];
    if (row) find("palette-text").setAttribute("aria-activedescendant", row.id);
    row?.scrollIntoView({ block: "nearest" });
}

function draw() {
    offered = offersFor(find("palette-text").value);
    fill(find("palette-list"), offered.map(({ label, picture, about }, index) => make("li", { id: `palette-${index}`, role: "option" }, picture, span("cut", said(label, 80)), about ? span("about", about) : "")));
    find("palette-told").textContent = offered.length === 0 ? "Nothing fits." : "";
    choose(0);
}

function take(place) {
    const one = offered[place];
    find("palette").close();
    if (one) setTimeout(one.act);
}

function open() {
    find("palette-text").value = "";
    draw();
    find("palette").showModal();
    find("palette-text").focus();
}

function steer(event) {
    const steps = { ArrowDown: 1, ArrowUp: -1, PageDown: 8, PageUp: -8 };
    if (!(event.key in steps)) return;
    event.preventDefault();
    choose(at + steps[event.key]);
}

export function beginPalette() {
    find("palette-text").addEventListener("input", draw);
    find("palette-text").addEventListener("keydown", steer);
    find("palette-form").addEventListener("submit", (event) => {
        event.preventDefault();
        take(at);
    });
    find("palette-list").addEventListener("click", ({ target }) => take([...find("palette-list").children].indexOf(target.closest("li"))));
    document.addEventListener("keydown", (event) => {
        if (event.key.toLowerCase() !== "k" || !(event.ctrlKey || event.metaKey) || event.altKey || event.shiftKey) return;
        if (!state.who || document.querySelector("dialog[open]")) return;
        event.preventDefault();
        open();
    });
    find("side-palette").addEventListener("click", open);
}

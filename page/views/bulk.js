// The bar that changes all chosen tasks at once: each of them by a call of its own, which all stand on the device first.
import { changes } from "../core/calls.js";
import { counted, oneLine } from "../core/format.js";
import { leftBehind, moves } from "../core/move.js";
import { listenAll } from "../core/news.js";
import { faultInTags, faultInText } from "../core/rules.js";
import { keepGroups } from "../sync/outbox.js";
import { choices } from "../store/people.js";
import { areBoxesShown, pickAll, picked, pickNone, showBoxes } from "../store/selection.js";
import { here, state } from "../store/store.js";
import { doing } from "../store/undo.js";
import { whenSent } from "../ui/check.js";
import { button, fill, find, make } from "../ui/element.js";
import { openByKeys, options } from "../ui/select.js";
import { toast } from "../ui/toast.js";
import { tellFault } from "./faults.js";
import { MomentField, tagsIn } from "./fields.js";
import { offerUndo } from "./undoing.js";

export const MARKUP = `
<section id="bulk" aria-label="Change the chosen tasks" hidden>
    <form id="bulk-form" class="line" hidden></form>
    <div class="line">
        <strong id="bulk-count" role="status"></strong>
        <button id="bulk-done" type="button" class="primary">Complete</button>
        <button id="bulk-reopen" type="button">Reopen</button>
        <select id="bulk-assign" aria-label="Assign the chosen tasks to"></select>
        <button id="bulk-due" type="button" aria-expanded="false" aria-controls="bulk-form">Due</button>
        <button id="bulk-project" type="button" aria-expanded="false" aria-controls="bulk-form">Project</button>
        <button id="bulk-tag" type="button" aria-expanded="false" aria-controls="bulk-form">Tags</button>
        <select id="bulk-move" aria-label="Move the chosen tasks to the board"></select>
        <button id="bulk-delete" type="button" class="danger">Delete</button>
        <span class="ends"><button id="bulk-all" type="button" class="quiet">All</button><button id="bulk-none" type="button" class="quiet">None</button></span>
    </div>
</section>
`;

const tasksIn = (count) => (count === 1 ? "1 task" : `${counted(count)} tasks`);

// Which form of the bar is open, and its fields.
let [opened, read] = ["", null];

// Holds the groups of changes, and tells what was done, with a way back where there is one.
async function hold(groups, told) {
    if (groups.length === 0) return toast("Nothing to change: the chosen tasks are so already, or their status doesn't allow it.");
    const { sent, group } = doing(() => keepGroups(groups.map((made) => made.map((change) => ({ ...change, isOneOfMany: true })))));
    await sent;
    offerUndo(group, told);
}

function act(action, word, isFit) {
    const { number } = state;
    const tasks = picked().filter(isFit);
    // The choice ends first: the focus goes to the list before the rows and the bar look otherwise.
    pickNone();
    hold(tasks.map((task) => [changes.act(number, task, action)]), `${word} ${tasksIn(tasks.length)}.`).catch(tellFault);
}

// Changes members of those tasks that are open and look otherwise; `editsOf` gives what to change of one.
function edit(editsOf, told) {
    const { number } = state;
    const isSame = (task, edits) => Object.entries(edits).every(([name, value]) => JSON.stringify(value) === JSON.stringify(task.told[name] ?? null));
    const edited = picked().filter((task) => task.isOpen).map((task) => [task, editsOf(task)]).filter(([task, edits]) => !isSame(task, edits));
    hold(edited.map(([task, edits]) => [changes.modify(number, task, edits)]), `${told} ${tasksIn(edited.length)}.`).catch(tellFault);
}

const assign = (name) => edit(() => ({ assignee: name || null }), name ? `Assigned to ${name}:` : "Nobody's now:");

function withTags(task, change) {
    const tags = change(task.tags).sort();
    return { tags: tags.length > 0 ? tags : null };
}

const FORMS = {
    tag: () => {
        const input = make("input", { "aria-label": "Tags", dir: "auto", placeholder: "phone mail", autocapitalize: "none", autocomplete: "off", required: true, list: "bulk-tags" });
        input.addEventListener("input", () => input.setCustomValidity(faultInTags(input.value)));
        const take = () => edit((task) => withTags(task, (tags) => tags.filter((tag) => !tagsIn(input.value).includes(tag))), "Tags taken off:");
        read = () => edit((task) => withTags(task, (tags) => [...new Set([...tags, ...tagsIn(input.value)])]), "Tagged:");
        const list = make("datalist", { id: "bulk-tags" }, state.board.tags.map((value) => make("option", { value })));
        return [input, list, make("button", { class: "primary" }, "Add tags"), button("Take off", () => input.reportValidity() && close(take))];
    },
    project: () => {
        const input = make("input", { "aria-label": "Project", dir: "auto", placeholder: "Project, or none", autocapitalize: "none", autocomplete: "off", list: "bulk-projects" });
        input.addEventListener("input", () => input.setCustomValidity(faultInText(input.value.trim())));
        read = () => edit(() => ({ project: input.value.trim() || null }), input.value.trim() ? "Project set:" : "Without a project now:");
        return [input, make("datalist", { id: "bulk-projects" }, state.board.projects.map((value) => make("option", { value }))), make("button", { class: "primary" }, "Set project")];
    },
    due: () => {
        const field = new MomentField("Due");
        field.day.required = true;
        read = () => edit(() => ({ due: field.read() }), "Due date set:");
        return [field.element, make("button", { class: "primary" }, "Set due date"), button("No date", () => close(() => edit(() => ({ due: null }), "Without a due date now:")))];
    },
};

function close(work = () => {}) {
    work();
    open("");
}

function open(name) {
    opened = name;
    for (const kind of Object.keys(FORMS)) find(`bulk-${kind}`).ariaExpanded = kind === name;
    find("bulk-form").hidden = !name;
    fill(find("bulk-form"), name ? FORMS[name]() : []);
    if (name) find("bulk-form").querySelector("input").focus();
}

// What is said before tasks move, since there is no way back from it.
function aboutMove(tasks, title) {
    const left = leftBehind(tasks, state.board.tasks);
    const closed = picked().length - tasks.length;
    return [
        `Move ${tasksIn(tasks.length)} to ${title}?`,
        tasks.length === 1 ? "It gets a new uuid there, and is deleted here." : "Each gets a new uuid there, and is deleted here.",
        left.length > 0 && `This can't go along: ${left.join("; ")}.`,
        closed > 0 && `What is closed stays: ${tasksIn(closed)}.`,
    ].filter(Boolean).join(" ");
}

function move(to) {
    const { number } = state;
    const tasks = picked().filter((task) => task.isListed);
    const title = oneLine(state.boards.find(({ board }) => board === to).title, 60);
    if (tasks.length > 0 && !confirm(aboutMove(tasks, title))) return;
    // (what was done with it before is in the history of the board that it leaves)
    const origin = ({ uuid }) => `Moved by ${state.who.name} from “${oneLine(here().title, 120)}”: ${location.origin}${location.pathname}#/${number}/tasks/${uuid}`;
    pickNone();
    hold(moves(number, tasks, to, origin), `Moving to ${title}: ${tasksIn(tasks.length)}.`).catch(tellFault);
}

function drawSelects() {
    const others = state.boards.filter(({ board, role }) => board !== state.number && role !== "reader");
    fill(find("bulk-assign"), options([["-", "Assign to"], ["", "nobody"], ...choices()], "-"));
    fill(find("bulk-move"), options([["", "Move to"], ...others.map(({ board, title }) => [String(board), oneLine(title, 40)])], ""));
    find("bulk-move").hidden = others.length === 0;
}

function draw() {
    const isShown = state.view === "tasks" && state.board?.number === state.number && here()?.role !== "reader";
    const tasks = isShown ? picked() : [];
    find("list").classList.toggle("choosing", isShown && areBoxesShown());
    find("choose").ariaPressed = areBoxesShown();
    const isNew = find("bulk").hidden && tasks.length > 0;
    if (tasks.length === 0 && find("bulk").contains(document.activeElement)) find("list").querySelector(".open[tabindex='0']")?.focus();
    find("bulk").hidden = tasks.length === 0;
    document.body.classList.toggle("with-bulk", tasks.length > 0);
    if (tasks.length === 0 && opened) open("");
    find("bulk-count").textContent = `${counted(tasks.length)} chosen`;
    const isFit = { done: tasks.some((task) => task.isListed), reopen: tasks.some((task) => !task.isOpen), delete: tasks.some((task) => task.isOpen) };
    for (const [action, isShown] of Object.entries(isFit)) find(`bulk-${action}`).hidden = !isShown;
    for (const id of ["assign", "tag", "due", "project"]) find(`bulk-${id}`).disabled = !isFit.delete;
    if (isNew) drawSelects();
}

function whenChosen(id, work, nothing) {
    openByKeys(find(id));
    find(id).addEventListener("change", ({ target }) => {
        const { value } = target;
        target.value = nothing;
        work(value);
    });
}

export function beginBulk() {
    find("choose").addEventListener("click", () => showBoxes(!areBoxesShown()));
    find("bulk-all").addEventListener("click", pickAll);
    find("bulk-none").addEventListener("click", () => showBoxes(false));
    find("bulk-done").addEventListener("click", () => act("done", "Completed", (task) => task.isListed));
    find("bulk-reopen").addEventListener("click", () => act("reopen", "Reopened", (task) => !task.isOpen));
    find("bulk-delete").addEventListener("click", () => act("delete", "Deleted", (task) => task.isOpen));
    for (const kind of Object.keys(FORMS)) find(`bulk-${kind}`).addEventListener("click", () => open(opened === kind ? "" : kind));
    find("bulk").addEventListener("keydown", (event) => {
        if (event.key !== "Escape" || event.isComposing) return;
        event.preventDefault();
        if (opened) open("");
        else showBoxes(false);
    });
    whenSent("bulk-form", () => close(read));
    whenChosen("bulk-assign", assign, "-");
    whenChosen("bulk-move", (value) => value && move(Number(value)), "");
    listenAll(["picked", "board", "route"], draw);
    listenAll(["people", "boards"], drawSelects);
}

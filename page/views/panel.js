// One task beside the list: what it says, what can be done with it, its notes, what it waits for and what waits for it.
import { changes } from "../core/calls.js";
import { oneLine } from "../core/format.js";
import { waitsFor } from "../core/graph.js";
import { inFull, seconds } from "../core/moments.js";
import { listen, listenAll } from "../core/news.js";
import { faultInText } from "../core/rules.js";
import { shown as select } from "../core/search.js";
import { keep, waiting } from "../sync/outbox.js";
import { keepDraft, readDraft, whenTypedElsewhere } from "../store/drafts.js";
import { go } from "../store/route.js";
import { here, state } from "../store/store.js";
import { check, isWhole, whenSent } from "../ui/check.js";
import { button, fill, find, make, said, span } from "../ui/element.js";
import { linked } from "../ui/links.js";
import { beginTask, isEditing, leaveEdit, MARKUP as EDIT, openEdit } from "./edit.js";
import { drawFacts } from "./facts.js";
import { tellFault } from "./faults.js";
import { authorOf, OF_TASK as HISTORY } from "./history.js";
import { endRepeat, MARKUP as MAKE_REPEAT } from "./makerepeat.js";
import { changeValue } from "./value.js";

export const MARKUP = `
<aside id="panel" aria-label="Task" hidden>
    <div class="line spread"><p id="task-status" class="about" role="status"></p><button id="close-panel" type="button" class="tool only" data-icon="close" aria-label="Close" title="Close"></button></div>
    <div class="titled"><h2 id="task-text" tabindex="-1" dir="auto"></h2><button id="rename" type="button" class="tool only of-member" data-icon="edit" aria-label="Change the title" title="Change the title" aria-keyshortcuts="r"></button></div><div id="task-actions" class="line"></div>
    ${EDIT}
    <dl id="task-facts"></dl>
    ${MAKE_REPEAT}
    <h3>Notes</h3><ul id="task-notes" class="lines"></ul>
    <form id="note-form" class="line"><input id="note-text" dir="auto" aria-label="Add a note" aria-keyshortcuts="m" placeholder="Add a note" autocomplete="off"><button>Add</button></form>
    <h3>Blocked by</h3><ul id="task-ahead" class="lines"></ul>
    <form id="depend-form"><input id="depend-text" dir="auto" type="search" aria-label="Find a task that blocks this one" placeholder="Find a task that blocks this one" autocomplete="off"></form>
    <p id="depend-told" class="about" role="status"></p><ul id="depend-choices" class="lines choices"></ul>
    <div id="behind-part"><h3>Blocks</h3><ul id="task-behind" class="lines"></ul></div>
    ${HISTORY}
</aside>
`;

const MOST_CHOICES = 6;
// In such a window the open task stands over all else, and nothing behind it takes the focus.
const narrow = matchMedia("(max-width: 68.74rem)");
// The uuid of the task that is shown; the task as it was drawn, and what was drawn of others.
let [shown, drawn, look] = ["", null, ""];

const hold = (change) => keep(change).catch(tellFault);
const act = (action) => () => hold(changes.act(state.number, task(), action));

function task() {
    const isThere = state.board?.number === state.number && ["tasks", "repeating"].includes(state.view);
    return isThere ? state.board.byId.get(state.chosen) : undefined;
}

function actions(one) {
    const isStarted = Boolean(one.told.start);
    return [
        one.isListed ? button("Done", act("done"), { class: "primary", "aria-keyshortcuts": "e" }) : "",
        one.isOpen ? "" : button("Reopen", act("reopen"), { class: "primary", "aria-keyshortcuts": "e" }),
        one.status === "pending" ? button(isStarted ? "Stop" : "Start", act(isStarted ? "stop" : "start"), { "aria-keyshortcuts": "s" }) : "",
        one.isOpen ? button("Edit", () => openEdit(task()), { id: "edit", "aria-keyshortcuts": "f" }) : "",
        one.isListed ? button("Delete", act("delete"), { class: "danger" }) : "",
        one.isOpen && !one.isListed ? button("Delete, and make no more", () => endRepeat(task()), { class: "danger" }) : "",
    ];
}

const by = (name) => (name ? ` by ${oneLine(name, 40)}` : "");

const remove = (label, change) => button("Remove", () => hold(change), { class: "quiet", "aria-label": label });

function noteRow(one, note) {
    const { description, entry } = note;
    const away = remove(`Remove the note: ${oneLine(description, 60)}`, changes.denotate(state.number, one, description));
    return make("li", {}, make("bdi", { class: "long" }, linked(description)), span("about", inFull(seconds(entry)) + by(authorOf(one.uuid, note)), away));
}

function taskRow(other, ...beside) {
    const link = button(said(other.description, 120), () => go(state.number, "tasks", other.uuid), { class: other.isOpen ? "link" : "link ended" });
    return make("li", {}, link, span("about", other.isOpen ? "" : other.status, ...beside));
}

function aheadRow(one, id) {
    const other = state.board.byId.get(id);
    const end = remove(`Unblock: ${oneLine(other.description, 60)}`, changes.undepend(state.number, one, id));
    return taskRow(other, one.isOpen ? end : "");
}

// Whether the server takes a link from one task to another: not where they would wait for each other in a circle.
function canWaitFor(one, other) {
    return other !== one && !one.depends.includes(other.uuid) && !waitsFor(other, one.uuid, (uuid) => state.board.byId.get(uuid));
}

// The open tasks that have the words in the field, to choose one on which the task shall depend.
function drawChoices() {
    const one = task();
    const text = find("depend-text").value.trim();
    const all = text && one ? select(state.board, { text, status: "open" }, state.who.name) : [];
    const found = all.filter((other) => canWaitFor(one, other));
    const choose = (other) => {
        hold(changes.depend(state.number, one, other.uuid));
        find("depend-text").value = "";
        drawChoices();
        find("depend-text").focus();
    };
    fill(find("depend-choices"), found.slice(0, MOST_CHOICES).map((other) => make("li", {}, button(said(other.description, 120), () => choose(other)))));
    const told = found.length > MOST_CHOICES ? `The first ${MOST_CHOICES} of ${found.length}: type more to find others.` : "";
    find("depend-told").textContent = text && found.length === 0 ? "No open task has these words." : told;
}

// The button that had the focus has it again, or the one that stands in its place, as Stop after Start: never Done, which nobody meant.
function drawActions(one) {
    const at = [...find("task-actions").children].indexOf(document.activeElement);
    fill(find("task-actions"), actions(one));
    if (at >= 0) [...find("task-actions").children].slice(0, at + 1).at(-1)?.focus();
}

// Fills what comes from the board, and leaves the forms alone in which someone may be typing.
function drawTask(one) {
    const isUnanswered = waiting().some((change) => change.task === one.uuid);
    const status = [one.status === "recurring" ? "repeating" : one.status, one.isBlocked ? "blocked" : ""];
    find("task-status").textContent = [...status, isUnanswered ? "not saved yet" : ""].filter(Boolean).join(" · ");
    const behind = state.board.behind(one);
    const ahead = one.depends.filter((id) => state.board.byId.has(id));
    const neighbours = [...behind, ...ahead.map((id) => state.board.byId.get(id)), state.board.byId.get(one.parent)];
    // (who becomes a reader, or no longer is one, may change other things of it)
    const seen = JSON.stringify([here()?.role, ...neighbours.map((other) => other && [other.description, other.status, other.uuid])]);
    if (drawn === one && seen === look) return;
    drawn = one;
    look = seen;
    fill(find("task-text"), linked(one.description));
    drawActions(one);
    drawFacts(one);
    fill(find("task-notes"), one.notes.map((note) => noteRow(one, note)));
    fill(find("task-ahead"), ahead.map((id) => aheadRow(one, id)));
    fill(find("task-behind"), behind.map((other) => taskRow(other)));
    find("behind-part").hidden = behind.length === 0;
    find("depend-form").hidden = !one.isOpen;
    find("rename").hidden = !one.isOpen;
}

// A click on the title changes it, unless somebody marks a part of it or follows a link.
function rename() {
    const place = { number: state.number, role: here()?.role, title: "" };
    if (place.role !== "reader" && task()?.isOpen) changeValue(find("task-text"), task(), "description", place, () => find("rename"));
}

// What is added leaves the form at once; where the device can't keep it, it is there again, in front of what was typed meanwhile.
async function addNote(form) {
    const [{ number }, uuid, one, text] = [state, shown, task(), find("note-text").value];
    if (!one) return;
    form.reset();
    keepDraft("note", uuid, null);
    if (!text.trim()) return;
    await keep(changes.annotate(number, one, text.trim())).catch((fault) => {
        const all = [text, readDraft("note", uuid, number)].filter(Boolean).join(" ");
        keepDraft("note", uuid, all, number);
        if (shown === uuid) find("note-text").value = all;
        throw fault;
    });
}

function setBehind(isBehind) {
    for (const part of document.querySelectorAll("#side, header, #views > main, .tabs")) if (part.inert !== isBehind) part.inert = isBehind;
}

function close() {
    const row = document.querySelector(`[data-uuid="${CSS.escape(state.chosen)}"] .open`);
    setBehind(false);
    go(state.number, state.view);
    row?.focus();
}

function draw() {
    const one = task();
    find("panel").hidden = !one;
    document.body.classList.toggle("with-panel", Boolean(one));
    setBehind(Boolean(one) && narrow.matches);
    if (one) drawTask(one);
    if (shown === (one?.uuid ?? "")) return;
    shown = one?.uuid ?? "";
    beginTask(one);
    find("note-text").value = (one && readDraft("note", shown)) ?? "";
    find("depend-text").value = "";
    drawChoices();
    find("panel").scrollTop = 0;
    if (!isEditing()) find("task-text").focus({ preventScroll: true });
}

export function beginPanel() {
    find("rename").addEventListener("click", rename);
    find("task-text").addEventListener("click", ({ target }) => target.closest("a") || getSelection().toString() || rename());
    find("close-panel").addEventListener("click", close);
    find("panel").addEventListener("keydown", (event) => {
        // (while letters are composed, as those of Japanese, Escape is theirs)
        if (event.key !== "Escape" || event.isComposing) return;
        // (what had the focus may be gone with the form, and doesn't say any more that it was in here)
        event.preventDefault();
        isEditing() ? leaveEdit() : close();
    });
    find("depend-text").addEventListener("input", drawChoices);
    whenSent("depend-form", () => find("depend-choices").querySelector("button")?.click());
    check(find("note-text"), (text) => faultInText(text.trim()));
    find("note-text").addEventListener("input", () => keepDraft("note", shown, find("note-text").value));
    whenTypedElsewhere("note", (text) => (find("note-text").value = text ?? ""), () => shown);
    whenSent("note-form", (form) => {
        if (isWhole(form)) addNote(form).catch(tellFault);
    });
    listenAll(["board", "route", "kept"], draw);
    narrow.addEventListener("change", () => state.who && draw());
    listen("told", (uuid) => {
        if (uuid === drawn?.uuid) drawn = null;
        draw();
    });
    listen("draft", () => {
        shown = "";
        draw();
    });
}

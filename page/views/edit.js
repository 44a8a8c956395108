// The form that changes a task: its draft, and what someone else changed of the same task meanwhile.
import { changes } from "../core/calls.js";
import { listen } from "../core/news.js";
import { Task } from "../core/task.js";
import { labelOf, lookAtDeedsOf, sets, worded } from "../sync/entries.js";
import { look } from "../sync/http.js";
import { keep, waiting } from "../sync/outbox.js";
import { keepDraft, readDraft, whenTypedElsewhere } from "../store/drafts.js";
import { lookAgain } from "../store/fresh.js";
import { go } from "../store/route.js";
import { here, state } from "../store/store.js";
import { isWhole, whenSent } from "../ui/check.js";
import { button, fill, find, make, said } from "../ui/element.js";
import { toast } from "../ui/toast.js";
import { tellFault } from "./faults.js";
import { Fields } from "./fields.js";

export const MARKUP = `
<form id="edit-form" hidden>
    <div id="edit-fields" class="fields"></div><div id="edit-conflicts" role="alert"></div><p id="edit-told" class="fault" role="alert"></p><div class="line"><button id="edit-save" class="primary" aria-keyshortcuts="Control+Enter">Save</button><button id="cancel-edit" type="button">Cancel</button></div>
</form>
`;

// How long Save waits for the freshest copy of the task, in milliseconds; without one it takes the copy that is shown.
const PATIENCE = 5000;
// The form that is open, and the one that is being saved. Each has its task and the number of the board; the fields; what they said when the form
// was opened, and how that is typed; whether the task is to be reopened first, and whether its person has cancelled.
/** @type {any[]} */
let [open, saved] = [null, null];

const isSame = (one, other) => JSON.stringify(one) === JSON.stringify(other);
const tell = (text) => (find("edit-told").textContent = text);

function show(isShown) {
    find("edit-form").hidden = !isShown;
    for (const id of ["task-text", "task-actions", "task-facts"]) find(id).hidden = isShown;
    tell("");
    fill(find("edit-conflicts"));
    find("edit-save").textContent = "Save";
    find("edit-save").ariaDisabled = null;
}

// Opens the form as its draft left it, or with what the task says.
export function openEdit(task) {
    const draft = readDraft("edit", task.uuid);
    const fields = new Fields(state.board, task);
    open = { task, number: state.number, fields, before: draft?.before ?? fields.read(), opened: fields.typed(), reopens: false, isDropped: false };
    if (draft) fields.retype(draft.typed);
    show(true);
    fill(find("edit-fields"), fields.elements);
    fields.description.focus();
    fields.description.setSelectionRange(fields.description.value.length, fields.description.value.length);
}

export function closeEdit() {
    open = null;
    show(false);
    fill(find("edit-fields"));
}

// Another task is shown: its form is open where it has a draft.
export function beginTask(task) {
    if (task && here()?.role !== "reader" && readDraft("edit", task.uuid)) openEdit(task);
    else closeEdit();
}

// Whether the focus is in the form, or nowhere. Who types elsewhere by now keeps the focus there.
const hasFocus = () => find("edit-form").contains(document.activeElement) || !document.activeElement || document.activeElement === document.body;

// Closes the form and keeps its draft; what opened it has the focus again.
export function leaveEdit() {
    const wasHere = hasFocus();
    closeEdit();
    if (wasHere) (find("edit") ?? find("task-text")).focus();
}

export const isEditing = () => open !== null;

function keepEdit() {
    const { task, fields, before } = open;
    const isChanged = !isSame(fields.read(), before);
    keepDraft("edit", task.uuid, isChanged ? { before, typed: fields.typed() } : null);
}

// What another tab types into the form of this task stands here too; once it was saved or taken back there, nothing is left to do here.
function follow(draft) {
    if (draft?.isLeft) return closeEdit();
    open.before = draft?.before ?? open.before;
    open.fields.retype(draft?.typed ?? open.opened);
}

// (other tabs hear that the form was left, and not that it says by chance what it said before)
function dropDraft({ task, number }) {
    if (readDraft("edit", task.uuid, number)) keepDraft("edit", task.uuid, { isLeft: true }, number);
    keepDraft("edit", task.uuid, null, number);
}

// (what waits to be saved isn't saved any more)
function cancel() {
    open.isDropped = true;
    dropDraft(open);
    leaveEdit();
}

// The list with my additions and removals laid over it.
function withMine(before, mine, fresh) {
    const [old, now] = [before ?? [], mine ?? []];
    const kept = (fresh ?? []).filter((tag) => now.includes(tag) || !old.includes(tag));
    const joined = [...new Set([...kept, ...now.filter((tag) => !old.includes(tag))])].sort();
    return joined.length ? joined : null;
}

// What has to be sent, and the fields that both changed, each to something else: of these a person has to choose. The three are what the
// form said when it was opened, what it says now, and what it would say of the freshest task.
function merge(before, mine, fresh) {
    const edits = {};
    const conflicts = [];
    for (const name of Object.keys(mine).filter((name) => !isSame(mine[name], before[name]))) {
        const wanted = name === "tags" ? withMine(before.tags, mine.tags, fresh.tags) : mine[name];
        if (isSame(wanted, fresh[name])) continue;
        if (name === "tags" || isSame(fresh[name], before[name])) edits[name] = wanted;
        else conflicts.push(name);
    }
    return { edits, conflicts };
}

// The task as the server has it now; as it is shown, where no answer comes or changes of one's own aren't sent yet.
async function freshest({ task, number }) {
    const shown = shownOf(task, number) ?? task;
    if (waiting().some((change) => change.task === task.uuid)) return shown;
    return look(state.who, `/boards/${number}/tasks/${task.uuid}`, PATIENCE).then((text) => new Task(text), () => shown);
}

const shownOf = ({ uuid }, number) => (state.board?.number === number ? state.board.byId.get(uuid) : undefined);

// Who set a field of the task last, where the server tells that.
async function settersOf({ task, number }) {
    const told = await lookAtDeedsOf(state.who, number, task.uuid, PATIENCE).catch(() => null);
    return (name) => told?.entries.findLast(sets(name))?.member ?? "someone else";
}

// Both texts beside each other; the one that is chosen is what Save goes on with.
function choice(name, mine, theirs, by) {
    const option = (value, label, text) =>
        make("label", { class: "version" }, make("span", {}, make("input", { type: "radio", name: `side-${name}`, value, required: true }), ` ${label}`), make("bdi", { class: "long" }, worded(name, text)));
    return make("fieldset", { class: "conflict", "data-name": name }, make("legend", {}, `T${labelOf(name).slice(1)} was changed by ${by} meanwhile. Choose one:`), option("mine", "Yours", mine), option("theirs", "Theirs", theirs));
}

// Takes the choices that were made into the form: from here on the freshest task is what was changed.
function takeChoices(form, fresh) {
    const typed = form.fields.typed();
    for (const { dataset } of find("edit-conflicts").querySelectorAll("fieldset")) {
        const isTheirs = find("edit-form").elements[`side-${dataset.name}`].value === "theirs";
        const parts = Object.keys(typed).filter((part) => part === dataset.name || part.startsWith(`${dataset.name} `));
        if (isTheirs) parts.forEach((part) => (typed[part] = fresh.typed()[part]));
        form.before = { ...form.before, [dataset.name]: fresh.read()[dataset.name] };
    }
    form.fields.retype(typed);
    fill(find("edit-conflicts"));
    keepEdit();
}

// One save at a time. The button keeps the focus meanwhile, so that a second Enter doesn't fall on Cancel beside it.
async function saveOnce() {
    const form = open;
    if (saved === form || !isWhole(find("edit-form"))) return;
    saved = form;
    find("edit-save").ariaDisabled = true;
    try {
        await save(form);
    } finally {
        if (saved === form) [saved, find("edit-save").ariaDisabled] = [null, null];
    }
}

// Asks in the form. Who has left it meanwhile has what was typed there as a draft, and hears of it.
function ask(form, choices) {
    if (open !== form) return tellAsked(form);
    const wasHere = hasFocus();
    fill(find("edit-conflicts"), choices);
    if (wasHere) find("edit-conflicts").querySelector("input").focus();
    find("edit-conflicts").scrollIntoView({ block: "nearest" });
}

function tellAsked({ task, number }) {
    toast(make("span", {}, "Not saved yet: meanwhile someone else changed ", make("q", {}, said(task.description, 60)), "."), button("Look at it", () => go(number, "tasks", task.uuid)));
}

// Saves what a form says as Save is pressed. Its person may do something else until the server has told how the task is now.
async function save(form) {
    const [{ who }, { number, reopens }] = [state, form];
    const now = await freshest(form);
    if (state.who !== who || form.isDropped) return;
    // (what somebody else changed is shown, whatever comes of this)
    if (!isSame(now.told, shownOf(now, number)?.told)) lookAgain();
    const fresh = new Fields(state.board, now);
    if (open === form) takeChoices(form, fresh);
    const [mine, typed, theirs] = [form.fields.read(), form.fields.typed(), fresh.read()];
    const { edits, conflicts } = merge(form.before, mine, theirs);
    if (conflicts.length > 0) {
        const setterOf = await settersOf(form);
        return ask(form, conflicts.map((name) => choice(name, mine[name], theirs[name], setterOf(name))));
    }
    if (Object.keys(edits).length > 0 && !now.isOpen && !reopens) return askToReopen(form, now);
    const change = { ...changes.modify(number, now, edits), form: { before: form.before, typed } };
    if (Object.keys(edits).length > 0) await keep(...(reopens ? [changes.act(number, now, "reopen")] : []), change);
    end(form, mine, typed);
}

// What was saved is no draft any more. What its person has typed on meanwhile is one, and changes what was saved.
function end(form, mine, typed) {
    const { task, number } = form;
    const isOpen = open?.task.uuid === task.uuid && open.number === number;
    const now = isOpen ? open.fields.typed() : readDraft("edit", task.uuid, number)?.typed ?? typed;
    if (!isSame(now, typed)) keepDraft("edit", task.uuid, { before: mine, typed: now }, number);
    else dropDraft(form);
    if (!isOpen) return;
    if (isSame(now, typed)) return leaveEdit();
    Object.assign(open, { before: mine, opened: typed, reopens: false });
    show(true);
}

function askToReopen(form, task) {
    if (open !== form) return tellAsked(form);
    form.reopens = true;
    tell(`Meanwhile this task was ${task.status}. Your text is kept: reopen the task to save it, or cancel.`);
    find("edit-save").textContent = "Reopen and save";
}

export function beginEdit() {
    find("edit-form").addEventListener("input", keepEdit);
    find("cancel-edit").addEventListener("click", cancel);
    // (Enter alone begins a line of the description)
    find("edit-form").addEventListener("keydown", (event) => {
        if (event.key === "Enter" && (event.ctrlKey || event.metaKey) && event.target.matches("textarea")) find("edit-form").requestSubmit();
    });
    whenSent("edit-form", () => saveOnce().catch(tellFault));
    whenTypedElsewhere("edit", (draft) => isEditing() && follow(draft), () => open?.task.uuid);
    listen("left", closeEdit);
}

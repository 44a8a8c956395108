// The form that adds a task: a line as people type it, with what is understood marked, and fields for the rest.
import { changes } from "../core/calls.js";
import { counted } from "../core/format.js";
import { keptAsWords, linesOf, readLine } from "../core/grammar.js";
import { inFull, seconds } from "../core/moments.js";
import { listen } from "../core/news.js";
import { faultInText } from "../core/rules.js";
import { fitOf } from "../core/query.js";
import { shown } from "../core/search.js";
import { PRIORITIES } from "../core/task.js";
import { keep, keepEach } from "../sync/outbox.js";
import { keepDraft, readDraft, whenTypedElsewhere } from "../store/drafts.js";
import { names } from "../store/people.js";
import { go } from "../store/route.js";
import { state } from "../store/store.js";
import { doing } from "../store/undo.js";
import { check, isWhole, whenSent } from "../ui/check.js";
import { Completing } from "../ui/combobox.js";
import { button, fill, find, make, refill, said, span } from "../ui/element.js";
import { toast } from "../ui/toast.js";
import { tellFault } from "./faults.js";
import { Fields } from "./fields.js";
import { isMeant } from "./repeatpreview.js";
import { offerUndo } from "./undoing.js";

export const MARKUP = `
<form id="add-form">
    <div class="line" data-icon="add">
        <span class="marked"><span id="add-marks" class="marks" aria-hidden="true"></span><input id="add-line" dir="auto" aria-label="Add a task" aria-keyshortcuts="n" aria-describedby="understood" placeholder="Add a task" autocomplete="off"></span>
        <button id="add-more" type="button" class="quiet" aria-expanded="false" aria-controls="add-fields">Details</button>
        <button class="primary">Add</button>
    </div>
    <div id="add-fields" class="fields" hidden></div>
    <p id="understood" class="about" aria-live="polite"></p>
</form>
`;

const HINT = "A day at the end, +project, @tag, for:name and !1 are understood: Cake list every monday 18:00 for:me";
let fields = null;

const read = (line) => readLine(line, { people: names(), me: state.who?.name });
const readNow = () => read(find("add-line").value);

// What a line and the fields say together; the fields go first.
/** @param {{ task: any }} read */
function newTask({ task: line } = readNow()) {
    const given = fields.read();
    const both = { ...line, ...Object.fromEntries(Object.entries(given).filter(([, value]) => value)) };
    both.tags = [...new Set([...line.tags, ...(given.tags ?? [])])];
    return Object.fromEntries(Object.entries(both).filter(([, value]) => value?.length));
}

const day = (moment) => inFull(seconds(moment));
// What is said of each member, in words.
const SAID = {
    status: () => "completed",
    priority: ({ priority }) => `priority ${PRIORITIES[priority]}`,
    project: ({ project }) => ["project ", said(project, 60)],
    column: ({ column }) => ["column ", said(column, 60)],
    assignee: ({ assignee }) => ["for ", said(assignee, 60)],
    due: ({ due }) => `due ${day(due)}`,
    recur: ({ recur }) => `repeats ${recur}`,
    wait: ({ wait }) => `hidden until ${day(wait)}`,
    scheduled: ({ scheduled }) => `planned for ${day(scheduled)}`,
    until: ({ until }) => `until ${day(until)}`,
    entry: ({ entry }) => `made ${day(entry)}`,
    end: ({ end }) => `ended ${day(end)}`,
    uuid: ({ uuid }) => `named ${uuid}`,
};

// Has the parts of the line that say a member stand as words.
function keepAsWords(marks) {
    const line = marks.reduceRight((text, mark) => keptAsWords(text, mark), find("add-line").value);
    find("add-line").value = line;
    find("add-line").dispatchEvent(new Event("input", { bubbles: true }));
    find("add-line").focus();
}

// A chip for what was understood; a press keeps it as words.
function chipFor(member, marks, line) {
    const told = member === "tag" ? ["tag ", said(marks[0].value, 60)] : SAID[member](line);
    return make("button", { type: "button", class: `chip ${marks[0].kind}`, title: "Keep this as words", click: () => keepAsWords(marks) }, told);
}

// What Details says while it is closed stands beside the line too, since it goes with it.
function chipsOfFields(line) {
    const all = isShown() ? {} : newTask({ task: line });
    const others = Object.keys(SAID).filter((member) => all[member] && JSON.stringify(all[member]) !== JSON.stringify(line[member]));
    const tags = (all.tags ?? []).filter((tag) => !line.tags.includes(tag));
    return [...others.map((member) => span("chip", SAID[member](all))), ...tags.map((tag) => span("chip", "tag ", said(tag, 60)))];
}

// Shows what the line says: marked where it stands, and below in words; what isn't understood with its reason.
function drawUnderstood() {
    if (!fields) return;
    const text = find("add-line").value;
    const { task: line, marks, misread } = readNow();
    drawMarks(text, marks);
    const good = marks.filter(({ kind }) => kind !== "misread");
    const groups = [...Map.groupBy(good, (mark) => (mark.member === "tag" ? `tag ${mark.value}` : mark.member)).values()];
    const chips = groups.map((group) => chipFor(group[0].member, group, line));
    if (line.due && !good.some(({ member }) => member === "due")) chips.push(span("chip day", SAID.due(line)));
    const odd = misread.map(([word, why]) => make("span", { class: "misread" }, make("q", {}, said(word, 60)), ` ${why}.`));
    const shown = [...chips, ...chipsOfFields(line), ...odd];
    refill(find("understood"), shown.length > 0 ? shown : HINT);
}

// The marks stand behind the field, whose text is over them.
function drawMarks(text, marks) {
    const pieces = [];
    let end = 0;
    for (const { from, to, kind } of marks) {
        pieces.push(text.slice(end, from), span(`mark ${kind}`, text.slice(from, to)));
        end = to;
    }
    fill(find("add-marks"), pieces, text.slice(end));
    scrollMarks();
}

const scrollMarks = () => (find("add-marks").scrollLeft = find("add-line").scrollLeft);

// What was used last comes first.
const lastUsed = (of) => [...new Set((state.board?.tasks ?? []).toReversed().flatMap(of).filter(Boolean))];
const OFFERS = [
    { front: /(?:^|\s)\+([^\s"]*)$/, picture: "project", about: "project", all: () => lastUsed(({ project }) => project), text: (name) => `+${quotedWhereNeeded(name)} ` },
    { front: /(?:^|\s)@([^\s"]*)$/, picture: "tag", about: "tag", all: () => lastUsed(({ tags }) => tags), text: (name) => `@${name} ` },
    { front: /(?:^|\s)for:([^\s"]*)$/i, picture: "person", about: "person", all: () => [...(names() ?? [])], text: (name) => `for:${name} ` },
];
const quotedWhereNeeded = (name) => (/\s/.test(name) ? `"${name}"` : name);

// What can follow at the caret: projects behind +, tags behind @, people behind for:.
function offer(text, caret) {
    const before = text.slice(0, caret);
    for (const { front, picture, about, all, text: textOf } of OFFERS) {
        const typed = front.exec(before)?.[1];
        if (typed === undefined) continue;
        const fitting = all().map((label) => ({ label, fit: fitOf(label, typed) })).filter(({ label, fit }) => fit > 1 || (fit > 0 && typed === "" && label));
        fitting.sort((one, other) => other.fit - one.fit);
        const others = fitting.filter(({ label }) => label !== typed);
        return { from: caret - before.match(/\S*$/)[0].length, to: caret, choices: others.map(({ label }) => ({ label, picture, about, text: textOf(label) })) };
    }
    return null;
}

const isShown = () => !find("add-fields").hidden;
const typed = () => ({ line: find("add-line").value, typed: fields.typed(), isShown: isShown() });
const isEmpty = ({ line, typed }) => ![line, ...Object.values(typed)].some(Boolean);

function keepTyped() {
    const draft = typed();
    find("add-form").classList.toggle("typed", draft.line !== "");
    keepDraft("add", "", isEmpty(draft) ? null : draft);
}

// Fills the form as it was left, here or in another tab.
function showTyped(draft) {
    find("add-line").value = draft?.line ?? "";
    showFields(draft?.isShown ?? false, draft?.typed);
    find("add-form").classList.toggle("typed", find("add-line").value !== "");
    drawUnderstood();
}

// On phones the form comes up from the foot, and goes again where nothing stands in it.
function beginSheet() {
    const form = find("add-form");
    form.addEventListener("focusout", ({ relatedTarget }) => form.contains(relatedTarget) || form.classList.remove("shown"));
    form.addEventListener("keydown", (event) => {
        if (event.key !== "Escape" || event.isComposing || event.defaultPrevented || !form.classList.contains("shown")) return;
        event.preventDefault();
        form.classList.remove("shown");
        find("tab-add").focus();
    });
}

function fillAdding(draft) {
    showTyped(draft);
    keepTyped();
}

// Tells of a new task that isn't among those that are shown, so that nobody takes it for lost. What repeats is shown by its instances.
/** @param {Change} change @param {any} task */
function tellHidden({ board: number, task, subject }, { recur }) {
    const { board, filter, who } = state;
    if (recur || board?.number !== number || !board.byId.has(task)) return;
    const wanted = filter.as === "columns" ? { ...filter, status: "all" } : filter;
    if (shown(board, wanted, who.name).some(({ uuid }) => uuid === task)) return;
    toast(make("span", {}, "Added ", make("q", {}, said(subject, 120)), ", which the filters hide."), button("Show it", () => go(number, "tasks", task)));
}

// What is added leaves the form at once, so that a second Enter adds nothing; where the device can't keep it, it is there again.
async function add() {
    const task = newTask();
    if (!task.description || !isWhole(find("add-form")) || !isMeant(seconds(task.due), task.recur, seconds(task.until))) return;
    const form = typed();
    fillAdding({ isShown: isShown() });
    find("add-line").focus();
    const made = changes.add(state.number, task);
    await keep({ ...made, form }).catch((fault) => {
        fillAdding(form);
        throw fault;
    });
    tellHidden(made, task);
}

// The tasks of a list, a line each. What is ticked is completed; a heading is the project of the lines below it.
/** @returns {{ line: string, task: any }[]} */
function tasksIn(text) {
    let project = "";
    const tasks = [];
    for (const { text: line, isDone, isHeading } of linesOf(text)) {
        if (isHeading) project = line.slice(0, -1);
        const task = newTask(read(line));
        if (!isHeading) tasks.push({ line, task: { ...(project && { project }), ...task, ...(isDone && { status: "completed" }) } });
    }
    return tasks;
}

// Adds a task for each line of a list, with a way back.
async function addLines(lines) {
    const [{ number }, form] = [state, typed()];
    const made = lines.map(({ line, task }) => ({ ...changes.add(number, task), form: { ...form, line } }));
    fillAdding({ isShown: isShown() });
    const { sent, group } = doing(() => keepEach(made));
    await sent.catch((fault) => {
        fillAdding({ ...form, line: lines.map(({ line }) => line).join(" ") });
        throw fault;
    });
    offerUndo(group, `Added ${counted(made.length)} tasks.`);
}

// A browser makes one line of a list that is pasted. Where nothing else stands there its person may want a task for each of its lines.
function takeList(event) {
    const tasks = tasksIn(event.clipboardData?.getData("text/plain") ?? "");
    if (tasks.length < 2 || find("add-line").value.trim() || fields.read().recur) return;
    if (tasks.some(({ task }) => faultInText(task.description))) return;
    if (!confirm(`Add ${counted(tasks.length)} tasks, one for each line? Otherwise all of it becomes one line.`)) return;
    event.preventDefault();
    addLines(tasks).catch(tellFault);
}

function showFields(isShown, typed) {
    fields = new Fields(state.board);
    fields.dueElsewhere = () => readNow().task.due;
    fields.drawPreview();
    if (typed) fields.retype(typed);
    fill(find("add-fields"), fields.elements);
    find("add-fields").hidden = !isShown;
    find("add-more").ariaExpanded = isShown;
}

// Each board has its own draft.
let number = 0;
function drawBoard() {
    if (!state.who || state.number === number) return;
    number = state.number;
    fillAdding(readDraft("add"));
}

export function beginAddLine() {
    // (before anything else hears of a key, since Enter and Escape may be for the list that it offers)
    new Completing(find("add-line"), offer, { isFirstChosen: false });
    find("add-line").addEventListener("input", drawUnderstood);
    find("add-line").addEventListener("scroll", scrollMarks);
    find("add-line").addEventListener("paste", takeList);
    beginSheet();
    find("add-more").addEventListener("click", () => {
        showFields(!isShown(), fields.typed());
        keepTyped();
    });
    find("add-form").addEventListener("input", keepTyped);
    find("add-fields").addEventListener("input", drawUnderstood);
    find("add-line").addEventListener("input", () => fields.drawPreview());
    check(find("add-line"), (line) => (line.trim() ? faultInText(readNow().task.description) : ""));
    whenSent("add-form", () => add().catch(tellFault));
    whenTypedElsewhere("add", (draft) => showTyped(draft ?? { isShown: isShown() }));
    listen("signed", () => (number = 0));
    listen("people", drawUnderstood);
    listen("route", drawBoard);
    listen("draft", () => {
        number = 0;
        drawBoard();
    });
}

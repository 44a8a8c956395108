// A value of a task, changed where it stands: a click or a key opens what chooses it, and it is saved at once, with a way back.
import { changes } from "../core/calls.js";
import { oneLine } from "../core/format.js";
import { seconds } from "../core/moments.js";
import { faultInDescription, faultInTags, faultInText, faultInWait } from "../core/rules.js";
import { PRIORITIES } from "../core/task.js";
import { keep } from "../sync/outbox.js";
import { labelOf, worded } from "../sync/entries.js";
import { choices, names } from "../store/people.js";
import { state } from "../store/store.js";
import { doing } from "../store/undo.js";
import { fill, make, said, span } from "../ui/element.js";
import { openDatePicker } from "../ui/datepicker.js";
import { face } from "../ui/face.js";
import { icon } from "../ui/icons.js";
import { openPopover, steerChoices } from "../ui/popover.js";
import { fitOf } from "../core/query.js";
import { tellFault } from "./faults.js";
import { tagsIn } from "./fields.js";
import { offerUndo } from "./undoing.js";

const MOST = 8;
const LABELS = { due: "Due", wait: "Hide until", scheduled: "Planned for", until: "Until", assignee: "Assigned to", priority: "Priority", tags: "Tags", project: "Project", description: "Title" };
// The pictures of the values, and the keys that change them in a list.
export const PICTURES = { due: "calendar", wait: "wait", scheduled: "calendar", until: "calendar", assignee: "person", priority: "flag", tags: "tag", project: "project" };
export const KEYS = { d: "due", a: "assignee", p: "priority", t: "tags", o: "project", r: "description", w: "wait" };
export const labelOfValue = (name) => LABELS[name];

const isSame = (one, other) => JSON.stringify(one ?? null) === JSON.stringify(other ?? null);

// Saves a value, and says so with its way back.
function setValue({ number }, task, name, value) {
    if (isSame(task.told[name], value)) return;
    const { sent, group } = doing(() => keep(changes.modify(number, task, { [name]: value })));
    sent.catch(tellFault);
    const label = labelOf(name);
    const verb = name === "tags" ? "are" : "is";
    offerUndo(group, `${label.slice(0, 1).toUpperCase()}${label.slice(1)} of `, make("q", {}, said(task.description, 60)), value === null ? ` ${verb} gone.` : [` ${verb} now `, make("bdi", {}, oneLine(String(worded(name, value)), 60)), "."]);
}

// A text to type, with what is there already to choose from: each fits what is typed so far.
class Choosing {
    /** @param {{label: string, all: any[], isNew?: boolean, chosen?: any[], faultIn?: (text: string) => string, choose: (value: any) => any}} settings */
    constructor({ label, all, isNew = false, chosen = [], faultIn = () => "", choose }) {
        this.all = all;
        this.isNew = isNew;
        this.chosen = chosen;
        this.faultIn = faultIn;
        this.choose = choose;
        this.input = make("input", { "aria-label": label, placeholder: isNew ? `${label}, or choose one` : `Find: ${label}`, autocomplete: "off", autocapitalize: "none", dir: "auto", input: () => this.draw() });
        this.fault = make("p", { class: "fault", role: "alert" });
        this.list = make("div", { class: "menu" });
        steerChoices(this.list, "button");
        this.input.addEventListener("keydown", (event) => {
            if (event.key !== "ArrowDown") return;
            event.preventDefault();
            this.list.querySelector("button")?.focus();
        });
    }

    get children() {
        const isTyped = this.isNew || this.all.length > MOST;
        const submit = (event) => {
            event.preventDefault();
            this.#take();
        };
        this.draw();
        return [isTyped ? make("form", { submit, novalidate: true }, this.input) : "", this.fault, this.list];
    }

    #take() {
        const text = this.input.value.trim();
        if (!this.isNew || !text) return text || this.isNew ? this.list.querySelector("button")?.click() : undefined;
        const fault = this.faultIn(text);
        this.fault.textContent = fault;
        if (!fault) this.choose(text);
    }

    draw() {
        const typed = this.input.value;
        const fitting = this.all.map((one, at) => ({ ...one, at, fit: fitOf(one.label, typed) })).filter(({ fit }) => fit > 0).sort((one, other) => other.fit - one.fit || one.at - other.at);
        fill(this.list, fitting.slice(0, MOST).map(({ value, label, picture }) => {
            const isChosen = this.chosen.includes(value);
            return make("button", { type: "button", "aria-pressed": String(isChosen), click: () => this.choose(value) }, picture, span("cut", said(label, 60)), isChosen ? span("about", icon("check", "small")) : "");
        }));
    }
}

function openChoosing(anchor, settings, backTo) {
    const choosing = new Choosing({ ...settings, choose: (value) => [own.close(), settings.choose(value)] });
    const own = openPopover(anchor, settings.label, choosing.children, { kind: "value-choices", backTo });
    return own;
}

const texts = (all) => all.map((text) => ({ value: text, label: text, picture: "" }));

function openPeople(anchor, { task, save, backTo }) {
    const known = [...new Set([...(names() ?? []), ...(task.assignee ? [task.assignee] : [])])];
    const people = choices([task.assignee].filter(Boolean)).filter(([name]) => known.includes(name)).map(([value, label]) => ({ value, label, picture: face(value) }));
    const nobody = { value: "", label: "Nobody", picture: icon("none") };
    openChoosing(anchor, { label: LABELS.assignee, all: [...people, nobody], chosen: [task.assignee], choose: (name) => save(name || null) }, backTo);
}

function openPriorities(anchor, { task, save, backTo }) {
    const all = Object.entries(PRIORITIES).map(([value, label]) => ({ value, label, picture: make("i", { class: `tick priority-${value}`, "aria-hidden": "true" }) }));
    openChoosing(anchor, { label: LABELS.priority, all: [...all, { value: "", label: "none", picture: make("i", { class: "tick", "aria-hidden": "true" }) }], chosen: [task.priority], choose: (value) => save(value || null) }, backTo);
}

function openProjects(anchor, { task, save, backTo }) {
    const none = task.project ? [{ value: "", label: "No project", picture: icon("none") }] : [];
    openChoosing(anchor, { label: LABELS.project, all: [...texts(state.board?.projects ?? []), ...none], isNew: true, chosen: [task.project], faultIn: faultInText, choose: (text) => save(text || null) }, backTo);
}

// Each choice puts a tag on or takes it off.
function openTags(anchor, { task, save, backTo }) {
    const turn = (text) => {
        const wanted = tagsIn(text);
        const tags = wanted.length === 1 && task.tags.includes(wanted[0]) ? task.tags.filter((tag) => tag !== wanted[0]) : [...new Set([...task.tags, ...wanted])].sort();
        save(tags.length > 0 ? tags : null);
    };
    const all = [...task.tags, ...(state.board?.tags ?? []).filter((tag) => !task.tags.includes(tag))];
    openChoosing(anchor, { label: LABELS.tags, all: texts(all), isNew: true, chosen: task.tags, faultIn: faultInTags, choose: turn }, backTo);
}

// Enter keeps the text, as a click elsewhere does; Shift and Enter begins a line, Escape drops it.
function openTitle(anchor, { task, save, backTo }) {
    const fault = make("p", { class: "fault", role: "alert" });
    const text = make("textarea", { rows: 3, "aria-label": LABELS.description, dir: "auto" }, task.description);
    const faultNow = () => faultInDescription(text.value.trim());
    const take = (event) => {
        event.preventDefault();
        fault.textContent = faultNow();
        if (fault.textContent) return;
        own.close();
        save(text.value.trim());
    };
    const left = () => faultNow() || save(text.value.trim());
    text.addEventListener("keydown", (event) => event.key === "Enter" && !event.shiftKey && !event.isComposing && take(event));
    const own = openPopover(anchor, LABELS.description, [make("form", { submit: take, novalidate: true }, text, fault, make("div", { class: "line" }, make("button", { class: "primary" }, "Keep")))], { kind: "titling", backTo, left });
    text.setSelectionRange(text.value.length, text.value.length);
}

function openMoment(name, anchor, { task, save, backTo }) {
    const isNeeded = name === "due" && task.status === "recurring";
    openDatePicker(anchor, { second: seconds(task.told[name]), label: LABELS[name], isNeeded, faultIn: name === "wait" ? faultInWait : undefined, backTo, choose: save });
}

const OPENERS = { assignee: openPeople, priority: openPriorities, project: openProjects, tags: openTags, description: openTitle };

// Whether that value of a task can be changed: nothing of what is closed, and not when what repeats is due.
export const canChange = (task, name) => task.isOpen && !(task.status === "recurring" && name === "due");

// Opens what changes a value of a task, beside an element. `backTo` gives what has the focus afterwards.
export function changeValue(anchor, task, name, place, backTo = () => anchor) {
    if (!canChange(task, name)) return;
    const latest = () => (state.board?.number === place.number && state.board.byId.get(task.uuid)) || task;
    const settings = { task, backTo, save: (value) => setValue(place, latest(), name, value) };
    if (name in OPENERS) OPENERS[name](anchor, settings);
    else openMoment(name, anchor, settings);
}

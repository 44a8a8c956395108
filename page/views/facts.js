// The values of the open task, each of which a click changes where it stands.
import { oneLine } from "../core/format.js";
import { inFull, seconds } from "../core/moments.js";
import { PRIORITIES } from "../core/task.js";
import { isGone } from "../store/people.js";
import { go } from "../store/route.js";
import { here, state } from "../store/store.js";
import { button, fill, find, make, said } from "../ui/element.js";
import { face } from "../ui/face.js";
import { icon } from "../ui/icons.js";
import { linked } from "../ui/links.js";
import { lastBy } from "./history.js";
import { canChange, changeValue, KEYS, labelOfValue, PICTURES } from "./value.js";

const ALWAYS = { assignee: "Assigned to", due: "Due", priority: "Priority", tags: "Tags", project: "Project" };
const DATES = { wait: "Hidden until", scheduled: "Planned for", until: "Until" };
const EMPTY = { assignee: "Nobody", due: "No date", priority: "None", tags: "None", project: "None" };
const MOMENTS = { start: "Started", entry: "Made", modified: "Changed", end: "Ended" };
// Which deeds of somebody those moments are of.
const DEEDS = { start: ["start"], entry: ["add"], modified: ["modify"], end: ["done", "delete"] };
// What is shown elsewhere. Any other member is one of the user's own, and is shown under its name.
const KNOWN = [..."uuid description status recur annotations depends parent imask mask".split(" "), ...Object.keys({ ...ALWAYS, ...DATES, ...MOMENTS })];

const keyOf = (name) => Object.keys(KEYS).find((key) => KEYS[key] === name) ?? null;
const by = (name) => (name ? ` by ${oneLine(name, 40)}` : "");

function textOf(name, task) {
    if (name === "assignee") return task.assignee && `${oneLine(task.assignee, 60)}${isGone(task.assignee) ? " (no role any more)" : ""}`;
    if (name === "priority") return PRIORITIES[task.priority];
    if (name === "tags") return task.tags.map((tag) => `@${tag}`).join(" ");
    if (name === "project") return task.project;
    return task.told[name] && inFull(seconds(task.told[name]));
}

const pictureOf = (name, task) => (name === "assignee" && task.assignee ? face(task.assignee) : icon(PICTURES[name]));

// What had the focus is drawn anew, and has it again.
const again = (name) => find("task-facts").querySelector(`[data-value="${name}"]`);

function valueOf(name, task, place) {
    const text = textOf(name, task);
    if (place.role === "reader" || !canChange(task, name)) return make("bdi", {}, text || EMPTY[name]);
    const label = `${labelOfValue(name)}: ${text || EMPTY[name]}`;
    const settings = { "data-value": name, class: text ? "fact" : "fact unset", "aria-label": label, title: `Change: ${labelOfValue(name)}`, "aria-keyshortcuts": keyOf(name) };
    return make("button", { type: "button", ...settings, click: () => changeValue(again(name), task, name, place, () => again(name)) }, pictureOf(name, task), make("bdi", {}, text || EMPTY[name]));
}

const row = (label, ...value) => [make("dt", {}, said(label, 60)), make("dd", {}, value)];

// Dates that aren't set, each behind a button of few words.
function adders(task, place) {
    const names = Object.keys(DATES).filter((name) => !task.told[name] && canChange(task, name));
    if (place.role === "reader" || names.length === 0) return [];
    const add = (name) => button(`+ ${labelOfValue(name)}`, () => changeValue(again(name), task, name, place, () => again(name)), { class: "quiet", "data-value": name, "aria-keyshortcuts": keyOf(name) });
    return [make("dt", { class: "hidden" }, "More dates"), make("dd", { class: "adders" }, names.map(add))];
}

function factsOf(task) {
    const { told } = task;
    const place = { number: state.number, role: here()?.role, title: "" };
    const names = [...Object.keys(ALWAYS).filter((name) => textOf(name, task) || (task.isOpen && place.role !== "reader")), ...Object.keys(DATES).filter((name) => told[name])];
    const template = state.board.byId.get(task.parent);
    return [
        ...names.map((name) => row(ALWAYS[name] ?? DATES[name], valueOf(name, task, place))),
        task.recur ? row("Repeats", make("bdi", {}, task.recur)) : [],
        template ? row("Belongs to", button(said(template.description, 80), () => go(state.number, "repeating", template.uuid), { class: "link" })) : [],
        adders(task, place),
        ...Object.entries(MOMENTS).filter(([name]) => told[name]).map(([name, label]) => row(label, make("bdi", {}, inFull(seconds(told[name])) + by(lastBy(task.uuid, ...DEEDS[name]))))),
        ...Object.entries(told).filter(([name]) => !KNOWN.includes(name)).map(([name, value]) => row(name, make("bdi", {}, linked(String(value))))),
    ].flat();
}

export function drawFacts(task) {
    /** @type {any} */
    const value = document.activeElement?.closest("#task-facts [data-value]");
    const focused = value?.dataset.value;
    fill(find("task-facts"), factsOf(task));
    if (focused) again(focused)?.focus({ preventScroll: true });
}

// Keys that act from anywhere but where someone types. An element names its key itself, by aria-keyshortcuts: a field then takes the focus, and
// all else is clicked. "?" shows them all.
import { fill, find, make } from "../ui/element.js";
import { isPopoverOpen } from "../ui/popover.js";

export const DIALOG = `
<dialog id="keys-dialog" aria-labelledby="keys-title">
    <h2 id="keys-title">Keys</h2>
    <div id="keys-shown"></div>
    <label class="check"><input id="keys-on" type="checkbox"> Single letters act as keys</label>
    <button id="keys-close" type="button" class="primary">Close</button>
</dialog>
`;

const OFF = "taskboard.keys-off";
const FIELDS = "input:not([type=checkbox], [type=radio]), select, textarea";
// What takes the focus and isn't clicked: fields, and links that lead into a list.
const FOCUSED = `${FIELDS}, [data-focus]`;
const LIST = [
    ["↑ ↓  k j", "Go from task to task; by Page Up, Page Down, Home and End further"],
    ["Enter", "Open the task"],
];
// Those of the list that a reader doesn't have.
const CHANGING = [
    ["e", "Complete or reopen the task"],
    ["d  a  p", "Change its date, its person, its priority"],
    ["t  o  r", "Change its tags, its project, its title"],
    ["w", "Hide the task until a day"],
    ["x", "Choose the task, to change several at once"],
    ["Shift + ↑ ↓", "Choose the next one too; Ctrl + A chooses all"],
    ["Shift + ← →", "In columns, move the card: start, stop, complete or reopen the task"],
];
const SAVE = ["Ctrl + Enter", "Save what was edited"];
const ANYWHERE = [
    ["Ctrl + K", "Go anywhere, do anything: a board, a task, a command"],
    ["Ctrl + Z", "Undo what you did; Ctrl + Shift + Z does it again"],
    ["Escape", "Close the task or the form"],
    ["?", "Show these keys"],
];

const isOn = () => localStorage.getItem(OFF) === null;
// (a field behind the open task takes no focus)
// (what a menu has acts while the menu is closed too)
const isThere = (element) => element.checkVisibility() || (!element.hidden && element.closest(".menu[popover]"));
const isInSight = (element) => isThere(element) && !element.disabled && !(element.matches(FOCUSED) && element.closest("[inert]"));
const shortcuts = (place) => [...place.querySelectorAll("[aria-keyshortcuts]")].filter(isInSight);
const labelOf = (element) => element.ariaLabel || element.title || element.textContent;

// The element with a key, that of the open task only while the focus is in it.
function elementOf(key, target) {
    const panel = find("panel");
    const isElsewhere = (element) => panel.contains(element) && !panel.contains(target);
    return shortcuts(document).find((element) => element.getAttribute("aria-keyshortcuts") === key && !isElsewhere(element));
}

function row([key, text]) {
    return make("div", {}, make("dt", {}, make("kbd", {}, key)), make("dd", {}, text));
}

function show() {
    const named = (place) => shortcuts(place).map((element) => [element.getAttribute("aria-keyshortcuts"), labelOf(element)]).filter(([key]) => key.length === 1);
    const isReader = document.body.classList.contains("reader");
    const ofTask = named(find("panel"));
    const others = named(document).filter(([key]) => key !== "?" && !ofTask.some(([other]) => other === key));
    const part = (title, rows) => (rows.length > 0 ? [make("h3", {}, title), make("dl", { class: "keys" }, rows.map(row))] : []);
    fill(find("keys-shown"), part("Everywhere", [...others, ...ANYWHERE]), part("In the list", isReader ? LIST : [...LIST, ...CHANGING]), part("In the open task", isReader || ofTask.length === 0 ? ofTask : [...ofTask, SAVE]));
    find("keys-on").checked = isOn();
    find("keys-dialog").showModal();
    find("keys-close").focus();
}

function setOn(isWanted) {
    if (isWanted) localStorage.removeItem(OFF);
    else localStorage.setItem(OFF, "yes");
}

function act(event) {
    const { key, target } = event;
    if (event.ctrlKey || event.metaKey || event.altKey || event.defaultPrevented || find("app").hidden || document.querySelector("dialog[open]") || isPopoverOpen()) return;
    if (target.matches?.(FIELDS)) return;
    if (key === "Escape" && !find("panel").hidden && !find("panel").contains(target)) return find("close-panel").click();
    // (a key that is held acts once)
    if (key.length > 1 || event.repeat || !isOn()) return;
    const element = elementOf(key, target);
    if (!element) return;
    event.preventDefault();
    if (element.matches(FOCUSED)) element.focus();
    else element.click();
}

// A double click acts once: where the first click moved something else under the pointer, as the next row or another button, the second one isn't
// meant for that. So does Enter that is held, but for the lines of a text.
let clicked = null;
function actOnce(event) {
    const hit = event.target.closest?.("label, button, a, summary") ?? event.target;
    const isMeant = event.type === "click" ? event.detail < 2 || hit === clicked : !event.repeat || event.key !== "Enter" || hit.matches?.("textarea");
    if (event.type === "click") clicked = hit;
    if (isMeant) return;
    event.preventDefault();
    event.stopImmediatePropagation();
}

export function beginKeyboard() {
    for (const kind of ["click", "keydown"]) document.addEventListener(kind, actOnce, true);
    document.addEventListener("keydown", act);
    find("show-keys").addEventListener("click", show);
    find("keys-close").addEventListener("click", () => find("keys-dialog").close());
    find("keys-on").addEventListener("change", ({ target }) => setOn(target.checked));
}

// Elements and their text. Text goes in as text nodes alone, so nothing that a task says is ever read as HTML.
import { counted, oneLine } from "../core/format.js";

const MOST_TOLD = 200;

const isThere = (value) => value !== undefined && value !== null && value !== false;
const isChild = (value) => isThere(value) && value !== "";
/**
 * An element of the page, which may be of any kind.
 * @type {(id: string) => any}
 */
export const find = (id) => document.getElementById(id);
export const fill = (parent, ...children) => parent.replaceChildren(...children.flat().filter(isChild));

// An element with attributes, listeners (settings that are functions, by the name of their event) and children: elements or texts.
export function make(tag, settings = {}, ...children) {
    const made = document.createElement(tag);
    for (const [name, value] of Object.entries(settings)) {
        if (typeof value === "function") made.addEventListener(name, value);
        else if (isThere(value)) made.setAttribute(name, value === true ? "" : value);
    }
    made.append(...children.flat().filter(isChild));
    return made;
}

// Fills an element where what it shows is other than before: so the focus stays where it is, and nothing is read out once more.
export function refill(element, ...children) {
    const fresh = make("div", {}, ...children);
    if (fresh.innerHTML !== element.innerHTML) fill(element, ...fresh.childNodes);
}

// Fills an element with rows, each of them by a name. One that stands there by its name already stays as it is, with what is typed in it and the
// focus; `rows` gives the name of each, and what makes it.
export function fillNamed(element, rows) {
    const known = new Map([...element.children].map((child) => [child.dataset.name, child]));
    const wanted = rows.map(([name, makeRow]) => {
        const row = known.get(name) ?? makeRow();
        row.dataset.name = name;
        return row;
    });
    for (const row of known.values()) if (!wanted.includes(row)) row.remove();
    let next = element.firstElementChild;
    for (const row of wanted) {
        if (row === next) next = next.nextElementSibling;
        else element.insertBefore(row, next);
    }
}

export const span = (kind, ...children) => make("span", { class: kind }, ...children);
export const button = (label, act, settings = {}) => make("button", { type: "button", click: act, ...settings }, label);

// A text from a task or a person, apart from the direction of what stands around it.
export const said = (text, longest) => make("bdi", {}, oneLine(text, longest));

// Tasks and what is said of each, behind a line that sums them up.
export function tasksTold(title, tasks, isOpen = false) {
    if (tasks.length === 0) return "";
    const rows = tasks.slice(0, MOST_TOLD).map(({ subject, what }) => make("li", {}, make("q", {}, said(subject)), `: ${what.join("; ")}`));
    const more = tasks.length > MOST_TOLD ? make("li", {}, `and ${counted(tasks.length - MOST_TOLD)} more`) : "";
    return make("details", { open: isOpen }, make("summary", {}, title), make("ul", { class: "told-tasks" }, rows, more));
}

// Has the browser keep a text as a file.
export function download(name, text, type) {
    const address = URL.createObjectURL(new Blob([text], { type }));
    make("a", { href: address, download: name }).click();
    setTimeout(() => URL.revokeObjectURL(address), 60000);
}

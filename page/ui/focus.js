// Keeps the focus from falling to the body: where the element that has it is removed, hidden or disabled, what stands nearest takes it.

const FOCUSABLE = "a[href], button, input, select, textarea, summary, [tabindex]";
// The parts of the page within which something near is looked for.
const PARTS = "main, aside, header, nav, dialog, .told";
// The lists of tasks, and of each the row that takes the focus: keys go on there where a list takes the place of another one, or of a view.
const LISTS = ["#list", "#columns", "#day-list"];
const ROWS = LISTS.map((list) => `${list} .open[tabindex='0']`);
const FALLBACKS = ["#name", "dialog[open] button", ...ROWS, "#heading", "#boards a", "#new-board", "#close-panel"];

// What had the focus last: the element, its list of tasks or its view, what it stands in, from the inside out, and its place among what takes
// the focus there; and what has the focus until the rows of another list come.
let [last, standIn] = [null, null];

const isUsable = (element) => element.isConnected && !element.disabled && !element.closest("[hidden], [inert], dialog:not([open])");
const isInSight = (element) => isUsable(element) && element.checkVisibility();
const stopsIn = (place) => [...place.querySelectorAll(FOCUSABLE)].filter((element) => element.tabIndex >= 0 && isInSight(element));

function remember(element) {
    standIn = null;
    const around = [];
    for (let place = element.parentElement; place && place !== document.body; place = place.parentElement) {
        around.push({ place, at: around.length < 2 ? stopsIn(place).indexOf(element) : 0 });
        if (place.matches(PARTS)) break;
    }
    last = { element, home: element.closest(LISTS.join()) ?? element.closest("main > section"), around };
}

const firstInSight = (selectors) => selectors.map((selector) => document.querySelector(selector)).find((element) => element && isInSight(element));
const isBeyondHome = (place) => last.home && place !== last.home && place.contains(last.home);

function nearest() {
    for (const { place, at } of last.around) {
        const row = isBeyondHome(place) && firstInSight(ROWS);
        if (row) return row;
        const stops = isInSight(place) ? stopsIn(place) : [];
        if (stops.length > 0) return stops[Math.min(Math.max(0, at), stops.length - 1)];
    }
    return firstInSight(FALLBACKS);
}

// Acts where the focus has gone with its element, and not where a person took it away by a click beside everything.
function restore() {
    const active = document.activeElement ?? document.body;
    const row = standIn && active === standIn && firstInSight(ROWS);
    if (row) return row.focus({ preventScroll: true });
    if (active !== document.body && isUsable(active)) return;
    if (!last || isUsable(last.element)) return;
    const [next, isOtherView] = [nearest(), last.home?.closest("section")?.hidden];
    next?.focus({ preventScroll: true });
    standIn = isOtherView ? next : null;
}

export function beginFocus() {
    document.addEventListener("focusin", ({ target }) => remember(target));
    document.addEventListener("pointerdown", ({ target }) => {
        if (!target.closest(`${FOCUSABLE}, label`)) last = null;
    });
    new MutationObserver(restore).observe(document.body, { subtree: true, childList: true, attributes: true, attributeFilter: ["hidden", "disabled", "open", "inert"] });
}

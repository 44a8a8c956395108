// What opens beside an element and closes by Escape or a click elsewhere. The focus goes in, and back to what opened it.
import { make } from "./element.js";

const [GAP, EDGE] = [6, 8];
let opened = null;

const isNarrow = () => matchMedia("(max-width: 44rem)").matches;

// Below its element, or above it where there is more room; within the window. In a narrow one it is a sheet at the foot, by its style.
function place(element, anchor) {
    if (isNarrow()) return element.removeAttribute("style");
    const { left, right, top, bottom } = anchor.getBoundingClientRect();
    const { offsetWidth: width, offsetHeight: height } = element;
    const isBelow = bottom + GAP + height <= innerHeight - EDGE || innerHeight - bottom > top;
    const y = isBelow ? Math.min(bottom + GAP, innerHeight - EDGE - height) : top - GAP - height;
    const x = left + width <= innerWidth - EDGE ? left : right - width;
    Object.assign(element.style, { left: `${Math.max(EDGE, x)}px`, top: `${Math.max(EDGE, y)}px` });
}

// What is open, and what it stands beside: both move where the window gets another size.
let placed = [];
addEventListener("resize", () => placed[0]?.matches(":popover-open") && place(placed[0], placed[1]));

function open(element, anchor) {
    placed = [element, anchor];
    place(element, anchor);
}

export const isPopoverOpen = () => document.querySelector("[popover]:popover-open") !== null;

// Opens it. `backTo` gives what has the focus afterwards, where that isn't the element: a row may have been drawn anew. `left` is called where its
// person has gone elsewhere, and neither took something nor pressed Escape. Gives what closes it.
export function openPopover(anchor, label, children, { kind = "", backTo = () => anchor, left = () => {} } = {}) {
    if (opened?.element.isConnected) opened.element.hidePopover();
    const element = make("div", { class: `popover ${kind}`.trim(), popover: "auto", role: "dialog", "aria-label": label }, children);
    let isEnded = false;
    const close = () => {
        isEnded = true;
        if (element.isConnected) element.hidePopover();
    };
    const own = { element, close };
    const app = document.getElementById("app");
    anchor.setAttribute("aria-expanded", "true");
    element.addEventListener("keydown", (event) => (isEnded ||= event.key === "Escape" && !event.isComposing));
    element.addEventListener("toggle", ({ newState }) => {
        if (newState !== "closed") return;
        // (whoever pressed something else has gone there)
        const hasGone = ![null, document.body, app, anchor].includes(document.activeElement) && !element.contains(document.activeElement);
        if (opened === own) opened = null;
        anchor.setAttribute("aria-expanded", "false");
        if (!hasGone) backTo()?.focus({ preventScroll: true });
        element.remove();
        if (!isEnded) left();
    });
    app.append(element);
    element.showPopover();
    opened = own;
    open(element, anchor);
    (element.querySelector("[autofocus], input, textarea, [aria-selected=true], [aria-checked=true], button:not(:disabled), a[href]") ?? element).focus({ preventScroll: true });
    return own;
}

// Has a button open and close what stands in the page already.
export function attachPopover(anchor, element) {
    anchor.setAttribute("aria-expanded", "false");
    anchor.setAttribute("aria-controls", element.id);
    anchor.popoverTargetElement = element;
    element.addEventListener("toggle", ({ newState }) => {
        anchor.setAttribute("aria-expanded", String(newState === "open"));
        if (newState !== "open") return;
        open(element, anchor);
        element.querySelector("[autofocus], select, input, [aria-current], a[href], button:not(:disabled)")?.focus({ preventScroll: true });
    });
}

const STEPS = { ArrowDown: 1, ArrowUp: -1, Home: -Infinity, End: Infinity };

// Arrows go from one choice of a place to the next.
export function steerChoices(element, selector) {
    element.addEventListener("keydown", (event) => {
        if (!(event.key in STEPS) || event.target.matches("input, select, textarea")) return;
        const all = [...element.querySelectorAll(selector)].filter((choice) => choice.checkVisibility() && !choice.disabled);
        const at = all.indexOf(event.target.closest(selector));
        if (at < 0) return;
        event.preventDefault();
        event.stopPropagation();
        all[Math.min(all.length - 1, Math.max(0, at + STEPS[event.key]))].focus();
    });
}

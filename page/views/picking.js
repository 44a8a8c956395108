// Choosing tasks by clicks and keys.
import { hasPicked, pick, pickAll, pickTo, showBoxes } from "../store/selection.js";

// What a click on a task means for the choice: whether it was one.
export function pickByClick(event, uuid) {
    if (event.shiftKey) pickTo(uuid);
    else if (event.ctrlKey || event.metaKey) pick(uuid);
    else return false;
    event.preventDefault();
    return true;
}

const uuidOf = (element) => element.closest("[data-uuid]")?.dataset.uuid;

// Keys in the list: x chooses, Shift and an arrow choose on, Ctrl and A all, Escape none.
export function pickByKey(event) {
    const { key, shiftKey, altKey } = event;
    const isCommand = event.ctrlKey || event.metaKey;
    if (altKey) return;
    if (key === "x" && !isCommand) event.repeat || pick(uuidOf(event.target));
    else if (shiftKey && (key === "ArrowDown" || key === "ArrowUp")) [event.target, document.activeElement].forEach((element) => pick(uuidOf(element), true));
    else if (key === "a" && isCommand) pickAll();
    else if (key === "Escape" && hasPicked()) showBoxes(false);
    else return;
    event.preventDefault();
}

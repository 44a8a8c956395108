// A message at the foot of the window, maybe with a button: it goes after a while.
import { button, fill, find } from "./element.js";

export const MARKUP = `<div id="toast" role="status"></div>`;

const TOLD_FOR = 10000;
// When the toast ends, and how many were shown.
let [timer, count] = [0, 0];

export function endToast() {
    count += 1;
    fill(find("toast"));
}

// Who points at it, or has come to it by Tab, may be about to press its button.
function endLater() {
    timer = setTimeout(() => (find("toast").matches(":hover, :focus-within") ? endLater() : endToast()), TOLD_FOR);
}

// Shows it, and gives what says whether it is still the one that is shown.
export function toast(...children) {
    count += 1;
    const mine = count;
    fill(find("toast"), ...children, button("Close", () => {}, { class: "quiet" }));
    clearTimeout(timer);
    endLater();
    return () => mine === count;
}

// (each button of the toast ends it, since a second Undo would be refused; before it acts, which may show another one)
export const beginToast = () => find("toast").addEventListener("click", ({ target }) => target.closest("button") && endToast(), true);

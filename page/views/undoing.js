// Undo and redo, by Ctrl+Z and by the button that is offered with what was done.
import { labelOf, worded } from "../sync/entries.js";
import { beginUndo, lastDone, redo, undo } from "../store/undo.js";
import { button, make, said } from "../ui/element.js";
import { isPopoverOpen } from "../ui/popover.js";
import { toast } from "../ui/toast.js";
import { tellFault } from "./faults.js";

const FIELDS = "input:not([type=checkbox], [type=radio]), textarea, select";
const quoted = (text) => make("q", {}, said(text, 80));
const nameOf = ({ verb, subject, count }) => (count > 1 ? [`${verb} ${count} tasks`] : [`${verb} `, quoted(subject)]);

// Takes a group back, and says so; where somebody else has changed the same since, that is said instead.
export function takeBack(group, isMeant = false) {
    const { group: taken, conflicts, sent } = undo(group, isMeant);
    if (!taken) return toast("Nothing to undo.");
    if (conflicts.length > 0) {
        const [{ name, is, subject }] = conflicts;
        const told = [`Meanwhile ${labelOf(name)} of `, quoted(subject), " became ", quoted(String(worded(name, is))), "."];
        return toast(make("span", {}, told), button("Undo all the same", () => takeBack(taken, true)));
    }
    sent.catch(tellFault);
    toast(make("span", {}, "Undone: ", nameOf(taken)), button("Redo", doAgain));
}

function doAgain() {
    const { group, sent } = redo();
    if (!group) return toast("Nothing to redo.");
    sent.catch(tellFault);
    toast(make("span", {}, "Done again."), button("Undo", () => takeBack(lastDone())));
}

// Says what was just done, with its way back.
export function offerUndo(group, ...told) {
    toast(make("span", {}, told.flat(Infinity)), group ? button("Undo", () => takeBack(group)) : "");
}

// (in a field the keys undo what was typed there)
function act(event) {
    if (!(event.ctrlKey || event.metaKey) || event.altKey || event.key.toLowerCase() !== "z" || event.repeat) return;
    if (event.target.matches?.(FIELDS) || document.querySelector("dialog[open]") || isPopoverOpen()) return;
    event.preventDefault();
    if (event.shiftKey) doAgain();
    else takeBack(lastDone());
}

export function beginUndoing() {
    beginUndo();
    document.addEventListener("keydown", act);
}

// Selects: their options, and one that acts as soon as it has a value.
import { make } from "./element.js";

export const options = (choices, chosen) => choices.map(([value, label]) => make("option", { value, selected: value === chosen }, label));
// The keys by which a select whose list is closed takes another value at once.
const CHOOSING = /^(?:Arrow.*|Page.*|Home|End|[^ ])$/;
const isOpen = (select) => select.matches(":open");

// Of a select that acts as soon as it has a value: a key opens its list, so that nothing is done on the way to what is meant.
export function openByKeys(select) {
    if (!select.showPicker || !CSS.supports("selector(:open)")) return;
    select.addEventListener("keydown", (event) => {
        if (!CHOOSING.test(event.key) || event.ctrlKey || event.metaKey || event.altKey || isOpen(select)) return;
        event.preventDefault();
        select.showPicker();
    });
}

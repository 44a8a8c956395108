// A field that offers how to go on with what is typed: a list below it, of which the arrows choose one; Enter takes that one, Tab the first where
// none is chosen, and Escape closes the list.
import { fill, make, span } from "./element.js";
import { icon } from "./icons.js";

const MOST = 8;
let made = 0;

// Has a field offer choices. `offer` gives for a text and the place of the caret what is offered there: from where to where the text is replaced and
// the choices, each a label, a picture, what is said beside it, and what is put in; or nothing.
export class Completing {
    /** @type {any[]} */
    #choices = [];
    #at = -1;
    #span = { from: 0, to: 0 };

    constructor(input, offer, { isFirstChosen = true } = {}) {
        made += 1;
        this.input = input;
        this.offer = offer;
        this.isFirstChosen = isFirstChosen;
        this.list = make("ul", { id: `choices-${made}`, class: "choices-list", role: "listbox", "aria-label": "Suggestions", hidden: true });
        input.after(this.list);
        for (const [name, value] of Object.entries({ role: "combobox", "aria-autocomplete": "list", "aria-expanded": "false", "aria-controls": this.list.id })) input.setAttribute(name, value);
        for (const kind of ["input", "click"]) input.addEventListener(kind, () => this.draw());
        input.addEventListener("keydown", (event) => this.#steer(event));
        input.addEventListener("blur", () => this.close());
        // (the field keeps the focus while something of the list is pressed)
        this.list.addEventListener("pointerdown", (event) => event.preventDefault());
        this.list.addEventListener("click", ({ target }) => this.#take([...this.list.children].indexOf(target.closest("li"))));
    }

    get isOpen() {
        return !this.list.hidden;
    }

    close() {
        this.list.hidden = true;
        this.input.setAttribute("aria-expanded", "false");
        this.input.removeAttribute("aria-activedescendant");
    }

    draw() {
        const { value, selectionStart } = this.input;
        const offered = this.offer(value, selectionStart ?? value.length);
        this.#choices = offered?.choices.slice(0, MOST) ?? [];
        if (this.#choices.length === 0) return this.close();
        this.#span = offered;
        fill(this.list, this.#choices.map(({ label, picture, about = "" }, at) => make("li", { id: `${this.list.id}-${at}`, role: "option" }, picture ? icon(picture) : "", span("choice", label), span("about", about))));
        this.list.hidden = false;
        this.input.setAttribute("aria-expanded", "true");
        this.#choose(this.isFirstChosen ? 0 : -1);
    }

    #choose(at) {
        this.#at = at;
        [...this.list.children].forEach((choice, place) => choice.setAttribute("aria-selected", String(place === at)));
        if (at >= 0) this.input.setAttribute("aria-activedescendant", this.list.children[at].id);
        else this.input.removeAttribute("aria-activedescendant");
        this.list.children[at]?.scrollIntoView({ block: "nearest" });
    }

    #take(at) {
        const choice = this.#choices[at];
        if (!choice) return;
        const { from, to } = this.#span;
        this.input.setRangeText(choice.text, from, to, "end");
        this.close();
        this.input.dispatchEvent(new Event("input", { bubbles: true }));
        this.close();
    }

    #steer(event) {
        if (!this.isOpen || event.isComposing || event.ctrlKey || event.metaKey || event.altKey) return;
        const { length } = this.#choices;
        if (event.key === "ArrowDown") this.#choose((this.#at + 1) % length);
        else if (event.key === "ArrowUp") this.#choose((this.#at - 1 + length) % length);
        else if (event.key === "Enter" && this.#at >= 0) this.#take(this.#at);
        else if (event.key === "Tab" && !event.shiftKey) this.#take(Math.max(0, this.#at));
        else if (event.key === "Escape") this.close();
        else return;
        event.preventDefault();
        event.stopPropagation();
    }
}

// A long list of rows, of which only those in sight, and a few around them, are there. All rows are of one height, which the style says.
// On paper all of them stand. Among the tasks may stand headings of groups, which take no focus.
import { counted } from "../core/format.js";
import { make, said, span } from "./element.js";

const AROUND = 5;

const isTask = (item) => item.heading === undefined;
const makeHeading = ({ heading, count, uuid }) => make("div", { class: `row heading ${/^[a-z]+$/.test(uuid) ? uuid : ""}`, role: "listitem" }, make("h3", {}, said(heading, 80), " ", span("about", counted(count))));

export class List {
    /** @type {any[]} */
    #items = [];
    #rows = new Map();
    #height = 0;
    #current = "";
    #isPrinted = false;

    // `place` is the element that holds the rows; `makeRow` makes a task's row, and `lookOf` a text that is another when the row has to be.
    constructor(place, makeRow, lookOf) {
        this.place = place;
        this.makeRow = makeRow;
        this.lookOf = lookOf;
        const redraw = () => requestAnimationFrame(() => this.draw());
        addEventListener("scroll", redraw, { passive: true });
        addEventListener("resize", () => {
            this.#height = 0;
            redraw();
        });
        for (const name of ["beforeprint", "afterprint"]) {
            addEventListener(name, () => {
                this.#isPrinted = name === "beforeprint";
                this.draw();
            });
        }
        place.addEventListener("keydown", (event) => this.#move(event));
        place.addEventListener("focusin", (event) => (this.#current = event.target.closest(".row").dataset.uuid));
    }

    // Shows these tasks. Unless they are asked for by the person, what is at the upper edge of the window stays there.
    show(tasks, isAsked) {
        const edge = isAsked ? 0 : this.#firstInSight();
        const anchor = edge > 0 ? this.#items[edge]?.uuid : "";
        this.#items = tasks;
        this.draw();
        const at = anchor ? tasks.findIndex((task) => task.uuid === anchor) : -1;
        if (at >= 0 && at !== edge) {
            scrollBy(0, (at - edge) * this.#height);
            this.draw();
        }
    }

    #measure() {
        const probe = Object.assign(document.createElement("div"), { className: "row" });
        this.place.append(probe);
        this.#height = probe.offsetHeight;
        probe.remove();
    }

    #firstInSight() {
        return this.#height ? Math.floor(-this.place.getBoundingClientRect().top / this.#height) : 0;
    }

    draw() {
        if (!this.place.offsetParent) return;
        if (!this.#height) this.#measure();
        const height = this.#height;
        this.place.style.height = `${this.#items.length * height}px`;
        const top = this.#firstInSight() - AROUND;
        const first = this.#isPrinted ? 0 : Math.max(0, top);
        const last = this.#isPrinted ? this.#items.length : Math.min(this.#items.length, top + Math.ceil(innerHeight / height) + 2 * AROUND);
        const rows = new Map();
        for (let at = first; at < last; at++) rows.set(this.#items[at].uuid, this.#rowAt(at));
        this.#put(rows);
    }

    #rowAt(at) {
        const item = this.#items[at];
        const look = isTask(item) ? this.lookOf(item) : item.heading + item.count;
        let row = this.#rows.get(item.uuid);
        const isNew = row?.look !== look || (isTask(item) && row.item !== item);
        if (isNew) row = Object.assign(isTask(item) ? this.makeRow(item) : makeHeading(item), { item, look });
        if (isNew) row.dataset.uuid = item.uuid;
        this.#setPlace(row, at);
        return row;
    }

    // Says where a row stands. One that stays there, as most do when the list is scrolled, isn't written to.
    #setPlace(row, at) {
        const [top, count] = [at * this.#height, this.#items.length];
        if (row.at !== at || row.top !== top) {
            Object.assign(row, { at, top, ariaPosInSet: at + 1 });
            row.style.top = `${top}px`;
        }
        if (row.count !== count) Object.assign(row, { count, ariaSetSize: count });
    }

    // Puts the rows into the page in their order, touching none that stands right. A row that had the focus has it again when it was
    // made anew, and where its task is gone the next row.
    #put(rows) {
        const focused = this.place.contains(document.activeElement) ? document.activeElement : null;
        const from = /** @type {any} */ (focused?.closest(".row"))?.at;
        for (const [uuid, row] of this.#rows) {
            if (rows.get(uuid) !== row) row.remove();
        }
        let next = this.place.firstChild;
        for (const row of rows.values()) {
            if (row === next) next = next.nextSibling;
            else this.place.insertBefore(row, next);
        }
        this.#rows = rows;
        if (focused && !this.place.contains(document.activeElement)) {
            const isGone = !this.#items.some((task) => task.uuid === this.#current);
            const others = [...rows.values()].filter((other) => isTask(other.item));
            const row = isGone ? others.find((other) => other.at >= from) ?? others.at(-1) : rows.get(this.#current);
            (row?.querySelector(`.${focused.classList[0]}`) ?? row?.querySelector(".open"))?.focus({ preventScroll: true });
        }
        this.#setTabStop();
    }

    // One row takes the focus by Tab: the one that had it last, else the first in sight; arrows go from row to row.
    #setTabStop() {
        const opens = [...this.place.querySelectorAll(".open")];
        const stop = this.#rows.get(this.#current)?.querySelector(".open") ?? opens[0];
        for (const open of opens) {
            const wanted = open === stop ? "0" : "-1";
            if (open.getAttribute("tabindex") !== wanted) open.setAttribute("tabindex", wanted);
        }
    }

    #move(event) {
        const page = Math.max(1, Math.floor(innerHeight / this.#height) - 4);
        const steps = { ArrowDown: 1, ArrowUp: -1, j: 1, k: -1, PageDown: page, PageUp: -page, Home: -Infinity, End: Infinity };
        if (!(event.key in steps) || event.ctrlKey || event.metaKey || event.altKey) return;
        event.preventDefault();
        const { at } = event.target.closest(".row");
        const [step, last] = [steps[event.key], this.#items.length - 1];
        const wanted = Math.min(last, Math.max(0, at + step));
        this.#focusAt(this.#taskNear(wanted, Math.sign(step)) ?? this.#taskNear(wanted, -Math.sign(step)));
    }

    // The place of the task there, or of the next one in that direction.
    #taskNear(at, step) {
        let place = at;
        while (this.#items[place] && !isTask(this.#items[place])) place += step;
        return this.#items[place] && place;
    }

    #focusAt(at) {
        const top = this.place.getBoundingClientRect().top + at * this.#height;
        const edge = document.querySelector("header").offsetHeight;
        this.#current = this.#items[at].uuid;
        if (top < edge) scrollBy(0, top - edge);
        else if (top + this.#height > innerHeight) scrollBy(0, top + this.#height - innerHeight);
        this.draw();
        this.#rows.get(this.#current).querySelector(".open").focus({ preventScroll: true });
    }
}

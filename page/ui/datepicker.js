// Choosing a day, and perhaps a time: by words ("next friday 18:00"), by what is near, or in a month by arrows and Page Up and Down.
import { clockAt, dayNumber, dayText, daysAhead, monthsLater, readDay, readWhen, weekdayOf } from "../core/dates.js";
import { dayInWords, fromFields, seconds, toFields } from "../core/moments.js";
import { button, fill, make, span } from "./element.js";
import { icon } from "./icons.js";
import { openPopover, steerChoices } from "./popover.js";

const NAMES = "Sunday Monday Tuesday Wednesday Thursday Friday Saturday".split(" ");
const MONTHS = "January February March April May June July August September October November December".split(" ");
const NEAR = [
    ["Today", "day", "today"],
    ["Tomorrow", "next", "tomorrow"],
    ["This weekend", "weekend", "weekend"],
    ["Next week", "calendar", "next week"],
];

const titleOf = (day) => `${MONTHS[Number(dayText(day).slice(5, 7)) - 1]} ${dayText(day).slice(0, 4)}`;
const firstOfMonth = (day) => dayNumber(`${dayText(day).slice(0, 7)}-01`);
const isSameMonth = (one, other) => dayText(one).slice(0, 7) === dayText(other).slice(0, 7);
const shortName = (day) => `${NAMES[weekdayOf(day)].slice(0, 3)} ${Number(dayText(day).slice(8))}`;

// The day that an arrow or another key of the month leads to.
function steppedTo(day, { key, shiftKey }, weekStart) {
    const inWeek = (weekdayOf(day) - weekStart + 7) % 7;
    const steps = { ArrowLeft: -1, ArrowRight: 1, ArrowUp: -7, ArrowDown: 7, Home: -inWeek, End: 6 - inWeek };
    if (key in steps) return day + steps[key];
    const months = { PageUp: -1, PageDown: 1 }[key];
    return months ? monthsLater(day, months * (shiftKey ? 12 : 1)) : null;
}

class Picker {
    constructor({ second, label, isNeeded, faultIn, choose }) {
        this.label = label;
        this.isNeeded = isNeeded;
        this.faultIn = faultIn;
        this.give = choose;
        this.clock = clockAt();
        const { day, time } = toFields(second);
        this.given = day ? dayNumber(day) : null;
        this.at = this.given ?? this.clock.today;
        this.text = make("input", { "aria-label": `${label}: a day in words`, placeholder: "next friday 18:00", autocomplete: "off", spellcheck: "false", class: "picker-text" });
        this.said = span("about");
        this.time = make("input", { type: "time", value: time, "aria-label": `${label}: time, which may be left empty` });
        this.month = make("div", { class: "month", role: "grid", "aria-label": `${label}: days` });
        this.title = make("strong", { "aria-live": "polite" });
        this.#listen();
        this.#draw();
    }

    get children() {
        const turn = (count, name, picture) => make("button", { type: "button", class: "quiet", "aria-label": name, title: name, click: () => this.#turn(count) }, icon(picture));
        const near = make("div", { class: "near" }, NEAR.map(([name, picture, words]) => this.#nearButton(name, picture, words)), this.isNeeded ? "" : this.#button("No date", "none", "", () => this.choose(null)));
        steerChoices(near, "button");
        return [
            make("form", { class: "picker-line", novalidate: true, submit: (event) => this.#submit(event) }, this.text, this.said),
            near,
            make("div", { class: "line spread month-head" }, this.title, make("span", { class: "line" }, turn(-1, "Month before", "back"), turn(1, "Month after", "next"))),
            this.month,
            make("label", { class: "line picker-time" }, icon("clock"), span("", "Time"), this.time, button("Set", () => this.#chooseDay(this.at), { class: "quiet" })),
        ];
    }

    #button(name, picture, about, act) {
        return make("button", { type: "button", click: act }, icon(picture), span("choice", name), span("about", about));
    }

    #nearButton(name, picture, words) {
        const [{ day }] = readDay(words.split(" "), 0, this.clock);
        return this.#button(name, picture, shortName(day), () => this.#chooseDay(day));
    }

    // Gives the moment, unless something is wrong with it.
    choose(moment) {
        const fault = moment ? this.faultIn(moment) : "";
        if (fault) this.said.textContent = fault;
        else this.give(moment);
    }

    #chooseDay(day) {
        this.choose(fromFields({ day: dayText(day), time: this.time.value }));
    }

    // What the words say: the longest that can be read, where that is all of them.
    #read() {
        const words = this.text.value.trim().toLowerCase().split(/\s+/).filter(Boolean);
        const when = readWhen(words, 0, this.clock, true).find(({ count }) => count === words.length);
        return when && fromFields({ day: dayText(when.day ?? this.at), time: when.time ?? this.time.value });
    }

    #submit(event) {
        event.preventDefault();
        const moment = this.#read();
        if (moment) this.choose(moment);
        else if (!this.text.value.trim()) this.#chooseDay(this.at);
        else this.said.textContent = "isn't a day: try friday, 15.12. or in 2 weeks";
    }

    #listen() {
        this.text.addEventListener("input", () => {
            const moment = this.#read();
            const second = moment ? seconds(moment) : undefined;
            this.said.textContent = moment ? `${dayInWords(second)}${toFields(second).time ? `, ${toFields(second).time}` : ""}` : "";
        });
        this.text.addEventListener("keydown", (event) => {
            if (event.key !== "ArrowDown") return;
            event.preventDefault();
            this.#focusDay();
        });
        this.month.addEventListener("keydown", (event) => {
            const day = steppedTo(this.at, event, this.clock.weekStart);
            if (day === null) return;
            event.preventDefault();
            event.stopPropagation();
            this.at = day;
            this.#draw();
            this.#focusDay();
        });
        this.time.addEventListener("keydown", (event) => {
            if (event.key !== "Enter") return;
            event.preventDefault();
            this.#chooseDay(this.at);
        });
    }

    #turn(count) {
        this.at = monthsLater(this.at, count);
        this.#draw();
    }

    #focusDay() {
        this.month.querySelector("[tabindex='0']").focus();
    }

    #cell(day) {
        const kinds = [isSameMonth(day, this.at) ? "" : "off", day === this.clock.today ? "now" : "", day === this.given ? "on" : ""].filter(Boolean).join(" ");
        const label = `${NAMES[weekdayOf(day)]}, ${Number(dayText(day).slice(8))} ${titleOf(day)}${day === this.clock.today ? ", today" : ""}`;
        const about = { type: "button", class: kinds, "aria-label": label, "aria-pressed": String(day === this.given), tabindex: day === this.at ? 0 : -1, click: () => this.#chooseDay(day) };
        return make("div", { role: "gridcell" }, make("button", about, String(Number(dayText(day).slice(8)))));
    }

    #draw() {
        const { weekStart } = this.clock;
        const first = firstOfMonth(this.at);
        const begin = first - ((weekdayOf(first) - weekStart + 7) % 7);
        const weeks = Math.ceil((daysAhead(first, 1, "mo") - begin) / 7);
        this.title.textContent = titleOf(this.at);
        const names = make("div", { role: "row" }, Array.from({ length: 7 }, (_, at) => make("div", { role: "columnheader", "aria-label": NAMES[(weekStart + at) % 7] }, NAMES[(weekStart + at) % 7][0])));
        fill(this.month, names, Array.from({ length: weeks }, (_, week) => make("div", { role: "row" }, Array.from({ length: 7 }, (__, at) => this.#cell(begin + 7 * week + at)))));
    }
}

// Opens it beside an element. `choose` hears of the moment's text, or null for no date; `isNeeded` says that there has to be one.
/** @param {HTMLElement} anchor @param {{second?: number, label?: string, isNeeded?: boolean, faultIn?: (moment: string) => string, backTo?: () => any, choose: (moment: string | null) => any}} settings */
export function openDatePicker(anchor, { second, label = "Due", isNeeded = false, faultIn = () => "", backTo, choose }) {
    const picker = new Picker({ second, label, isNeeded, faultIn, choose: (moment) => [own.close(), choose(moment)] });
    const own = openPopover(anchor, label, picker.children, { kind: "picker", ...(backTo && { backTo }) });
    return own;
}

// The fields of a task in a form, for a new task and for one that is changed.
import { fromFields, seconds, toFields } from "../core/moments.js";
import { listen } from "../core/news.js";
import { STEPS } from "../core/recurrence.js";
import { faultInDescription, faultInMoment, faultInTags, faultInText, faultsIn } from "../core/rules.js";
import { PRIORITIES } from "../core/task.js";
import { choices } from "../store/people.js";
import { check } from "../ui/check.js";
import { fill, make } from "../ui/element.js";
import { options } from "../ui/select.js";
import { drawPreview } from "./repeatpreview.js";

const MOMENTS = ["due", "wait", "scheduled", "until"];
let made = 0;

const labelled = (label, ...inputs) => make("label", { class: "field" }, make("span", {}, label), ...inputs);

function suggesting(input, texts) {
    made += 1;
    input.setAttribute("list", `suggestions-${made}`);
    return [input, make("datalist", { id: `suggestions-${made}` }, texts.map((value) => make("option", { value })))];
}

// The people who can have a task; where they come later they are filled in.
const drawAssignees = (select, name) => fill(select, options([["", "nobody"], ...choices([name].filter(Boolean))], name));
listen("people", () => document.querySelectorAll("select.people-choices").forEach((select) => drawAssignees(select, select.value)));

export const tagsIn = (text) => [...new Set(text.split(/[\s,]+/).filter(Boolean).map((tag) => tag.replace(/^@/, "")))].sort();

// A day and a time; the time may be left empty. A rule says what else is wrong with the moment.
export class MomentField {
    constructor(label, second = undefined, disabled = false, rule = (_moment) => "") {
        const { day, time } = toFields(second);
        this.day = make("input", { type: "date", value: day, min: "1970-01-01", max: "9999-12-31", disabled, "aria-label": `${label}: day` });
        this.time = make("input", { type: "time", value: time, disabled, "aria-label": `${label}: time, which may be left empty` });
        const both = make("div", { class: "moment" }, this.day, this.time);
        this.element = make("div", { class: "field" }, make("span", {}, label), both);
        check(this.day, (day) => faultInMoment(day, this.time.value, this.read()) || rule(this.read()), both);
        this.time.addEventListener("input", () => this.day.dispatchEvent(new Event("input")));
    }

    read() {
        return fromFields({ day: this.day.value, time: this.time.value });
    }
}

export class Fields {
    // What gives a due date from elsewhere, as the line of a new task.
    dueElsewhere = () => undefined;

    // For a task, or a new one where none is given. What never changes on a task is shown and can't be changed.
    constructor(board, task = undefined) {
        const isTemplate = task?.status === "recurring";
        const { projects = [], tags = [] } = board ?? {};
        this.description = task ? make("textarea", { rows: 3, required: true, dir: "auto" }, task.description) : null;
        const input = (value = "", settings = {}) => make("input", { value, autocomplete: "off", autocapitalize: "none", dir: "auto", ...settings });
        this.project = input(task?.project);
        this.tags = input(task?.tags.join(" "), { placeholder: "phone mail" });
        this.priority = make("select", {}, options([["", "none"], ...Object.entries(PRIORITIES)], task?.priority ?? ""));
        this.assignee = make("select", { class: "people-choices" });
        drawAssignees(this.assignee, task?.assignee ?? "");
        this.due = new MomentField("Due", task?.due, isTemplate);
        this.wait = new MomentField("Hide until", seconds(task?.told.wait));
        this.scheduled = new MomentField("Planned for", seconds(task?.told.scheduled));
        this.until = new MomentField("Until", seconds(task?.told.until));
        this.recur = input(task?.recur, { disabled: Boolean(task), placeholder: "weekly" });
        this.elements = [
            this.description ? labelled("Description", this.description) : "",
            labelled("Project", ...suggesting(this.project, projects)),
            labelled("Tags", ...suggesting(this.tags, tags)),
            labelled("Priority", this.priority),
            labelled("Assigned to", this.assignee),
            this.due.element,
            this.wait.element,
            this.scheduled.element,
            this.until.element,
            !task || isTemplate ? labelled("Repeat", ...suggesting(this.recur, STEPS)) : "",
            isTemplate ? make("p", { class: "preview about" }, "What you change holds for the tasks that come. Those that are there stay as they are.") : "",
            (this.preview = make("div", { class: "preview about", role: "status" })),
        ];
        this.#check();
        for (const input of [this.recur, this.due.day, this.due.time]) input.addEventListener("input", () => this.drawPreview());
        this.drawPreview();
    }

    // The due date here, or that from elsewhere, as the line of a new task.
    #dueText() {
        return this.due.read() ?? this.dueElsewhere();
    }

    // Shows what the repeat comes to; to be called where a due date from elsewhere changes.
    drawPreview() {
        drawPreview(this.preview, seconds(this.#dueText()), this.recur.value.trim());
    }

    // Each field holds what the server takes.
    #check() {
        if (this.description) check(this.description, (text) => faultInDescription(text.trim()));
        check(this.project, (text) => faultInText(text.trim()));
        check(this.tags, faultInTags);
        check(this.recur, (text) => faultsIn({ recur: text.trim(), due: this.#dueText() })[0]?.text ?? "");
    }

    // The elements that are typed into, by the names of what they hold.
    #inputs() {
        const { description, project, tags, priority, assignee, recur } = this;
        const moments = MOMENTS.flatMap((name) => [[`${name} day`, this[name].day], [`${name} time`, this[name].time]]);
        const inputs = { description, project, tags, priority, assignee, ...Object.fromEntries(moments), recur };
        return Object.entries(inputs).filter(([, input]) => input);
    }

    // What the fields hold as it was typed, for a draft, and the way back.
    typed() {
        return Object.fromEntries(this.#inputs().map(([name, input]) => [name, input.value]));
    }

    retype(typed) {
        for (const [name, input] of this.#inputs()) {
            if (input === this.assignee) drawAssignees(input, typed.assignee ?? "");
            else if (!input.disabled) input.value = typed[name] ?? "";
        }
        this.drawPreview();
    }

    // The members that the fields say; null for those that are empty.
    read() {
        const tags = tagsIn(this.tags.value);
        const said = { project: this.project.value.trim() || null, tags: tags.length ? tags : null, priority: this.priority.value || null, assignee: this.assignee.value || null };
        if (this.description) said.description = this.description.value.trim();
        const moments = Object.fromEntries(MOMENTS.map((name) => [name, this[name].read()]));
        return { ...said, ...moments, recur: this.recur.value.trim() || null };
    }
}

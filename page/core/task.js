// A task as the server tells it, and what of it is asked for often.
import { folded } from "./format.js";
import { dayOf, isTimed, seconds } from "./moments.js";

export const PRIORITIES = { H: "high", M: "medium", L: "low" };

// A task as the server tells it, and what of it is asked for often. Whatever else it has is looked up where it is shown.
export class Task {
    #searched;

    constructor(line) {
        const told = JSON.parse(line);
        const { uuid, description, status, project = "", priority = "", recur = "", parent = "", mask = "", annotations = [], depends = [], tags = [] } = told;
        this.line = line;
        this.told = told;
        this.uuid = uuid;
        this.description = description;
        this.status = status;
        this.project = project;
        this.priority = priority;
        this.recur = recur;
        this.parent = parent;
        this.mask = mask;
        this.depends = depends;
        this.tags = tags;
        this.notes = annotations;
        this.assignee = typeof told.assignee === "string" ? told.assignee : "";
        this.due = seconds(told.due);
        this.dueDay = this.due === undefined ? Infinity : dayOf(this.due);
        this.isTimed = this.due !== undefined && isTimed(this.due);
        this.entry = seconds(told.entry);
        this.isListed = status === "pending" || status === "waiting";
        this.isOpen = this.isListed || status === "recurring";
    }

    // The text that is searched, made once it is.
    get searched() {
        return (this.#searched ??= folded([this.description, this.project, ...this.tags, ...this.notes.map((note) => note.description)].join("\n")));
    }
}

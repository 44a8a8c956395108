// The tasks of a board, from its export: their orders, when they are due, and which are blocked.
import { breathe } from "./breathe.js";
import { sortedBy, sortedTexts, withWholes } from "./group.js";
import { momentOf, now, seconds, today } from "./moments.js";
import { laidOver } from "./overlay.js";
import { Task } from "./task.js";
import { rate } from "./urgency.js";

// How long the browser may be kept from drawing at once, in milliseconds.
const SLICE = 8;
// Up to so many changed tasks are put into the order by themselves.
const FEW = 20;
const byRank = (one, other) => other.rank - one.rank;

// What the text of a task that woke has, and has then.
const AWAKE = ['"status":"waiting"', '"status":"pending"'];

export class Board {
    tasks = [];
    ordered = [];
    byId = new Map();
    projects = [];
    tags = [];
    assignees = [];
    templates = [];
    instances = new Map();
    #sorted = new Map();
    #unseen;
    // The tasks as the server told them with the places of their uuids, and the changes that were laid over them.
    #told = [];
    #at = new Map();
    #laid = { told: null, ids: "", made: new Map() };

    // `unseen` gives the changes that what was asked for at a moment doesn't have yet.
    constructor(number, unseen) {
        this.number = number;
        this.#unseen = unseen;
    }

    // Takes an export that was asked for then. Gives whether anything is new.
    take(text, askedAt) {
        const lines = text.split("\n").filter((line) => line.startsWith("{"));
        return this.takeLines(lines.map((line) => (line.endsWith(",") ? line.slice(0, -1) : line)), askedAt);
    }

    // Takes all tasks, each as a line of JSON, in the order of their places.
    async takeLines(lines, askedAt) {
        this.askedAt = askedAt;
        const isOther = lines.length !== this.#told.length || lines.some((line, at) => line !== this.#told[at].line);
        if (isOther) await this.#read(lines);
        this.#wake();
        if (!this.#lay() && !isOther) return false;
        for (const part of [this.#link, this.#collect, this.rank]) {
            await breathe();
            part.call(this);
        }
        return true;
    }

    // Takes some tasks, each as its place and its line; those behind all others are new. Gives whether they are others than before.
    patch(lines) {
        const changed = lines.filter(([at, line]) => this.#told[at]?.line !== line);
        if (changed.length > 0) this.#put(changed);
        return this.relay();
    }

    // The lines of all tasks as they are told, by their places; and such a task by its uuid, with its place.
    lines() {
        return this.#told.map(({ line }) => line);
    }

    told() {
        return this.#told;
    }

    toldOf(uuid) {
        return this.#told[this.#at.get(uuid)];
    }

    placeOf(uuid) {
        return this.#at.get(uuid);
    }

    // Shows the changes that were made meanwhile, and the tasks that woke, at once. Gives whether there are any.
    relay() {
        const before = this.byId;
        this.#wake();
        if (!this.#lay()) return false;
        // Each changed task with what was shown of it before; nothing of a new one.
        const pairs = this.tasks.map((task) => [before.get(task.uuid), task]).filter(([old, task]) => old !== task);
        const isStill = before.size + pairs.filter(([old]) => !old).length === this.tasks.length;
        const isFew = isStill && pairs.length <= FEW;
        const listsStay = isFew && pairs.every(([old, task]) => this.#areListed(old, task));
        if (listsStay && !pairs.some(([old, task]) => this.#movesLinks(old, task))) this.#swap(pairs);
        else for (const part of listsStay ? [this.#link, this.rank] : [this.#link, this.#collect, this.rank]) part.call(this);
        return true;
    }

    #put(lines) {
        this.#told = [...this.#told];
        for (const [at, line] of lines) {
            this.#told[at] = new Task(line);
            this.#at.set(this.#told[at].uuid, at);
        }
    }

    // What waited until now is pending, as in the server's views, and in the mask of its template.
    #wake() {
        const moment = momentOf(now());
        const woken = this.#told.filter(({ status, told }) => status === "waiting" && told.wait <= moment);
        if (woken.length === 0) return;
        const lines = new Map(woken.map((task) => [this.#at.get(task.uuid), task.line.replace(...AWAKE)]));
        for (const { parent, told } of woken) {
            const at = this.#at.get(parent);
            if (at === undefined) continue;
            const line = lines.get(at) ?? this.#told[at].line;
            lines.set(at, line.replace(/"mask":"([^"]*)"/, (_, mask) => `"mask":"${mask.slice(0, told.imask)}-${mask.slice(told.imask + 1)}"`));
        }
        this.#put([...lines]);
    }

    // Whether a change touches no template and no instance, and no list of projects, tags and assignees.
    #areListed(old, task) {
        if (task.parent || task.recur) return false;
        const listed = (one) => JSON.stringify([one.project, one.assignee, one.tags]);
        if (old) return listed(old) === listed(task);
        const texts = [[task.project, this.projects], [task.assignee, this.assignees], ...task.tags.map((tag) => [tag, this.tags])];
        return texts.every(([text, known]) => !text || known.includes(text));
    }

    // Whether a change makes another task blocked or blocking, or one less.
    #movesLinks(old, task) {
        if (old?.isOpen === task.isOpen && old.depends.join() === task.depends.join()) return false;
        return [...(old?.depends ?? []), ...task.depends].length > 0 || this.behind(task).length > 0;
    }

    // Puts changed tasks at the places of what was shown of them, which are ranked alike, and new ones behind all of their rank.
    #swap(pairs) {
        const [moment, day] = [now(), today()];
        for (const [old, task] of pairs) {
            const { isBlocked = false, isBlocking = false } = old ?? {};
            for (const one of [task, task.before]) if (one) Object.assign(one, { isBlocked, isBlocking });
            rate(task, moment, day);
            this.byId.set(task.uuid, task);
        }
        const swapped = new Map(pairs);
        const added = pairs.filter(([old]) => !old).map(([, task]) => task);
        this.ordered = [...this.ordered.map((task) => swapped.get(task) ?? task), ...added].sort(byRank);
        this.#sorted.clear();
    }

    // Lays the changes that the server hasn't told of over its tasks. Gives whether they are others than before.
    #lay() {
        const changes = this.#unseen(this.askedAt);
        const ids = changes.map(({ id }) => id).join();
        if (this.#laid.told === this.#told && this.#laid.ids === ids) return false;
        const { shown, made } = laidOver(this.#told, this.#at, changes, this.#laid.made);
        this.#laid = { told: this.#told, ids, made };
        this.tasks = changes.length > 0 ? shown : this.#told;
        return true;
    }

    // Reads the lines in slices; those that are known aren't read again.
    async #read(lines) {
        const known = new Map(this.#told.map((task) => [task.line, task]));
        const tasks = [];
        let begun = performance.now();
        for (const line of lines) {
            tasks.push(known.get(line) ?? new Task(line));
            if (performance.now() - begun <= SLICE) continue;
            await breathe();
            begun = performance.now();
        }
        this.#told = tasks;
        this.#at = new Map(this.#told.map((task, at) => [task.uuid, at]));
    }

    // Which tasks are blocked, and which are blocking.
    #link() {
        this.byId = new Map(this.tasks.map((task) => [task.uuid, task]));
        const held = new Set();
        for (const task of this.tasks) {
            task.isBlocked = false;
            for (const id of task.isOpen ? task.depends : []) {
                if (!this.byId.get(id)?.isOpen) continue;
                task.isBlocked = true;
                held.add(id);
            }
        }
        for (const task of this.tasks) task.isBlocking = task.isOpen && held.has(task.uuid);
        for (const { before, isBlocked, isBlocking } of this.tasks) if (before) Object.assign(before, { isBlocked, isBlocking });
    }

    // Which templates and instances, projects and tags there are.
    #collect() {
        this.templates = this.tasks.filter((task) => task.status === "recurring");
        this.instances = new Map(this.tasks.filter((task) => task.parent).map((task) => [`${task.parent} ${Number(task.told.imask)}`, task]));
        this.projects = sortedTexts([...new Set(this.tasks.map((task) => task.project))].flatMap(withWholes));
        this.assignees = sortedTexts(this.tasks.map((task) => task.assignee));
        this.tags = sortedTexts(this.tasks.flatMap((task) => task.tags));
    }

    // When the next instance of a template is due that isn't made yet: it is made once the last one is due.
    dueOfNext(template) {
        if (seconds(template.told.until) < now()) return Infinity;
        return template.mask === "" ? template.due : this.instances.get(`${template.uuid} ${template.mask.length - 1}`)?.due ?? Infinity;
    }

    // The second from which on the server shows these tasks otherwise, though nobody changes them: a wait ends, or a repeat comes due.
    nextChange() {
        const ends = this.tasks.filter(({ status }) => status === "waiting").map(({ told }) => seconds(told.wait) ?? Infinity);
        return Math.min(...ends, ...this.templates.map((template) => this.dueOfNext(template)));
    }

    // Says when the tasks are due and orders them, as of now: open ones by falling urgency and then place, as the listing has them; then the
    // others, the last that ended first. What is equal keeps its place.
    rank() {
        const [moment, day] = [now(), today()];
        for (const task of this.tasks) rate(task, moment, day);
        this.ordered = [...this.tasks].sort(byRank);
        this.#sorted.clear();
    }

    // The tasks in the order of a word; closed ones last where that is urgency.
    sorted(word) {
        if (!this.#sorted.has(word)) this.#sorted.set(word, sortedBy(word, this.ordered));
        return this.#sorted.get(word);
    }

    // The tasks that wait for one.
    behind(task) {
        return this.tasks.filter((other) => other.depends.includes(task.uuid));
    }
}

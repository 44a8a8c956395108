// What a form of few fields keeps as a draft.
import { listen } from "../core/news.js";
import { keepDraft, readDraft, whenTypedElsewhere } from "../store/drafts.js";
import { state } from "../store/store.js";
import { find } from "../ui/element.js";

const OF_SERVER = 0;
const valueOf = (id) => (find(id).type === "checkbox" ? find(id).checked : find(id).value);
const readAll = (ids) => Object.fromEntries(ids.map((id) => [id, valueOf(id)]));
const setValue = (id, value) => (find(id)[typeof value === "boolean" ? "checked" : "value"] = value);

// The words of a form of few fields, which stay as a draft on this device until they are sent or taken back, with what is chosen beside them. A
// key is never among them.
export class FormDraft {
    #shown = "";

    // `words` are the fields that are typed into, and `choices` the others, by their ids. What a form of a board says stands on that board alone.
    // `usual` gives what the words say where nobody has typed.
    constructor(kind, { form, words, choices = [], isOfServer = false, usual = () => "" }) {
        this.kind = kind;
        this.form = form;
        this.words = words;
        this.choices = choices;
        this.isOfServer = isOfServer;
        this.usual = usual;
        for (const id of [...words, ...choices]) find(id).addEventListener("input", () => this.#keep());
        whenTypedElsewhere(kind, (draft) => this.#follow(draft), undefined, () => this.#board());
        listen("signed", () => this.show());
        listen("route", () => this.#shown === this.#place() || this.show());
        listen("draft", () => this.show());
    }

    #board() {
        return this.isOfServer ? OF_SERVER : state.number;
    }

    #place() {
        return `${state.who?.name} ${this.#board()}`;
    }

    #read() {
        return { typed: readAll(this.words), chosen: readAll(this.choices) };
    }

    #keep() {
        const isTyped = this.words.some((id) => ![this.usual(), ""].includes(valueOf(id)));
        keepDraft(this.kind, "", isTyped ? this.#read() : null, this.#board());
    }

    // What another tab sent or took back leaves this form empty too.
    #follow(draft) {
        if (!draft) find(this.form).reset();
        this.show();
    }

    show() {
        if (!state.who) return;
        this.#shown = this.#place();
        const draft = readDraft(this.kind, "", this.#board());
        for (const id of this.words) setValue(id, draft?.typed[id] ?? this.usual());
        this.showChoices();
    }

    // Shows what was chosen, once there is something to choose from.
    showChoices() {
        for (const [id, value] of Object.entries(readDraft(this.kind, "", this.#board())?.chosen ?? {})) setValue(id, value);
    }

    drop() {
        keepDraft(this.kind, "", null, this.#board());
    }

    // Sends what the form says, which is no draft any more; where the device can't keep the change, it is one again.
    async send(work) {
        const [board, draft] = [this.#board(), this.#read()];
        this.drop();
        await work().catch((fault) => {
            keepDraft(this.kind, "", draft, board);
            this.show();
            throw fault;
        });
    }
}

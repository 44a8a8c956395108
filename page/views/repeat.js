// The view of a board's templates, each with the row of its instances.
import { changes } from "../core/calls.js";
import { inFull, now, seconds } from "../core/moments.js";
import { listen } from "../core/news.js";
import { faultInAhead } from "../core/rules.js";
import { keep } from "../sync/outbox.js";
import { go } from "../store/route.js";
import { here, state } from "../store/store.js";
import { check, isWhole, whenSent } from "../ui/check.js";
import { button, fill, find, make, said } from "../ui/element.js";
import { tellFault } from "./faults.js";

export const MARKUP = `
<section id="repeating-view" aria-label="Repeating tasks" hidden>
    <div class="line spread">
        <p class="key about"><span><i class="cell pending"></i> open</span><span><i class="cell completed"></i> completed</span><span><i class="cell waiting"></i> waiting</span><span><i class="cell deleted"></i> deleted</span></p>
        <button id="sweep" type="button">Make what is due</button>
    </div>
    <form id="ahead-form" class="line" hidden><label for="ahead">How many of each stand here before they are due</label><input id="ahead" type="number" placeholder="1 to 12" required><button>Set</button></form>
    <p id="no-templates" class="empty" hidden></p>
    <ul id="templates" class="templates"></ul>
</section>
`;

const MARKS = { "-": ["pending", "open"], "+": ["completed", "completed"], X: ["deleted", "deleted"], W: ["waiting", "waiting"] };
const MOST_CELLS = 60;
// How long pages wait at most before one of them sweeps a board on which a repeat came due, in milliseconds; and for which boards and dues this
// one did.
const PATIENCE = 20000;
const swept = new Set();
// The board that was shown last.
let shown = 0;

function cell(template, number) {
    const [kind, word] = MARKS[template.mask[number]] ?? ["deleted", "gone"];
    const instance = state.board.instances.get(`${template.uuid} ${number}`);
    const label = `${number + 1}: ${word}${instance?.due === undefined ? "" : `, due ${inFull(instance.due)}`}`;
    const settings = { class: `cell ${kind}`, title: label, "aria-label": label };
    return make("li", {}, instance ? button("", () => go(state.number, "repeating", instance.uuid), settings) : make("span", { ...settings, role: "img" }));
}

function card(template) {
    const count = template.mask.length;
    const first = Math.max(0, count - MOST_CELLS);
    const until = template.told.until ? `, until ${inFull(seconds(template.told.until))}` : "";
    const cells = Array.from({ length: count - first }, (_, at) => cell(template, first + at));
    const title = button(said(template.description, 200), () => go(state.number, "repeating", template.uuid), { class: "link title" });
    const about = make("p", { class: "about" }, said(template.recur, 40), ` from ${inFull(template.due)}${until}`);
    const earlier = first > 0 ? make("p", { class: "about" }, `${first} earlier ones aren't shown.`) : "";
    return make("li", { class: "template" }, title, about, make("ol", { class: "mask", "aria-label": "Its tasks so far" }, cells), earlier);
}

// A template always has an instance that isn't due yet; where the last one is, time has passed since the board was last changed.
const dueNow = () => state.board.templates.map((template) => state.board.dueOfNext(template)).filter((due) => due <= now());

const sweep = () => keep(changes.sweep(state.number)).catch(tellFault);

// A board that lags is swept once by each page that begins to show it, and once more where another repeat comes due: then each page waits a
// little, so that one of them does it for all. Every accepted change sweeps it too.
function sweepIfBehind() {
    const isFirst = shown !== state.number;
    shown = state.number;
    const dues = ["owner", "member"].includes(here()?.role) ? dueNow() : [];
    const behind = `${state.number} ${Math.max(...dues)}`;
    if (dues.length === 0 || swept.has(behind)) return;
    swept.add(behind);
    const isStill = () => state.board?.number === shown && `${shown} ${Math.max(...dueNow())}` === behind;
    setTimeout(() => isStill() && sweep(), isFirst ? 0 : PATIENCE * Math.random());
}

function draw() {
    if (state.view !== "repeating" || state.board?.number !== state.number) return;
    const templates = state.board.templates;
    find("ahead-form").hidden = here()?.role !== "owner";
    find("no-templates").hidden = templates.length > 0;
    find("no-templates").textContent = `Nothing repeats on this board.${here()?.role === "reader" ? "" : " Add a task with a due date and a repeat, under Details."}`;
    fill(find("templates"), templates.map(card));
}

export function beginRepeat() {
    find("sweep").addEventListener("click", sweep);
    check(find("ahead"), faultInAhead);
    whenSent("ahead-form", (form) => {
        if (!isWhole(form)) return;
        keep(changes.ahead(state.number, Number(find("ahead").value))).catch(tellFault);
        form.reset();
    });
    listen("board", (isNew) => {
        sweepIfBehind();
        if (isNew) draw();
    });
    listen("route", draw);
}

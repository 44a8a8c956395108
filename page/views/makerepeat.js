// Where repeats begin and end. A task that is there is made to repeat: the server gives no task a step later on, so a repeating task takes its
// place, and it is deleted. And what repeats is deleted, which asks what becomes of its tasks that are open.
import { changes } from "../core/calls.js";
import { counted } from "../core/format.js";
import { listenAll } from "../core/news.js";
import { STEPS } from "../core/recurrence.js";
import { faultInPair, faultInStep } from "../core/rules.js";
import { keep, keepEach } from "../sync/outbox.js";
import { go } from "../store/route.js";
import { here, state } from "../store/store.js";
import { check, isWhole, whenSent } from "../ui/check.js";
import { button, fill, find, make, said } from "../ui/element.js";
import { toast } from "../ui/toast.js";
import { tellFault } from "./faults.js";

export const MARKUP = `
<details id="repeat-part" hidden><summary>Make it repeat</summary>
    <form id="repeat-form" class="line"><input id="repeat-step" list="repeat-steps" aria-label="How often it repeats" placeholder="weekly" autocomplete="off" autocapitalize="none" required><datalist id="repeat-steps"></datalist><button>Make it repeat</button></form>
    <p class="about">A repeating task with the same notes and links takes its place, and this one is deleted. What waits for it waits for the first of the new tasks.</p>
</details>
`;

export const DIALOG = `<dialog id="end-dialog" aria-label="Delete what repeats"><h2>Delete, and make no more</h2><div id="end-parts" class="parts"></div></dialog>`;

// What is of the one task and not of those that follow it.
const ITS_OWN = ["uuid", "status", "entry", "modified", "start", "end"];

const task = () => (state.board?.number === state.number ? state.board.byId.get(state.chosen) : undefined);
let drawn = "";

function draw() {
    const one = task();
    const isFit = one?.isListed && !one.parent && here()?.role !== "reader";
    if (find("repeat-part").hidden === Boolean(isFit)) find("repeat-part").hidden = !isFit;
    if (drawn === state.chosen) return;
    drawn = state.chosen;
    find("repeat-part").open = false;
    find("repeat-form").reset();
}

function faultInRepeat(text) {
    const step = text.trim();
    return faultInStep(step) || faultInPair(step, task()?.told.due);
}

// Where the repeating task is refused, the other one stays. What is shown is the repeating task: a way back from the deletion alone would
// leave both.
async function repeat(form) {
    const one = task();
    if (!one || !isWhole(form)) return;
    const kept = Object.fromEntries(Object.entries(one.told).filter(([name]) => !ITS_OWN.includes(name)));
    const made = changes.add(state.number, { ...kept, recur: find("repeat-step").value.trim() });
    await keep({ ...made, follows: { uuid: one.uuid, description: one.description } });
    go(made.board, "repeating", made.task);
}

// Ends what repeats and its open tasks, with one way back from all of it.
async function endAll(number, template, open, action) {
    const alike = (task, word) => ({ ...changes.act(number, task, word), isOneOfMany: true });
    await keepEach([alike(template, "delete"), ...open.map((task) => alike(task, action))]);
    const back = () => keepEach([template, ...open].map((task) => alike(task, "reopen"))).catch(tellFault);
    const others = open.length === 1 ? "its open task" : `its ${counted(open.length)} open tasks`;
    toast(make("span", {}, "Ended ", make("q", {}, said(template.description, 120)), ` and ${others}.`), button("Undo", back));
}

// Deletes what repeats.
export function endRepeat(template) {
    const { number } = state;
    const open = state.board.tasks.filter((task) => task.parent === template.uuid && task.isListed);
    const end = (action) => () => {
        find("end-dialog").close();
        const ended = action ? endAll(number, template, open, action) : keep(changes.act(number, template, "delete"));
        ended.catch(tellFault);
    };
    if (open.length === 0) return end("")();
    const many = open.length === 1 ? "1 open task. It stays" : `${counted(open.length)} open tasks. They stay`;
    const [leave, complete, drop] = open.length === 1 ? ["Leave it open", "Complete it", "Delete it"] : ["Leave them open", "Complete them", "Delete them"];
    fill(
        find("end-parts"),
        make("p", {}, make("q", {}, said(template.description, 120)), ` makes no more tasks. It has ${many} unless you choose otherwise.`),
        make("div", { class: "line" }, button(leave, end(""), { class: "primary" }), button(complete, end("done")), button(drop, end("delete"), { class: "danger" }), button("Cancel", () => find("end-dialog").close(), { class: "quiet" })),
    );
    find("end-dialog").showModal();
}

export function beginMakeRepeat() {
    fill(find("repeat-steps"), STEPS.map((value) => make("option", { value })));
    check(find("repeat-step"), faultInRepeat);
    whenSent("repeat-form", (form) => repeat(form).catch(tellFault));
    listenAll(["board", "route"], draw);
}

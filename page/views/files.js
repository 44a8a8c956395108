// The view of import and export.
import { changes } from "../core/calls.js";
import { counted } from "../core/format.js";
import { listen } from "../core/news.js";
import { plan } from "../import/plan.js";
import { look } from "../sync/http.js";
import { keep } from "../sync/outbox.js";
import { here, state } from "../store/store.js";
import { whenSent } from "../ui/check.js";
import { download, fill, find, make, said, tasksTold } from "../ui/element.js";
import { tellFault, tellRefusal } from "./faults.js";

export const MARKUP = `
<section id="files-view" aria-label="Import and export" hidden>
    <form id="import-form" class="sheet">
        <h2>Import</h2><p class="about">A Taskwarrior export (made by “task export”) or a todo.txt file. Tasks that are on the board already stay as they are.</p>
        <div class="line"><input id="import-file" type="file" accept=".json,.txt,application/json,text/plain" aria-label="File to import"><button id="import-send" class="primary" disabled>Import</button></div>
        <p id="import-told" role="status"></p><div id="import-details"></div>
    </form>
    <div class="sheet">
        <h2>Export</h2><p class="about">The whole board for Taskwarrior, with deleted tasks and templates; or its pending, waiting and completed tasks as lines of todo.txt. Neither has the board's people.</p><p id="todo-lost" class="about"></p>
        <div class="line"><button id="save-export" type="button">Save the export</button><button id="save-todo" type="button">Save todo.txt</button></div>
    </div>
</section>
`;

// What lines of todo.txt have no place for.
const DAY = 86400;
/** @type {[(task: any) => any, string, string][]} */
const WITHOUT_LINE = [
    [(task) => task.status === "deleted", "deleted task", "deleted tasks"],
    [(task) => task.status === "recurring", "repeating task", "repeating tasks"],
];
/** @type {[(task: any) => any, string, string][]} */
const LEFT_OUT = [
    [(task) => task.notes.length > 0, "task's notes", "tasks' notes"],
    [(task) => task.depends.length > 0, "task's links", "tasks' links"],
    [(task) => task.due % DAY > 0, "due date's time", "due dates' times"],
    [(task) => task.told.wait || task.told.scheduled || task.told.until, "task's other dates (wait, scheduled, until)", "tasks' other dates (wait, scheduled, until)"],
    [(task) => task.told.start, "start of work", "starts of work"],
    [(task) => task.assignee, "assignee", "assignees"],
    [(task) => task.parent, "place among a repeating task's instances", "places among repeating tasks' instances"],
];

const sums = (tasks, kinds) => kinds.map(([isLost, one, many]) => [tasks.filter(isLost).length, one, many]);

// Each with how many tasks have it.
function lostIn(tasks) {
    const withLine = tasks.filter((task) => !WITHOUT_LINE.some(([isWithout]) => isWithout(task)));
    const counts = [...sums(tasks, WITHOUT_LINE), ...sums(withLine, LEFT_OUT)].filter(([count]) => count > 0);
    return counts.map(([count, one, many]) => `${counted(count)} ${count === 1 ? one : many}`);
}

const KINDS = { import: "a Taskwarrior export", "import-todo": "todo.txt" };
const MOST_SHOWN = 200;
// What stands in place of the letters of a file in another encoding.
const UNREAD = "\uFFFD";
const LOST = " Some of its letters can't be read, since it isn't in UTF-8: they would be lost. Save the file in UTF-8, and choose it again.";
let chosen = null;

const plural = (count, word) => `${counted(count)} ${word}${count === 1 ? "" : "s"}`;

function aboutPlan({ count, parts, path, faults }) {
    if (count + faults.length === 0) return " has no tasks.";
    const taken = count > 0 ? `, and goes in ${plural(parts.length, "part")}` : ", of which none can be taken";
    return ` is ${KINDS[path]} of ${plural(count + faults.length, "task")}${faults.length > 0 && count > 0 ? "" : taken}.`;
}

function drawPlan() {
    const { name, count, faults, changes: spelled, losses } = chosen ?? { count: 0, faults: [], changes: [], losses: [] };
    fill(find("import-told"), chosen ? [said(name, 80), aboutPlan(chosen), chosen.isUnread ? make("span", { class: "fault" }, LOST) : ""] : []);
    fill(
        find("import-details"),
        tasksTold(`${plural(faults.length, "task")} can't be taken`, faults, true),
        tasksTold(`${plural(spelled.length, "task")} will be spelled as this server reads them`, spelled),
        tasksTold(`${plural(losses.length, "task")} will lose something`, losses),
    );
    find("import-send").textContent = faults.length > 0 && count > 0 ? `Import the other ${counted(count)}` : "Import";
    find("import-send").disabled = count === 0;
}

async function choose() {
    const file = find("import-file").files[0];
    find("import-send").disabled = true;
    const text = file ? await file.text() : "";
    const read = file ? { name: file.name, isUnread: text.includes(UNREAD), ...(await plan(text, state.board)) } : null;
    if (file !== find("import-file").files[0]) return;
    chosen = read;
    drawPlan();
}

// What the tasks lost is told with what the import did.
async function send(form) {
    const { path, parts, name, losses } = chosen;
    const called = (at) => (parts.length === 1 ? name : `${name}, part ${at + 1} of ${parts.length}`);
    form.reset();
    choose();
    const lost = losses.slice(0, MOST_SHOWN);
    await keep(...parts.map((part, at) => ({ ...changes.part(state.number, path, part, called(at)), file: name, parts: parts.length, losses: at === 0 ? lost : [] })));
}

async function save(view, ending, type) {
    const text = await look(state.who, `/boards/${state.number}/${view}`);
    const name = here().title.replace(/[^\p{L}\p{N}_-]+/gu, "-").slice(0, 60);
    download(`${name}-${new Date().toISOString().slice(0, 10)}.${ending}`, text, type);
}

// What the files won't bring back when they are imported again.
function drawLost() {
    if (state.view !== "files" || state.board?.number !== state.number) return;
    const lost = lostIn(state.board.tasks);
    find("todo-lost").textContent = lost.length > 0 ? `Lines of todo.txt won't bring back: ${lost.join("; ")}.` : "Lines of todo.txt bring back all of this board's tasks.";
}

export function beginFiles() {
    find("import-file").addEventListener("change", () => choose().catch(tellFault));
    whenSent("import-form", (form) => send(form).catch(tellFault));
    find("save-export").addEventListener("click", () => save("export", "json", "application/json").catch(tellRefusal));
    find("save-todo").addEventListener("click", () => save("todo", "txt", "text/plain").catch(tellRefusal));
    listen("board", drawLost);
    listen("route", () => {
        find("import-form").reset();
        choose();
        drawLost();
    });
}

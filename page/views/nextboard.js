// Going on with a new board when one is nearly full: completed tasks count for ever. The new board has the same people with the same roles, and
// the open tasks and templates with their masks; the old one stays as it is.
//
// The rest can be made once the new board has its number. Until then a note on this device says what is to be done, so that it is done after a
// reload too. Done twice it changes nothing: roles are set again, and tasks are known already.
import { changes } from "../core/calls.js";
import { counted } from "../core/format.js";
import { momentOf, now } from "../core/moments.js";
import { listenAll } from "../core/news.js";
import { faultInTitle, MOST_AHEAD, MOST_TASKS } from "../core/rules.js";
import { cutTasks, objectTexts } from "../import/cut.js";
import { look } from "../sync/http.js";
import { keep, keepEach, settled, waiting } from "../sync/outbox.js";
import { go } from "../store/route.js";
import { here, state } from "../store/store.js";
import { check, isWhole, whenSent } from "../ui/check.js";
import { find } from "../ui/element.js";
import { tellFault, tellRefusal } from "./faults.js";

export const MARKUP = `<p id="full" class="notice line spread" hidden><span id="full-told"></span> <button id="go-on" type="button">Go on with a new board</button></p>`;

export const DIALOG = `
<dialog id="renew-dialog" aria-labelledby="renew-heading">
    <form id="renew-form">
        <h2 id="renew-heading">Go on with a new board</h2>
        <p id="renew-told" class="about"></p>
        <label class="field"><span>Title</span><input id="renew-title" dir="auto" autocomplete="off" required></label>
        <div class="line"><button class="primary">Make the board</button><button id="renew-cancel" type="button">Cancel</button></div>
    </form>
</dialog>
`;

const NEARLY_FULL = 9000;
// How long a note counts whose board neither waits nor came, in milliseconds: its person gave the change up.
const NOTED = 600000;
const noteName = () => `taskboard.renewal ${state.who.name}`;
const isTaken = (task) => ["pending", "waiting", "recurring"].includes(task.status);
let isBusy = false;

const readNote = () => JSON.parse(localStorage.getItem(noteName()));

// A title with the next number.
function nextTitle(title) {
    const [, front, number] = /^(.*?)(?: (\d+))?$/s.exec(title);
    return `${front} ${Number(number ?? 1) + 1}`;
}

function draw() {
    const { board } = state;
    const isShown = board?.number === state.number && board.tasks.length >= NEARLY_FULL;
    const isOwner = here()?.role === "owner";
    find("full").hidden = !isShown;
    if (!isShown) return;
    const about = `This board has ${counted(board.tasks.length)} of the ${counted(MOST_TASKS)} tasks that it takes; completed and deleted ones count too.`;
    find("full-told").textContent = isOwner ? about : `${about} Ask an owner to go on with a new board.`;
    find("go-on").hidden = !isOwner;
}

function ask() {
    const tasks = state.board.tasks.filter(isTaken);
    find("renew-title").value = nextTitle(here().title);
    find("renew-told").textContent = `The new board gets the same people with the same roles, and the ${counted(tasks.length)} open and repeating tasks of this one, which stays as it is. It looks as far ahead as instances stand here now.`;
    find("renew-dialog").showModal();
}

// Makes the board; what is to follow is noted first.
async function begin(form) {
    if (!isWhole(form)) return;
    const title = find("renew-title").value.trim();
    const note = { title, at: Date.now(), from: state.number, known: state.boards.map(({ board }) => board) };
    find("renew-dialog").close();
    localStorage.setItem(noteName(), JSON.stringify(note));
    await keep(changes.board(title));
}

const isOf = (title) => (change) => change.path === "/boards" && change.subject === title;

// Goes on where the new board is there; where it was refused nothing is to follow.
async function goOn() {
    const note = state.who && readNote();
    if (!note || isBusy || waiting().some(isOf(note.title))) return;
    if (settled().some(isOf(note.title))) return localStorage.removeItem(noteName());
    const made = state.boards.find(({ board, title, role }) => title === note.title && role === "owner" && !note.known.includes(board));
    if (!made && Date.now() - note.at > NOTED) localStorage.removeItem(noteName());
    if (!made) return;
    isBusy = true;
    try {
        await fill(made.board, note);
        localStorage.removeItem(noteName());
        go(made.board);
    } finally {
        isBusy = false;
    }
}

// How far a board looks ahead, which no view tells: as many instances of a template as stand there ahead of their dates.
function aheadOf(tasks) {
    const present = momentOf(now());
    const later = Object.groupBy(tasks.filter(({ parent, due }) => parent && due > present), ({ parent }) => parent);
    return Math.min(MOST_AHEAD, Math.max(1, ...Object.values(later).map((instances) => instances.length)));
}

async function fill(number, { from, title }) {
    const { who } = state;
    const [crew, tasks] = await Promise.all(["people", "export"].map((view) => look(who, `/boards/${from}/${view}`)));
    const { people } = JSON.parse(crew);
    const parts = cutTasks(objectTexts(tasks).texts.filter((text) => isTaken(JSON.parse(text))));
    const called = (at) => (parts.length === 1 ? title : `${title}, part ${at + 1} of ${parts.length}`);
    await keepEach(people.filter(({ name }) => name !== who.name).map(({ name, role }) => changes.role(number, name, role)));
    const ahead = aheadOf(JSON.parse(tasks));
    if (ahead > 1) await keep(changes.ahead(number, ahead));
    if (parts.length > 0) await keep(...parts.map((part, at) => ({ ...changes.part(number, "import", part, called(at)), file: title, parts: parts.length })));
}

export function beginNextBoard() {
    check(find("renew-title"), (text) => faultInTitle(text.trim()));
    find("go-on").addEventListener("click", ask);
    find("renew-cancel").addEventListener("click", () => find("renew-dialog").close());
    whenSent("renew-form", (form) => begin(form).catch(tellFault));
    listenAll(["board", "route"], draw);
    listenAll(["boards", "kept"], () => goOn().catch(tellRefusal));
}

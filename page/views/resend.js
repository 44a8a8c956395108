// Opens the form of a change that was refused, or that asks before it is sent, as it was filled: so it can be mended and sent under a new
// identifier.
import { changes, isOwnKey } from "../core/calls.js";
import { announce, listen } from "../core/news.js";
import { bodyOf, forget, keep } from "../sync/outbox.js";
import { keepDraft, readDraft } from "../store/drafts.js";
import { go } from "../store/route.js";
import { state } from "../store/store.js";
import { find } from "../ui/element.js";

// What has the focus in a form without a task of its own, or beside one; the form that changes a task takes it itself.
const FIELDS = { add: "add-line", note: "note-text" };
// The drafts of forms that are of no board stand under this number.
const OF_SERVER = 0;
const REPLACES = "Something else stands in this form and isn't sent. Replace it?";

// Puts the text where its form looks for a draft. Gives whether it stands there.
function putDraft(kind, task, content, board) {
    const old = readDraft(kind, task, board);
    if (old && JSON.stringify(old) !== JSON.stringify(content) && !confirm(REPLACES)) return false;
    keepDraft(kind, task, content, board);
    return true;
}

// Puts it there, and shows that form.
function openDraft({ board, view, task = "", kind, content }) {
    if (!putDraft(kind, task, content, board)) return false;
    const before = location.hash;
    wanted = FIELDS[kind] ?? "";
    go(board, view, task);
    announce("draft");
    if (location.hash === before) focusWanted();
    return true;
}

// The field that has the focus once the address is read, which shows its form.
let wanted = "";
function focusWanted() {
    const field = wanted;
    wanted = "";
    setTimeout(() => field && find(field)?.focus());
}
listen("route", focusWanted);

const FORMS = {
    tasks: ({ board, form }) => openDraft({ board, view: "tasks", kind: "add", content: form }),
    modify: ({ board, task, form }) => openDraft({ board, view: "tasks", kind: "edit", task, content: form }),
    annotate: ({ board, task, form }) => openDraft({ board, view: "tasks", kind: "note", task, content: form.description }),
    boards: ({ form }) => {
        if (!putDraft("board", "", { typed: { "board-title": form.title }, chosen: {} }, OF_SERVER)) return false;
        announce("draft");
        find("board-dialog").showModal();
        return true;
    },
    people: ({ form, subject }, { key = "" }) => {
        const isOpen = openPeople("person", { "person-name": subject }, { "person-role": form.role, "person-here": form.joins });
        if (isOpen) find("person-key").value = key;
        return isOpen;
    },
    roles: ({ board, form }) => openPeople("invite", { "invite-name": form.member }, { "invite-role": form.role }, board),
    key: (change) => (isOwnKey(change) ? openAccount() : openPeople("keys", { "keys-name": change.subject }, {})),
};

function openAccount() {
    find("account").click();
    return true;
}

function openPeople(kind, typed, chosen, board = OF_SERVER) {
    if (!putDraft(kind, "", { typed, chosen }, board)) return false;
    go(board || state.number, "people");
    announce("draft");
    return true;
}

const actionOf = (change) => change.path.split("/").at(-1);

// What of a change and those that were to follow it was typed into a form.
const withForm = ({ behind = [], ...change }) => [change, ...behind].find((one) => one.form);
const isOn = ({ board }) => board === 0 || state.boards.some((known) => known.board === board && known.role !== "reader");

// Whether something is left of an import of which a part was refused. A full board takes none of it.
const hasRest = ({ answer, body, behind }) => answer?.name !== "Full" && Boolean(body || behind?.length);

// The refusals of what may be taken later on, as it is: once somebody gives a role, reopens a task or takes a link off.
const PASSING = ["IdReused", "NoBoard", "NotAllowed", "WrongStatus", "NoPerson", "LastOwner", "Cycle"];

// Which way there is for a change: its form, for whoever may change the board still; the rest of an import; or sending it as it is where it has
// no form.
export function wayOf(change) {
    const one = withForm(change);
    if (one) return isOn(one) ? "form" : "none";
    if (change.reports) return isOn(change) && hasRest(change) ? "rest" : "none";
    return !change.answer || PASSING.includes(change.answer.name) ? "as it is" : "none";
}

// Sends what is left of an import: the part without the task that was refused, where that is known, and the parts after it.
export async function sendRest(change) {
    const parts = [change, ...change.behind].filter(({ body }) => body);
    await keep(...parts.map(({ board, path, body, subject, file, parts, losses }) => ({ ...changes.part(board, path.split("/").at(-1), body, subject), file, parts, losses })));
    await forget(change);
}

export async function openAgain(change) {
    const one = withForm(change);
    // (a key that is hidden under another one than that of now isn't known)
    const content = await bodyOf(one).then((text) => (text ? JSON.parse(text) : {}), () => ({}));
    const isOpen = FORMS[actionOf(one)](one, content);
    if (isOpen) await forget(change);
}

// The texts of a change, for whoever can't open its form: its members, a line each. Keys aren't shown.
export function textsOf(change) {
    const bodies = [change, ...change.behind].filter((one) => one.body && !one.isSecret).map((one) => JSON.parse(one.body));
    return bodies.flatMap((body) => Object.entries(body)).filter(([name, value]) => value !== null && name !== "uuid").map(([name, value]) => `${name}: ${value}`);
}

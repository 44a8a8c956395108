// What the page tells: whether all is saved, what isn't yet, what was refused and why, what an import did, and a way back.
import { changes, isOwnKey, reason } from "../core/calls.js";
import { counted, oneLine } from "../core/format.js";
import { ago } from "../core/moments.js";
import { listen, listenAll } from "../core/news.js";
import { forget, keep, sendAgain, sendAllTheSame, sendHidden, sendNow, settled, vainTries, waiting } from "../sync/outbox.js";
import { go } from "../store/route.js";
import { state } from "../store/store.js";
import { groupOf } from "../store/undo.js";
import { button, fill, fillNamed, find, make, said, span, tasksTold } from "../ui/element.js";
import { icon } from "../ui/icons.js";
import { endToast, toast } from "../ui/toast.js";
import { tellFault } from "./faults.js";
import { openAgain, sendRest, textsOf, wayOf } from "./resend.js";
import { takeBack } from "./undoing.js";

export const UNANSWERED = `
<section id="unanswered" class="sheet" aria-label="Changes that wait here" hidden>
    <h2>Not saved yet</h2><p id="unanswered-why"></p><ul id="unanswered-list" class="lines"></ul><div><button id="send-now" type="button">Send now</button></div>
</section>
`;

export const STATE = `<button id="state" type="button" class="state" aria-controls="unanswered">All saved</button>`;

export const NOTICES = `<ul id="notices" class="notices" aria-label="Messages" aria-live="polite"></ul>`;

const [LATE, MOST_SHOWN] = [400, 20];
const WAYS_BACK = { done: "Completed", delete: "Deleted" };
const DONE_BEFORE = { done: "completed", delete: "deleted", reopen: "reopened", start: "started", stop: "stopped" };
// Whether the server answers, and the task of which the toast offers a way back.
let [isThere, offered] = [true, ""];
// Whether that toast is still the one that is shown.
let isOffered = () => false;

const quoted = (text) => make("q", {}, said(text, 120));
const about = (change) => [`${change.verb} `, quoted(change.subject)];

const changesIn = (count) => `${counted(count)} ${count === 1 ? "change waits" : "changes wait"} here`;
const needsIn = (count) => `${counted(count)} ${count === 1 ? "thing needs" : "things need"} you`;
// What waits for a decision of its person.
const needy = () => settled().filter(({ state }) => state === "asks" || state === "refused");

// Whether all is saved, in words and as a picture.
function saveState(all, isLate) {
    const needs = needy().length;
    if (!isThere) return ["offline", all.length > 0 ? `Offline · ${changesIn(all.length)}` : "Offline", "busy"];
    if (isLate) return ["sync", `Saving · ${changesIn(all.length)}`, "busy"];
    if (needs > 0) return ["alert", needsIn(needs), "busy"];
    return all.length > 0 ? ["sync", "Saving", "good"] : ["check", "All saved", "good"];
}

function drawState() {
    const all = waiting();
    const isLate = all.length > 0 && (!isThere || all[0].made < Date.now() - LATE);
    if (all.length > 0 && !isLate) setTimeout(drawState, LATE);
    if (all.length === 0) find("unanswered").hidden = true;
    const [picture, words, kind] = saveState(all, isLate);
    if (find("state").dataset.picture !== picture || find("state").textContent !== words) fill(find("state"), icon(picture, "small"), words);
    find("state").dataset.picture = picture;
    find("state").className = `state ${kind}`;
    find("state").disabled = all.length === 0 && needy().length === 0;
    find("state").setAttribute("aria-expanded", !find("unanswered").hidden);
}

// Leads to what waits, or to what needs its person.
function showWaiting() {
    if (waiting().length === 0) {
        find("notices").scrollIntoView({ block: "nearest" });
        return find("notices").querySelector("button")?.focus();
    }
    find("unanswered").hidden = !find("unanswered").hidden;
    draw();
    find("unanswered").scrollIntoView({ block: "nearest" });
}

function drawUnanswered() {
    if (find("unanswered").hidden) return;
    const all = waiting();
    const nameOf = ({ verb, subject }) => `${verb} “${oneLine(subject, 120)}”`;
    const giveUp = (one) => confirm(`Send this change no more: ${nameOf(one)}? It may have acted already, if only its answer was lost.`) && forget(one);
    // A change of the own key that has acted is needed to go on with the new one.
    const end = (one) => (isOwnKey(one) ? "" : button("Give up", () => giveUp(one), { class: "quiet", "aria-label": `Give up: ${nameOf(one)}` }));
    const row = (one) => make("li", {}, make("span", {}, about(one)), span("about", ago(one.made), end(one)));
    const away = `The server doesn't answer (${vainTries()} tries). They are on this device, and are sent again until it does; none happens twice.`;
    find("unanswered-why").textContent = isThere ? "They are on this device, and go to the server in this order." : away;
    fill(find("unanswered-list"), all.slice(0, MOST_SHOWN).map(row), all.length > MOST_SHOWN ? make("li", {}, `and ${counted(all.length - MOST_SHOWN)} more`) : "");
}

const buttons = (...children) => make("div", { class: "line" }, children);
const attempt = (act) => () => Promise.resolve(act()).catch(tellFault);

// A refused change keeps its text until its sender throws it away.
function refusal(change) {
    const way = wayOf(change);
    const parts = `${change.takenBack ? "The parts after it weren't sent. " : ""}${way === "rest" ? "Import the rest, or mend" : "Mend"} the file, and import it again: tasks that are there already stay as they are.`;
    const texts = change.reports ? [] : textsOf(change);
    const told = [
        make("p", {}, make("strong", {}, "Refused: "), about(change)),
        make("p", {}, reason(change)),
        isOfNone(change) ? make("p", {}, `It is of board ${change.board}, on which you aren't.`) : "",
        change.culprit ? make("p", {}, "It is the task ", quoted(change.culprit), ".") : "",
        change.reports ? make("p", {}, parts) : change.takenBack ? make("p", {}, "What belonged to it wasn't sent.") : "",
        texts.length ? make("details", {}, make("summary", {}, "What was to be sent"), texts.map((text) => make("p", { class: "long" }, make("bdi", {}, text)))) : "",
    ];
    const rest = change.body ? "Import the rest without it" : "Import the parts after it";
    const ways = { form: ["Edit and send again", () => openAgain(change)], "as it is": ["Send again", () => sendAgain(change)], rest: [rest, () => sendRest(change)] };
    const [label, act] = ways[way] ?? [];
    const again = label ? button(label, attempt(act)) : "";
    const away = button(texts.length || way === "rest" ? "Throw away" : "Dismiss", () => forget(change), { class: "quiet" });
    return make("li", { class: "notice refused" }, make("div", {}, told), buttons(again, away));
}

// Someone else did the same before: nothing is lost, and nothing left to do.
function already(change) {
    const by = change.by === change.member ? "You" : change.by ? said(change.by) : "Someone else";
    const words = make("p", {}, make("strong", {}, by), ` had ${DONE_BEFORE[change.path.split("/").at(-1)]} `, quoted(change.subject), " already.");
    return make("li", { class: "notice already" }, words, button("Dismiss", () => forget(change), { class: "quiet" }));
}

const worded = (value) => (value === null || value === undefined ? "nothing" : [value].flat().join(" "));

// A change that was hidden under another key than the one of now is sent once its person gives that one.
function hiddenOne(change) {
    const key = make("input", { type: "password", "aria-label": "The key that you had then", autocomplete: "current-password" });
    const fault = make("p", { class: "fault", role: "alert" });
    const send = async () => (await sendHidden(change, key.value)) || (fault.textContent = "This isn't the key under which it is hidden.");
    const submit = (event) => {
        event.preventDefault();
        send().catch(tellFault);
    };
    const told = [
        make("p", {}, make("strong", {}, "Not sent yet: "), about(change)),
        make("p", {}, "It has a key in it, so it is hidden under the key that you had when you made it. Your key is another one now: give the former one to send it."),
        make("form", { class: "line", submit }, make("input", { autocomplete: "username", value: change.member, hidden: true }), key, make("button", {}, "Send it")),
        fault,
    ];
    return make("li", { class: "notice asks" }, make("div", {}, told), button("Throw away", () => forget(change), { class: "quiet" }));
}

// A change that waited while its task became another is sent once its person says so.
function question(change) {
    if (change.doubt.name === "key") return hiddenOne(change);
    const { name, was, is, by } = change.doubt;
    const told = [
        make("p", {}, make("strong", {}, "Not sent yet: "), about(change)),
        make("p", {}, "While it waited, ", by ? [said(by), " changed the task's "] : "the task's ", name, by ? "" : " changed on the server", " from ", quoted(worded(was)), " to ", quoted(worded(is)), "."),
    ];
    const edit = wayOf(change) === "form" ? button("Edit it first", attempt(() => openAgain(change))) : button("Look at the task", () => go(change.board, "tasks", change.task));
    const ways = [edit, button("Send it all the same", attempt(() => sendAllTheSame(change))), button("Throw away", () => forget(change), { class: "quiet" })];
    return make("li", { class: "notice asks" }, make("div", {}, told), buttons(...ways));
}

// What the parts of an import did together, those that are answered.
function report(parts) {
    const sum = (name) => parts.reduce((total, part) => total + (part.answer[name] ?? 0), 0);
    const lost = (name, one, many) => sum(name) > 0 && `${counted(sum(name))} ${sum(name) === 1 ? one : many}`;
    const told = [
        `${counted(sum("new"))} new; ${counted(sum("known"))} known already, which stay as they are`,
        lost("dropped", "member dropped that a task can't keep", "members dropped that a task can't keep"),
        lost("orphans", "instance without a place among its template's, now a plain task", "instances without a place among their template's, now plain tasks"),
        lost("unlinked", "link to an unknown task dropped", "links to unknown tasks dropped"),
    ].filter(Boolean);
    const soFar = parts[0].parts > 1 ? ` (${parts.length} of ${parts[0].parts} parts)` : "";
    const text = make("p", {}, make("strong", {}, "Imported "), quoted(parts[0].file), `${soFar}: ${told.join("; ")}.`);
    const losses = tasksTold("Which tasks lost what", parts.flatMap((part) => part.losses ?? []));
    return make("li", { class: "notice" }, make("div", {}, text, losses), button("Dismiss", () => forget(...parts)));
}

const TOLD = { asks: question, refused: refusal, already };

// Where there are too many to be told each, the others stand in one line with what can be done with all of them.
function many(all, count) {
    const refused = all.filter((one) => one.state === "refused" && !one.reports && !one.isSecret);
    const end = () => confirm(`Throw away all ${counted(all.length)} changes that these messages tell of? What they say is lost.`) && forget(...all);
    const again = refused.length > 0 ? button(`Send ${counted(refused.length)} again`, attempt(() => sendAgain(...refused))) : "";
    return make("li", { class: "notice" }, make("div", {}, `And ${counted(count)} more such messages.`), buttons(again, button("Throw all away", attempt(end), { class: "quiet" })));
}

const titleOf = (number) => state.boards.find(({ board }) => board === number)?.title;
// Whether a change is of a board that its person isn't on, as one whose number was mistyped.
const isOfNone = ({ board }) => board > 0 && state.boards.length > 0 && titleOf(board) === undefined;
// Where a message is shown in full: at its board, and what is of no board, or of one that can't be shown, everywhere.
const isHere = (change) => change.board === 0 || isOfNone(change) || (change.board === state.number && state.view !== "day");

// The messages of another board, as a count that leads to it.
function elsewhere([number, all]) {
    const title = titleOf(number);
    const told = make("p", {}, `${counted(all.length)} ${all.length === 1 ? "message" : "messages"} of `, title === undefined ? `board ${number}` : make("q", {}, said(title, 60)), ".");
    return make("li", { class: "notice elsewhere" }, told, button("Show", () => go(number, "tasks")));
}

// A message that says the same as before stays as it is: a key may be typed in it.
function drawNotices() {
    const all = settled().filter((one) => one.state !== "done" || one.reports);
    const here = all.filter(isHere);
    const of = (state) => here.filter((one) => one.state === state);
    const told = Object.keys(TOLD).flatMap(of);
    const first = told.slice(0, MOST_SHOWN);
    const orders = (changes) => changes.map(({ order }) => order).join();
    const others = [...Map.groupBy(all.filter((one) => !isHere(one)), ({ board }) => board)];
    const imports = Object.values(Object.groupBy(of("done"), (one) => one.group || one.id));
    fillNamed(find("notices"), [
        ...first.map((one) => [`${one.order} ${one.state} ${wayOf(one)} ${isOfNone(one)} ${JSON.stringify(one.doubt)}`, () => TOLD[one.state](one)]),
        ...(told.length > first.length ? [[`many ${orders(told)}`, () => many(told, told.length - first.length)]] : []),
        ...imports.map((parts) => [`import ${orders(parts)}`, () => report(parts)]),
        ...others.map((one) => [`elsewhere ${one[0]} ${one[1].length} ${titleOf(one[0])}`, () => elsewhere(one)]),
    ]);
}

// (a message that was on its way when its person left fails after that, and nothing of it is told any more)
const draw = () => state.who && [drawState, drawUnanswered, drawNotices].forEach((part) => part());

// Offers a way back from what closed a task, until the task is open again.
function offerBack({ change, status }) {
    const action = change.path.split("/").at(-1);
    if (action === "reopen" && change.task === offered && isOffered()) endToast();
    const word = WAYS_BACK[action];
    if (status !== 200 || !word || document.hidden || change.isOneOfMany) return;
    const task = { uuid: change.task, description: change.subject };
    const undo = button("Undo", () => (groupOf(change) ? takeBack(groupOf(change)) : keep(changes.act(change.board, task, "reopen")).catch(tellFault)));
    isOffered = toast(make("span", {}, `${word} `, quoted(change.subject)), undo);
    offered = change.task;
}

export function beginNeeds() {
    find("state").addEventListener("click", showWaiting);
    find("send-now").addEventListener("click", sendNow);
    listen("kept", draw);
    listenAll(["boards", "route"], () => state.who && drawNotices());
    listen("answered", offerBack);
    listen("reach", (reached) => {
        const isNews = reached !== isThere || !reached;
        isThere = reached;
        if (isNews) draw();
    });
}

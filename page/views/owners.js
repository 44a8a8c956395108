// Boards and their owners: renaming a board, and, for the first person of the server, taking one over and seeing which are left without
// an owner when someone leaves.
import { changes } from "../core/calls.js";
import { listen } from "../core/news.js";
import { faultInTitle } from "../core/rules.js";
import { look } from "../sync/http.js";
import { keep } from "../sync/outbox.js";
import { go } from "../store/route.js";
import { here, state } from "../store/store.js";
import { check, isWhole, whenSent } from "../ui/check.js";
import { button, fill, find, make, said, span } from "../ui/element.js";
import { tellFault } from "./faults.js";
import { FormDraft } from "./formdraft.js";

export const MARKUP = `
<div id="owned-part" class="sheet" hidden><h2 id="owned-heading"></h2><p id="owned-told" class="about" role="status"></p><ul id="owned" class="lines"></ul></div>
<form id="title-form" class="sheet" hidden>
    <h2>Name of this board</h2>
    <div class="line"><input id="title-text" dir="auto" aria-label="Title" autocomplete="off" required><button>Rename</button></div>
</form>
<form id="take-form" class="sheet" hidden>
    <h2>Take over a board</h2><p class="about">You set up this server, so you can become an owner of any board, also of one that you have no role on.</p>
    <div class="line"><input id="take-number" type="number" min="1" aria-label="Number of the board" placeholder="Number" required><button>Take over</button><button id="take-here" type="button">Take over this board</button></div>
</form>
`;

const OWNED = "They own these boards, and you don't. The server tells nobody who has a key: where the other owners are locked out too, take the board over.";
// The title that the form was filled with, the board that is taken over and shown then, and whose boards are listed.
let [filled, taken, listed] = ["", 0, ""];
// The drafts of a title, and of the number of a board to take over.
let [titled, numbered] = [null, null];

const take = (number, title) => keep(changes.take(number, title)).catch(tellFault);

// Shows the forms to whom they concern. A title that is being typed stays.
export function drawOwners(isOwner, isFirst) {
    const { board, title } = here();
    find("title-form").hidden = !isOwner;
    find("take-form").hidden = !isFirst;
    find("take-here").hidden = isOwner;
    if (filled === `${board} ${title}`) return;
    filled = `${board} ${title}`;
    titled.show();
}

async function rename(form) {
    if (isWhole(form)) await titled.send(() => keep(changes.title(state.number, find("title-text").value.trim())));
}

async function takeNumber(form) {
    taken = Number(find("take-number").value);
    numbered.drop();
    form.reset();
    await take(taken, String(taken));
}

// The boards that someone owns and who asks doesn't, each with its other owners. A board that can't be asked for is left out, and counted.
async function ownedBy(name, who) {
    const [owned, missing] = [[], []];
    for (const board of state.boards.filter(({ role }) => role !== "owner")) {
        const text = await look(who, `/boards/${board.board}/people`).catch(() => missing.push(board) && null);
        const owners = text === null ? [] : JSON.parse(text).people.filter(({ role }) => role === "owner").map((person) => person.name);
        if (owners.includes(name) && !owners.includes(who.name)) owned.push({ ...board, others: owners.filter((owner) => owner !== name) });
    }
    return { owned: owned.sort((one, other) => one.others.length - other.others.length), missing: missing.length };
}

function row({ board, title, others }) {
    const about = others.length > 0 ? ` also owned by ${others.join(", ")}` : " without another owner";
    return make("li", {}, make("span", {}, said(title), span("about", about)), button("Take over", () => take(board, title), { "aria-label": `Take over ${title}` }));
}

// Lists them. Boards on which the first person has no role can't be asked for.
export async function showBoardsOf(name) {
    const { who } = state;
    listed = name;
    find("owned-part").hidden = false;
    fill(find("owned-heading"), "Boards of ", said(name));
    find("owned-told").textContent = "Asking the server for your boards.";
    fill(find("owned"));
    const { owned, missing } = await ownedBy(name, who);
    if (state.who !== who || listed !== name) return;
    const told = [
        owned.length > 0 ? OWNED : "None of the boards that you see is theirs and not yours.",
        missing > 0 && `${missing} of your boards can't be asked now.`,
        "Boards on which you have no role aren't here. Take one over by its number.",
    ];
    find("owned-told").textContent = told.filter(Boolean).join(" ");
    fill(find("owned"), owned.map(row));
    find("owned-part").scrollIntoView({ block: "center" });
}

function hide() {
    listed = "";
    find("owned-part").hidden = true;
}

function whenTaken({ change: { board, path }, status }) {
    if (!path.endsWith("/take") || status !== 200) return;
    if (listed) showBoardsOf(listed).catch(tellFault);
    if (board === taken) go(board, "people");
    taken = 0;
}

export function beginOwners() {
    check(find("title-text"), (text) => faultInTitle(text.trim()));
    titled = new FormDraft("title", { form: "title-form", words: ["title-text"], usual: () => here()?.title ?? "" });
    numbered = new FormDraft("take", { form: "take-form", words: ["take-number"], isOfServer: true });
    whenSent("title-form", (form) => rename(form).catch(tellFault));
    whenSent("take-form", takeNumber);
    find("take-here").addEventListener("click", () => take(state.number, here().title));
    listen("route", hide);
    listen("answered", whenTaken);
}

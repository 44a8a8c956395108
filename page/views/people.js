// The view of the people on a board and their roles, of adding a person, and of other people's keys.
import { changes, isOfFirst } from "../core/calls.js";
import { listen } from "../core/news.js";
import { faultInKey, faultInName, nameMeant } from "../core/rules.js";
import { keep, keepFrom } from "../sync/outbox.js";
import { lookOrSeen } from "../sync/seen.js";
import { newKey } from "../sync/session.js";
import { here, state } from "../store/store.js";
import { check, isWhole, whenSent } from "../ui/check.js";
import { button, fill, find, make, said, span } from "../ui/element.js";
import { face } from "../ui/face.js";
import { openByKeys, options } from "../ui/select.js";
import { tellFault } from "./faults.js";
import { FormDraft } from "./formdraft.js";
import { forgetKey, MARKUP as INVITE, tellKey } from "./invite.js";
import { drawOwners, MARKUP as OWNERS, showBoardsOf } from "./owners.js";

export const MARKUP = `
<section id="people-view" aria-label="People" hidden>
    <div class="sheet"><h2>On this board</h2><ul id="people" class="lines"></ul></div>
    <form id="invite-form" class="sheet" hidden>
        <h2>Let someone in</h2>
        <div class="fields">
            <label class="field"><span>Name</span><input id="invite-name" autocapitalize="none" autocomplete="off" spellcheck="false" required></label>
            <label class="field"><span>Role</span><select id="invite-role"></select></label>
            <button class="primary">Let in</button>
        </div>
    </form>
    <form id="person-form" class="sheet" hidden>
        <h2>Add a person to the server</h2><p class="about">You set up this server, so you add people to it. A name has small letters, digits, _ and -; a key has 8 to 64 characters.</p>
        <div class="fields">
            <label class="field"><span>Name</span><input id="person-name" autocapitalize="none" autocomplete="off" spellcheck="false" required></label>
            <label class="field"><span>Key</span><input id="person-key" autocapitalize="none" autocomplete="off" spellcheck="false" required></label>
            <button id="make-key" type="button">Make a key</button>
            <label class="field"><span>Role here</span><select id="person-role"></select></label>
            <label class="check"><input id="person-here" type="checkbox" checked> Let them onto this board</label>
            <button class="primary">Add the person</button>
        </div>
    </form>
    <form id="keys-form" class="sheet" hidden>
        <h2>Keys of people</h2><p class="about">Give a new key to someone who has lost theirs, or whose key others know. Lock out someone who leaves: nothing that they ask or change is taken any more; their roles and what they did stay. A new key lets them in again.</p>
        <div class="line"><input id="keys-name" aria-label="Name" placeholder="Name" autocapitalize="none" autocomplete="off" spellcheck="false" required><button class="primary">Give a new key</button><button id="keys-end" type="button" class="danger">Lock out</button><button id="keys-boards" type="button">Their boards</button></div>
    </form>
    ${INVITE}
    ${OWNERS}
</section>
`;

// The roles that are known here, and those that the server tells of.
const roles = new Set(["owner", "member", "reader"]);
// The people that are shown; the drafts of the forms, by their kinds.
/** @type {[string, any]} */
let [shown, drafts] = ["", {}];

// Set once the server said that someone isn't the first person.
const refusedTo = (name) => `taskboard.adds-nobody ${name}`;

const isOwner = () => here()?.role === "owner";
const choices = (chosen) => options([...roles].map((role) => [role, role]), chosen);

// The first person of the server alone adds people and sets their keys. A board tells its people in the order in which they came, so whoever
// stands behind another isn't that person.
const mayBeFirst = (first) => first === state.who.name && localStorage.getItem(refusedTo(first)) === null;

function noteRefusal({ change, status }) {
    if (status === 200 || !isOfFirst(change)) return;
    forgetKey(change.subject);
    if (status !== 403) return;
    localStorage.setItem(refusedTo(change.member), "yes");
    draw(true);
}

// Whom this device has seen locked out: the server tells nobody who has a key.
const LOCKED = "taskboard.locked-out";
const locked = () => JSON.parse(localStorage.getItem(LOCKED) ?? "[]");

// Notes whom a key was given or taken from, once that is saved.
function noteKey({ change, status }) {
    if (status !== 200 || !/^\/people\/.+\/key$/.test(change.path)) return;
    const others = locked().filter((name) => name !== change.subject);
    localStorage.setItem(LOCKED, JSON.stringify(change.isSecret ? others : [...others, change.subject]));
    draw(true);
}

// Gives someone another key: whoever lost it, whose key others know, or who was locked out and comes back.
async function giveKey(name) {
    if (!confirm(`Give ${name} a new key? The one that ${name} may have now ends.`)) return false;
    const key = newKey();
    await keep(changes.key(name, key));
    tellKey(name, key);
    return true;
}

async function lockOut(name) {
    if (!confirm(`Lock ${name} out? Nothing that ${name} asks or changes is taken any more. The name, the roles and all that ${name} did stay. A new key lets ${name} in again.`)) return false;
    await keep(changes.key(name, null));
    forgetKey(name);
    await showBoardsOf(name);
    return true;
}

/** @type {[string, (name: string) => Promise<boolean>][]} */
const KEY_ACTS = [["New key", giveKey], ["Lock out", lockOut]];
const keyButtons = (name) => KEY_ACTS.map(([word, act]) => button(word, () => act(name).catch(tellFault), { class: "quiet", "aria-label": `${word}: ${name}` }));

const GIVE_UP = "Give up your role of owner? Only another owner can make you one again.";

function row({ name, role }, isFirst, owners) {
    const set = (given) => keep(changes.role(state.number, name, given)).catch(tellFault);
    const isMine = name === state.who.name;
    const [word, question] = isMine ? ["Leave", "Leave this board? Only an owner can let you in again."] : ["Remove", `End the role of ${name}?`];
    const end = button(word, () => confirm(question) && set(null), { class: "quiet", "aria-label": `${word} ${name}` });
    const choose = ({ target }) => {
        if (!isMine || owners === 1 || confirm(GIVE_UP)) set(target.value);
        else target.value = role;
    };
    const select = make("select", { "aria-label": `Role of ${name}`, change: choose }, choices(role));
    openByKeys(select);
    const keys = isFirst && !isMine ? keyButtons(name) : [];
    const isLocked = locked().includes(name);
    const about = isMine ? " (you)" : isLocked ? " locked out" : "";
    return make("li", { class: isLocked ? "locked" : null }, make("span", { class: "person" }, face(name), make("span", {}, said(name), about ? span("about", about) : "")), ...(isOwner() ? [select, span("line", ...keys, end)] : [span("chip", said(role)), span("line", ...keys)]));
}

// A view that isn't answered is asked for again at the next look. What was refused is shown anew as it is on the server.
async function draw(isAnew) {
    const { who, number, view } = state;
    if (view !== "people" || !here()) return;
    if (isAnew) shown = "";
    const text = await lookOrSeen(who, `/boards/${number}/people`).then(({ text }) => text, () => shown);
    if (state.number !== number || text === shown) return;
    shown = text;
    const { people } = JSON.parse(text);
    people.forEach(({ role }) => roles.add(role));
    const isFirst = mayBeFirst(people[0].name);
    const owners = people.filter(({ role }) => role === "owner").length;
    fill(find("people"), people.map((person) => row(person, isFirst, owners)));
    for (const id of ["invite-role", "person-role"]) fill(find(id), choices(find(id).value || "member"));
    for (const kind of ["invite", "person"]) drafts[kind].showChoices();
    find("invite-form").hidden = !isOwner();
    for (const id of ["person-form", "keys-form"]) find(id).hidden = !isFirst;
    drawOwners(isOwner(), isFirst);
}

function makeKey() {
    find("person-key").value = newKey();
    find("person-key").dispatchEvent(new Event("input"));
}

async function addPerson(form) {
    const [name, key, role] = [nameMeant(find("person-name").value), find("person-key").value.trim(), find("person-role").value];
    const joins = isOwner() && find("person-here").checked;
    if (!isWhole(form)) return;
    const made = [changes.person(name, key, { role, joins }), ...(joins ? [changes.role(state.number, name, role)] : [])];
    await drafts.person.send(() => keepFrom(form, ...made));
    tellKey(name, key);
}

// Whoever is on the board already gets another role only if that is meant.
function isMeant(name, role) {
    const now = shown && JSON.parse(shown).people.find((person) => person.name === name)?.role;
    if (!now || now === role) return true;
    return confirm(name === state.who.name ? GIVE_UP : `${name} is on this board already, as ${now}. Make ${name} ${role}?`);
}

async function invite(form) {
    const [name, role] = [nameMeant(find("invite-name").value), find("invite-role").value];
    if (!isWhole(form) || !isMeant(name, role)) return;
    await drafts.invite.send(() => keepFrom(form, changes.role(state.number, name, role)));
}

function beginKeysOfOthers() {
    const input = find("keys-name");
    const endDraft = (isDone) => isDone && drafts.keys.drop();
    const withName = (act) => () => isWhole(find("keys-form")) && act(nameMeant(input.value)).then(endDraft).catch(tellFault);
    check(input, (text) => (nameMeant(text) === state.who?.name ? "You change your own key by a click on your name, at the top." : faultInName(nameMeant(text))));
    whenSent("keys-form", withName(giveKey));
    find("keys-end").addEventListener("click", withName(lockOut));
    find("keys-boards").addEventListener("click", withName(showBoardsOf));
}

function beginDrafts() {
    drafts = {
        invite: new FormDraft("invite", { form: "invite-form", words: ["invite-name"], choices: ["invite-role"] }),
        person: new FormDraft("person", { form: "person-form", words: ["person-name"], choices: ["person-role", "person-here"], isOfServer: true }),
        keys: new FormDraft("keys", { form: "keys-form", words: ["keys-name"], isOfServer: true }),
    };
}

export function beginPeople() {
    beginDrafts();
    find("make-key").addEventListener("click", makeKey);
    whenSent("person-form", (form) => addPerson(form).catch(tellFault));
    for (const id of ["person-name", "invite-name"]) check(find(id), (text) => faultInName(nameMeant(text)));
    check(find("person-key"), (text) => faultInKey(text.trim()));
    beginKeysOfOthers();
    whenSent("invite-form", (form) => invite(form).catch(tellFault));
    listen("route", () => draw(true));
    listen("tick", () => draw(false));
    listen("boards", () => draw(true));
    listen("answered", ({ change }) => change.path.endsWith("/roles") && draw(true));
    listen("answered", noteRefusal);
    listen("answered", noteKey);
    listen("left", () => localStorage.removeItem(LOCKED));
}

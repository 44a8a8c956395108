// Signing in and out.
import { announce, listen } from "../core/news.js";
import { faultInKey, faultInName, nameMeant } from "../core/rules.js";
import { look, Refused } from "../sync/http.js";
import { forgetChanged, forgetSession, keepSession, keyToFinish, readSession, SESSION } from "../sync/session.js";
import { state } from "../store/store.js";
import { check, isWhole, whenSent } from "../ui/check.js";
import { fill, find, said } from "../ui/element.js";
import { drawWaiting, signOut } from "./signout.js";
import { invitation } from "../start.js";

export const MARKUP = `
<main id="sign-in" hidden>
    <form id="sign-in-form" class="sheet">
        <h1><img src="icons/icon.svg" alt="" width="32" height="32"> taskboard</h1>
        <label class="field"><span>Name</span><input id="name" autocomplete="username" autocapitalize="none" spellcheck="false" required></label>
        <label class="field"><span>Key</span><input id="key" type="password" autocomplete="current-password" required></label>
        <label class="check"><input id="remember" type="checkbox"> Keep me signed in on this device</label>
        <p id="sign-in-fault" class="fault" role="alert"></p>
        <button id="sign-in-button" class="primary">Sign in</button>
        <p id="sign-in-about" class="about">Name and key come from the person who runs this server.</p>
        <div id="sign-in-waiting-part" class="about" hidden><p>On this device, and sent when its person signs in here:</p><ul id="sign-in-waiting"></ul></div>
    </form>
</main>
`;

const AWAY = "The server doesn't answer. Try again when it is there.";
const UNKNOWN = "The server doesn't know this name with this key. Look at both.";
const UNKNOWN_BY_NOW = "The server doesn't take your key any more: it was changed, or you were locked out. Sign in with your new key, or ask whoever set up this server for one. What isn't sent yet stays on this device, and is sent then.";
// The page as it was loaded; what shows a person's boards; and whether someone has signed out since.
let [unused, enter, hasLeft] = ["", null, false];

function showForm(fault = "") {
    find("app").hidden = true;
    find("sign-in").hidden = false;
    find("sign-in-fault").textContent = fault;
    document.title = "taskboard";
    check(find("name"), (text) => faultInName(nameMeant(text)));
    check(find("key"), (text) => faultInKey(text.trim()));
    whenSent("sign-in-form", (form) => isWhole(form) && signIn({ name: nameMeant(find("name").value), key: find("key").value.trim() }, find("remember").checked));
    forgetChanged().catch(console.warn);
    drawWaiting();
    find("name").focus();
    if (invitation && !hasLeft) welcome(invitation);
}

// Who comes by a link finds name and key filled in; only a press of the button uses them.
function welcome({ name, key }) {
    Object.assign(find("name"), { value: name });
    Object.assign(find("key"), { value: key });
    find("remember").checked = true;
    fill(find("sign-in-about"), "Welcome, ", said(name), `. Press the button to work on the boards of ${location.host}. Under your name you can change your key, so that nobody else knows it.`);
    find("sign-in-button").focus();
}

// Nothing of the boards stays in the page: it is as it was when it was loaded. Its parts begin anew at the next sign-in.
function leave(fault) {
    if (!state.who) return;
    forgetSession();
    announce("left", state.who.name);
    hasLeft = true;
    Object.assign(state, { who: null, board: null, boards: [], chosen: "", number: 0 });
    history.replaceState(null, "", location.pathname);
    document.body.className = "without-board";
    document.body.innerHTML = unused;
    showForm(fault);
}

// The key with which the typed one gets in: itself where the server knows it, or the one with which a change of it goes on that waits here.
async function keyFor(who) {
    try {
        await look(who, "/me");
        return who.key;
    } catch (fault) {
        if (fault instanceof Refused) return keyToFinish(who);
        throw fault;
    }
}

async function signIn(typed, isKept) {
    const key = await keyFor(typed).catch(() => null);
    if (!key) return (find("sign-in-fault").textContent = key === null ? AWAY : UNKNOWN);
    const who = { ...typed, key };
    keepSession(who, isKept);
    if (hasLeft) return location.reload();
    find("sign-in-form").reset();
    enter(who);
}

// What another tab did with the session on this device: signed out, or changed the key.
function follow({ key, newValue }) {
    if (key !== SESSION || sessionStorage.getItem(SESSION)) return;
    if (!newValue) return leave("");
    const who = JSON.parse(newValue);
    if (who.name !== state.who?.name || who.key === state.who.key) return;
    state.who.key = who.key;
    announce("rekeyed");
}

// The server takes the key of this tab no more. Where the device remembers another one by now it goes on with that.
function leaveUnknown() {
    const remembered = readSession();
    if (remembered?.name !== state.who?.name || remembered.key === state.who.key) return leave(UNKNOWN_BY_NOW);
    state.who.key = remembered.key;
    announce("rekeyed");
}

// Has a person who is signed in already enter, and asks others for name and key.
export function beginSignIn(showBoards) {
    enter = showBoards;
    find("sign-out").addEventListener("click", () => signOut(() => leave("")));
    addEventListener("storage", follow);
    listen("unknown", leaveUnknown);
    // (what was on its way to the device when its person left stands there a moment later, and another tab may send it)
    listen("kept", () => state.who || drawWaiting());
    const who = readSession();
    if (who && (!invitation || invitation.name === who.name)) enter(who);
    else showForm();
}

// To be called before any part of the page writes into it.
export function keepUnused() {
    // (index.html names the release, where whoever installs the page finds it)
    find("sign-in-about").after(find("release"));
    find("release").hidden = false;
    unused = document.body.innerHTML;
}

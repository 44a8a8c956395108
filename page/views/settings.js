// Changing the key of whoever is signed in.
import { changes, isOwnKey } from "../core/calls.js";
import { listen } from "../core/news.js";
import { faultInKey } from "../core/rules.js";
import { keep, keyKnown, waiting } from "../sync/outbox.js";
import { newKey } from "../sync/session.js";
import { state } from "../store/store.js";
import { check, isWhole, whenSent } from "../ui/check.js";
import { find } from "../ui/element.js";
import { toast } from "../ui/toast.js";
import { tellFault } from "./faults.js";

export const DIALOG = `
<dialog id="account-dialog" aria-labelledby="account-heading">
    <form id="account-form">
        <h2 id="account-heading">Change my key</h2>
        <p class="about">The new key holds everywhere as soon as the server answers. Write it down before: nobody can show it to you again.</p>
        <input id="key-name" autocomplete="username" hidden>
        <label class="field"><span>Key so far</span><input id="key-before" type="password" autocomplete="current-password" required></label>
        <label class="field"><span>New key</span><input id="key-after" autocapitalize="none" autocomplete="off" spellcheck="false" required></label>
        <p id="account-fault" class="fault" role="alert"></p>
        <div class="line"><button class="primary">Change my key</button><button id="make-own-key" type="button">Make a key</button><button id="account-cancel" type="button">Cancel</button></div>
    </form>
</dialog>
`;

function open() {
    find("account-fault").textContent = "";
    find("key-name").value = state.who.name;
    find("account-dialog").showModal();
    find("key-before").focus();
}

// What is wrong with the two keys.
function faultIn(before, after) {
    if (waiting().some(isOwnKey)) return "A change of your key isn't saved yet. Wait for that one first.";
    if (before !== state.who.key) return "The key so far isn't the one that you signed in with.";
    return before === after ? "This is your key already. Give another one." : "";
}

async function changeKey(form) {
    const [before, after] = ["key-before", "key-after"].map((id) => find(id).value);
    if (!isWhole(form)) return;
    await keyKnown();
    const fault = faultIn(before, after);
    find("account-fault").textContent = fault;
    if (fault) return;
    close();
    await keep(changes.ownKey(state.who.name, before, after));
}

function write(key) {
    find("key-after").value = key;
    find("key-after").dispatchEvent(new Event("input"));
}

// No key stays in a form that is closed, nor what was wrong with it.
function close() {
    find("account-form").reset();
    write("");
    find("account-dialog").close();
}

export function beginSettings() {
    find("account").addEventListener("click", open);
    find("account-cancel").addEventListener("click", close);
    find("account-dialog").addEventListener("cancel", close);
    find("make-own-key").addEventListener("click", () => write(newKey()));
    check(find("key-after"), faultInKey);
    whenSent("account-form", (form) => changeKey(form).catch(tellFault));
    listen("answered", ({ change, status }) => {
        if (isOwnKey(change) && status === 200) toast("Your key is changed. From now on you sign in with the new one, on your other devices too.");
    });
}

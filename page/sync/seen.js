// The views last seen, in a database of their own on this device: what the server answered, and when. So boards are shown without a line too.
// They are copies: one that can't be kept is left out, and signing out throws them away.
import { look, NoAnswer } from "./http.js";

const STORES = ["texts", "moments"];
let opening = null;

function open() {
    opening ??= new Promise((done, fail) => {
        const request = indexedDB.open("taskboard-seen", 1);
        request.onupgradeneeded = () => STORES.forEach((name) => request.result.createObjectStore(name));
        request.onsuccess = () => done(request.result);
        request.onerror = () => fail(request.error);
    });
    return opening;
}

// Does some work on the texts and on their moments in one transaction, and gives the results of its requests.
async function within(mode, work) {
    try {
        const database = await open();
        return await new Promise((done, fail) => {
            const transaction = database.transaction(STORES, mode, { durability: "relaxed" });
            const requests = work(...STORES.map((name) => transaction.objectStore(name))) ?? [];
            transaction.oncomplete = () => done(requests.map((request) => request.result));
            transaction.onabort = () => fail(transaction.error);
        });
    } catch (fault) {
        console.warn(fault);
        return [];
    }
}

const keyOf = (who, path) => `${who.name} ${path}`;

// What a view showed when it was asked for last, and at which millisecond; nothing where that isn't known.
export async function lastSeen(who, path) {
    const key = keyOf(who, path);
    const [text, at] = await within("readonly", (texts, moments) => [texts.get(key), moments.get(key)]);
    return text === undefined ? null : { text, at };
}

// Keeps what a view shows now; without a text it is still what it was.
export function keepSeen(who, path, text) {
    const key = keyOf(who, path);
    return within("readwrite", (texts, moments) => {
        if (text !== undefined) texts.put(text, key);
        moments.put(Date.now(), key);
    });
}

// What a view shows, and when it was asked for; where no answer comes, what it showed last, and when that was.
export async function lookOrSeen(who, path) {
    const at = Date.now();
    try {
        const text = await look(who, path);
        keepSeen(who, path, text);
        return { text, at };
    } catch (fault) {
        const seen = fault instanceof NoAnswer ? await lastSeen(who, path) : null;
        if (!seen) throw fault;
        return seen;
    }
}

// Throws away what was seen; `isGone` says of whom, and of which views.
export function forgetSeen(isGone) {
    const drop = (store) => {
        store.getAllKeys().onsuccess = ({ target }) => target.result.filter((key) => isGone(...key.split(" "))).forEach((key) => store.delete(key));
    };
    return within("readwrite", (...stores) => stores.forEach(drop));
}

// Who is signed in: name and key, kept for this tab, or on this device where that was asked for. And the change of that key: until it is
// answered either of its two keys may be the one that the server knows, so the device holds both, and whoever has one of them can finish it.
import { isOwnKey } from "../core/calls.js";
import { announce } from "../core/news.js";
import * as device from "./queue.js";
import { unseal } from "./seal.js";

export const session = { who: null };

export const SESSION = "taskboard.session";
const PLACES = [sessionStorage, localStorage];
// A browser writes what it keeps of a session to its disk some time later; by then it has, in milliseconds.
const WRITTEN = 3600000;

const readFrom = (place) => JSON.parse(place.getItem(SESSION));
export const readSession = () => readFrom(sessionStorage) ?? readFrom(localStorage);
export const isRemembered = (name) => readFrom(localStorage)?.name === name;
export const forgetSession = () => PLACES.forEach((place) => place.removeItem(SESSION));
export const keepSession = (who, isKept) => (isKept ? localStorage : sessionStorage).setItem(SESSION, JSON.stringify(who));

// A key that nobody guesses.
export function newKey() {
    const bytes = crypto.getRandomValues(new Uint8Array(18));
    return btoa(String.fromCharCode(...bytes)).replaceAll("+", "-").replaceAll("/", "_");
}

// What a change of the own key says, for whoever has one of its two keys; nothing for others.
export async function openOwnKey(change, key) {
    const body = change.sealed ? await unseal(change.sealed, key).catch(() => "") : change.body;
    const { old: before, key: after } = JSON.parse(body || "{}");
    return [before, after].includes(key) ? { body, before, after } : null;
}

// From here on the new key is the one that is sent, also after a stop.
export function takeKey({ before, after }) {
    for (const place of PLACES) {
        const kept = readFrom(place);
        if (kept?.name === session.who.name && kept.key === before) place.setItem(SESSION, JSON.stringify({ ...kept, key: after }));
    }
    session.who.key = after;
    announce("rekeyed");
}

// Takes the new key where a change of the own key was answered, which another tab was told or this one before a stop.
export async function takeKeyOf(change) {
    const { who } = session;
    const keys = who && (await openOwnKey(change, who.key));
    if (keys && session.who === who && who.key === keys.before) takeKey(keys);
    return keys;
}

// The key with which a change of the own key goes on that waits here, for someone who typed one of its two; nothing where none waits.
export async function keyToFinish({ name, key }) {
    const waiting = (await device.all(name)).filter((change) => isOwnKey(change) && change.state === "waiting");
    const opened = await Promise.all(waiting.map((change) => openOwnKey(change, key)));
    return opened.find(Boolean)?.before ?? "";
}

// A change of the own key that was answered stays while someone is remembered on this device, since a browser that stops may lose the new
// key once more. Here that key is taken then, and a change goes that isn't needed any more.
export async function recallKeys(who) {
    for (const change of (await device.all(who.name)).filter(({ state }) => state === "changed")) {
        const { key } = who;
        const keys = await takeKeyOf(change);
        const isWritten = key === keys?.after && Date.now() - change.answeredAt > WRITTEN;
        if (session.who === who && (!keys || isWritten)) await device.remove([change]);
    }
}

// Nothing of keys that were changed stays where nobody is signed in.
export const forgetChanged = async () => device.remove((await device.everyones()).filter((change) => change.state === "changed"));

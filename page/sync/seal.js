// Keeps a secret unreadable on the device: whoever made the change, and signs in with the same key, can read it again. A browser has the means
// on https and on the loopback alone; elsewhere a secret isn't kept when its person signs out.

const ROUNDS = 600000;
export const canSeal = () => Boolean(globalThis.crypto.subtle);

async function lockFrom(key, salt) {
    const { subtle } = crypto;
    const base = await subtle.importKey("raw", new TextEncoder().encode(key), "PBKDF2", false, ["deriveKey"]);
    return subtle.deriveKey({ name: "PBKDF2", hash: "SHA-256", iterations: ROUNDS, salt }, base, { name: "AES-GCM", length: 256 }, false, ["encrypt", "decrypt"]);
}

async function sealOne(text, key) {
    const [salt, iv] = [16, 12].map((length) => crypto.getRandomValues(new Uint8Array(length)));
    const data = await crypto.subtle.encrypt({ name: "AES-GCM", iv }, await lockFrom(key, salt), new TextEncoder().encode(text));
    return { salt, iv, data };
}

async function unsealOne({ salt, iv, data }, key) {
    return new TextDecoder().decode(await crypto.subtle.decrypt({ name: "AES-GCM", iv }, await lockFrom(key, salt), data));
}

// Seals a text once under each key, so that any one of them opens it.
export const seal = (text, ...keys) => Promise.all(keys.map((key) => sealOne(text, key)));

// The text, for one of its keys; it fails for any other key.
export const unseal = (sealed, key) => Promise.any([sealed].flat().map((one) => unsealOne(one, key)));

export const isSealed = (change) => Boolean(change.sealed || change.behind?.some(isSealed));

// A change whose secrets are sealed under another key from now on, and those that were to follow it. What the key doesn't open stays as it is.
export async function reseal(change, before, after) {
    const behind = change.behind && (await Promise.all(change.behind.map((one) => reseal(one, before, after))));
    const text = change.sealed ? await unseal(change.sealed, before).catch(() => null) : null;
    return { ...change, ...(behind && { behind }), ...(text !== null && { sealed: await seal(text, after) }) };
}

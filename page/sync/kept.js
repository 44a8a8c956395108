// Texts under names, in a database of their own on this device. What is kept there stands on the disk within a moment: a browser that is killed
// loses what it keeps of a page elsewhere.

let opening = null;
// What is to be written, texts or null by their names; and the work that writes it.
let [unwritten, writing] = [new Map(), null];

function open() {
    opening ??= new Promise((done, fail) => {
        const request = indexedDB.open("taskboard-drafts", 1);
        request.onupgradeneeded = () => request.result.createObjectStore("drafts");
        request.onsuccess = () => done(request.result);
        request.onerror = () => fail(request.error);
    });
    return opening;
}

// Does some work on the texts in one transaction, and gives what it gives once that stands.
async function within(mode, work) {
    const database = await open();
    return new Promise((done, fail) => {
        const transaction = database.transaction("drafts", mode, { durability: "strict" });
        const result = work(transaction.objectStore("drafts"));
        transaction.oncomplete = () => done(result);
        transaction.onabort = () => fail(transaction.error);
    });
}

// All texts, by their names.
export async function everything() {
    const [names, texts] = await within("readonly", (store) => [store.getAllKeys(), store.getAll()]);
    return new Map(names.result.map((name, at) => [name, texts.result[at]]));
}

async function writeAll() {
    while (unwritten.size > 0) {
        const now = unwritten;
        unwritten = new Map();
        await within("readwrite", (store) => now.forEach((text, name) => (text === null ? store.delete(name) : store.put(text, name))));
    }
}

// Keeps a text, or none where that is null. What is typed meanwhile is written together.
export function keepText(name, text) {
    unwritten.set(name, text);
    writing ??= writeAll().catch(console.warn).finally(() => (writing = null));
    return writing;
}

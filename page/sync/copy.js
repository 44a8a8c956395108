// Copies of boards on this device, in a database of their own: their tasks, each as a line of JSON, in chunks of 256 by their places, and up to
// which entry of the history they are known. So a board is shown before the server answers, and one change writes one chunk. A copy that can't be
// kept is left out, and signing out throws it away.

const CHUNK = 256;
const STORES = ["boards", "chunks"];
let opening = null;

function open() {
    opening ??= new Promise((done, fail) => {
        const request = indexedDB.open("taskboard-copies", 1);
        request.onupgradeneeded = () => STORES.forEach((name) => request.result.createObjectStore(name));
        request.onsuccess = () => done(request.result);
        request.onerror = () => fail(request.error);
    });
    return opening;
}

// Does some work on the boards and their chunks in one transaction, and gives what it gives once that stands.
async function within(mode, work) {
    try {
        const database = await open();
        return await new Promise((done, fail) => {
            const transaction = database.transaction(STORES, mode, { durability: "relaxed" });
            const result = work(...STORES.map((name) => transaction.objectStore(name)));
            transaction.oncomplete = () => done(result);
            transaction.onabort = () => fail(transaction.error);
        });
    } catch (fault) {
        console.warn(fault);
        return null;
    }
}

const keyOf = (who, number) => `${who.name} ${number}`;
const chunksOf = (key) => IDBKeyRange.bound([key, 0], [key, Infinity]);
const chunkAt = (lines, at) => lines.slice(at * CHUNK, (at + 1) * CHUNK).join("\n");

/**
 * What is known of a board's copy: its entries are known up to `last`, which was made at `moment`; it was like the server's at `at`, and compared
 * whole at `checkedAt`, in milliseconds. `stamp` is another one each time it is written.
 * @typedef {{last: number, moment: number, at: number, checkedAt: number, stamp: string}} Known
 */

/** @returns {Promise<{known: Known, lines: string[]} | null>} the copy of a board; nothing where there is none */
export async function readCopy(who, number) {
    const key = keyOf(who, number);
    const found = await within("readonly", (boards, chunks) => [boards.get(key), chunks.getAll(chunksOf(key))]);
    const [known, texts] = found?.map((request) => request.result) ?? [];
    return known ? { known, lines: texts.flatMap((text) => (text ? text.split("\n") : [])) } : null;
}

// Keeps what is known of a board, and its tasks where some of them are others: those at the places that changed. Where another tab wrote the copy
// meanwhile, all of them.
export function keepCopy(who, number, { known, before, lines, changed }) {
    const key = keyOf(who, number);
    return within("readwrite", (boards, chunks) => {
        const all = Array.from({ length: Math.ceil(lines.length / CHUNK) }, (_, at) => at);
        boards.get(key).onsuccess = ({ target }) => {
            const isMine = target.result?.stamp === before;
            const written = isMine && changed ? new Set(changed.map((at) => Math.floor(at / CHUNK))) : all;
            if (written === all) chunks.delete(chunksOf(key));
            for (const at of written) chunks.put(chunkAt(lines, at), [key, at]);
            boards.put(known, key);
        };
    });
}

// The copy is like the server's still.
export function touchCopy(who, number, at) {
    const key = keyOf(who, number);
    return within("readwrite", (boards) => {
        boards.get(key).onsuccess = ({ target }) => target.result && boards.put({ ...target.result, at }, key);
    });
}

// Throws copies away; `isGone` says of whom, and of which boards.
export function forgetCopies(isGone) {
    return within("readwrite", (boards, chunks) => {
        boards.getAllKeys().onsuccess = ({ target }) => {
            for (const key of target.result) {
                const [name, number] = String(key).split(" ");
                if (!isGone(name, Number(number))) continue;
                boards.delete(key);
                chunks.delete(chunksOf(key));
            }
        };
    });
}

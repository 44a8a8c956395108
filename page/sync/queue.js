// The changes that this device holds until they are answered, in the browser's own database, in the order in which they were made.
// What is put there stays over reloads and restarts; a change is sent only once it stands there.

let opening = null;

function open() {
    opening ??= new Promise((done, fail) => {
        const request = indexedDB.open("taskboard", 1);
        request.onupgradeneeded = () => {
            const changes = request.result.createObjectStore("changes", { keyPath: "order", autoIncrement: true });
            changes.createIndex("member", "member");
        };
        request.onsuccess = () => done(request.result);
        request.onerror = () => fail(request.error);
    });
    return opening;
}

// Does some work on the changes in one transaction, and gives its result once that stands.
async function within(mode, work) {
    const database = await open();
    return new Promise((done, fail) => {
        const transaction = database.transaction("changes", mode, { durability: "strict" });
        const requests = work(transaction.objectStore("changes"));
        transaction.oncomplete = () => done(requests?.result);
        transaction.onabort = () => fail(transaction.error);
    });
}

// Puts changes behind all others, and takes some away, all of it or nothing.
export const put = (changes, gone = []) =>
    within("readwrite", (store) => {
        changes.forEach((change) => store.add(change));
        gone.forEach(({ order }) => store.delete(order));
    });
// Sets members of changes that are there still; one that was taken away meanwhile stays away.
export const update = (changes, members) =>
    within("readwrite", (store) => {
        for (const { order } of changes) {
            store.get(order).onsuccess = ({ target }) => target.result && store.put({ ...target.result, ...members });
        }
    });
// Sets members of each change as they are given with its order, and takes others away, in one transaction.
export const edit = (edits, gone) =>
    within("readwrite", (store) => {
        for (const members of edits) {
            store.get(members.order).onsuccess = ({ target }) => target.result && store.put({ ...target.result, ...members });
        }
        gone.forEach(({ order }) => store.delete(order));
    });
export const remove = (changes) => within("readwrite", (store) => changes.forEach((change) => store.delete(change.order)));

// The changes of all who use this device.
export const everyones = () => within("readonly", (store) => store.getAll());

// A change as it stands here; nothing where it was taken away.
export const one = (order) => within("readonly", (store) => store.get(order));

// A person's changes, in their order.
export const all = (member) => within("readonly", (store) => store.index("member").getAll(member));

// The changes of all who use this device that stand behind that one.
export const behind = (order) => within("readonly", (store) => store.getAll(IDBKeyRange.lowerBound(order, true)));

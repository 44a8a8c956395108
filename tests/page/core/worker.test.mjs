// The worker, with a server and a cache that are made up: what it does when a newer version comes while it compares.
import assert from "node:assert/strict";
import { webcrypto } from "node:crypto";
import { readFileSync } from "node:fs";
import { test } from "node:test";
import vm from "node:vm";

const ORIGIN = "http://boards.test";
const SOURCE = readFileSync(new URL("../../../page/worker.js", import.meta.url), "utf8");

class Cache {
    files = new Map();
    put = async (key, answer) => void this.files.set(new URL(key.url ?? key, ORIGIN).pathname, answer);
    match = async (key) => this.files.get(new URL(key.url ?? key, ORIGIN).pathname)?.clone();
    keys = async () => [...this.files.keys()].map((path) => ({ url: ORIGIN + path }));
}

// A worker in a world of its own. `answer` gives what the server says of a path.
function worker(answer) {
    const [handlers, told, stores] = [{}, [], new Map()];
    const caches = {
        keys: async () => [...stores.keys()],
        open: async (name) => stores.get(name) ?? stores.set(name, new Cache()).get(name),
        delete: async (name) => stores.delete(name),
    };
    const world = {
        addEventListener: (kind, handler) => (handlers[kind] = handler),
        fetch: (path) => answer(new URL(path, ORIGIN).pathname),
        clients: { claim: async () => {}, matchAll: async () => [{ postMessage: (word) => told.push(word) }] },
        location: { origin: ORIGIN },
        skipWaiting: () => {},
        crypto: webcrypto,
        ...{ caches, URL, Response, Blob, TextDecoder, Date, console },
    };
    vm.runInNewContext(SOURCE, world);
    const happen = (kind, event = {}) => new Promise((done, fail) => handlers[kind]({ ...event, waitUntil: (work) => work.then(done, fail) }));
    return { happen, told };
}

const FILES = { "/": '<script type="module" src="views/main.js"></script>', "/views/main.js": "// first" };

test("a version that comes while the worker compares is found by the comparison that is wanted then", async () => {
    for (const isBroken of [false, true]) {
        let [files, hold] = [FILES, Promise.resolve()];
        const { happen, told } = worker(async (path) => {
            const [text, held] = [files[path], hold];
            await held;
            if (held.isBroken) throw new TypeError("the line broke");
            return new Response(text, { headers: { "content-length": String(text.length) } });
        });
        await happen("install");
        let release;
        hold = Object.assign(new Promise((done) => (release = done)), { isBroken });
        const first = happen("message", { data: "marks" });
        await new Promise(setImmediate);
        const second = happen("message", { data: "marks" });
        files = { ...FILES, "/views/main.js": "// the second version" };
        hold = Promise.resolve();
        release();
        await Promise.all([first, second]);
        assert.deepEqual(told, ["renewed"], isBroken ? "after a line that broke" : "after old answers");
    }
});

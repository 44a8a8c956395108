// Keeps the page's own files on the device: it opens without a line, and doesn't load them at each start. All files that are kept are of one
// version, which is named by their content. The worker answers for these files alone; what is asked of the boards never comes by here.
//
// A browser asks for the worker at each start, and a page that stays open every few minutes; it is installed anew where a byte of it differs. The
// next line, made by tests/page/page_content.py, differs with every other file, so a new version is found then, also where its files are as long as
// before.
// Content of the other files: 2b814cd47850f76a555bd8d884b174e1aae04bdf46bab781a7cb3f2a71764cc1

const VERSION = "taskboard ";
const FILE = /^\/(?:(?:[a-z0-9_-]+\/)?[a-z0-9_.-]+\.(?:html|css|js|svg|png|ico|webmanifest))?$/;
// Where a version has the moment when it was last compared with the server's files whole, and how long that lasts, in milliseconds.
const COMPARED = "/kept/compared";
const DAY = 86400000;
// Which files a file names: those of the page, the modules that a module imports, and the icons of an app, each from where it stands.
const NAMES = /(?:\b(?:href|src)="|\b(?:from|import)[ (]?"(?=\.))([a-z0-9_./-]+)"/g;
const MARKS = ["etag", "last-modified", "content-length"];

// Which version each window was opened with, so that it never gets a module of another one.
const opened = new Map();

const ask = (path, method) => fetch(path, { method, cache: "no-store", redirect: "error" });

async function load(path) {
    const answer = await ask(path, "GET");
    if (answer.status !== 200) throw new Error(`${path}: status ${answer.status}`);
    return { path, answer: answer.clone(), bytes: await answer.arrayBuffer() };
}

function namesIn(path, text) {
    if (path.endsWith(".webmanifest")) return JSON.parse(text).icons.map(({ src }) => src);
    return path === "/" || path.endsWith(".js") ? [...text.matchAll(NAMES)].map(([, name]) => name) : [];
}

const namedBy = ({ path, bytes }) => namesIn(path, new TextDecoder().decode(bytes)).map((name) => new URL(name, location.origin + path).pathname);

// All files as the server has them, from the first on, and the name of that version.
async function loadAll() {
    const files = new Map();
    for (let wanted = ["/"]; wanted.length > 0; ) {
        const loaded = await Promise.all(wanted.map(load));
        for (const file of loaded) files.set(file.path, file);
        wanted = [...new Set(loaded.flatMap(namedBy))].filter((path) => FILE.test(path) && !files.has(path));
    }
    if (!files.has("/views/main.js")) throw new Error("what came isn't the page");
    const inOrder = [...files.values()].sort((one, other) => (one.path < other.path ? -1 : 1));
    const parts = inOrder.flatMap(({ path, bytes }) => [`${path} ${bytes.byteLength}\n`, bytes]);
    const digest = await crypto.subtle.digest("SHA-256", await new Blob(parts).arrayBuffer());
    const name = Array.from(new Uint8Array(digest).slice(0, 16), (byte) => byte.toString(16).padStart(2, "0")).join("");
    return { files: inOrder, name: VERSION + name };
}

// The version that is kept. "/" is put in last, so what lacks it isn't whole.
async function kept() {
    const names = (await caches.keys()).filter((name) => name.startsWith(VERSION));
    for (const name of names.reverse()) {
        const cache = await caches.open(name);
        if (await cache.match("/")) return { name, cache };
    }
    return {};
}

async function keep({ files, name }) {
    const cache = await caches.open(name);
    await cache.put(COMPARED, new Response(String(Date.now())));
    await Promise.all(files.map(({ path, answer }) => path !== "/" && cache.put(path, answer)));
    await cache.put("/", files.find(({ path }) => path === "/").answer);
    for (const other of await caches.keys()) {
        if (other.startsWith(VERSION) && other !== name) await caches.delete(other);
    }
}

// Whether the server tells of each file that it is as long, and of the same date, as the one that is kept.
async function looksAlike(cache) {
    const requests = (await cache.keys()).filter(({ url }) => FILE.test(new URL(url).pathname));
    const alike = requests.map(async (request) => {
        const [now, then] = await Promise.all([ask(request.url, "HEAD"), cache.match(request)]);
        return now.status === 200 && MARKS.every((mark) => now.headers.get(mark) === then.headers.get(mark));
    });
    return (await Promise.all(alike)).every(Boolean);
}

async function isCompared(cache) {
    const at = await (await cache.match(COMPARED))?.text();
    return Date.now() - Number(at ?? 0) < DAY;
}

// Compares what is kept with what the server has: by marks, and whole once a day or where that is wanted. Another version is taken where
// it comes twice alike: a server that is being renewed may have given files of two. The windows hear of it.
async function compare(isWhole) {
    const { name, cache } = await kept();
    if (cache && !isWhole && (await isCompared(cache)) && (await looksAlike(cache))) return;
    const found = await loadAll();
    if (found.name === name) return cache.put(COMPARED, new Response(String(Date.now())));
    if (cache && (await loadAll()).name !== found.name) throw new Error("the server is being renewed");
    await keep(found);
    // (a worker that is being installed controls no window yet)
    const windows = await clients.matchAll({ includeUncontrolled: true });
    if (cache) windows.forEach((window) => window.postMessage("renewed"));
}

let [comparing, following, wantsWhole] = [null, null, false];

// One comparison at a time. One that is wanted meanwhile follows, however the first ends: its server may have been renewed or away since.
function compareOnce(isWhole) {
    if (!comparing) return (comparing = compare(isWhole).finally(() => (comparing = null)));
    wantsWhole ||= isWhole;
    const follow = () => {
        const isNextWhole = wantsWhole;
        [following, wantsWhole] = [null, false];
        return compareOnce(isNextWhole);
    };
    return (following ??= comparing.then(follow, follow));
}

async function answer({ request, clientId, resultingClientId }, path) {
    const before = request.mode === "navigate" ? null : opened.get(clientId);
    const { cache } = before ? { cache: before } : await kept().catch(() => ({}));
    if (cache && resultingClientId) opened.set(resultingClientId, cache);
    return (await cache?.match(path)) ?? fetch(request);
}

// (a worker that can't compare the files isn't installed, and is tried again)
addEventListener("install", (event) => {
    skipWaiting();
    event.waitUntil(compareOnce(true));
});

addEventListener("activate", (event) => event.waitUntil(clients.claim()));

// Without a line there is no comparison.
addEventListener("message", (event) => event.waitUntil(compareOnce(event.data === "whole").catch(() => {})));

addEventListener("fetch", (event) => {
    const { origin, pathname, search } = new URL(event.request.url);
    if (event.request.method !== "GET" || origin !== location.origin || search || !FILE.test(pathname)) return;
    event.respondWith(answer(event, pathname === "/index.html" ? "/" : pathname));
});

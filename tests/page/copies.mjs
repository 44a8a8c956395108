// Has random calls change a board, and compares after each few of them the copy that follows its history with the board's export:
// node copies.mjs PORT CALLS SEED. The board is another's; whoever follows it loses the role now and then, and gets it back. The order and the
// urgencies are compared with the server's list, and what a change is shown to make of a task with what it makes of it.
import assert from "node:assert/strict";
import "./core/newer.mjs";
import { Board } from "../../page/core/board.js";
import { changes } from "../../page/core/calls.js";
import { newIdentifier } from "../../page/core/identifier.js";
import { momentOf, now } from "../../page/core/moments.js";
import { laidOver } from "../../page/core/overlay.js";
import { urgencyOf } from "../../page/core/urgency.js";
import { pull } from "../../page/sync/pull.js";

const [port, calls, seed] = process.argv.slice(2).map(Number);
const SERVER = `http://127.0.0.1:${port}`;
const KEYS = { ann: "ann-key-1", bob: "bob-key-01" };
let state = seed;

// A number below that one, the same ones for the same seed.
function chance(below) {
    state = (Math.imul(state, 1664525) + 1013904223) >>> 0;
    return Math.floor((state / 2 ** 32) * below);
}

const oneOf = (list) => list[chance(list.length)];
const soon = (most) => momentOf(now() + chance(most) - 1);

// How often what was sent goes again, under its identifier, where the connection ended before its answer: the server ends idle ones.
const TRIES = 20;

async function answerTo(path, words) {
    for (let left = TRIES; ; left--) {
        try {
            const answer = await fetch(SERVER + path, words);
            return { status: answer.status, text: await answer.text() };
        } catch (fault) {
            if (left === 0 || !["ECONNRESET", "EPIPE", "UND_ERR_SOCKET"].includes(fault.cause?.code)) throw fault;
        }
    }
}

function ask(path, name, body) {
    const headers = { "x-member": name, "x-key": KEYS[name], "x-request-id": newIdentifier() };
    return answerTo(path, body === undefined ? { headers } : { headers, method: "POST", body });
}

const tell = (path, content) => ask(path, "ann", content === undefined ? "" : typeof content === "string" ? content : JSON.stringify(content));

async function look(path) {
    const { status, text } = await ask(path, "bob");
    if (status !== 200) throw Object.assign(new Error(text), { status });
    figures.bytes += text.length;
    return text;
}

const figures = { bytes: 0, whole: 0, pulls: 0, entries: 0, compared: 0, listed: 0, foretold: 0, refused: 0 };
let number = 0;
let uuids = [];

const newTask = () => ({
    description: oneOf(["Buy milk", "Überblick \"q\" \\ /", "a\tb", "x".repeat(chance(300) + 1)]),
    ...(chance(3) ? {} : { project: oneOf(["Home", "Fair.hall"]) }),
    ...(chance(4) ? {} : { wait: soon(4) }),
    ...(chance(3) ? {} : { due: soon(6) }),
    ...(chance(5) ? {} : { tags: ["phone", "mail"].slice(chance(2)) }),
    ...(chance(6) ? {} : { estimate: oneOf(["2h", 5, ""]) }),
});

// Templates of which some repeat within the test: their last instance is due a second from now.
const newTemplate = () => ({ description: "Again", recur: oneOf(["daily", "weekly", "monthly", "3d"]), due: momentOf(now() + chance(6) - 86400 * chance(40)), ...(chance(3) ? {} : { until: momentOf(now() + 86400 * (chance(20) - 5)) }) });

const taskPath = (action) => `/boards/${number}/tasks/${oneOf(uuids)}/${action}`;
const imported = () => JSON.stringify(Array.from({ length: chance(4) + 1 }, () => ({ ...newTask(), uuid: newIdentifier() })));
const edits = () => oneOf([{ description: "Edited" }, { priority: "H" }, { wait: soon(4) }, { wait: null }, { tags: ["shop", "phone"] }, { estimate: null }, { project: null }, { until: momentOf(now() + 86400 * chance(30)) }]);

// The calls, each as often as it stands here.
const CALLS = [
    ...Array(30).fill(() => tell(`/boards/${number}/tasks`, newTask())),
    ...Array(2).fill(() => tell(`/boards/${number}/tasks`, newTemplate())),
    ...Array(20).fill(() => tell(taskPath("modify"), edits())),
    ...Array(20).fill(() => tell(taskPath("done"))),
    ...Array(6).fill(() => tell(taskPath("delete"))),
    ...Array(12).fill(() => tell(taskPath("reopen"))),
    ...["start", "stop"].flatMap((word) => Array(5).fill(() => tell(taskPath(word)))),
    ...Array(8).fill(() => tell(taskPath("annotate"), { description: oneOf(["a note", "another"]) })),
    ...Array(4).fill(() => tell(taskPath("denotate"), { description: "a note" })),
    ...Array(8).fill(() => tell(taskPath("depend"), { on: oneOf(uuids) })),
    ...Array(4).fill(() => tell(taskPath("undepend"), { on: oneOf(uuids) })),
    () => tell(`/boards/${number}/import`, imported()),
    () => tell(`/boards/${number}/import-todo`, "Buy milk due:2030-01-01\n(A) Call\n"),
    () => tell(`/boards/${number}/sweep`),
    () => tell(`/boards/${number}/ahead`, { ahead: chance(4) + 1 }),
    () => tell(`/boards/${number}/title`, { title: oneOf(["One", "Two"]) }),
];

const asking = () => ({
    history: async (from) => JSON.parse(await look(`/boards/${number}/history/${from}`)),
    task: (uuid) => look(`/boards/${number}/tasks/${uuid}`),
    export: () => {
        figures.whole += 1;
        return look(`/boards/${number}/export`);
    },
});

// A board, and what is known of it.
const fresh = () => ({ board: new Board(number, () => []), known: null });

async function follow(copy) {
    const found = await pull(asking(), copy.board, copy.known);
    figures.pulls += 1;
    figures.entries += found.entries?.length ?? 0;
    if (found.text === undefined) copy.board.patch(found.lines);
    else await copy.board.take(found.text, 0);
    copy.known = found.known;
}

// Both are woken in the same second.
async function compare(copy, at) {
    const wanted = new Board(number, () => []);
    await wanted.take((await ask(`/boards/${number}/export`, "bob")).text, 0);
    for (let second = -1; second !== now(); ) {
        second = now();
        copy.board.relay();
        wanted.relay();
    }
    figures.compared += 1;
    const [is, shall] = [copy.board.lines(), wanted.lines()];
    const other = shall.findIndex((line, place) => line !== is[place]);
    assert.ok(other < 0 && is.length === shall.length, `after ${at} calls the copy has ${is.length} tasks of ${shall.length}, and at place ${other + 1}\n${is[other]}\nfor\n${shall[other]}`);
    uuids = copy.board.told().map(({ uuid }) => uuid);
}

// The rows of the server's list: places and urgencies.
const ROW = /^ *(\d+) +(-?\d+\.\d+) /;
const rowsOf = (text) => text.split("\n").map((line) => ROW.exec(line)).filter(Boolean).map(([, place, urgency]) => [Number(place), Number(urgency)]);

async function compareList(copy) {
    for (let second = -1; second !== now(); ) {
        second = now();
        const wanted = rowsOf((await ask(`/boards/${number}/list`, "bob")).text);
        copy.board.relay();
        copy.board.rank();
        const listed = copy.board.ordered.filter(({ isListed }) => isListed).map((task) => [copy.board.placeOf(task.uuid) + 1, urgencyOf(task)]);
        if (second !== now()) continue;
        assert.deepEqual(listed.map(([place]) => place), wanted.map(([place]) => place));
        listed.forEach(([place, urgency], at) => assert.ok(Math.abs(urgency - wanted[at][1]) < 0.0011, `urgency of ${place}: ${urgency} for ${wanted[at][1]}`));
        figures.listed += 1;
    }
}

const WITHOUT = ["entry", "modified", "start", "end"];
const timeless = (told) => JSON.parse(JSON.stringify(told, (name, value) => (WITHOUT.includes(name) && value ? "then" : value)));
const sorted = (told) => Object.fromEntries(Object.entries(told).filter(([name, value]) => name !== "modified" && !(Array.isArray(value) && value.length === 0)).sort(([one], [other]) => (one < other ? -1 : 1)));

// A change of a task as the page makes it, whose effect is shown before it is answered.
function changeOf(board, task) {
    const other = oneOf(board.told());
    return oneOf([
        ...["done", "delete", "reopen", "start", "stop"].map((word) => () => changes.act(number, task, word)),
        ...Array(4).fill(() => changes.modify(number, task, edits())),
        () => changes.annotate(number, task, "a note"),
        () => changes.denotate(number, task, "a note"),
        () => changes.depend(number, task, other.uuid),
        () => changes.undepend(number, task, task.depends[0] ?? other.uuid),
    ])();
}

async function foretell(copy) {
    const task = oneOf(copy.board.told());
    const change = { ...changeOf(copy.board, task), id: "change" };
    const [shown] = laidOver([task], new Map([[task.uuid, 0]]), [change], new Map()).shown;
    const { status } = await ask(change.path, "ann", change.body);
    if (status !== 200) return;
    const told = JSON.parse(await look(`/boards/${number}/tasks/${task.uuid}`));
    // (what waits for a second may be awake by now, and a template has more instances)
    const isFit = (one) => !one.wait && one.status !== "recurring";
    if (isFit(told) && isFit(shown.told)) assert.deepEqual(sorted(timeless(shown.told)), sorted(timeless(told)), change.path);
    figures.foretold += 1;
}

async function begin() {
    number = JSON.parse((await tell("/boards", { title: "Copies" })).text).board;
    await tell("/people", { name: "bob", key: KEYS.bob });
    await tell(`/boards/${number}/roles`, { member: "bob", role: "member" });
    for (let at = 0; at < 60; at++) await tell(`/boards/${number}/tasks`, newTask());
}

// Without the role nothing is told, and with it again all is told anew.
async function loseRole(copy) {
    await tell(`/boards/${number}/roles`, { member: "bob", role: null });
    await assert.rejects(follow(copy), ({ status }) => status === 404);
    await tell(`/boards/${number}/roles`, { member: "bob", role: "reader" });
}

await begin();
let copy = fresh();
await follow(copy);
await compare(copy, 0);
for (let at = 1; at <= calls; at++) {
    const { status } = await oneOf(CALLS)();
    assert.ok(status < 500, `status ${status}`);
    if (status >= 400) figures.refused += 1;
    if (chance(500) === 0) await loseRole(copy);
    if (chance(900) === 0) copy = fresh();
    if (chance(8) > 0 && at < calls) continue;
    await follow(copy);
    await compare(copy, at);
    if (chance(4) === 0) await compareList(copy);
    await foretell(copy);
    // (a board takes 10,000 tasks)
    if (copy.board.told().length < 3000) continue;
    await begin();
    copy = fresh();
    await follow(copy);
    await compare(copy, at);
}
console.log(`${calls} random calls, of which ${figures.refused} were refused: the copy was like the export ${figures.compared} times, and the list ${figures.listed} times; ${figures.foretold} changes were shown as they came out; ${figures.pulls} looks at ${figures.entries} entries and ${figures.whole} whole boards`);

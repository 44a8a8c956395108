// Sending again. Each change has an identifier, stands on the device before it is sent, and is sent, the same identifier and the same
// bytes, until the server answers. One person's changes go in their order: none is sent before the one ahead of it was answered.
//
// Each tab sends what the person who is signed in there has on this device, also what another tab put there. Locks keep two tabs from
// doing so at once. Where a browser has none (plain http from another machine) a lease stands in for them, which a tab that sleeps may
// lose while it sends. That does no harm: both tabs send the first change that isn't answered, and it acts once under its identifier.
//
// A change of the own key takes its turn like any other: what is ahead of it goes with the old key, itself too, and what follows with the new
// one. It stays on the device until the new key stands in the session, so that a tab that stops anywhere in between gets in afterwards.
import { changes as making, isOwnKey } from "../core/calls.js";
import { newIdentifier } from "../core/identifier.js";
import { announce } from "../core/news.js";
import { NoAnswer, tell } from "./http.js";
import * as device from "./queue.js";
import { canSeal, isSealed, reseal, seal, unseal } from "./seal.js";
import { isRemembered, openOwnKey, recallKeys, session, takeKey, takeKeyOf } from "./session.js";
import { afterAnswer, doubtAbout } from "./settling.js";

const PAUSES = [1, 2, 4, 8, 15, 30];
const LEASE = 6000;
// How often the page shows what was answered while other changes wait, in milliseconds.
const SHOWN_EVERY = 100;
// A change that waited longer than this, in milliseconds, or over a message without an answer, is compared with its task before it is sent.
const OLD = 60000;
const tabs = new BroadcastChannel("taskboard");
const tab = newIdentifier();

// What the device holds of the person who is signed in, by its order: changes that wait, were refused, or have something to tell; those that
// wait and the others, once somebody asks for them; and up to which order the device is known. With thousands of changes each of them is read
// once, and not anew after each answer.
let [held, lists, lastOrder] = [new Map(), null, 0];
// How often the first that waits was sent in vain, and whether what was answered is shown soon.
let [tries, isSending, isShownSoon] = [0, false, false];
// What is on its way to the device, one after the other; it isn't sent before it stands there.
let [putting, lastPut] = [[], Promise.resolve()];
// The work that says which key is the one by now.
let knowing = Promise.resolve();
// Ends the pause, and whether one that begins is to be left out: somebody asked for sending while a message was on its way.
/** @type {[(done?: any) => void, boolean]} */
let [endPause, isHurried] = [() => {}, false];

function listsOf() {
    const all = [...held.values()];
    const onDevice = all.filter((change) => change.state === "waiting");
    const ids = new Set(putting.length > 0 ? all.map(({ id }) => id) : []);
    const onTheWay = putting.filter(({ id }) => !ids.has(id));
    return { onDevice, waiting: [...onDevice, ...onTheWay], settled: all.filter((change) => change.state !== "waiting") };
}

const listed = () => (lists ??= listsOf());
const onDevice = () => listed().onDevice;
export const waiting = () => listed().waiting;
export const settled = () => listed().settled;
export const vainTries = () => tries;

function announceKept() {
    lists = null;
    announce("kept");
}

// So too, but not anew for each of many answers.
function announceSoon() {
    lists = null;
    if (isShownSoon) return;
    isShownSoon = true;
    setTimeout(() => {
        isShownSoon = false;
        announce("kept");
    }, onDevice().length > 0 ? SHOWN_EVERY : 0);
}

function hold(changes) {
    for (const change of changes) {
        lastOrder = Math.max(lastOrder, change.order);
        if (change.member === session.who?.name) held.set(change.order, change);
    }
    lists = null;
}

async function readDevice(then = () => {}) {
    const all = session.who ? await device.all(session.who.name) : [];
    held = new Map();
    hold(all);
    then();
    announceKept();
}

// Reads what stands behind all that is known of the device.
async function readNew(then) {
    if (!session.who) return readDevice(then);
    const found = await device.behind(lastOrder);
    hold(found);
    then?.();
    if (found.length > 0 || then) announceKept();
}

// Takes into what is held here what was just edited on the device, and what was taken away there.
function takeEdited({ edits, gone }) {
    for (const order of gone) held.delete(order);
    for (const members of edits) if (held.has(members.order)) held.set(members.order, { ...held.get(members.order), ...members });
    lists = null;
}

// Once the session has the key of now: after a stop it learns that from the device.
export const keyKnown = () => knowing;
const inKnowing = (work) => (knowing = knowing.then(work).catch(console.error));

tabs.onmessage = async ({ data }) => {
    if (data.change && data.change.member === session.who?.name) {
        if (isOwnKey(data.change) && data.status === 200) await inKnowing(() => takeKeyOf(data.change));
        if (data.done) takeEdited(data.done);
        announce("answered", data);
    }
    if (data.done) announceSoon();
    else await (data.isNew ? readNew() : readDevice());
    send();
};

const toKeep = (made, group = "", member = session.who.name) => ({ ...made, member, state: "waiting", group, made: Date.now(), id: newIdentifier() });

export function sendNow() {
    isHurried = true;
    endPause();
    send();
}

export async function beginSending() {
    tries = 0;
    await inKnowing(() => recallKeys(session.who));
    await readDevice();
    sendNow();
}

// Who was signed in with this key isn't known to the server. That is news only where no change of the key is under way.
export async function doubtKey(who, key) {
    await knowing;
    await readDevice();
    if (session.who !== who || who.key !== key) return;
    if (onDevice().some(isOwnKey)) sendNow();
    else announce("unknown");
}

// Holds changes on the device, and then sends them. Several are a group: where one is refused those behind it are taken back.
export const keep = (...made) => keepGroups([made]);

// So too of what a form says, which is empty then; where the device can't keep it, it is there again.
export function keepFrom(form, ...made) {
    const held = [...form.elements].map((input) => [input, input.value, input.checked]);
    form.reset();
    return keep(...made).catch((fault) => {
        held.forEach(([input, value, checked]) => Object.assign(input, { value, checked }));
        throw fault;
    });
}

// Several that don't hang together: each is answered by itself.
export const keepEach = (made) => keepGroups(made.map((change) => [change]));

// A second click on what waits already says nothing new.
const isNews = ({ task, body, path }) => !task || body || waiting().findLast((one) => one.task === task)?.path !== path;

// Groups that don't hang together, all of them on the device at once. What they follow goes as they come.
export async function keepGroups(groups, gone = []) {
    const kept = groups.flatMap((made) => {
        const group = made.length > 1 ? newIdentifier() : "";
        return made.filter(isNews).map((change) => toKeep(change, group));
    });
    if (kept.length + gone.length === 0) return;
    // (what follows by itself is no deed of its person)
    if (gone.length === 0) announce("made", kept);
    putting.push(...kept);
    announceKept();
    const ids = new Set(kept.map(({ id }) => id));
    try {
        await inOrder(async () => device.put(await Promise.all(kept.map(hideSecret)), gone));
        takeEdited({ edits: [], gone: gone.map(({ order }) => order) });
    } finally {
        await readNew(() => (putting = putting.filter(({ id }) => !ids.has(id))));
    }
    tabs.postMessage({ isNew: true });
    sendNow();
}

function inOrder(put) {
    const done = lastPut.then(put);
    lastPut = done.catch(() => {});
    return done;
}

// Once all that was made stands on the device.
export const allKept = () => lastPut.then(() => readDevice());

// A key doesn't stand on the device as it is; where it is to replace the own one either of the two opens it.
async function hideSecret(change) {
    if (!change.isSecret || !canSeal()) return change;
    const keys = isOwnKey(change) ? Object.values(JSON.parse(change.body)) : [session.who.key];
    return { ...change, body: "", sealed: await seal(change.body, ...keys) };
}

// The body of a change, also where it was hidden.
export const bodyOf = async (change) => (change.sealed ? unseal(change.sealed, session.who.key) : change.body);

// Sends on what its person was asked about.
export async function sendAllTheSame(change, members = {}) {
    await device.update([change], { ...members, state: "waiting", isSure: true });
    tabs.postMessage({});
    await readDevice();
    sendNow();
}

// Sends what was hidden under the key that its person had before. Gives whether that is the one.
export async function sendHidden(change, key) {
    const text = await unseal(change.sealed, key).catch(() => null);
    if (text !== null) await sendAllTheSame(change, { sealed: await seal(text, session.who.key) });
    return text !== null;
}

// Sends again what was refused, each with what was to follow it, under new identifiers.
export async function sendAgain(...refused) {
    const made = ({ board, path, body, verb, subject, task, known, adds, had, base, form, follows, isSecret }) => ({ board, path, body, verb, subject, task, known, adds, had, base, form, follows, isSecret });
    const again = (change) => Promise.all([change, ...change.behind].map(async (one) => made({ ...one, body: await bodyOf(one) })));
    await keepGroups(await Promise.all(refused.map(again)));
    await forget(...refused);
}

// Lets go of changes that were settled and read, or of one that the person gives up.
export async function forget(...gone) {
    await device.remove(gone);
    tabs.postMessage({});
    await readDevice();
}

function pause() {
    const seconds = PAUSES[Math.min(Math.max(tries, 1), PAUSES.length) - 1] * (0.75 + Math.random() / 2);
    return new Promise((done) => {
        endPause = done;
        setTimeout(done, 1000 * seconds);
    });
}

// Sends all that waits, with growing pauses while no answer comes. The turn isn't kept over a pause, so a tab that sleeps holds up no other.
async function send() {
    if (isSending) return;
    isSending = true;
    while (session.who && onDevice().length > 0) {
        isHurried = false;
        const isDone = await inTurn(`taskboard ${session.who.name}`, () => sendInOrder(session.who)).catch(() => false);
        if (!isDone && !isHurried) await pause();
    }
    isSending = false;
}

// The first change that waits, as it stands on the device; nothing where none waits there. All are read anew where another tab took that one away.
async function firstOf(who) {
    while (session.who === who) {
        if (onDevice().length === 0) await readDevice();
        if (onDevice().length === 0) return null;
        const change = await device.one(onDevice()[0].order);
        if (change?.state === "waiting") return change;
        await readDevice();
    }
    return null;
}

// Sends the first change of the device that waits, and then the next; gives whether all were answered.
async function sendInOrder(who) {
    try {
        await readNew();
        for (let change = await firstOf(who); change; change = await firstOf(who)) {
            const isKnown = await (isOwnKey(change) ? sendOwnKey(who, change) : sendOne(who, change));
            tries = 0;
            announce("reach", true);
            if (!isKnown) return false;
        }
        return true;
    } catch (fault) {
        tries += 1;
        if (fault instanceof NoAnswer) await noteVainTry();
        else console.error(fault);
        return false;
    }
}

// Sends a change, unless its person has to be asked first. Gives whether the server knows who sends it.
async function sendOne(who, change) {
    const body = await bodyOf(change).catch(() => null);
    const doubt = body === null ? { name: "key" } : isDoubtful(change) ? await doubtAbout(who, change) : null;
    if (doubt) {
        await device.update([change], { state: "asks", doubt });
        await readDevice();
        return true;
    }
    const { key } = who;
    const answer = await tell(who, { ...change, body });
    if (answer.status !== 401) await settle(who, change, answer);
    else await noteUnknown(who, key, change);
    return answer.status !== 401;
}

// An answer that says the key is wrong settles nothing: the server keeps no such answer, so the change waits until its person signs in again.
// Where another tab has sent it meanwhile, and then changed the key, it says nothing at all.
async function noteUnknown(who, key, { id }) {
    await knowing;
    await readDevice();
    if (session.who === who && who.key === key && onDevice()[0]?.id === id) announce("unknown");
}

// The answer to a change of the own key. Where the session has neither of its keys another one was set since, and this one can't act any more;
// and where it has the new one the change was answered before.
async function answerTo(who, change, keys) {
    if (!keys) return { status: 409, body: { name: "KeyDiffers" } };
    return who.key === keys.after ? { status: 200, body: {} } : tell(who, { ...change, body: keys.body });
}

// Sends a change of the own key, and takes the new one. Gives whether the server knows who sends it.
async function sendOwnKey(who, change) {
    const keys = await openOwnKey(change, who.key);
    const { status, body } = await answerTo(who, change, keys);
    // (who signed out meanwhile finds it on the device again)
    if (session.who !== who) return true;
    if (status === 200 && who.key === keys.before) takeKey(keys);
    const news = { change, status, body };
    tabs.postMessage(news);
    if (status === 200) await inOrder(() => clearKey(who, change, keys));
    else await device.update([change], { state: "refused", body: "", sealed: null, answer: body, behind: [] });
    if (session.who === who) announce("answered", news);
    await readDevice();
    if (session.who === who && who.key === keys?.before && status === 401) announce("unknown");
    return status !== 401;
}

// What was hidden under the old key is hidden under the new one, and the change is done; it stays where a browser that stops may lose the
// session that has the new key.
async function clearKey(who, change, { before, after }) {
    const others = (await device.all(who.name)).filter((other) => other.id !== change.id && !isOwnKey(other) && isSealed(other));
    const resealed = await Promise.all(others.map((other) => reseal(other, before, after)));
    const hidden = resealed.map(({ order, sealed, behind }) => ({ order, sealed, behind }));
    const done = { order: change.order, state: "changed", answeredAt: Date.now() };
    if (isRemembered(who.name)) await device.edit([...hidden, done], []);
    else await device.edit(hidden, [change]);
}

const isDoubtful = (change) => !change.isSure && (change.isOld || change.made < Date.now() - OLD);

// What waits now has waited over a message without an answer.
async function noteVainTry() {
    announce("reach", false);
    const young = onDevice().filter((change) => !change.isOld);
    await device.update(young, { isOld: true });
    takeEdited({ edits: young.map(({ order }) => ({ order, isOld: true })), gone: [] });
}

// Takes an answer down before the next change is sent.
async function settle(who, change, answer) {
    const { status, body } = answer;
    // A full board has more to make for ever.
    const hasMore = body.more && body.added > 0;
    if (hasMore) await device.put([toKeep(making.sweep(change.board), "", change.member)]);
    const behind = status === 200 ? [] : [...held.values()].filter((other) => change.group && other.group === change.group && other.order > change.order);
    const left = await afterAnswer(who, change, answer, behind);
    const gone = left ? (left.state === "refused" ? behind : []) : [change];
    const done = { edits: left ? [{ order: change.order, ...left }] : [], gone: gone.map(({ order }) => order) };
    await device.edit(done.edits, gone);
    if (hasMore) await readNew();
    const news = { change, status, body, done };
    tabs.postMessage(news);
    takeEdited(done);
    if (session.who?.name === change.member) announce("answered", news);
    announceSoon();
}

const inTurn = (name, work) => (navigator.locks ? navigator.locks.request(name, work) : underLease(name, work));
const readLease = (name) => JSON.parse(localStorage.getItem(name)) ?? { until: 0 };
const takeLease = (name) => localStorage.setItem(name, JSON.stringify({ tab, until: Date.now() + LEASE }));

async function underLease(name, work) {
    for (let isMine = false; !isMine; isMine = readLease(name).tab === tab) {
        if (readLease(name).until < Date.now()) takeLease(name);
        // Of two tabs that take a free lease at once the later one has it.
        await new Promise((done) => setTimeout(done, 100 + 100 * Math.random()));
    }
    const renewal = setInterval(takeLease, LEASE / 3, name);
    try {
        return await work();
    } finally {
        clearInterval(renewal);
        localStorage.removeItem(name);
    }
}

// (what another tab did while this one slept is read whole)
const wake = () => readDevice().then(sendNow);
addEventListener("online", sendNow);
document.addEventListener("visibilitychange", () => document.hidden || wake().catch(console.error));

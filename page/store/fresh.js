// Keeps what is shown fresh. While the page is in sight it asks every 3 s what has happened on the board, by the next number of its history, and
// each second the same of one of the others, or of several where My day shows them; a hidden page asks every 60 s. What has happened is taken into the boards (pull.js).
// A server without a history is asked for the board: every 15 s while it is in sight and someone does something in it, every 60 s else, and a
// hidden page asks for nothing. Until the server answers, the board is shown as it was seen last, with its age. What is found by the clock
// waits while someone types, so that nothing moves under their hands.
import { now } from "../core/moments.js";
import { announce, listen, listenAll } from "../core/news.js";
import { forgetCopies } from "../sync/copy.js";
import { BEYOND, hasHistory, lookFrom } from "../sync/entries.js";
import { look, NoAnswer } from "../sync/http.js";
import { doubtKey, waiting } from "../sync/outbox.js";
import { forgetSeen, keepSeen, lastSeen } from "../sync/seen.js";
import { checkedAt, forgetBoard, knownTo, openBoard, pullBoard, relayAll, touchBoard } from "./boards.js";
import { readDraft } from "./drafts.js";
import { here, state } from "./store.js";

// How often the history is asked in sight and the server else, after how long someone counts as idle, and how long a pause in typing is; in
// milliseconds.
const [NEWS, ACTIVE, IDLE, IDLE_AFTER, LEAST, TYPING] = [3000, 15000, 60000, 60000, 1000, 2000];
// How often whoever is on no board asks for boards, in milliseconds.
const NEW = 4000;
// While changes of one's own wait, looks at the board take one part in so many of the time.
const SHARE = 10;
// What people do to a board that its people's lists of boards show.
const CHANGE_BOARDS = ["role", "take", "title"];
const ACTS = ["keydown", "pointerdown", "pointermove", "wheel", "touchstart"];
// Whether a look is under way, another one is wanted, and the board or the boards with it; and whether the server answered the last one.
let [isAsking, isWanted, wantsBoard, wantsBoards, isThere] = [false, false, false, false, true];
// When the last looks at the board, at its history and at the boards were, the last tick, the last act and the last typing; the boards as they
// were told; and the work of showing what was seen.
let [lastLook, lastNews, lastMe, lastTick, lastAct, lastTyped, lastBoards, showing] = [0, 0, 0, 0, 0, 0, "", Promise.resolve()];
// How long the last look at the board took until it was shown.
let lookTook = 0;
// The board whose history is known, and up to which number; and whether something has happened on it that isn't shown.
let [heard, isStale] = [{ number: 0, last: 0 }, false];
// The board that a look under way loads.
let coming = 0;
// What the last look at its history told; and of the other boards: when one was asked last, which, and whether that is under way.
let [news, lastOther, turn, isHearing] = [null, 0, 0, false];
// In how many turns My day asks each of its boards, and how many of them at once at most.
const [TURNS, AT_ONCE] = [3, 6];
// After how long a copy is compared with the server's whole, in milliseconds.
const CHECKED = 7 * 86400000;

function setBoards(text) {
    state.boards = JSON.parse(text).boards;
    const isGone = state.board && !state.boards.some(({ board }) => board === state.board.number);
    if (isGone) forgetBoard(state.board.number);
    if (isGone) state.board = null;
    announce("boards");
    if (isGone) announce("route");
}

// Asks for the boards of whoever is signed in, and announces them where they are others than before.
export async function lookAtBoards() {
    const { who } = state;
    lastMe = performance.now();
    const text = await look(who, "/me");
    if (state.who !== who || (text === lastBoards && state.boards.length > 0)) return;
    lastBoards = text;
    setBoards(text);
    keepSeen(who, "/me", text);
    const isMine = (number) => state.boards.some(({ board }) => board === number);
    forgetSeen((name, path) => name === who.name && path !== "/me" && !isMine(Number(path.split("/")[2])));
    forgetCopies((name, number) => name === who.name && !isMine(number));
}

// Under this and a name stands what this device notes of that person's boards: which have a star, and how many open tasks each had.
export const NOTED = "taskboard.boards ";

// Nothing that was seen stays of who isn't signed in any more. A lock says who is, in some tab: what is seen there stays.
const lockOf = (name) => `taskboard in ${name}`;
/** @type {(done?: any) => void} */
let leave = () => {};

function enter() {
    leave();
    const left = new Promise((done) => (leave = done));
    navigator.locks?.request(lockOf(state.who.name), { mode: "shared" }, () => left);
}

async function forgetOthers(leaver = "") {
    leave();
    const { held } = (await navigator.locks?.query()) ?? { held: [] };
    const isIn = (name) => name !== leaver && held.some((lock) => lock.name === lockOf(name));
    const noted = Object.keys(localStorage).filter((key) => key.startsWith(NOTED) && !isIn(key.slice(NOTED.length)));
    noted.forEach((key) => localStorage.removeItem(key));
    await Promise.all([forgetSeen, forgetCopies].map((forget) => forget((name) => !isIn(name))));
}

async function showSeenBoards(who) {
    const seen = await lastSeen(who, "/me");
    if (seen && state.who === who && state.boards.length === 0) setBoards(seen.text);
}

function show(board, isNew, about) {
    state.board = Object.assign(board, about, { changesAt: board.nextChange() });
    announce("board", isNew);
}

// Shows the board as it was seen last, unless its tasks are there.
async function showSeenBoard() {
    const { who, number } = state;
    const isWanting = () => state.who === who && state.number === number && state.board?.number !== number && here();
    const seen = who && isWanting() && (await openBoard(number));
    if (seen && isWanting()) show(seen.board, true, { at: seen.at, shownAt: Date.now(), isSeen: true });
}

const showSeen = () => (showing = showing.then(showSeenBoard).catch(console.warn));

// Brings the board up to date, and shows it. While nobody does anything it is compared with the server's whole now and then.
async function lookAtBoard() {
    const { who, number } = state;
    if (!here()) return;
    coming = number;
    lastLook = performance.now();
    const isOld = !isActive() && Date.now() - checkedAt(number) > CHECKED;
    isStale = false;
    const isShown = isLoaded();
    const { board, isNew } = await pullBoard(number, { news, isWhole: isOld });
    if (!isNew) board.rank();
    if (state.who !== who || state.number !== number) return;
    show(board, isNew || !isShown, { at: Date.now(), isSeen: false });
    lookTook = performance.now() - lastLook;
}

// Whether it is too soon for another look: thousands of changes may be answered one after the other.
const isTooSoon = () => waiting().length > 0 && performance.now() - lastLook < Math.max(NEWS, Math.min(ACTIVE, SHARE * lookTook));
const isTyping = () => performance.now() - lastTyped <= TYPING;
const isActive = () => performance.now() - lastAct < IDLE_AFTER;
const isLoaded = () => state.board?.number === state.number && !state.board.isSeen;
const isComing = () => coming > 0 && coming === state.number;

// Asks what has happened on the board, from the next number on; at first from the last one that its reader saw. Gives whether the board has to
// be loaded at once.
async function lookAtNews() {
    const { who, number } = state;
    lastNews = performance.now();
    if (!here()) return false;
    const isFirst = heard.number !== number;
    const last = isFirst ? readDraft("looked")?.last ?? BEYOND - 1 : heard.last;
    const told = await lookFrom(who, number, last + 1);
    if (!told || state.who !== who || state.number !== number) return false;
    heard = { number, last: told.last };
    news = { number, from: last + 1, ...told };
    if (isLoaded()) state.board.at = Date.now();
    isStale ||= knownTo(number) !== told.last;
    if (!isFirst && told.last !== last) {
        wantsBoards ||= told.entries.some(({ what }) => CHANGE_BOARDS.includes(what));
    }
    if (isFirst || told.last !== last) announce("deeds", { ...told, number, isFirst, isWatched: !document.hidden && isActive() });
    return isStale && !document.hidden && !isTyping() && !isTooSoon();
}

// Shows tasks that woke, and what of the boards isn't answered yet.
function relay() {
    const changed = relayAll();
    for (const number of changed) {
        if (number === state.board?.number) announce("board", true);
        else announce("other", number);
    }
}

// Takes in what has happened on one of the other boards.
async function hearOf(who, number) {
    try {
        const { isNew } = knownTo(number) === undefined ? { isNew: false } : await pullBoard(number);
        if (isNew && state.who === who) announce("other", number);
    } catch (fault) {
        if (!(fault instanceof NoAnswer)) console.warn(fault);
    }
}

// Hears of the other boards, each in its turn; where My day shows them, of as many at once that each has its turn soon.
async function hearNext() {
    const isDay = state.view === "day";
    const others = state.boards.map(({ board }) => board).filter((number) => number !== state.number || isDay);
    if (isHearing || others.length === 0) return;
    isHearing = true;
    const count = isDay ? Math.min(AT_ONCE, Math.ceil(others.length / TURNS)) : 1;
    const next = Array.from({ length: count }, () => others[(turn = (turn + 1) % others.length)]);
    await Promise.all(next.map((number) => hearOf(state.who, number)));
    isHearing = false;
}

function setReach(reached) {
    isThere = reached;
    announce("reach", reached);
}

// Asks for the boards where that is wanted, for what has happened, and then for the board where it has to be loaded: so nothing that happens
// between the two is missed. A server that was away, or has no history, is asked for all of it.
async function lookOnce() {
    const withBoards = wantsBoards;
    wantsBoards = false;
    if (withBoards) await lookAtBoards();
    const withBoard = wantsBoard || !isThere || !hasHistory() || heard.number !== state.number;
    [isWanted, wantsBoard] = [false, false];
    coming = withBoard && here() ? state.number : 0;
    const isNews = await lookAtNews();
    if (withBoard || isNews) await lookAtBoard();
    isWanted ||= wantsBoards;
    if (withBoards || here()) setReach(true);
}

// No answer came. Where no board is known yet, they are what is asked for next.
function missAnswer() {
    setReach(false);
    wantsBoards ||= state.boards.length === 0;
}

// Asks anew, once more where something happened meanwhile.
async function ask(withBoard = false, withBoards = false) {
    isWanted = true;
    wantsBoard ||= withBoard;
    wantsBoards ||= withBoards;
    if (isAsking) return;
    isAsking = true;
    const { who } = state;
    const key = who?.key;
    let isRekeyed = false;
    try {
        while (isWanted && state.who) await lookOnce();
    } catch (fault) {
        // Where a board is refused its people have changed.
        if (fault instanceof NoAnswer) missAnswer();
        else if (fault.status !== 401) lookAtBoards().catch(console.error);
        else if (who.key === key) doubtKey(who, key).catch(console.error);
        else isRekeyed = true;
    } finally {
        [isAsking, coming] = [false, 0];
    }
    if (isRekeyed && state.who === who) lookAgain(true);
}

// Loads the board, and asks for the boards first where that is wanted.
export const lookAgain = (withBoards = false) => ask(true, withBoards);

// Loads the board that is to be shown, unless it is there or on its way.
export function lookWhereMissing() {
    if (state.number && state.board?.number !== state.number && !isComing()) lookAgain();
}

// Where someone looks at the page.
function lookIfSeen() {
    if (!state.who || document.hidden || performance.now() - lastLook < LEAST) return;
    tick();
    if (hasHistory() && (isLoaded() || isComing())) ask(isStale);
    else lookAgain(true);
}

// What goes by the clock of who looks is drawn anew: how urgent tasks are, and which are overdue.
function tick() {
    lastTick = performance.now();
    announce("tick");
    if (!hasHistory()) return;
    const isLate = lastTick - lastMe >= IDLE;
    wantsBoards ||= isLate;
    if (!isLoaded()) return;
    if (isLate && isThere && !isStale) touchBoard(state.number);
    state.board.rank();
    announce("board", false);
}

// Someone new has no board yet, and gets in as soon as an owner says so.
const isWithoutBoard = () => state.boards.length === 0 && !document.hidden && performance.now() - lastMe >= NEW;

function lookByClock() {
    if (state.who && isWithoutBoard()) ask(false, true);
    else if (state.who) hasHistory() ? hearByClock() : loadByClock();
    announce("second");
}

// Asks for what has happened where it is time, and loads the board once nobody is typing.
function hearByClock() {
    const past = performance.now();
    const isFree = !document.hidden && !isTyping();
    if (isFree && past - lastTick >= (isActive() ? ACTIVE : IDLE)) tick();
    if (isFree && isLoaded() && state.board.changesAt <= now()) relay();
    if (isFree && isThere && past - lastOther >= (isActive() ? LEAST : IDLE / 12)) {
        lastOther = past;
        hearNext();
    }
    if (isFree && isLoaded() && past - lastLook > LEAST && !isTooSoon() && isStale) lookAgain();
    else if (past - Math.max(lastNews, lastLook) >= (document.hidden ? IDLE : NEWS)) ask(isFree && !isLoaded() && !isComing());
}

// Looks where it is time, and nobody is typing.
function loadByClock() {
    const isTime = performance.now() - lastLook >= (isActive() ? ACTIVE : IDLE);
    if (isTime && !isTyping()) lookIfSeen();
}

const changesBoards = ({ path }) => ["roles", "take", "title"].includes(path.split("/").at(-1));

// Looks at what an answer has changed. While others wait that is done now and then: each look loads the whole board, and thousands may wait. (A
// refusal may mean that one's role is another by now.)
function lookAfter({ change, status }) {
    const isOfBoards = change.board === 0 || changesBoards(change);
    wantsBoards ||= isOfBoards || status !== 200;
    if (document.hidden || (!isOfBoards && isTooSoon())) return;
    lookAgain(wantsBoards);
}

export function beginFresh() {
    setInterval(lookByClock, LEAST);
    addEventListener("focus", lookIfSeen);
    document.addEventListener("visibilitychange", lookIfSeen);
    document.addEventListener("input", () => (lastTyped = performance.now()));
    for (const act of ACTS) addEventListener(act, () => (lastAct = performance.now()), { passive: true });
    queueMicrotask(() => state.who || forgetOthers());
    listen("left", forgetOthers);
    listen("signed", enter);
    listen("signed", () => showSeenBoards(state.who));
    listenAll(["boards", "route"], showSeen);
    listen("kept", relay);
    listen("rekeyed", () => lookAgain(true));
    listen("answered", lookAfter);
}

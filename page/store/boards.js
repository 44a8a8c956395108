// The boards that this tab knows, whether it shows them or not: each is read from the device once, and then follows the server.
import { look } from "../sync/http.js";
import { keepCopy, readCopy, touchCopy } from "../sync/copy.js";
import { lookFrom } from "../sync/entries.js";
import { pull } from "../sync/pull.js";
import { listen } from "../core/news.js";
import { hearOf, newBoard } from "./pending.js";
import { state } from "./store.js";

/** @typedef {{board: import("../core/board.js").Board, known: any, work: Promise<any>}} Model */

/** @type {Map<number, Model>} */
const models = new Map();

// What may be asked of a board; `news` is what its history told just before.
const asking = (who, number, news) => ({
    history: (from) => (news?.number === number && news.from === from ? news : lookFrom(who, number, from)),
    task: (uuid) => look(who, `/boards/${number}/tasks/${uuid}`),
    export: () => look(who, `/boards/${number}/export`),
});

// Reads the copy of this device.
async function read(who, number, model) {
    const copy = await readCopy(who, number);
    if (!copy) return;
    model.known = copy.known;
    await model.board.takeLines(copy.lines, copy.known.at);
}

function modelOf(number) {
    if (!models.has(number)) {
        const model = { board: newBoard(number), known: null, work: null };
        models.set(number, model);
        model.work = read(state.who, number, model).catch(console.warn);
    }
    return models.get(number);
}

// One work on a board after the other.
function inTurn(model, work) {
    const done = model.work.then(work);
    model.work = done.catch(() => {});
    return done;
}

// The board as this device knows it, and when it was like the server's, in milliseconds; nothing where it doesn't know it.
export function openBoard(number) {
    const model = modelOf(number);
    return inTurn(model, () => (model.known ? { board: model.board, at: model.known.at } : null));
}

async function bring(who, number, model, { news, isWhole }) {
    const { board, known: before } = model;
    const at = Date.now();
    const found = await pull(asking(who, number, news), board, isWhole ? null : before);
    if (state.who !== who) return { board, isNew: false };
    hearOf(found.entries ?? []);
    const isNew = found.text === undefined ? board.patch(found.lines) : await board.take(found.text, at);
    model.known = { ...found.known, at, stamp: before?.stamp };
    if (found.text === undefined && found.known === before) touchCopy(who, number, at);
    else {
        model.known.stamp = `${at} ${Math.random()}`;
        const changed = found.text === undefined ? found.lines.map(([place]) => place) : null;
        keepCopy(who, number, { known: model.known, before: before?.stamp, lines: board.lines(), changed });
    }
    return { board, isNew };
}

// Brings a board up to date, whole where that is wanted. Gives it, and whether anything is new.
export function pullBoard(number, { news = null, isWhole = false } = {}) {
    const [model, { who }] = [modelOf(number), state];
    return inTurn(model, () => bring(who, number, model, { news, isWhole }));
}

// The copy of a board is like the server's still.
export const touchBoard = (number) => touchCopy(state.who, number, Date.now());

// Up to which entry of its history a board is known; nothing where it isn't known.
export const knownTo = (number) => models.get(number)?.known?.last;

// When it was last compared with the server's whole, in milliseconds.
export const checkedAt = (number) => models.get(number)?.known?.checkedAt ?? 0;

// Shows the changes that were made meanwhile, and what woke. Gives the numbers of the boards that are others now.
export const relayAll = () => [...models].filter(([, { board }]) => board.relay()).map(([number]) => number);

export const forgetBoard = (number) => models.delete(number);

export function beginBoards() {
    listen("left", () => models.clear());
    listen("signed", () => models.clear());
}

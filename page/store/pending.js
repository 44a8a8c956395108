// Tasks as the changes that the shown board doesn't have yet will leave them: those that wait, and those that were answered after the board was
// last asked for.
import { Board } from "../core/board.js";
import { listen } from "../core/news.js";
import { waiting } from "../sync/outbox.js";

// Changes that were answered, and when; one is forgotten once boards have been asked for since.
const FORGOTTEN_AFTER = 600000;
let answered = [];

listen("answered", ({ change, status }) => {
    if (status !== 200 || !change.task) return;
    const oldest = Date.now() - FORGOTTEN_AFTER;
    if (answered[0]?.at <= oldest) answered = answered.filter(({ at }) => at > oldest);
    answered.push({ change, at: Date.now() });
});

// The calls that the boards' histories told of as they were taken: what they changed is in the boards.
const MOST_HEARD = 5000;
let heard = new Set();

export function hearOf(entries) {
    for (const { call } of entries) if (call) heard.add(call);
    if (heard.size > MOST_HEARD) heard = new Set([...heard].slice(-MOST_HEARD / 2));
}

// The changes of tasks that a board doesn't show which was asked for whole then, in their order.
function unseen(number, askedAt) {
    const late = answered.filter(({ at }) => at >= askedAt).map(({ change }) => change);
    const known = new Set(late.map(({ id }) => id));
    const all = [...late, ...waiting().filter(({ id }) => !known.has(id))];
    return all.filter((change) => change.board === number && change.task && !heard.has(change.id));
}

// What a change with this identifier, which was answered here, changed.
export const baseOf = (id) => answered.find(({ change }) => change.id === id)?.change.base;

// A board without tasks yet, over which these changes are laid.
export const newBoard = (number) => new Board(number, (askedAt) => unseen(number, askedAt));

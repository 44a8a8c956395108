// Who has a role on the shown board, and so may have its tasks: asked for with the board, and again once a minute while it is looked at.
import { announce, listen } from "../core/news.js";
import { lookOrSeen } from "../sync/seen.js";
import { here, state } from "./store.js";

const EVERY = 60000;
let [askedFor, askedAt, told] = [0, 0, ""];

async function ask() {
    const { who, number } = state;
    if (!here()) return;
    if (askedFor !== number) [state.people, told] = [null, ""];
    [askedFor, askedAt] = [number, performance.now()];
    const text = await lookOrSeen(who, `/boards/${number}/people`).then(({ text }) => text, () => told);
    if (state.who !== who || state.number !== number || text === told) return;
    told = text;
    state.people = JSON.parse(text).people;
    announce("people");
}

export const names = () => state.people?.map(({ name }) => name) ?? null;

// Whether that is somebody who has no role on the board any more; where nobody knows who has one, it isn't.
export const isGone = (name) => Boolean(name && state.people && !names().includes(name));

// The people of the board and, of others who have a task, those without a role any more, each with what to call them.
export function choices(assignees = []) {
    const all = [...new Set([...(names() ?? []), ...assignees])];
    return all.map((name) => [name, `${name}${name === state.who?.name ? " (you)" : ""}${isGone(name) ? " (no role any more)" : ""}`]);
}

export function beginBoardPeople() {
    listen("route", () => state.number !== askedFor && ask());
    listen("boards", ask);
    listen("tick", () => performance.now() - askedAt > EVERY && ask());
    listen("answered", ({ change }) => change.path.endsWith("/roles") && ask());
    listen("signed", () => (askedFor = 0));
}

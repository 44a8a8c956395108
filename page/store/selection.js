// The tasks that are chosen in the list, to change several at once.
import { announce, listen } from "../core/news.js";
import { state } from "./store.js";

let chosen = new Set();
// The tasks of the list in their order, where a choice of many begins, and whether the rows show a box to choose them by without a mouse.
let [listed, anchor, isChoosing] = [[], "", false];

const order = () => listed.map(({ uuid }) => uuid);

export const isPicked = (uuid) => chosen.has(uuid);
export const hasPicked = () => chosen.size > 0;
export const areBoxesShown = () => isChoosing || chosen.size > 0;

// The chosen tasks, in the order of the list.
export const picked = () => (chosen.size === 0 ? [] : order().filter((uuid) => chosen.has(uuid)).map((uuid) => state.board.byId.get(uuid)).filter(Boolean));

function choose(uuids) {
    chosen = new Set(uuids);
    announce("picked");
}

export const pickNone = () => choose([]);
export const pickAll = () => choose(order());

export function pick(uuid, isWanted = !chosen.has(uuid)) {
    anchor = uuid;
    choose(isWanted ? [...chosen, uuid] : [...chosen].filter((other) => other !== uuid));
}

// Chooses all from where the last choice was made to there.
export function pickTo(uuid) {
    const all = order();
    const [from, to] = [all.indexOf(anchor), all.indexOf(uuid)];
    if (from < 0) return pick(uuid, true);
    choose([...chosen, ...all.slice(Math.min(from, to), Math.max(from, to) + 1)]);
}

export function showBoxes(isShown) {
    isChoosing = isShown;
    choose(isShown ? chosen : []);
}

// The list shows these tasks: what it doesn't show isn't chosen.
export function setOrder(tasks) {
    listed = tasks;
    if (chosen.size === 0) return;
    const shown = new Set(order());
    const left = [...chosen].filter((uuid) => shown.has(uuid));
    if (left.length < chosen.size) choose(left);
}

let number = 0;
export function beginSelection() {
    listen("route", () => {
        if (number !== state.number || state.view !== "tasks") showBoxes(false);
        number = state.number;
    });
}

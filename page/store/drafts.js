// What was typed and isn't sent yet, on this device: a text for each person and place, as the line that is added or a note. It stays over
// reloads and closed tabs until it is sent or taken back. Tabs of one person share it: each shows what is typed in another one, so that none
// writes over it, and what one of them sends stands in no other.
import { everything, keepText } from "../sync/kept.js";
import { state } from "./store.js";

const FRONT = "taskboard.draft";
const named = (name) => `${FRONT} ${name} `;
const tabs = new BroadcastChannel(FRONT);
// The drafts of all who use this device, as JSON, by their places; and what follows those of other tabs.
let drafts = new Map();
const followers = [];

// The place of a draft: its kind, the board, and the task where it is of one.
const keyOf = (kind, task, board) => `${named(state.who.name)}${board} ${kind}${task ? ` ${task}` : ""}`;

function put(key, text) {
    if (text === null) drafts.delete(key);
    else drafts.set(key, text);
    keepText(key, text);
    tabs.postMessage({ key, text });
}

// Reads all drafts. Those that an earlier version of the page kept elsewhere are taken over.
export async function openDrafts() {
    drafts = await everything().catch((fault) => {
        console.warn(fault);
        return new Map();
    });
    for (const key of Object.keys(localStorage).filter((key) => key.startsWith(`${FRONT} `))) {
        put(key, localStorage.getItem(key));
        localStorage.removeItem(key);
    }
}

export const readDraft = (kind, task = "", board = state.number) => JSON.parse(drafts.get(keyOf(kind, task, board)) ?? "null");

// Keeps a draft, or none where nothing is given.
export function keepDraft(kind, task, content, board = state.number) {
    const [key, text] = [keyOf(kind, task, board), content ? JSON.stringify(content) : null];
    if ((drafts.get(key) ?? null) !== text) put(key, text);
}

// Acts with a draft of this kind once another tab has typed it, sent it or taken it back; `taskOf` gives the task that is shown, where it is of
// one, and `boardOf` the board.
export function whenTypedElsewhere(kind, act, taskOf = () => "", boardOf = () => state.number) {
    followers.push((key, content) => state.who && key === keyOf(kind, taskOf(), boardOf()) && act(content));
}

tabs.onmessage = ({ data: { key, text } }) => {
    if (text === null) drafts.delete(key);
    else drafts.set(key, text);
    followers.forEach((follow) => follow(key, JSON.parse(text)));
};

const keysOf = (name) => [...drafts.keys()].filter((key) => key.startsWith(named(name)));

// Those of a person that say something beside how a board was left, and up to where its history was looked at.
export const draftsOf = (name) => keysOf(name).filter((key) => !/ (filters|looked)$/.test(key)).map((key) => JSON.parse(drafts.get(key)));

export function editDrafts(name, kind, edit) {
    for (const key of keysOf(name).filter((key) => key.endsWith(` ${kind}`))) put(key, JSON.stringify(edit(JSON.parse(drafts.get(key)))));
}

export const dropDrafts = (name) => keysOf(name).forEach((key) => put(key, null));

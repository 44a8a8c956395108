// The address: where what is shown stands in it, and how a board is left.
import { GROUPS, SORTS } from "../core/group.js";
import { announce, listen } from "../core/news.js";
import { STATUSES } from "../core/search.js";
import { DUES } from "../core/urgency.js";
import { editDrafts, keepDraft, readDraft } from "./drafts.js";
import { state, VIEWS, WHOLE } from "./store.js";

// The query of an address. The status always stands there: an address without a query is that of a board as it was left, which the device
// keeps.
const queryOf = (filter) => new URLSearchParams(Object.entries(filter).filter(([name, value]) => value !== WHOLE[name] || name === "status")).toString();
// What an address may say where it chooses one of several; what it says else is left out.
const CHOICES = { status: STATUSES, sort: SORTS, group: GROUPS, due: { "": "", ...DUES }, as: { "": "", list: "", columns: "" } };
const isMeant = ([name, value]) => Object.hasOwn(WHOLE, name) && (!Object.hasOwn(CHOICES, name) || Object.hasOwn(CHOICES[name], value));
export const filterOf = (query) => ({ ...WHOLE, ...Object.fromEntries([...new URLSearchParams(query)].filter(isMeant)) });

// The addresses behind the #: My day; or a board, a view, a task where one is open, and what is shown of its tasks.
function addressOf(number, view, chosen) {
    if (view === "day") return state.isMineOnly ? "#/day/mine" : "#/day";
    const query = view === "tasks" && number === state.number ? `?${queryOf(state.filter)}` : "";
    return `#/${number}/${view}${chosen ? `/${chosen}` : ""}${query}`;
}

let [writing, isTyping] = [0, false];

// Keeps on the device how the board is left.
function keepLeft() {
    const query = queryOf(state.filter);
    keepDraft("filters", "", query === queryOf(WHOLE) ? null : query);
}

// Puts what is shown into the address and onto the device, without a step more for Back.
function write() {
    clearTimeout(writing);
    writing = 0;
    const address = addressOf(state.number, state.view, state.chosen);
    // To write what stands there would end a Back that is under way.
    if (location.hash !== address) history.replaceState(null, "", address);
    keepLeft();
}

const writeNow = () => writing && write();

export function go(number, view = "tasks", chosen = "") {
    writeNow();
    location.hash = addressOf(Number(number), view, chosen);
}

// Goes there, so that Back doesn't lead to where one is now.
export const goInstead = (number) => location.replace(addressOf(number, "tasks", ""));

// Filters anew. A text that is being typed is one step for Back, and is written once the typing pauses.
export function setFilter(changes, typed = false) {
    if (!typed || !isTyping) {
        writeNow();
        history.pushState(null, "", location.href);
    }
    isTyping = typed;
    state.filter = { ...state.filter, ...changes };
    clearTimeout(writing);
    if (typed) writing = setTimeout(write, 250);
    else write();
    announce("filter");
}

export const clearFilter = () => setFilter({ ...WHOLE, sort: state.filter.sort, group: state.filter.group, as: state.filter.as });
export const isFiltered = () => queryOf({ ...state.filter, sort: WHOLE.sort, group: WHOLE.group, as: WHOLE.as }) !== queryOf(WHOLE);

export function readRoute() {
    // What was typed just before is how the board is left, also where its address is gone by now.
    if (writing) keepLeft();
    clearTimeout(writing);
    [writing, isTyping] = [0, false];
    const [path, query] = location.hash.split("?");
    const [, number, view, chosen = ""] = path.split("/");
    if (number === "day") return Object.assign(state, { view: "day", chosen: "", isMineOnly: view === "mine" });
    Object.assign(state, { number: Number(number) || 0, view: VIEWS.includes(view) && view !== "day" ? view : "tasks", chosen });
    if (!state.who || !state.number || state.view !== "tasks") return;
    state.filter = filterOf(query ?? readDraft("filters") ?? "");
    write();
}

addEventListener("pagehide", writeNow);
// Who has left leaves the order and the groups of a board, and none of its words.
const wordless = (query) => queryOf({ ...filterOf(query), text: "", project: "", tag: "", assignee: "" });
listen("left", (name) => {
    clearTimeout(writing);
    [writing, isTyping] = [0, false];
    editDrafts(name, "filters", wordless);
});

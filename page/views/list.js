// The list of a board's tasks.
import { counted } from "../core/format.js";
import { grouped } from "../core/group.js";
import { listen } from "../core/news.js";
import { shown } from "../core/search.js";
import { waiting } from "../sync/outbox.js";
import { clearFilter, isFiltered, setFilter } from "../store/route.js";
import { setOrder } from "../store/selection.js";
import { here, state } from "../store/store.js";
import { button, find, make, refill } from "../ui/element.js";
import { List } from "../ui/windowed.js";
import { showColumns } from "./columns.js";
import { pickByKey } from "./picking.js";
import { lookOf, makeRow, setUnanswered } from "./row.js";
import { startAdding } from "./sidebar.js";

export const MARKUP = `
<p id="unknown-task" class="notice" role="alert" hidden>The task of this address isn't on this board.</p>
<div id="nothing" class="empty"></div>
<p id="loading" class="empty" role="status" hidden>Asking the server for the tasks.</p>
<div id="list" role="list" aria-label="Tasks: arrows move, Enter opens, e completes or reopens, d changes the date, a the person, x chooses" hidden></div>
`;

let list;

// Shows the tasks that pass the filters, and gives how many they are. In columns their status is told by the column.
function show(isAsked) {
    const { board, filter, who } = state;
    if (filter.as === "columns") {
        setOrder([]);
        return showColumns(shown(board, { ...filter, status: "all" }, who.name));
    }
    const tasks = shown(board, filter, who.name);
    const items = grouped(tasks, filter.group);
    setOrder(items === tasks ? tasks : items.filter((item) => item.heading === undefined));
    list.show(items, isAsked);
    return tasks.length;
}

// What a list without tasks says: how to find others, or how to begin.
function nothing(hasTasks) {
    if (!hasTasks) return here()?.role === "reader" ? "Nothing is here yet." : teach();
    const ways = [button("Show all", clearFilter), state.filter.status === "all" || state.filter.as === "columns" ? "" : button("Search done tasks too", () => setFilter({ status: "all" }))];
    return make("div", { class: "teach" }, make("strong", {}, "Nothing found."), isFiltered() ? make("span", { class: "line" }, ways) : "All is done here.");
}

const EXAMPLES = ["Call the bakery friday @phone", "Water the plants every monday 18:00", "Book the hall for:me !1"];

// The first steps on a board: an example goes into the line, where it can be changed.
function teach() {
    const take = (text) => {
        find("add-line").value = text;
        find("add-line").dispatchEvent(new Event("input", { bubbles: true }));
        startAdding();
    };
    return make(
        "div",
        { class: "teach" },
        make("strong", {}, "Nothing is here yet."),
        "Type a task as you would say it, a day or a name in it is understood. Try one of these:",
        make("span", { class: "line" }, EXAMPLES.map((text) => button(text, () => take(text)))),
        "Or paste a list into the line: each of its lines becomes a task.",
        make("span", { class: "line" }, make("a", { class: "button", href: `#/${state.number}/people` }, here()?.role === "owner" ? "Invite your group" : "Who is on this board"), make("a", { class: "button", href: `#/${state.number}/files` }, "Import a file")),
    );
}

function draw(isAsked) {
    const { board, filter } = state;
    const isShown = state.view === "tasks" && board?.number === state.number;
    find("loading").hidden = isShown || !state.number;
    find("list").hidden = !isShown || filter.as === "columns";
    find("columns").hidden = !isShown || filter.as !== "columns";
    find("list").classList.toggle("assigned", isShown && board.assignees.length > 0);
    const count = isShown ? show(isAsked === true) : 0;
    // (what repeats is in a view of its own)
    const all = isShown ? board.tasks.length - board.templates.length : 0;
    find("count").textContent = isShown ? `${counted(count)} of ${counted(all)} tasks` : "";
    refill(find("nothing"), isShown && count === 0 ? nothing(board.tasks.length > 0) : "");
    find("unknown-task").hidden = !isShown || !state.chosen || board.byId.has(state.chosen);
}

// The rows of tasks with a change that isn't answered yet say so.
function drawUnanswered() {
    setUnanswered(waiting().filter((one) => one.board === state.number).map((one) => one.task));
    list.draw();
}

export function beginList() {
    list = new List(find("list"), makeRow, lookOf);
    listen("kept", drawUnanswered);
    listen("filter", () => draw(true));
    listen("people", draw);
    listen("picked", () => list.draw());
    find("list").addEventListener("keydown", (event) => here()?.role === "reader" || pickByKey(event));
    listen("route", () => [drawUnanswered, draw].forEach((part) => part()));
    listen("board", () => [drawUnanswered, draw].forEach((part) => part()));
}

// The side bar: who is in, what leads everywhere, and the boards, those with a star first. On phones and in narrow windows it comes over the page.
import { counted, oneLine } from "../core/format.js";
import { listen } from "../core/news.js";
import { NOTED } from "../store/fresh.js";
import { go } from "../store/route.js";
import { state } from "../store/store.js";
import { fill, find, make, span } from "../ui/element.js";
import { dot, face } from "../ui/face.js";
import { icon } from "../ui/icons.js";
import { steerChoices } from "../ui/popover.js";

export const MARKUP = `
<nav id="side" class="side" aria-label="Boards and views">
    <div class="me">
        <button id="account" type="button" class="quiet" title="Account: change my key"><span id="my-face"></span><bdi id="who"></bdi></button>
        <button id="show-keys" type="button" class="tool only" data-icon="question" aria-label="Keyboard shortcuts" title="Keyboard shortcuts" aria-keyshortcuts="?"></button>
        <button id="sign-out" type="button" class="tool only" data-icon="leave" aria-label="Sign out" title="Sign out"></button>
    </div>
    <button id="side-add" type="button" class="entry adds of-board of-member" data-icon="add">Add a task <kbd>n</kbd></button>
    <button id="side-search" type="button" class="entry of-board" data-icon="search">Search <kbd>/</kbd></button>
    <button id="side-palette" type="button" class="entry" data-icon="next">Go to <kbd>Ctrl K</kbd></button>
    <a id="to-day" class="entry" data-icon="day" aria-keyshortcuts="0"><span class="name">My day</span></a>
    <h2><span id="boards-name">Boards</span> <button id="new-board" type="button" class="tool only" data-icon="add" aria-label="New board" title="New board"></button></h2>
    <ul id="boards" aria-labelledby="boards-name"></ul>
</nav>
<button id="boards-back" type="button" aria-label="Close the boards" tabindex="-1"></button>
`;

export const TABS = `
<nav class="tabs" aria-label="Everywhere">
    <a id="tab-day" href="#/day" data-icon="day">My day</a>
    <button id="tab-boards" type="button" data-icon="board" aria-expanded="false" aria-controls="side">Boards</button>
    <button id="tab-add" type="button" class="adds of-member" data-icon="add" aria-label="Add a task"></button>
    <button id="tab-search" type="button" data-icon="search">Search</button>
</nav>
`;

const narrow = matchMedia("(max-width: 62.49rem)");
const phone = matchMedia("(max-width: 44rem)");

// What this device knows of someone's boards beside what the server says: which have a star, and how many open tasks each had when it was seen.
const keyOf = (name) => NOTED + name;
const EMPTY = { stars: [], counts: {} };
const known = () => JSON.parse(localStorage.getItem(keyOf(state.who.name))) ?? EMPTY;

function remember(change) {
    try {
        localStorage.setItem(keyOf(state.who.name), JSON.stringify({ ...known(), ...change }));
    } catch (fault) {
        console.warn(fault);
    }
}

export const isStarred = (number) => known().stars.includes(number);

export function toggleStar(number) {
    const { stars } = known();
    remember({ stars: stars.includes(number) ? stars.filter((other) => other !== number) : [...stars, number] });
    drawBoardList();
}

// The open tasks of a board are counted where its tasks came.
function countTasks(board) {
    const { counts } = known();
    const count = board.tasks.filter((task) => task.isListed).length;
    if (counts[board.number] === count) return;
    remember({ counts: { ...counts, [board.number]: count } });
    drawBoardList();
}

function boardLink({ board, title }, { stars, counts }) {
    const isShown = state.view !== "day" && board === state.number;
    const count = counts[board];
    const about = { class: "entry", href: `#/${board}/tasks`, "aria-current": isShown ? "page" : null, title: isShown ? "Go to the boards" : null, "aria-keyshortcuts": isShown ? "b" : null };
    const star = stars.includes(board) ? [icon("star", "small"), span("hidden", " (with a star)")] : [];
    const told = count === undefined ? "" : span("count", counted(count), span("hidden", count === 1 ? " open task" : " open tasks"));
    return make("li", {}, make("a", { ...about, "data-focus": "" }, dot(board), make("bdi", { class: "name" }, oneLine(title, 60)), star, told));
}

// Drawn anew, the list leaves the focus where it was.
function drawBoardList() {
    if (!state.who) return;
    const device = known();
    const ordered = [...state.boards.filter(({ board }) => device.stars.includes(board)), ...state.boards.filter(({ board }) => !device.stars.includes(board))];
    const rows = ordered.map((one) => boardLink(one, device));
    const list = find("boards");
    const at = [...list.querySelectorAll("a")].indexOf(document.activeElement);
    if (rows.map((row) => row.outerHTML).join("") === list.innerHTML) return;
    fill(list, rows);
    if (at >= 0) list.querySelectorAll("a")[Math.min(at, rows.length - 1)]?.focus({ preventScroll: true });
    list.querySelector("[aria-current]")?.scrollIntoView({ block: "nearest" });
}

const isShown = () => document.body.classList.contains("with-side");

// Shows the side bar over the page, where it doesn't stand beside it; what is behind takes no focus meanwhile.
function showSide(isWanted) {
    if (isShown() === isWanted) return;
    document.body.classList.toggle("with-side", isWanted);
    document.querySelector(".page").inert = isWanted && narrow.matches;
    for (const id of ["open-side", "tab-boards"]) find(id).setAttribute("aria-expanded", isWanted);
    if (isWanted) (find("boards").querySelector("[aria-current], a") ?? find("new-board")).focus();
    else (phone.matches ? find("tab-boards") : find("open-side")).focus({ preventScroll: true });
}

const goToTasks = () => state.view === "tasks" || go(state.number || state.boards[0]?.board, "tasks");

// Leads to the line that adds a task, from any view; on phones it comes up from the foot.
export function startAdding() {
    showSide(false);
    goToTasks();
    setTimeout(() => {
        find("add-form").classList.add("shown");
        find("add-line").focus();
    });
}

function startSearching() {
    showSide(false);
    goToTasks();
    setTimeout(() => {
        document.querySelector(".searching").classList.add("shown");
        find("filter-text").focus();
    });
}

export function beginSide() {
    find("side-add").addEventListener("click", startAdding);
    find("tab-add").addEventListener("click", startAdding);
    find("side-search").addEventListener("click", startSearching);
    find("tab-search").addEventListener("click", startSearching);
    find("open-side").addEventListener("click", () => showSide(true));
    find("tab-boards").addEventListener("click", () => showSide(!isShown()));
    find("boards-back").addEventListener("click", () => showSide(false));
    find("side").addEventListener("click", ({ target }) => target.closest("a") && showSide(false));
    find("side").addEventListener("keydown", (event) => {
        if (event.key !== "Escape" || !isShown()) return;
        event.preventDefault();
        showSide(false);
    });
    steerChoices(find("boards"), "a");
    listen("signed", () => fill(find("my-face"), face(state.who.name)));
    listen("boards", drawBoardList);
    listen("board", () => state.board && countTasks(state.board));
    listen("route", () => {
        showSide(false);
        drawBoardList();
        find("tab-day").ariaCurrent = state.view === "day" ? "page" : null;
        find("tab-boards").ariaCurrent = state.view === "day" ? null : "page";
    });
}

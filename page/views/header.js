// The header: which board or view is shown, who is on it, its layouts, search and filters, and a menu with all that is rarer.
import { oneLine } from "../core/format.js";
import { listenAll } from "../core/news.js";
import { here, state } from "../store/store.js";
import { fill, find } from "../ui/element.js";
import { face } from "../ui/face.js";
import { attachPopover, steerChoices } from "../ui/popover.js";
import { HEADER as FILTER } from "./filter.js";
import { isStarred, toggleStar } from "./sidebar.js";

const MOST_FACES = 4;
const NAMES = { tasks: "", repeating: "Repeating tasks", people: "People", files: "Import and export", history: "History", day: "" };

export const MARKUP = `
<header>
    <button id="open-side" type="button" class="tool only" data-icon="menu" aria-label="Boards" title="Boards" aria-expanded="false" aria-controls="side"></button>
    <h1 id="heading" class="cut" tabindex="-1"></h1><span id="heading-view" class="about"></span>
    <button id="star" type="button" class="tool only of-board" data-icon="star" aria-label="Star: show this board first" title="Star: show this board first" aria-pressed="false"></button>
    <span class="grow"></span>
    ${FILTER}
    <a id="invite-here" class="tool of-board"><span id="faces" class="faces"></span><span id="invite-word">People</span></a>
    <button id="more" type="button" class="tool only of-board" data-icon="more" aria-label="More of this board" title="More of this board" aria-haspopup="true"></button>
    <div id="more-menu" class="menu" popover role="group" aria-label="More of this board">
        <a id="to-tasks" data-icon="list" aria-keyshortcuts="1">Tasks</a>
        <a id="to-repeating" data-icon="repeat" aria-keyshortcuts="2">Repeating tasks</a>
        <a id="to-people" data-icon="people" aria-keyshortcuts="3">People</a>
        <a id="to-files" data-icon="file" aria-keyshortcuts="4">Import &amp; export</a>
        <a id="to-history" data-icon="history" aria-keyshortcuts="5" hidden>History</a>
        <hr>
        <button id="other-layout" type="button" class="of-phone of-tasks" data-icon="board">Show columns</button>
        <button id="choose" type="button" data-icon="check" aria-pressed="false">Choose several</button>
        <button id="print" type="button" data-icon="print">Print</button>
    </div>
</header>
`;

function drawPeople() {
    const people = state.people ?? [];
    fill(find("faces"), people.slice(0, MOST_FACES).map(({ name }) => face(name)));
    find("invite-word").textContent = here()?.role === "owner" ? "Invite" : "People";
    find("invite-here").title = people.length > 0 ? `On this board: ${people.map(({ name }) => name).join(", ")}` : "Who is on this board";
}

// What of the header goes by the view.
export function drawHeader() {
    const isOfTasks = state.view === "tasks";
    find("heading-view").textContent = NAMES[state.view] ?? "";
    find("star").hidden = state.view === "day";
    for (const id of ["invite-here", "more"]) find(id).hidden = state.view === "day";
    for (const part of /** @type {NodeListOf<HTMLElement>} */ (document.querySelectorAll("header .of-tasks"))) part.hidden = !isOfTasks;
    find("invite-here").href = `#/${state.number}/people`;
    find("other-layout").lastChild.textContent = state.filter.as === "columns" ? "Show a list" : "Show columns";
    if (state.who) find("star").ariaPressed = isStarred(state.number);
    drawPeople();
}

export function beginHeader() {
    attachPopover(find("more"), find("more-menu"));
    steerChoices(find("more-menu"), "a, button");
    find("more-menu").addEventListener("click", ({ target }) => target.closest("a, button") && find("more-menu").hidePopover());
    find("other-layout").addEventListener("click", () => find(state.filter.as === "columns" ? "as-list" : "as-columns").click());
    find("print").addEventListener("click", () => setTimeout(print));
    find("star").addEventListener("click", () => {
        toggleStar(state.number);
        drawHeader();
    });
    listenAll(["people", "boards", "route", "filter"], drawHeader);
}

export const titleOf = () => (state.view === "day" ? "My day" : oneLine(here()?.title ?? ""));

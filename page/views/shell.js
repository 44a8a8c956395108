// What stands around the views: the bar above them, what the page tells, which board and which view are shown.
import { oneLine } from "../core/format.js";
import { announce, listen } from "../core/news.js";
import { lookAgain, lookAtBoards, lookWhereMissing } from "../store/fresh.js";
import { goInstead, readRoute } from "../store/route.js";
import { here, state, VIEWS } from "../store/store.js";
import { find } from "../ui/element.js";
import { MARKUP as TOAST } from "../ui/toast.js";
import { MARKUP as ADD_LINE } from "./addline.js";
import { MARKUP as AGE } from "./age.js";
import { MARKUP as BULK } from "./bulk.js";
import { DIALOG as WAIT, MARKUP as COLUMNS } from "./columns.js";
import { MARKUP as DAY } from "./day.js";
import { MARKUP as FILES } from "./files.js";
import { MARKUP as FILTER } from "./filter.js";
import { MARKUP as HISTORY, NEWS } from "./history.js";
import { DIALOG as KEYS } from "./keyboard.js";
import { drawHeader, MARKUP as HEADER, titleOf } from "./header.js";
import { MARKUP as LIST } from "./list.js";
import { DIALOG as END } from "./makerepeat.js";
import { NOTICES, STATE, UNANSWERED } from "./needs.js";
import { DIALOG as BOARD_DIALOG } from "./newboard.js";
import { DIALOG as RENEW, MARKUP as FULL } from "./nextboard.js";
import { MARKUP as PANEL } from "./panel.js";
import { DIALOG as PALETTE } from "./palette.js";
import { MARKUP as PEOPLE } from "./people.js";
import { MARKUP as REPEAT } from "./repeat.js";
import { DIALOG as ACCOUNT } from "./settings.js";
import { MARKUP as SIDE, TABS } from "./sidebar.js";
import { MARKUP as SIGN_IN } from "./signin.js";
import { DIALOG as LEAVE } from "./signout.js";

const TOLD = `
<div class="told">
    ${UNANSWERED}
    <p id="renewed" class="notice line spread" role="status" hidden><span>The server has a newer version of this page.</span> <button id="load-renewed" type="button">Load it now</button></p>
    ${AGE}
    ${NEWS}
    ${NOTICES}
    <div id="no-board" class="empty" hidden>
        <div class="teach"><strong>You are on no board yet.</strong>
            <span>A board is a list of tasks that your group shares. Make one, or tell an owner your name, <bdi id="no-board-name"></bdi>: once they let you in, it opens here.</span>
            <button id="make-first" type="button" class="primary">Make a board</button>
        </div>
    </div>
    <p id="unknown-board" class="empty" role="alert" hidden></p>
</div>
`;

const TASKS = `<section id="tasks-view" aria-label="Tasks">${FULL}${ADD_LINE}${FILTER}${LIST}${COLUMNS}${BULK}</section>`;
const VIEWS_SHOWN = `<main>${TASKS}${DAY}${REPEAT}${PEOPLE}${FILES}${HISTORY}</main>`;
const DIALOGS = [PALETTE, KEYS, WAIT, RENEW, BOARD_DIALOG, ACCOUNT, END, LEAVE].join("");

// The whole page, of which each view brings its own part.
export const PAGE = `${SIGN_IN}
<div id="app" tabindex="-1" hidden>${SIDE}<div class="page">${HEADER}${TOLD}<div id="views" class="views">${VIEWS_SHOWN}${PANEL}</div></div>${STATE}${TABS}${TOAST}${DIALOGS}</div>`;

function drawBoards() {
    find("no-board").hidden = state.boards.length > 0;
    find("no-board-name").textContent = state.who?.name ?? "";
    const isDay = state.view === "day";
    if (!isDay && !state.number && state.boards.length > 0) return goInstead(state.boards[0].board);
    const isKnown = isDay ? state.boards.length > 0 : Boolean(here());
    find("unknown-board").hidden = isKnown || state.boards.length === 0;
    find("unknown-board").textContent = `You have no role on board ${state.number}, or it isn't there. Choose another board, or ask an owner to let you in.`;
    document.body.classList.toggle("without-board", !isKnown);
    find("views").hidden = !isKnown;
    document.body.classList.toggle("reader", !isDay && here()?.role === "reader");
    const title = titleOf();
    find("heading").textContent = title;
    // (what others did is counted there while it is told)
    const [count] = find("news").hidden ? [""] : document.title.match(/^(\(\d+\) )?/);
    document.title = title ? `${count}${oneLine(title, 60)} · taskboard` : "taskboard";
}

// Where the server doesn't answer and this device has no copy of the boards, there is nothing else to show.
function drawUnreached(isReached) {
    if (isReached || state.boards.length > 0 || !find("no-board").hidden) return;
    find("unknown-board").textContent = "The server doesn't answer, and this device hasn't seen your boards. They come when it answers.";
    find("unknown-board").hidden = false;
}

export async function showRoute() {
    const before = `${state.number} ${state.view}`;
    readRoute();
    if (before !== `${state.number} ${state.view}`) scrollTo(0, 0);
    if (state.boards.length > 0 && state.number && !here()) await lookAtBoards().catch(console.error);
    for (const view of VIEWS) {
        find(`${view}-view`).hidden = view !== state.view;
        find(`to-${view}`).href = view === "day" ? "#/day" : `#/${state.number || (state.boards[0]?.board ?? 0)}/${view}`;
        find(`to-${view}`).ariaCurrent = view === state.view ? "page" : null;
    }
    drawHeader();
    if (!state.who) return;
    if (state.boards.length > 0) drawBoards();
    announce("route");
    lookWhereMissing();
}

export function beginShell() {
    find("make-first").addEventListener("click", () => find("new-board").click());
    addEventListener("hashchange", showRoute);
    listen("boards", () => [drawBoards, lookAgain].forEach((part) => part()));
    listen("reach", drawUnreached);
}

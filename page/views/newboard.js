// Making a board.
import { changes } from "../core/calls.js";
import { listen } from "../core/news.js";
import { faultInTitle } from "../core/rules.js";
import { keepFrom } from "../sync/outbox.js";
import { lookAtBoards } from "../store/fresh.js";
import { go } from "../store/route.js";
import { check, isWhole, whenSent } from "../ui/check.js";
import { button, find, make, said } from "../ui/element.js";
import { toast } from "../ui/toast.js";
import { tellFault } from "./faults.js";
import { FormDraft } from "./formdraft.js";

export const DIALOG = `
<dialog id="board-dialog" aria-label="New board">
    <form id="board-form">
        <h2>New board</h2>
        <label class="field"><span>Title</span><input id="board-title" dir="auto" autocomplete="off" required></label>
        <div class="line"><button class="primary">Make the board</button><button id="cancel-board" type="button">Cancel</button></div>
    </form>
</dialog>
`;

let madeHere = "";

// The board that this tab made is shown once its number is there. Where that took a broken line its person does something else by then, and is
// offered the board.
async function showMade({ change, status, body }) {
    if (status !== 200 || change.path !== "/boards" || change.subject !== madeHere) return;
    madeHere = "";
    await lookAtBoards();
    const show = () => go(body.board);
    if (change.isOld) toast(make("span", {}, "Made the board ", make("q", {}, said(change.subject, 120))), button("Show it", show));
    else show();
}

// Asks for the title of a new board, which stays as a draft until it is sent or taken back.
export function beginNewBoard() {
    const draft = new FormDraft("board", { form: "board-form", words: ["board-title"], isOfServer: true });
    find("new-board").addEventListener("click", () => find("board-dialog").showModal());
    find("cancel-board").addEventListener("click", () => {
        find("board-dialog").close();
        draft.drop();
        draft.show();
    });
    check(find("board-title"), (text) => faultInTitle(text.trim()));
    whenSent("board-form", (form) => {
        if (!isWhole(form)) return;
        madeHere = find("board-title").value.trim();
        find("board-dialog").close();
        if (madeHere) draft.send(() => keepFrom(form, changes.board(madeHere))).catch(tellFault);
    });
    listen("answered", (news) => showMade(news).catch(() => {}));
}

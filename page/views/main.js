// The page as a whole: who is signed in, which board and which view are shown.
import { announce } from "../core/news.js";
import { beginSending } from "../sync/outbox.js";
import { beginBoards } from "../store/boards.js";
import { openDrafts } from "../store/drafts.js";
import { beginFollowing } from "../store/follow.js";
import { beginFresh, lookAgain } from "../store/fresh.js";
import { beginBoardPeople } from "../store/people.js";
import { beginSelection } from "../store/selection.js";
import { state } from "../store/store.js";
import { find } from "../ui/element.js";
import { beginFocus } from "../ui/focus.js";
import { drawIcons } from "../ui/icons.js";
import { beginToast } from "../ui/toast.js";
import { beginAddLine } from "./addline.js";
import { beginAge } from "./age.js";
import { beginBulk } from "./bulk.js";
import { beginColumns } from "./columns.js";
import { beginDay } from "./day.js";
import { beginEdit } from "./edit.js";
import { tellFault } from "./faults.js";
import { beginFiles } from "./files.js";
import { beginFilter } from "./filter.js";
import { beginHeader } from "./header.js";
import { beginHistory } from "./history.js";
import { beginInvite } from "./invite.js";
import { beginKeyboard } from "./keyboard.js";
import { beginList } from "./list.js";
import { beginMakeRepeat } from "./makerepeat.js";
import { beginNeeds } from "./needs.js";
import { beginNewBoard } from "./newboard.js";
import { beginNextBoard } from "./nextboard.js";
import { beginOwners } from "./owners.js";
import { beginPalette } from "./palette.js";
import { beginPanel } from "./panel.js";
import { beginPeople } from "./people.js";
import { beginRepeat } from "./repeat.js";
import { beginSettings } from "./settings.js";
import { beginShell, PAGE, showRoute } from "./shell.js";
import { beginSide } from "./sidebar.js";
import { beginSignIn, keepUnused } from "./signin.js";
import { beginUndoing } from "./undoing.js";
import { beginOffline } from "../start.js";

// Shows the boards of someone whose name and key are known. Where the server is away the page waits for it.
function enter(who) {
    Object.assign(state, { who, board: null, boards: [] });
    find("sign-in").hidden = true;
    find("app").hidden = false;
    // (in the list of boards, where it would go by itself, letters and arrows choose another board)
    find("app").focus({ preventScroll: true });
    find("who").textContent = who.name;
    announce("signed");
    showRoute();
    beginSending().catch(tellFault);
    lookAgain(true);
}

const PARTS = [
    beginToast,
    beginNeeds,
    beginBoardPeople,
    beginAddLine,
    beginFilter,
    beginSelection,
    beginList,
    beginColumns,
    beginBulk,
    beginEdit,
    beginPanel,
    beginHistory,
    beginMakeRepeat,
    beginRepeat,
    beginInvite,
    beginPeople,
    beginOwners,
    beginSettings,
    beginFiles,
    beginNextBoard,
    beginDay,
    beginBoards,
    beginFollowing,
    beginFresh,
    beginAge,
    beginOffline,
    beginFocus,
    beginKeyboard,
    beginNewBoard,
    beginUndoing,
    beginPalette,
    beginSide,
    beginHeader,
    beginShell,
];

async function begin() {
    await openDrafts();
    document.body.insertAdjacentHTML("beforeend", PAGE);
    drawIcons();
    keepUnused();
    for (const beginPart of PARTS) beginPart();
    beginSignIn(enter);
}

await begin();

// Says how old the tasks are that are shown.
import { agoInWords } from "../core/moments.js";
import { listen, listenAll } from "../core/news.js";
import { state } from "../store/store.js";
import { find } from "../ui/element.js";

export const MARKUP = `<p id="age" class="notice" role="status" hidden>The server doesn't answer yet. The tasks are shown as they were seen here <span id="age-ago" aria-live="off"></span>.</p>`;

// How long a board that was seen before is shown without its age, in milliseconds; and whether the server answers.
const PATIENCE = 1500;
let isReached = true;

function write(id, text) {
    if (find(id).textContent !== text) find(id).textContent = text;
}

// Says how old the tasks are where the server doesn't answer, or takes its time to answer for the first time.
function drawAge() {
    const { board, number } = state;
    const isShown = board?.number === number;
    const isOld = isShown && (!isReached || (board.isSeen && Date.now() - board.shownAt > PATIENCE));
    if (find("age").hidden === isOld) find("age").hidden = !isOld;
    if (isOld) write("age-ago", agoInWords(board.at));
    write("loading", isReached ? "Asking the server for the tasks." : "The server doesn't answer, and this device hasn't seen these tasks. They come when it answers.");
}

export function beginAge() {
    listenAll(["board", "route", "second"], drawAge);
    listen("reach", (reached) => {
        isReached = reached;
        drawAge();
    });
}

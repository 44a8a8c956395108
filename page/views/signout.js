// What is on this device for people who aren't signed in, and signing out, which asks about what isn't sent yet.
import { isOwnKey } from "../core/calls.js";
import { counted } from "../core/format.js";
import { allKept, forget, settled, waiting } from "../sync/outbox.js";
import * as device from "../sync/queue.js";
import { canSeal } from "../sync/seal.js";
import { draftsOf, dropDrafts } from "../store/drafts.js";
import { state } from "../store/store.js";
import { button, fill, find, make, said } from "../ui/element.js";

export const DIALOG = `<dialog id="leave-dialog" aria-label="Signing out"><h2>Sign out</h2><div id="leave-parts" class="parts"></div></dialog>`;

const MOST_SHOWN = 20;
const changesIn = (count) => `${counted(count)} ${count === 1 ? "change" : "changes"}`;

// Says on the page for signing in how many changes wait on this device, and for whom.
export async function drawWaiting() {
    const all = await device.everyones().catch(() => []);
    const byMember = Object.groupBy(all.filter((one) => ["waiting", "asks", "refused"].includes(one.state)), (one) => one.member);
    const row = ([name, changes]) => {
        const waits = changes.filter((one) => one.state !== "refused").length;
        const refused = changes.length - waits;
        const parts = [waits > 0 && `${changesIn(waits)} not sent yet`, refused > 0 && `${changesIn(refused)} refused`].filter(Boolean);
        return make("li", {}, said(name), `: ${parts.join(", ")}`);
    };
    const rows = Object.entries(byMember).map(row);
    fill(find("sign-in-waiting"), rows);
    find("sign-in-waiting-part").hidden = rows.length === 0;
}

// A draft in few words.
function draftText(draft) {
    if (typeof draft === "string") return draft;
    return draft.line || draft.typed?.description || Object.values(draft.typed ?? {}).filter(Boolean).join(" ");
}

function unsent() {
    const changes = [...waiting(), ...settled().filter((one) => one.state === "refused" || one.state === "asks")];
    const drafts = draftsOf(state.who.name).map(draftText).filter(Boolean);
    const rows = [
        ...changes.map((one) => make("li", {}, `${one.verb} `, make("q", {}, said(one.subject, 120)), one.state === "refused" ? " (refused)" : "")),
        ...drafts.map((text) => make("li", {}, "Begun: ", make("q", {}, said(text, 120)))),
    ];
    return { changes, rows };
}

// A key isn't left behind where it can't be hidden.
const cantStay = (change) => change.isSecret && !canSeal();

// Signs out; where something isn't sent yet, once its person has chosen what becomes of it.
export function signOut(leave) {
    const { changes, rows } = unsent();
    if (rows.length === 0) return leave();
    const end = (isGone, drops) => async () => {
        await allKept();
        await forget(...unsent().changes.filter(isGone));
        if (drops) dropDrafts(state.who.name);
        leave();
    };
    const told = [
        changes.some(cantStay) && "Without TLS this browser can't hide keys, so a change that has one is thrown away in either case.",
        changes.some(isOwnKey) && "The change of your key may have acted already. Kept, it is finished when you sign in with either key. Thrown away, it leaves you with one of the two: try both.",
    ].filter(Boolean);
    const begun = rows.length > changes.length ? " What is begun isn't sent: it stands in its form again then." : "";
    fill(
        find("leave-parts"),
        make("p", {}, `This isn't sent yet, ${counted(rows.length)} in all. Keep it here, and it is sent when ${state.who.name} signs in on this device again.${begun}`),
        make("ul", { class: "lines" }, rows.slice(0, MOST_SHOWN), rows.length > MOST_SHOWN ? make("li", {}, `and ${counted(rows.length - MOST_SHOWN)} more`) : ""),
        told.map((text) => make("p", { class: "fault" }, text)),
        make("div", { class: "line" },
            button("Keep it and sign out", end(cantStay, false), { class: "primary", id: "leave-keep" }),
            button("Throw it away and sign out", end(() => true, true), { class: "danger", id: "leave-drop" }),
            button("Stay signed in", () => find("leave-dialog").close())),
    );
    find("leave-dialog").showModal();
}

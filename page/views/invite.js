// The sign-in keys that were told in this sitting, each with a link that fills the sign-in form: they stand until they are dismissed, over all
// views, and are kept nowhere.
import { listen, listenAll } from "../core/news.js";
import { waiting } from "../sync/outbox.js";
import { button, fill, find, make, said, span } from "../ui/element.js";
import { toast } from "../ui/toast.js";

export const MARKUP = `<ul id="person-told" class="notices" aria-label="Sign-in keys" role="status" hidden></ul>`;

// Each with its name, the last first.
let keys = [];

// The name and the key stand behind the #, which a browser sends to nobody.
const linkFor = ({ name, key }) => `${location.origin}${location.pathname}#in=${name}.${encodeURIComponent(key)}`;

// Puts a text where Paste takes it from. A browser does so on https and on the loopback alone; elsewhere the text is marked, to be copied by hand.
async function copy(text, place) {
    try {
        await navigator.clipboard.writeText(text);
        toast("Copied.");
    } catch {
        getSelection().selectAllChildren(place);
    }
}

// A key holds once the change that sets it is saved.
const isUnsaved = ({ name }) => waiting().some(({ isSecret, subject }) => isSecret && subject === name);

function row(one) {
    const [link, key] = [make("code", { class: "link-text" }, linkFor(one)), make("code", {}, one.key)];
    const told = make("div", {}, make("p", {}, isUnsaved(one) ? span("until", "Once this is saved, ") : "", said(one.name), " signs in with the key ", key, ", or by this link. Send it to nobody else."), link);
    const ways = [
        button("Copy the link", () => copy(linkFor(one), link), { class: "primary", "aria-label": `Copy the link of ${one.name}` }),
        button("Copy the key", () => copy(one.key, key), { "aria-label": `Copy the key of ${one.name}` }),
        button("Dismiss", () => forgetKey(one.name), { class: "quiet", "aria-label": `Dismiss the key of ${one.name}` }),
    ];
    return make("li", { class: "notice" }, told, make("div", { class: "line" }, ways));
}

function draw() {
    const place = find("person-told");
    if (!place) return;
    const look = JSON.stringify(keys.map((one) => [one.name, one.key, isUnsaved(one)]));
    if (place.dataset.look === look) return;
    place.dataset.look = look;
    fill(place, keys.map(row));
    place.hidden = keys.length === 0;
}

export function forgetKey(name) {
    keys = keys.filter((other) => other.name !== name);
    draw();
}

export function tellKey(name, key) {
    keys = [{ name, key }, ...keys.filter((other) => other.name !== name)];
    draw();
    find("person-told").scrollIntoView({ block: "center" });
}

export function beginInvite() {
    listenAll(["kept", "answered"], draw);
    listen("left", () => (keys = []));
}

// Addresses in texts as links: those of http, https and mailto, and nothing else.
import { make } from "./element.js";

const ADDRESS = /\b(?:https?:\/\/|mailto:)[^\s<>"'`\p{C}]+/giu;
const PROTOCOLS = ["http:", "https:", "mailto:"];
const MARKS = ".,;:!?…";
const PAIRS = { ")": "(", "]": "[", "}": "{" };

const countOf = (text, mark) => text.split(mark).length - 1;

// An address without what belongs to the sentence around it: marks at its end, and brackets that it doesn't open.
function trimmed(text) {
    const unopened = Object.fromEntries(Object.entries(PAIRS).map(([closing, opening]) => [closing, countOf(text, closing) - countOf(text, opening)]));
    let end = text.length;
    for (; end > 0; end--) {
        const last = text[end - 1];
        if (MARKS.includes(last)) continue;
        if (!(unopened[last] > 0)) break;
        unopened[last] -= 1;
    }
    return text.slice(0, end);
}

function linkTo(address) {
    if (!/** @type {any} */ (URL).canParse(address)) return address;
    const { protocol, hostname, pathname } = new URL(address);
    if (!PROTOCOLS.includes(protocol) || !(hostname || pathname)) return address;
    return make("a", { href: address, rel: "noopener noreferrer", target: protocol === "mailto:" ? null : "_blank" }, address);
}

// A text as pieces of text and links.
export function linked(text) {
    const pieces = [];
    let from = 0;
    for (const { 0: found, index } of text.matchAll(ADDRESS)) {
        const address = trimmed(found);
        pieces.push(text.slice(from, index), linkTo(address));
        from = index + address.length;
    }
    return [...pieces, text.slice(from)];
}

// A search: words that all have to be there, in any order; "words in quotes" as they stand; -word must not be there. Neither capitals nor accents
// count, so kuche finds Küche.
import { folded } from "./format.js";

// The parts of a search, each as typed, without its quotes and its minus. An open quote, as while someone types, reaches to the end.
export function partsOf(query) {
    const found = [...query.matchAll(/(-?)"([^"]*)(?:"|$)|(-?)(\S+)/g)];
    return found
        .map(({ 1: quotedMinus = "", 2: phrase, 3: minus = "", 4: word }) => ({ text: phrase ?? word, isPhrase: phrase !== undefined, isNot: (quotedMinus || minus) === "-" }))
        .filter(({ text }) => text.trim() !== "");
}

const hasText = ({ text }) => {
    const wanted = folded(text);
    return (task) => task.searched.includes(wanted);
};

// The tests that a search makes of a task, whose `searched` is folded. `testOf` may give a test of its own for a word, such as +Home or due:today.
/** @param {string} query @param {(word: string) => any} testOf */
export function testsOf(query, testOf = () => null) {
    return partsOf(query).map((part) => {
        const test = (!part.isPhrase && testOf(part.text)) || hasText(part);
        return part.isNot ? (task) => !test(task) : test;
    });
}

// How well a text fits what is typed, for a list of choices: 0 not at all; more where a word begins so, and most where the whole does.
export function fitOf(text, typed) {
    const [whole, wanted] = [folded(text), folded(typed.trim())];
    if (wanted === "") return 1;
    if (whole.startsWith(wanted)) return 3;
    const words = wanted.split(/\s+/);
    if (!words.every((word) => whole.includes(word))) return 0;
    return words.every((word) => whole.split(/[\s.,:;/-]+/).some((part) => part.startsWith(word))) ? 2 : 1;
}

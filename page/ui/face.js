// A person's first letter in a circle, and the colour by which people and boards are told apart beside their names.
import { oneLine } from "../core/format.js";
import { make } from "./element.js";

const HUES = 8;

const hueOf = (text) => `hue-${[...text].reduce((sum, letter) => (31 * sum + letter.codePointAt(0)) % 9973, 7) % HUES}`;
// (the letter comes from the style, since it is no text of the page)
export const face = (name) => make("i", { class: `face ${hueOf(name)}`, "data-letter": oneLine(name, 1).slice(0, 1).toUpperCase(), "aria-hidden": "true" });
export const dot = (number) => make("i", { class: `dot hue-${number % HUES}`, "aria-hidden": "true" });

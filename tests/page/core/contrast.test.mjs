// The contrast of the page's colours, light and dark, as style/tokens.css has them.
import assert from "node:assert/strict";
import { readFileSync } from "node:fs";
import { test } from "node:test";

const text = readFileSync(new URL("../../../page/style/tokens.css", import.meta.url), "utf8");
const [light, dark] = text.split("@media (prefers-color-scheme: dark)");
const namesIn = (part) => Object.fromEntries([...part.matchAll(/--([a-z-]+): (#[0-9a-f]{6})\b/g)].map(([, name, colour]) => [name, colour]));
const facesIn = (part) => [...part.matchAll(/--face: (#[0-9a-f]{6}); --on-face: (#[0-9a-f]{6})/g)].map(([, face, on]) => [face, on]);

function luminance(colour) {
    const parts = [1, 3, 5].map((at) => parseInt(colour.slice(at, at + 2), 16) / 255);
    const [red, green, blue] = parts.map((part) => (part <= 0.04045 ? part / 12.92 : ((part + 0.055) / 1.055) ** 2.4));
    return 0.2126 * red + 0.7152 * green + 0.0722 * blue;
}

function contrast(one, other) {
    const [low, high] = [luminance(one), luminance(other)].sort((a, b) => a - b);
    return (high + 0.05) / (low + 0.05);
}

const GROUNDS = ["ground", "side", "sheet", "hover", "sunk", "tint"];
const PAIRS = [
    ...["text", "muted", "soft"].flatMap((name) => GROUNDS.map((ground) => [name, ground])),
    ...["ground", "side", "sheet", "hover", "tint"].map((ground) => ["accent", ground]),
    ...["good", "warn", "bad"].flatMap((name) => [`${name}-tint`, "ground", "sheet", "hover", "tint"].map((ground) => [name, ground])),
    ["violet", "violet-tint"],
    ["on-accent", "fill"],
    ["on-toast", "toast"],
    ["toast-accent", "toast"],
];
// Rings and frames.
const LINES = [["ring", "ground"], ["ring", "sheet"], ["edge", "ground"], ["edge", "sheet"]];

for (const [mode, colours] of [["light", namesIn(light)], ["dark", { ...namesIn(light), ...namesIn(dark.split("/*")[0]) }]]) {
    test(`texts have 4.5:1 and rings 3:1, ${mode}`, () => {
        for (const [pairs, least] of [[PAIRS, 4.5], [LINES, 3]]) {
            for (const [name, ground] of pairs) {
                const found = contrast(colours[name], colours[ground]);
                assert.ok(found >= least, `${name} on ${ground}: ${found.toFixed(2)}`);
            }
        }
    });
}

test("letters in circles have 4.5:1", () => {
    const faces = facesIn(text);
    assert.equal(faces.length, 16);
    for (const [face, on] of faces) assert.ok(contrast(face, on) >= 4.5, `${on} on ${face}: ${contrast(face, on).toFixed(2)}`);
});

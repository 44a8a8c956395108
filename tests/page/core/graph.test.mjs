// Which tasks wait for which: no picker offers what would close a circle.
import assert from "node:assert/strict";
import { test } from "node:test";
import { inCircles, waitsFor } from "../../../page/core/graph.js";

const LINKS = { a: ["b"], b: ["c", "d"], c: [], d: ["e"], e: [], x: ["y"], y: ["x"] };
const toldOf = (uuid) => (Object.hasOwn(LINKS, uuid) ? { uuid, depends: LINKS[uuid] } : undefined);

test("a task waits for all that it leads to", () => {
    for (const [from, to, is] of [["a", "b", true], ["a", "e", true], ["b", "a", false], ["e", "a", false], ["a", "a", false], ["x", "x", true], ["a", "gone", false]]) {
        assert.equal(waitsFor(toldOf(from), to, toldOf), is, `${from} ${to}`);
    }
});

test("links that close circles are those to what waits already", () => {
    const ids = Object.keys(LINKS);
    for (const from of ids) {
        for (const to of ids) {
            const linksOf = (id) => (id === from ? [...LINKS[id], to] : LINKS[id]);
            const isClosed = inCircles(ids, linksOf).has(from);
            assert.equal(from === to || waitsFor(toldOf(to), from, toldOf) || inCircles(ids, (id) => LINKS[id]).has(from), isClosed, `${from} ${to}`);
        }
    }
});

// Filters, orders and groups of tasks; names that every object has are no words of theirs.
import assert from "node:assert/strict";
import { test } from "node:test";
import "./newer.mjs";
import { Board } from "../../../page/core/board.js";
import { grouped, sortedBy } from "../../../page/core/group.js";
import { shown } from "../../../page/core/search.js";

const STRANGE = ["constructor", "__proto__", "toString", "hasOwnProperty", "valueOf"];
const FILTER = { text: "", status: "open", assignee: "", due: "", project: "", tag: "", sort: "urgency", group: "" };
const uuid = (number) => `00000001-0000-8000-8000-${String(number).padStart(12, "0")}`;
const TASKS = [
    { description: "Book the hall", project: "Fair.hall", tags: ["phone"], due: "20990101T000000Z" },
    { description: "constructor", tags: ["toString"], project: "__proto__" },
    { description: "Done before", status: "completed", end: "20260101T000000Z" },
].map((task, at) => ({ uuid: uuid(at + 1), status: "pending", entry: "20260101T000000Z", ...task }));

async function board() {
    const made = new Board(1, () => []);
    await made.take(`[\n${TASKS.map((task) => JSON.stringify(task)).join(",\n")}\n]`, 0);
    return made;
}

const titles = (tasks) => tasks.map(({ description }) => description);

test("a status, an order and a group of a strange name are the usual ones", async () => {
    const one = await board();
    for (const word of STRANGE) {
        assert.deepEqual(titles(shown(one, { ...FILTER, status: word, sort: word }, "ann")).sort(), ["Book the hall", "constructor"]);
        assert.deepEqual(sortedBy(word, one.tasks), one.tasks);
        assert.deepEqual(grouped(one.tasks, word), one.tasks);
    }
});

test("strange words are searched as words", async () => {
    const one = await board();
    assert.deepEqual(titles(shown(one, { ...FILTER, text: "constructor" }, "ann")), ["constructor"]);
    assert.deepEqual(titles(shown(one, { ...FILTER, text: "due:constructor" }, "ann")), []);
    assert.deepEqual(titles(shown(one, { ...FILTER, text: "@tostring" }, "ann")), ["constructor"]);
    assert.deepEqual(titles(shown(one, { ...FILTER, text: "+fair" }, "ann")), ["Book the hall"]);
});

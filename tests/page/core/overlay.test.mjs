// What changes that aren't answered yet make of tasks, as the server will.
import assert from "node:assert/strict";
import { test } from "node:test";
import { changes } from "../../../page/core/calls.js";
import { laidOver } from "../../../page/core/overlay.js";
import { Task } from "../../../page/core/task.js";

const UUID = "00000001-0000-8000-8000-000000000001";
const task = (more) => new Task(JSON.stringify({ uuid: UUID, description: "Call", status: "pending", entry: "20260101T000000Z", ...more }));
const lay = (one, ...made) => laidOver([one], new Map([[UUID, 0]]), made.map((change, at) => ({ ...change, id: `change ${at}` })), new Map()).shown;

test("an own attribute may be empty, and null takes it out", () => {
    const one = task({ estimate: "2h", project: "Home" });
    assert.equal(lay(one, changes.modify(1, one, { estimate: "" }))[0].told.estimate, "");
    assert.equal("estimate" in lay(one, changes.modify(1, one, { estimate: null }))[0].told, false);
    assert.equal("project" in lay(one, changes.modify(1, one, { project: "" }))[0].told, false);
});

test("changes in a row are laid in their order", () => {
    const one = task({});
    const [shown] = lay(one, changes.act(1, one, "start"), changes.modify(1, one, { description: "Call Bob" }), changes.act(1, one, "done"));
    assert.deepEqual([shown.description, shown.status, "start" in shown.told], ["Call Bob", "completed", false]);
    assert.equal(shown.before, one);
});

test("a new task is shown before it is answered", () => {
    const one = task({});
    const made = changes.add(1, { description: "New" });
    const shown = lay(one, made);
    assert.deepEqual(shown.map(({ description, uuid }) => [description, uuid]), [["Call", UUID], ["New", made.task]]);
});

test("links and tags stand in their order, each once", () => {
    const [first, last] = ["00000001-0000-8000-8000-000000000002", "00000001-0000-8000-8000-000000000003"];
    const one = task({ depends: [last] });
    assert.deepEqual(lay(one, changes.depend(1, one, first), changes.depend(1, one, last))[0].depends, [first, last]);
    assert.deepEqual(lay(one, changes.modify(1, one, { tags: ["b", "a", "b"] }))[0].tags, ["a", "b"]);
});

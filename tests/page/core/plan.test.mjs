// What an import of a file would do, before it is sent.
import assert from "node:assert/strict";
import { test } from "node:test";
import "./newer.mjs";
import { clean } from "../../../page/import/clean.js";
import { plan } from "../../../page/import/plan.js";

const uuid = (number) => `00000000-0000-4000-9000-${String(number).padStart(12, "0")}`;
const [TEMPLATE, INSTANCE, PLAIN] = [1, 2, 3].map(uuid);
const DUE = "20990101T000000Z";

test("an instance of a template that can't be taken waits with it", async () => {
    const tasks = [
        { uuid: TEMPLATE, description: "Water", status: "recurring", recur: "90min", due: DUE, mask: "-" },
        { uuid: INSTANCE, description: "Water", status: "pending", parent: TEMPLATE, imask: 0, recur: "90min", due: DUE },
        { uuid: PLAIN, description: "Plain", status: "pending" },
    ];
    const { count, faults } = await plan(JSON.stringify(tasks), null);
    assert.equal(count, 1);
    assert.deepEqual(faults.map(({ what }) => what[0].replace(/:.*/, "")), ["it repeats by a step that this server doesn't know", "its template can't be taken"]);
    const mended = JSON.stringify(tasks).replaceAll("90min", "weekly");
    assert.equal((await plan(mended, null)).count, 3);
});

test("an instance whose template the board has is taken", async () => {
    const template = { uuid: TEMPLATE, description: "Water", status: "recurring", recur: "90min", due: DUE, mask: "-" };
    const instance = { uuid: INSTANCE, description: "Water", status: "pending", parent: TEMPLATE, imask: 0, due: DUE };
    const board = { tasks: [], byId: new Map([[TEMPLATE, {}]]) };
    assert.equal((await plan(JSON.stringify([template, instance]), board)).count, 1);
});

test("a member that comes twice is read twice by the server", async () => {
    const texts = ['"x":"\\ud800","x":"a"', '"x":1e309,"x":1', '"x":"a","x":"b"', '"x":"\\ud83d\\ude00","x":1'].map((members) => `{"uuid":"${PLAIN}","description":"Twice",${members}}`);
    const counts = [];
    for (const text of texts) counts.push((await plan(text, null)).count);
    assert.deepEqual(counts, [0, 0, 1, 1]);
});

test("equal lines of todo.txt go into one part", async () => {
    const lines = Array.from({ length: 1500 }, (_, at) => `Task ${at}`);
    for (const at of [3, 1400, 1401]) lines[at] = "Buy milk";
    const { parts, count } = await plan(`${lines.join("\n")}\n`, null);
    assert.equal(count, 1500);
    const holding = parts.filter((part) => part.includes("Buy milk"));
    assert.equal(holding.length, 1);
    assert.equal(holding[0].split("\n").filter((line) => line === "Buy milk").length, 3);
    assert.deepEqual(parts.join("").split("\n").filter(Boolean).sort(), lines.toSorted());
    assert.ok(parts.every((part) => part.split("\n").filter(Boolean).length <= 1000));
});

test("more equal lines than a part has are told, and none is lost untold", async () => {
    const { count, faults } = await plan("Buy milk\n".repeat(1002), null);
    assert.deepEqual([count, faults.length], [1000, 2]);
});

test("a day stays the day of its reader", () => {
    const zone = process.env.TZ;
    try {
        for (const [name, moment, day] of [["Europe/Berlin", "20261223T230000Z", "20261224T000000Z"], ["Asia/Tokyo", "20261223T150000Z", "20261224T000000Z"], ["America/New_York", "20261224T050000Z", "20261224T000000Z"], ["UTC", DUE, DUE]]) {
            process.env.TZ = name;
            const { text } = clean(`{"uuid":"${PLAIN}","description":"Christmas","due":"${moment}","entry":"${moment}"}`);
            assert.equal(JSON.parse(text).due, day);
            assert.equal(JSON.parse(text).entry, moment);
        }
        const none = clean(`{"uuid":"${PLAIN}","description":"None","due":"20260230T000000Z"}`);
        assert.deepEqual([none.changes, JSON.parse(none.text).due], [[], "20260230T000000Z"]);
        process.env.TZ = "Europe/Berlin";
        assert.match(clean(`{"due":"20261223T230000Z"}`).changes[0], /^due "20261223T230000Z" is "20261224T000000Z"$/);
        assert.deepEqual(clean(`{"due":"20261223T140000Z"}`).changes, []);
    } finally {
        process.env.TZ = zone ?? "UTC";
    }
});

// What a search finds, and the way back of each change.
import assert from "node:assert/strict";
import { test } from "node:test";
import { changedSince, inverseOf } from "../../../page/core/inverse.js";
import { folded } from "../../../page/core/format.js";
import { fitOf, partsOf, testsOf } from "../../../page/core/query.js";

const found = (query, ...texts) => texts.filter((text) => testsOf(query).every((isSo) => isSo({ searched: folded(text) })));

test("a search folds accents, and knows quotes and what must not be there", () => {
    assert.deepEqual(found("kuche", "Küche putzen", "KÜCHE", "Kuchen"), ["Küche putzen", "KÜCHE", "Kuchen"]);
    assert.deepEqual(found("strasse", "Straße"), ["Straße"]);
    assert.deepEqual(found('"red paint"', "Buy red paint", "Paint it red"), ["Buy red paint"]);
    assert.deepEqual(found("paint -red", "Buy red paint", "Paint it blue"), ["Paint it blue"]);
    assert.deepEqual(found('paint -"it blue"', "Buy red paint", "Paint it blue"), ["Buy red paint"]);
    assert.deepEqual(found("red paint", "Paint it red", "red"), ["Paint it red"]);
    assert.deepEqual(partsOf('- "open quo'), [{ text: "-", isPhrase: false, isNot: false }, { text: "open quo", isPhrase: true, isNot: false }]);
});

test("choices fit best where they begin with what is typed", () => {
    assert.ok(fitOf("Food and drink", "fo") > fitOf("Fair.Food", "fo"));
    assert.ok(fitOf("Fair.Food", "fo") > fitOf("Platform", "fo"));
    assert.equal(fitOf("Fair", "fo"), 0);
});

const change = (word, content, more = {}) => ({ path: `/boards/1/tasks/u/${word}`, body: content ? JSON.stringify(content) : "", ...more });

test("each change has its way back", () => {
    assert.deepEqual(inverseOf({ path: "/boards/1/tasks", body: '{"uuid":"u"}' }), [{ word: "delete" }]);
    assert.deepEqual(inverseOf({ path: "/boards/1/tasks", body: '{"uuid":"u","status":"completed"}' }), [{ word: "reopen" }, { word: "delete" }]);
    assert.deepEqual(inverseOf(change("done"), { told: { status: "pending" } }), [{ word: "reopen" }]);
    assert.deepEqual(inverseOf(change("delete"), { told: { status: "pending", start: "20260101T000000Z" } }), [{ word: "reopen" }, { word: "start" }]);
    assert.deepEqual(inverseOf(change("reopen"), { told: { status: "completed" } }), [{ word: "done" }]);
    assert.deepEqual(inverseOf(change("reopen"), { told: { status: "deleted" } }), [{ word: "delete" }]);
    assert.deepEqual(inverseOf(change("start")), [{ word: "stop" }]);
    assert.deepEqual(inverseOf(change("modify", { due: "b", tags: ["x"] }, { base: { due: "a", tags: null } })), [{ word: "modify", content: { due: "a", tags: null }, expects: { due: "b", tags: ["x"] } }]);
    assert.deepEqual(inverseOf(change("annotate", { description: "n" })), [{ word: "denotate", content: { description: "n" } }]);
    assert.deepEqual(inverseOf(change("denotate", { description: "n" })), [{ word: "annotate", content: { description: "n" } }]);
    assert.deepEqual(inverseOf(change("depend", { on: "v" })), [{ word: "undepend", content: { on: "v" } }]);
    assert.deepEqual(inverseOf(change("title", { title: "New" }), { before: "Old" }), [{ word: "title", content: { title: "Old" }, expects: { title: "New" } }]);
    assert.deepEqual(inverseOf(change("roles", { member: "bob", role: "owner" }), { before: null }), [{ word: "roles", content: { member: "bob", role: null }, expects: { member: "bob", role: "owner" } }]);
    assert.deepEqual(inverseOf(change("sweep")), []);
    assert.deepEqual(inverseOf({ path: "/boards/1/import-todo", body: "(A) Call Mom" }), []);
});

test("a way back knows what somebody changed since", () => {
    const [back] = inverseOf(change("modify", { due: "b", project: "" }, { base: { due: "a", project: "P" } }));
    assert.deepEqual(changedSince(back, { due: "b" }), []);
    assert.deepEqual(changedSince(back, { due: "c", project: "Q" }), [{ name: "due", is: "c" }, { name: "project", is: "Q" }]);
});

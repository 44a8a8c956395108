// Drafts are judged whole: what is wrong with them doesn't depend on which field was filled first.
import assert from "node:assert/strict";
import { test } from "node:test";
import { faultsIn, faultInMoment, faultInName, faultInTags, faultInText } from "../../../page/core/rules.js";

const textsOf = (draft) => faultsIn(draft).map(({ text }) => text);

test("a repeat needs a due date, whichever of the two is filled first", () => {
    const steps = [["recur", "weekly"], ["due", "20261201T000000Z"]];
    for (const order of [steps, steps.toReversed()]) {
        let draft = {};
        for (const [name, value] of order) draft = { ...draft, [name]: value };
        assert.deepEqual(textsOf(draft), []);
    }
    assert.deepEqual(textsOf({ recur: "weekly" }), ["A repeating task needs a due date."]);
    assert.deepEqual(textsOf({ due: "20261201T000000Z" }), []);
});

test("a step that the server doesn't know is told beside what else is wrong", () => {
    assert.equal(textsOf({ recur: "hourly" }).length, 2);
    assert.equal(textsOf({ recur: "toString", due: "20261201T000000Z" }).length, 1);
});

test("limits count bytes", () => {
    assert.equal(faultInText("ä".repeat(8192)), "");
    assert.match(faultInText("ä".repeat(8193)), /2 bytes too long/);
    assert.notEqual(faultInText("a\0"), "");
    assert.notEqual(faultInTags(`phone ${"a".repeat(16385)}`), "");
});

test("names and moments as the server takes them", () => {
    assert.deepEqual(["ann", "bob_2", "", "Ann", "a b", "a".repeat(33)].map((name) => faultInName(name) === ""), [true, true, true, false, false, false]);
    assert.notEqual(faultInMoment("", "09:00", null), "");
    assert.notEqual(faultInMoment("1969-12-31", "", "19691231T000000Z"), "");
    assert.equal(faultInMoment("1970-01-01", "", "19700101T000000Z"), "");
});

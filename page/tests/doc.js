"use strict";
// The script of the page of the library (tools/dev doc), in node: the field that leaves what has a word in a name.
const assert = require("node:assert/strict");
const vm = require("node:vm");
const { test } = require("node:test");
const { run_scripts } = require("./made.js");

test("a word leaves the names that have it, in any case", () => {
    const items = ["Image parse", "TOO_LONG", "parts"].map((names) => ({ dataset: { names }, hidden: false }));
    const field = { hidden: true, value: "" };
    const document = { getElementById: (id) => (id === "filter" ? field : null), querySelectorAll: (which) => (which === "[data-names]" ? items : []) };
    run_scripts(vm.createContext({ document }), "doc.js");
    assert.equal(field.hidden, false);
    for (const [word, shown] of [
        ["", [true, true, true]], ["par", [true, false, true]], ["PARSE", [true, false, false]], ["too_", [false, true, false]], ["x", [false, false, false]],
    ]) {
        field.value = word;
        field.oninput();
        assert.deepEqual(items.map((it) => !it.hidden), shown);
    }
});

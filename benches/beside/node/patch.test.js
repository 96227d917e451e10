// The examples of RFC 6902's appendix, and that a refused patch leaves the document:
// node --test benches/beside/node/patch.test.js
// A.13, a member that an object names twice, is not among them: JSON.parse takes the last one and
// says nothing.
"use strict";
const assert = require("node:assert");
const test = require("node:test");
const { apply, held } = require("./patch.js");

const EXAMPLES = [
  ["A.1", { foo: "bar" }, [{ op: "add", path: "/baz", value: "qux" }], { baz: "qux", foo: "bar" }],
  [
    "A.2",
    { foo: ["bar", "baz"] },
    [{ op: "add", path: "/foo/1", value: "qux" }],
    { foo: ["bar", "qux", "baz"] },
  ],
  ["A.3", { baz: "qux", foo: "bar" }, [{ op: "remove", path: "/baz" }], { foo: "bar" }],
  [
    "A.4",
    { foo: ["bar", "qux", "baz"] },
    [{ op: "remove", path: "/foo/1" }],
    { foo: ["bar", "baz"] },
  ],
  [
    "A.5",
    { baz: "qux", foo: "bar" },
    [{ op: "replace", path: "/baz", value: "boo" }],
    { baz: "boo", foo: "bar" },
  ],
  [
    "A.6",
    { foo: { bar: "baz", waldo: "fred" }, qux: { corge: "grault" } },
    [{ op: "move", from: "/foo/waldo", path: "/qux/thud" }],
    { foo: { bar: "baz" }, qux: { corge: "grault", thud: "fred" } },
  ],
  [
    "A.7",
    { foo: ["all", "grass", "cows", "eat"] },
    [{ op: "move", from: "/foo/1", path: "/foo/3" }],
    { foo: ["all", "cows", "eat", "grass"] },
  ],
  [
    "A.8",
    { baz: "qux", foo: ["a", 2, "c"] },
    [
      { op: "test", path: "/baz", value: "qux" },
      { op: "test", path: "/foo/1", value: 2 },
    ],
    { baz: "qux", foo: ["a", 2, "c"] },
  ],
  ["A.9", { baz: "qux" }, [{ op: "test", path: "/baz", value: "bar" }], "test-failed"],
  [
    "A.10",
    { foo: "bar" },
    [{ op: "add", path: "/child", value: { grandchild: {} } }],
    { foo: "bar", child: { grandchild: {} } },
  ],
  [
    "A.11",
    { foo: "bar" },
    [{ op: "add", path: "/baz", value: "qux", xyz: 123 }],
    { foo: "bar", baz: "qux" },
  ],
  ["A.12", { foo: "bar" }, [{ op: "add", path: "/baz/bat", value: "qux" }], "missing"],
  ["A.14", { "/": 9, "~1": 10 }, [{ op: "test", path: "/~01", value: 10 }], { "/": 9, "~1": 10 }],
  ["A.15", { "/": 9, "~1": 10 }, [{ op: "test", path: "/~01", value: "10" }], "test-failed"],
  [
    "A.16",
    { foo: ["bar"] },
    [{ op: "add", path: "/foo/-", value: ["abc", "def"] }],
    { foo: ["bar", ["abc", "def"]] },
  ],
];

for (const [name, document, patch, outcome] of EXAMPLES) {
  test(name, () => {
    const holder = held(structuredClone(document));
    if (typeof outcome === "string") {
      assert.throws(() => apply(holder, patch), { word: outcome, at: 0 });
      assert.deepStrictEqual(holder, held(document));
    } else {
      apply(holder, patch);
      assert.deepStrictEqual(holder, held(outcome));
    }
  });
}

test("a patch that is refused at its last operation leaves the document", () => {
  const document = { list: ["a", "b", "c"], one: { two: 2 }, none: null };
  const patch = [
    { op: "add", path: "/list/1", value: "z" },
    { op: "add", path: "/new", value: { deep: [] } },
    { op: "add", path: "/new/deep/-", value: 1 },
    { op: "remove", path: "/list/0" },
    { op: "replace", path: "/one/two", value: 3 },
    { op: "copy", from: "/one", path: "/list/-" },
    { op: "move", from: "/one", path: "/none" },
    { op: "move", from: "/list/0", path: "/list/2" },
    { op: "replace", path: "", value: 5 },
    { op: "move", from: "", path: "" },
    { op: "remove", path: "/none" },
  ];
  const holder = held(structuredClone(document));
  const written = structuredClone(patch);
  assert.throws(() => apply(holder, patch), { word: "no-container", at: 10 });
  assert.deepStrictEqual(holder, held(document));
  assert.deepStrictEqual(patch, written);
});

const REFUSED = [
  [{ op: "remove", path: "" }, "root"],
  [{ op: "move", from: "/a", path: "/a/b" }, "into-itself"],
  [{ op: "move", from: "/c", path: "/c/d" }, "missing"],
  [{ op: "move", from: "/a", path: "/s/a" }, "no-container"],
  [{ op: "add", path: "/l/2", value: 0 }, "past-end"],
  [{ op: "add", path: "/l/01", value: 0 }, "not-index"],
  [{ op: "replace", path: "/l/-", value: 0 }, "missing"],
  [{ op: "add", path: "a", value: 0 }, "pointer"],
  [{ op: "add", path: "/a~2", value: 0 }, "pointer"],
  [{ op: "add", path: "/a" }, "shape"],
  [{ op: "swap", path: "/a" }, "unknown-op"],
];

for (const [op, word] of REFUSED) {
  test(`refused as ${word}: ${JSON.stringify(op)}`, () => {
    const document = { a: {}, l: [1], s: "text" };
    const holder = held(structuredClone(document));
    assert.throws(() => apply(holder, [op]), { word });
    assert.deepStrictEqual(holder, held(document));
  });
}

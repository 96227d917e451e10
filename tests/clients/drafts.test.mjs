// Drafts: what their patches lead to, what their guards refuse, and how small they are.
import assert from "node:assert/strict";
import { test } from "node:test";
import { Draft } from "../../clients/javascript/src/draft.mjs";
import { Misfit } from "../../clients/javascript/src/patch.mjs";
import { guarded } from "../../clients/javascript/src/guard.mjs";
import { applied, knownBy } from "../../clients/javascript/src/known.mjs";
import { chance, randomCarries, randomChange, randomDocument, randomOther } from "./changes.mjs";

const ROUNDS = 3000;

/** Returns what a function makes of a document: by a draft, and by itself. */
function drafted(document, make, guard = "values") {
  const draft = new Draft(knownBy([""], [[document]]));
  const plain = structuredClone(document);
  make(draft.of(draft.root));
  make(plain);
  return { made: guarded(draft, guard), plain };
}

/** The patch of a draft, without its tests. */
function patchOf(document, make) {
  const { made } = drafted(document, make);
  return made === null ? [] : made.patch.filter(({ op }) => op !== "test");
}

function tests(document, make) {
  const { made } = drafted(document, make);
  return made === null ? [] : made.patch.filter(({ op }) => op === "test").map(({ path }) => path);
}

test("the patch of a random draft leads to what the function makes of the value itself", () => {
  for (let seed = 1; seed <= ROUNDS; seed += 1) {
    const random = chance(seed);
    const document = randomDocument(random);
    const before = JSON.stringify(document);
    const make = randomChange(random);
    for (const guard of ["values", "base", "none"]) {
      const { made, plain } = drafted(document, make, guard);
      const led = made === null ? document : applied(document, made.patch);
      assert.deepEqual(led, plain, `seed ${seed}: ${before} ${make.words} ${JSON.stringify(made)}`);
      assert.equal(JSON.stringify(document), before, `seed ${seed}: what was seen is written to`);
    }
  }
});

test("parts that are taken out, changed and put in elsewhere are there once, as they are", () => {
  for (let seed = 1; seed <= ROUNDS; seed += 1) {
    const random = chance(seed);
    const document = randomDocument(random);
    const make = randomCarries(random, document);
    for (const guard of ["values", "base", "none"]) {
      const { made, plain } = drafted(document, make, guard);
      const patch = made?.patch ?? [];
      const words = `seed ${seed}: ${JSON.stringify([document, patch])} ${make.words}`;
      assert.deepEqual(applied(document, patch), plain, words);
      // The relay refuses a move into itself, also where another part stands there by then.
      const isInto = ({ op, from, path }) => op === "move" && path.startsWith(`${from}/`);
      assert.ok(!patch.some(isInto), words);
    }
  }
});

test("where the guard holds on another document, the patch does what the function does", () => {
  const counts = { held: 0, refused: 0, based: 0 };
  for (let seed = 1; seed <= ROUNDS; seed += 1) {
    const random = chance(seed);
    const document = randomDocument(random);
    const make = randomChange(random);
    const other = applied(document, randomOther(random, document));
    const { made } = drafted(document, make);
    if (made === null || made.isByBase) {
      counts.based += 1;
      continue;
    }
    const led = appliedOrNull(other, made.patch);
    counts[led === null ? "refused" : "held"] += 1;
    if (led === null) continue;
    const plain = structuredClone(other);
    const words =
      `seed ${seed}: ${JSON.stringify([document, other])} ${make.words} ${JSON.stringify(made)}`;
    assert.doesNotThrow(() => make(plain), words);
    assert.deepEqual(led, plain, words);
  }
  assert.ok(counts.held > ROUNDS / 10 && counts.refused > ROUNDS / 10, JSON.stringify(counts));
});

test("a guard refuses where what was read or addressed is another", () => {
  const document = {
    cards: [{ t: "milk", n: 1 }, { t: "bread", n: 2 }],
    title: "Party",
    people: {},
  };
  const refused = (make, operation) => {
    const { made } = drafted(document, make);
    assert.equal(appliedOrNull(applied(document, [operation]), made.patch), null, String(make));
  };
  const insert = { op: "add", path: "/cards/0", value: { t: "tea", n: 3 } };
  refused((d) => d.cards.splice(1, 1), insert);
  refused((d) => (d.cards[1].n = 7), insert);
  refused((d) => (d.cards[1] = null), insert);
  refused((d) => d.cards.splice(1, 0, 5), insert);
  refused((d) => d.cards.pop(), { op: "add", path: "/cards/-", value: 1 });
  refused((d) => d.cards.reverse(), insert);
  refused((d) => (d.title += "!"), { op: "replace", path: "/title", value: "x" });
  refused((d) => (d.people.ann ??= {}), { op: "add", path: "/people/ann", value: { age: 3 } });
  refused((d) => (d.count = Object.keys(d.people).length), {
    op: "add",
    path: "/people/ann",
    value: 1,
  });
  refused((d) => (d.count = d.cards.length), insert);
  refused((d) => (d.cards.find(({ t }) => t === "bread").n = 7), insert);
  refused((d) => d.cards.push(d.cards[0]), { op: "replace", path: "/cards/0/n", value: 9 });
});

test("a patch has the least operations, and moves what moved", () => {
  const document = { a: ["x", "y", "z", "w"], b: [{ k: 1 }, { k: 2 }], o: { m: { v: [1] } } };
  const words = ({ op, from, path }) =>
    [op, from, path].filter((word) => word !== undefined).join(" ");
  const operations = (make) => patchOf(document, make).map(words);
  assert.deepEqual(operations((d) => d.a.push("v")), ["add /a/-"]);
  assert.deepEqual(operations((d) => d.a.splice(1, 1)), ["remove /a/1"]);
  assert.deepEqual(operations((d) => void (d.a = d.a.filter((word) => word !== "y"))), [
    "remove /a/1",
  ]);
  assert.deepEqual(operations((d) => d.a.push(d.a.shift())), ["move /a/0 /a/-"]);
  assert.deepEqual(operations((d) => d.a.unshift(...d.a.splice(2, 1))), ["move /a/2 /a/0"]);
  assert.deepEqual(operations((d) => d.a.sort()), ["move /a/3 /a/0"]);
  assert.deepEqual(operations((d) => d.a.reverse()).length, 3);
  assert.deepEqual(operations((d) => d.b.unshift(d.b.pop())), ["move /b/1 /b/0"]);
  assert.deepEqual(operations((d) => (d.a[2] = "v")), ["replace /a/2"]);
  assert.deepEqual(operations((d) => (d.b[0].k += 1)), ["replace /b/0/k"]);
  assert.deepEqual(operations((d) => d.a.push(...d.b.splice(0, 1))), ["move /b/0 /a/-"]);
  assert.deepEqual(operations((d) => void ((d.p = d.o.m), delete d.o.m)), ["move /o/m /p"]);
  assert.deepEqual(operations((d) => void ((d.o.n = d.o.m), delete d.o.m, d.o.n.v.push(2))), [
    "move /o/m /o/n",
    "add /o/n/v/-",
  ]);
  assert.deepEqual(operations((d) => d.b.splice(0, 2)), ["remove /b/1", "remove /b/0"]);
  assert.deepEqual(operations((d) => void d.a.length), []);
  assert.deepEqual(operations((d) => (d.o.m.v[0] = 1)), []);
  assert.deepEqual(tests(document, (d) => d.a.push("v")), []);
  assert.deepEqual(tests(document, (d) => d.a.splice(1, 1)), ["/a/1"]);
  assert.deepEqual(tests(document, (d) => (d.b[0].k += 1)), ["/b/0"]);
  assert.deepEqual(tests(document, (d) => (d.o.m.v = d.o.m.v[0] + 1)), ["/o/m/v/0"]);
});

test("a patch that would be too long is coarser, and one with too many tests has a base", () => {
  const document = { list: Array.from({ length: 200 }, (_, k) => k) };
  const { made, plain } = drafted(document, (d) => d.list.reverse());
  assert.deepEqual([made.isByBase, made.patch.length], [true, 1]);
  assert.deepEqual(applied(document, made.patch), plain);
  const many = drafted(document, (d) => {
    d.sum = Array.from({ length: 70 }, (_, k) => d.list[k]).reduce((a, b) => a + b);
  });
  assert.deepEqual([many.made.isByBase, many.made.patch.length], [true, 1]);
});

test("a value that the relay would refuse is named by its place", () => {
  const cyclic = {};
  cyclic.self = cyclic;
  for (const [make, place] of [
    [(document) => (document.items[0].n = 1.25), "/items/0/n is 1.25, no whole number"],
    [(document) => (document.items[0] = { m: { n: [0, 1.25] } }), "/items/0/m/n/1 is 1.25, no"],
    [(document) => document.items.push({ n: 1.25 }), "/items/1/n is 1.25, no whole number"],
    [(document) => (document.new = { "a/b": undefined }), "/new/a~1b is undefined, which JSON"],
    [(document) => (document.new = cyclic), "is too deep, or contains itself"],
    [(document) => (document.new = new Map([["a", 1]])), "/new is a Map, which JSON cannot say"],
    [(document) => document.items.push({ n: new Set() }), "/items/1/n is a Set, which JSON cannot"],
    [(document) => (document.new = { m: new Uint8Array(1) }), "/new/m is a Uint8Array, which JSON"],
  ]) {
    const words = new RegExp(place);
    const draft = new Draft(knownBy([""], [[{ items: [{ n: 1 }] }]]));
    assert.throws(() => (make(draft.of(draft.root)), guarded(draft, "values")), words);
  }
});

test("what a draft cannot be is said", () => {
  const draft = new Draft(knownBy(["/cards", "/people/ann", "/lists/0"], [[["milk"]], [], ["x"]]));
  const root = draft.of(draft.root);
  assert.deepEqual([root.cards[0], root.people.ann, root.lists[0]], ["milk", undefined, "x"]);
  assert.throws(() => root.title, { name: "RangeError", message: "/title is not in the view" });
  assert.throws(() => (root.title = 1), RangeError);
  assert.throws(() => root.people.bob, { message: "/people/bob is not in the view" });
  assert.throws(() => Object.keys(root), RangeError);
  assert.throws(() => delete root.lists[0], RangeError);
  assert.throws(() => (root.cards[5] = 1), RangeError);
  assert.throws(() => (root.cards.length = 5), RangeError);
  assert.throws(() => delete root.cards[0], TypeError);
  assert.throws(() => (root.cards[0] = 0.5), TypeError);
  assert.throws(() => root.cards.push(undefined), TypeError);
  assert.throws(() => Object.defineProperty(root, "x", {}), TypeError);
  root.people.ann = { age: 3 };
  root.lists[0] = "y";
  const { patch, isByBase } = guarded(draft, "values");
  assert.deepEqual(patch.map(({ op, path }) => `${op} ${path}`), [
    "add /people/ann",
    "replace /lists/0",
  ]);
  // No test says that nothing stood at a place of which the holder is not shown.
  assert.equal(isByBase, true);
  assert.throws(() => new Draft(knownBy([""], [[5]])), TypeError);
});

function appliedOrNull(document, patch) {
  try {
    return applied(document, patch);
  } catch (error) {
    assert.ok(error instanceof Misfit, error);
    return null;
  }
}

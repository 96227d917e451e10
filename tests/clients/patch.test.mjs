// JSON Patch in the JavaScript client: on values that are never written to, and with one copy of
// each container that a patch changes.
import assert from "node:assert/strict";
import { test } from "node:test";
import { Misfit } from "../../clients/javascript/src/patch.mjs";
import { inverse } from "../../clients/javascript/src/inverse.mjs";
import { applied, knownBy } from "../../clients/javascript/src/known.mjs";
import { touches } from "../../clients/javascript/src/touch.mjs";
import { overlaid } from "../../clients/javascript/src/relay.mjs";

const MEMBERS = 18_000;

/** A write to it throws. */
function frozen(value) {
  if (typeof value === "object" && value !== null) {
    Object.values(Object.freeze(value)).forEach(frozen);
  }
  return value;
}

/** The text to which a patch leads, or undefined where it does not fit. */
function orMisfit(make) {
  try {
    return JSON.stringify(make());
  } catch (error) {
    assert.ok(error instanceof Misfit, error);
    return undefined;
  }
}

/**
 * Each operation on a value of its own, so that no two parts of it are one; undefined where one
 * does not fit.
 */
function plainly(document, patch) {
  const led = patch.reduce(
    (text, operation) => text && orMisfit(() => applied(JSON.parse(text), [operation])),
    JSON.stringify(document),
  );
  return led && JSON.parse(led);
}

test("a patch writes to nothing that was handed out, and to no part in two places", () => {
  let state = 1;
  const chance = (count) => (state = (state * 48271) % 2147483647) % count;
  const one = (list) => list[chance(list.length)];
  const value = (deep) => {
    if (deep === 0 || chance(4) === 0) return one([0, "a", null]);
    const parts = Array.from({ length: 1 + chance(3) }, () => value(deep - 1));
    const member = (part, k) =>
      `"${one(["a", "b", "0", "__proto__"])}${k || ""}":${JSON.stringify(part)}`;
    return chance(2) ? parts : JSON.parse(`{${parts.map(member)}}`);
  };
  // Mostly a path of the document, and at times one that goes on from it.
  const path = (part) => {
    const names = typeof part === "object" && part !== null ? Object.keys(part) : [];
    if (names.length === 0 || chance(4) === 0) {
      return chance(2) ? "" : `/${one(["a", "b1", "0", "-", "__proto__"])}`;
    }
    const name = one(names);
    return `/${name}${path(part[name])}`;
  };
  let fitting = 0;
  for (let tries = 0; tries < 20_000; tries += 1) {
    const shared = value(2);
    const document = frozen(value(3));
    const patch = [];
    let wanted = document;
    for (let more = 0; more < 6; more += 1) {
      const op = one(["add", "add", "remove", "replace", "move", "copy", "copy"]);
      const operation = frozen({
        op,
        path: path(wanted),
        from: path(wanted),
        value: chance(2) ? shared : value(1),
      });
      const led = plainly(wanted, [operation]);
      if (led === undefined && chance(8) > 0) continue;
      patch.push(operation);
      wanted = led;
      if (led === undefined) break;
    }
    const [text, shown] = [JSON.stringify(wanted), JSON.stringify({ document, patch })];
    assert.equal(orMisfit(() => frozen(applied(document, patch))), text, shown);
    assert.equal(orMisfit(() => overlaid([""], [[document]], patch).slots[0][0]), text, shown);
    if (text !== undefined && patch.length > 2) fitting += 1;
  }
  assert.ok(fitting > 5000, `${fitting} patches of several operations fit`);
});

test("what takes a patch back keeps the values of before it", () => {
  const document = frozen({ list: [{ n: 1 }, { n: 2 }, { n: 3 }], map: { a: { n: 1 } } });
  const add = { op: "add", path: "/map/a/m", value: 0 };
  for (const patch of [
    [
      { op: "add", path: "/list/0/m", value: 0 },
      { op: "remove", path: "/list/1" },
      { op: "replace", path: "/list/0/n", value: 9 },
    ],
    [
      add,
      { op: "move", from: "/map/a", path: "/list/1" },
      { op: "replace", path: "/list/1/n", value: 9 },
    ],
    [
      add,
      { op: "copy", from: "/map/a", path: "/map/b" },
      { op: "replace", path: "/map/b/n", value: 9 },
    ],
    [add, { op: "replace", path: "/map/a", value: {} }, { op: "add", path: "/map/a/k", value: 1 }],
  ]) {
    const back = inverse(knownBy([""], [[document]]), frozen(patch));
    assert.deepEqual(
      applied(applied(document, patch), back.patch),
      document,
      JSON.stringify(back.patch),
    );
  }
});

test("64 operations on a large object take about as long as one", () => {
  const big = Object.fromEntries(Array.from({ length: MEMBERS }, (_, k) => [`m${k}`, k]));
  const [view, slots] = [["/big"], [[big]]];
  const does = {
    "a patch": (patch) => applied({ big }, patch),
    "what is laid over": (patch) => overlaid(view, slots, patch),
    "what takes it back": (patch) => inverse(knownBy(view, slots), patch),
    "what it touches": (patch) => assert.ok(touches(knownBy(view, slots), patch, view)),
  };
  const kinds = {
    add: (k) => ({ op: "add", path: `/big/n${k}`, value: k }),
    remove: (k) => ({ op: "remove", path: `/big/m${k}` }),
    move: (k) => ({ op: "move", from: `/big/m${k}`, path: `/big/n${k}` }),
    copy: (k) => ({ op: "copy", from: `/big/m${k}`, path: `/big/n${k}` }),
  };
  const fastest = (act) => Math.min(...Array.from({ length: 5 }, () => {
    const begun = performance.now();
    act();
    return performance.now() - begun;
  }));
  for (const [word, act] of Object.entries(does)) {
    for (const [op, make] of Object.entries(kinds)) {
      const patch = Array.from({ length: 64 }, (_, k) => make(k));
      const [one, all] = [fastest(() => act(patch.slice(0, 1))), fastest(() => act(patch))];
      assert.ok(
        all < 20 * one,
        `${word}, ${op}: ${all.toFixed(1)} ms, and ${one.toFixed(1)} ms for one operation`,
      );
    }
  }
});

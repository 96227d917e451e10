// One value of a board's view: `at`, of what a slot shows and of its parts.
import assert from "node:assert/strict";
import { test } from "node:test";
import { setFlagsFromString } from "node:v8";
import { runInNewContext } from "node:vm";
import { Refused, connect, room } from "../../clients/javascript/relay.mjs";
import { begunRoom, boardsOf, newRoom, pause, until } from "./rooms.mjs";

const PLAN = {
  cards: ["milk", "bread"],
  people: { ann: { age: 3 } },
  "a/b": { "m~n": 1 },
  none: null,
};

test("a part of a slot is read and set, and what is there is replaced", async (t) => {
  const [board, other] = await boardsOf(
    t,
    await begunRoom(PLAN),
    ["/cards", "/people", "/a~1b"],
    [""],
  );
  const [first, age, escaped] = ["/cards/0", "/people/ann/age", "/a~1b/m~0n"].map((pointer) =>
    board.at(pointer),
  );
  assert.deepEqual([first.value, age.value, escaped.value], ["milk", 3, 1]);
  const done = first.set("eggs");
  assert.deepEqual(
    [first.value, first.confirmed, board.at("/cards").value],
    ["eggs", "milk", ["eggs", "bread"]],
  );
  await done;
  await age.set(null);
  await escaped.set(2);
  // What is not there is added: a member, or an element at the end.
  assert.equal(board.at("/people/bob").value, undefined);
  await board.at("/people/bob").set({ age: 4 });
  await board.at("/cards/-").set("tea");
  await until(() => other.rev === board.rev && board.pending === 0);
  const people = { ann: { age: null }, bob: { age: 4 } };
  assert.deepEqual(other.slots, [
    [{ cards: ["eggs", "bread", "tea"], people, "a/b": { "m~n": 2 }, none: null }],
  ]);
  assert.deepEqual(board.confirmed, board.slots);
});

test("a pointer that no slot shows is neither read nor written", async (t) => {
  const [board] = await boardsOf(t, await begunRoom(PLAN), [
    "/cards/0",
    { size: "/people" },
    "/none",
  ]);
  const apart = {
    message: '"/cards" is not in the view ["/cards/0",{"size":"/people"},"/none"]',
    name: "RangeError",
  };
  assert.throws(() => board.at("/cards").value, apart);
  assert.throws(() => board.at("/cards").confirmed, apart);
  assert.throws(() => board.at("/cards").set([]), apart);
  await assert.rejects(board.at("/cards").update(() => []), apart);
  assert.throws(() => board.at("/people").value, RangeError);
  assert.throws(() => board.at("cards"), RangeError);
  assert.equal(board.at({ size: "/people" }).value, 1);
  assert.throws(() => board.at({ size: "/cards" }).value, {
    message: '{"size":"/cards"} is not in the view ["/cards/0",{"size":"/people"},"/none"]',
    name: "RangeError",
  });
  // Nothing stands in what is no container.
  assert.deepEqual(
    [board.at("/none").value, board.at("/none/a").value, board.at("/cards/0/length").value],
    [null, undefined, undefined],
  );
  assert.equal(board.rev, 1);
});

test("before the first slots nothing stands there, and nothing is set", async (t) => {
  const board = connect(newRoom(), { view: ["/cards"] });
  t.after(() => board.close());
  assert.equal(board.at("/cards/0").value, undefined);
  assert.throws(() => board.at("/cards/0").set("eggs"), { message: "the slots are not there yet" });
  await board.ready;
});

test("a listener of a part is told each other value of it", async (t) => {
  const [board, other] = await boardsOf(t, await begunRoom(PLAN), ["/cards", "/people"], [""]);
  const seen = [];
  const end = board.at("/cards/0").subscribe((value) => seen.push(value ?? "nothing"));
  const ann = [];
  board.at("/people/ann").subscribe((value) => ann.push(value));
  for (const operation of [
    { op: "replace", path: "/cards/1", value: "rye" },
    { op: "replace", path: "/cards/0", value: "eggs" },
    { op: "add", path: "/cards/0", value: "tea" },
    { op: "replace", path: "/cards", value: [] },
  ]) {
    const rev = await other.edit([operation]);
    await until(() => board.rev === rev);
  }
  // Slots that come anew are other objects, and the same value.
  await board.watch(board.view);
  assert.deepEqual([seen, ann], [["eggs", "tea", "nothing"], []]);
  // A view that does not show it tells nothing of it.
  await board.watch(["/people"]);
  await other.edit([{ op: "add", path: "/people/ann/age", value: 9 }]);
  await until(() => ann.length === 1);
  end();
  assert.deepEqual(seen, ["eggs", "tea", "nothing"]);
});

test("a part is counted by many without a loss", async (t) => {
  const all = await boardsOf(
    t,
    await begunRoom({ counts: { a: 0 } }),
    ["/counts"],
    [""],
    ["/counts/a"],
  );
  await Promise.all(
    all.flatMap((board) => [1, 2, 3].map(() => board.at("/counts/a").update((n) => n + 1))),
  );
  await until(() => all.every((board) => board.at("/counts/a").value === 9));
});

test("a part that went is told, and not written elsewhere", async (t) => {
  const [board] = await boardsOf(t, await begunRoom(PLAN), ["/cards"]);
  const removed = board.edit([{ op: "remove", path: "/cards/1" }]); // not shown before it is done
  const gone = (error) => error instanceof Refused && error.fault === "missing";
  await Promise.all([removed, assert.rejects(board.at("/cards/1").set("rye"), gone)]);
});

test("the same pointer is the same place", async (t) => {
  const url = await begunRoom(PLAN);
  const [board] = await boardsOf(t, url, ["/cards"]);
  const shared = room(url);
  t.after(() => shared.close());
  const view = shared.view(["/cards"]);
  for (const source of [board, view]) {
    assert.equal(source.at("/cards/0"), source.at("/cards/0"));
    assert.equal(source.at({ size: "/cards" }), source.at({ size: "/cards" }));
    assert.notEqual(source.at("/cards/0"), source.at("/cards/1"));
    assert.notEqual(source.at("/cards"), source.at({ size: "/cards" }));
  }
});

test("places that nobody holds are forgotten", async (t) => {
  const [board] = await boardsOf(t, await begunRoom(PLAN), [""]);
  const seen = [];
  board.at("/cards/0").subscribe((value) => seen.push(value));
  setFlagsFromString("--expose-gc");
  const collect = runInNewContext("gc");
  const heldAfter = async (count) => {
    for (let k = 0; k < count; k += 1) board.at(`/many/${"x".repeat(100)}${k}`);
    // What is collected is forgotten in a task of its own.
    for (let tries = 0; tries < 5; tries += 1) {
      await pause(20);
      collect();
    }
    return process.memoryUsage().heapUsed;
  };
  const before = await heldAfter(1000);
  const grown = (await heldAfter(50_000)) - before;
  assert.ok(grown < 2_000_000, `50,000 places leave ${grown} bytes`);
  // One that somebody listens to stays.
  await board.at("/cards/0").set("eggs");
  assert.deepEqual(seen, ["eggs"]);
});

test("a view of a room shows the parts of its own pointers", async (t) => {
  const shared = room(await begunRoom(PLAN));
  t.after(() => shared.close());
  const cards = shared.view(["/cards"]);
  await cards.ready;
  const people = shared.view(["/people"]);
  const age = people.at("/people/ann/age");
  // Its slots are not there yet.
  assert.deepEqual([people.slots, age.value], [null, undefined]);
  await people.ready;
  assert.deepEqual([age.value, cards.at("/cards/1").value], [3, "bread"]);
  assert.throws(() => cards.at("/people/ann").value, RangeError);
  const seen = [];
  age.subscribe((value) => seen.push(value));
  await age.update((n) => n + 1);
  await until(() => seen.length > 0);
  assert.deepEqual([seen, age.confirmed], [[4], 4]);
});

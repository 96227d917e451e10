// Tests of what a board shows, to which nobody can write: an application that sorts it while it
// draws would show something else than the room from then on.
import assert from "node:assert/strict";
import { test } from "node:test";
import { overlaid, presence, room } from "../../clients/javascript/relay.mjs";
import { begunRoom, boardsOf, until } from "./rooms.mjs";

const PLAN = { cards: [{ id: "b", tags: ["x"] }, { id: "a", tags: [] }], here: {}, n: 1 };
const VIEW = ["/cards", { size: "/cards" }, "/n", "/nothing"];

/** The first part, from the outside, to which somebody can write. */
function writable(value, path = "slots") {
  if (typeof value !== "object" || value === null) return null;
  if (!Object.isFrozen(value)) return path;
  const parts = Object.entries(value).map(([name, part]) => writable(part, `${path}/${name}`));
  return parts.find((part) => part !== null) ?? null;
}

test("a list that is sorted where it is shown says so, and stays right", async (t) => {
  const [board] = await boardsOf(t, await begunRoom(PLAN), VIEW);
  const cards = board.at("/cards");
  const byId = (one, other) => (one.id < other.id ? -1 : 1);
  assert.throws(() => cards.value.sort(byId), TypeError);
  assert.throws(() => (cards.value[0].id = "c"), TypeError);
  assert.throws(() => cards.value[1].tags.push("y"), TypeError);
  assert.deepEqual(cards.value, PLAN.cards);
  assert.deepEqual([...cards.value].sort(byId).map(({ id }) => id), ["a", "b"]);
  await board.change((draft) => void draft.cards.sort(byId));
  assert.deepEqual(cards.value.map(({ id }) => id), ["a", "b"]);
});

test("nobody can write to what is shown, however it came", async (t) => {
  const [board, other] = await boardsOf(t, await begunRoom(PLAN), VIEW, VIEW);
  const frozen = () => {
    for (const slots of [board.slots, board.confirmed]) assert.equal(writable(slots), null);
  };
  const told = [];
  board.subscribe(({ slots, confirmed }) => told.push(writable(slots), writable(confirmed)));
  frozen();
  const value = { id: "c", tags: [{ deep: [1] }] };
  const patches = [
    [{ op: "add", path: "/cards/-", value }],
    [{ op: "copy", from: "/cards/0", path: "/cards/1" }, { op: "remove", path: "/cards/1/tags/0" }],
    [
      { op: "add", path: "/cards/0/tags/-", value: ["y"] },
      { op: "add", path: "/cards/0/tags/1/-", value: 1 },
    ],
    [{ op: "move", from: "/cards/0/tags", path: "/nothing" }],
    [{ op: "replace", path: "/cards", value: [[]] }],
  ];
  for (const [k, patch] of patches.entries()) {
    const done = (k % 2 === 0 ? board : other).edit(patch, { optimistic: true });
    frozen();
    const rev = await done;
    await until(() => board.rev === rev);
    frozen();
  }
  assert.deepEqual([board.slots[0], new Set(told)], [[[[]]], new Set([null])]);
  // What an application gave stays its own.
  value.tags[0].deep.push(2);
  value.tags.push("mine");
});

test("parts that did not change are the same ones as before", async (t) => {
  const [board] = await boardsOf(t, await begunRoom(PLAN), VIEW);
  const [before] = board.slots[0];
  await board.edit([{ op: "add", path: "/cards/0/tags/-", value: "y" }]);
  await until(() => board.slots[0][0] !== before);
  const [after] = board.slots[0];
  assert.deepEqual([after[1] === before[1], after[0] === before[0]], [true, false]);
  assert.deepEqual(before[0].tags, ["x"]);
});

test("so it is in the parts of a page, in presence, and laid over by hand", async (t) => {
  const url = await begunRoom(PLAN);
  const shared = room(url);
  t.after(() => shared.close());
  const view = shared.view(["/cards", "/here"]);
  await view.ready;
  const here = presence(view, "/here", { name: "Ann" });
  await here.ready;
  await until(() => here.id in here.people);
  for (const part of [view.slots, view.confirmed, here.people]) assert.equal(writable(part), null);
  const [cards, patch] = [[{ tags: [] }], [{ op: "add", path: "/0/tags/-", value: { own: [] } }]];
  const { slots } = overlaid([""], [[cards]], patch);
  assert.deepEqual(slots, [[[{ tags: [{ own: [] }] }]]]);
  patch[0].value.own.push("mine");
  cards.push("mine");
});

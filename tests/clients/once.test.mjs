// Edits that are sent again by a counter, and done once.
import assert from "node:assert/strict";
import { test } from "node:test";
import { Refused, Unknown, connect } from "../../clients/javascript/relay.mjs";
import { begunRoom, boards, boardsOf, cuttable, restartable, until } from "./rooms.mjs";

const BEGUN = { cards: [], counters: {} };
const push = (value) => [{ op: "add", path: "/cards/-", value }];

/** A board whose connections a test can cut, and another one that sees all. */
async function counted(t) {
  const sockets = cuttable();
  const own = { view: ["/cards"], once: "/counters", WebSocket: sockets };
  return [sockets, ...(await boardsOf(t, await begunRoom(BEGUN), own, [""]))];
}

/** Loses the connection when so many texts were sent, before their answers are heard. */
function lossy(sends) {
  const sockets = class extends WebSocket {
    static sent = 0;
    send(text) {
      super.send(text);
      sockets.sent += 1;
      if (!sends.includes(sockets.sent)) return;
      this.onmessage = null;
      setTimeout(() => this.onclose({}), 30);
    }
  };
  return sockets;
}

test("each is done once, in order, and counted in the document", async (t) => {
  const [, board, other] = await counted(t);
  const done = await Promise.all(
    [1, 2, 3].map((n) => board.edit(push(n), { once: true, optimistic: true })),
  );
  const [{ cards, counters }] = (await other.sync())[0];
  assert.deepEqual([cards, Object.values(counters)], [[1, 2, 3], [3]]);
  assert.deepEqual(done, [3, 4, 5]);
  // It is no part of what is undone.
  await board.undo();
  assert.deepEqual((await other.sync())[0][0].cards, [1, 2]);
});

test("one whose answer was lost is sent again, and not done twice", async (t) => {
  for (const sends of [[2], [3], [4], [3, 5], [3, 5, 7], [2, 4, 6]]) {
    const url = await begunRoom(BEGUN);
    const own = { view: ["/cards"], once: "/counters", WebSocket: lossy(sends) };
    const [board, other] = await boardsOf(t, url, own, [""]);
    const done = [1, 2, 3].map((n) => board.edit(push(n), { once: true, optimistic: true }));
    const revs = await Promise.all(done);
    const [{ cards, counters }] = (await other.sync())[0];
    assert.deepEqual(cards, [1, 2, 3], `lost after ${sends}`);
    assert.ok(Object.values(counters).includes(3), JSON.stringify(counters));
    // Revision 2 added the counter. Where the answer was lost, a later revision is told.
    assert.ok(revs.every((rev, k) => rev >= k + 3), String(revs));
    await board.sync();
    assert.deepEqual([board.slots, board.pending], [[[1, 2, 3]].map((cards) => [cards]), 0]);
    board.close();
  }
});

test("what is asked for behind one that waits stays behind it", async (t) => {
  const [sockets, board, other] = await counted(t);
  sockets.cut(true);
  await until(() => board.state === "waiting");
  board.edit(push(1), { once: true });
  board.edit(push(2), { once: true });
  board.edit(push(3));
  sockets.cut(false);
  await board.sync();
  assert.deepEqual((await other.sync())[0][0].cards, [1, 2, 3]);
});

test("a refusal of its patch stays one, also of what may be read late", async (t) => {
  const [, board] = await counted(t);
  const wrong = [{ op: "test", path: "/cards", value: ["no"] }, ...push(1)];
  const isRefused = (error) =>
    error instanceof Refused && error.fault === "test-failed" && error.at === 0;
  await assert.rejects(board.edit(wrong, { once: true }), isRefused);
  await board.edit(push(2), { once: true });
  const own = { view: ["/cards"], once: "/counters", WebSocket: lossy([3]) };
  const [lost, other] = await boardsOf(t, await begunRoom(BEGUN), own, [""]);
  await assert.rejects(lost.edit(wrong, { once: true }), isRefused);
  const [{ cards, counters }] = (await other.sync())[0];
  // What was sent first tests a counter that has gone on.
  assert.deepEqual([cards, Object.values(counters)], [[], [1]]);
});

test("a counter that somebody took away is followed by another one", async (t) => {
  const [, board, other] = await counted(t);
  await board.edit(push(1), { once: true });
  await other.edit([{ op: "add", path: "", value: BEGUN }]);
  await board.edit(push(2), { once: true });
  assert.deepEqual((await other.sync())[0][0].cards, [2]);
});

test("another run has another counter, and edits sent to the last one are `Unknown`", async (t) => {
  const relay = await restartable(t);
  const own = { view: ["/cards"], once: "/counters", begin: BEGUN, WebSocket: lossy([4]) };
  const [board] = await boardsOf(t, relay.url, own);
  const sent = board.edit(push(1), { once: true });
  const waits = board.edit(push(2), { once: true });
  await until(() => board.state === "waiting");
  await relay.stop();
  await relay.start();
  await assert.rejects(sent, (error) => error instanceof Unknown && error.rev === null);
  await waits;
  assert.deepEqual(await board.sync(), [[[2]].map((cards) => cards)]);
});

test("without an object for the counter the error says what to do", async (t) => {
  const [board, other] = await boards(t, { view: ["/cards"], once: "/counters" }, ["/cards"]);
  await assert.rejects(
    board.edit(push(1), { once: true }),
    /missing: `once` needs an object at "\/counters", as `begin` makes it/,
  );
  await assert.rejects(other.edit(push(1), { once: true }), /TypeError: .*`once: "\/once"`/);
  await assert.rejects(board.edit(push(1), { once: true, base: 1 }), TypeError);
  await other.edit([{ op: "add", path: "/counters", value: {} }]);
  await board.edit(push(1), { once: true });
  assert.throws(() => connect("ws://h/rooms/a", { view: [], once: "counters" }), RangeError);
});

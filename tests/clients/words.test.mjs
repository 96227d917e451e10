// Pointers of keys, barriers, parents, edits whose fate is not known, and what errors say to do.
import assert from "node:assert/strict";
import { test } from "node:test";
import {
  Closed,
  HandshakeFailed,
  Refused,
  Unknown,
  connect,
  pointer,
  room,
} from "../../clients/javascript/relay.mjs";
import { begunRoom, boards, boardsOf, cuttable, newRoom, scripted, until } from "./rooms.mjs";

const ADD = [{ op: "add", path: "/cards/-", value: "tea" }];

test("a pointer of keys escapes them", () => {
  assert.equal(pointer(), "");
  assert.equal(pointer("cards", 0, "-"), "/cards/0/-");
  assert.equal(pointer("a/b", "m~n", "", "~1"), "/a~1b/m~0n//~01");
  for (const bad of [-1, 0.5, NaN, null, undefined, {}, ["a"]]) {
    assert.throws(() => pointer("a", bad), TypeError);
  }
});

test("`sync` waits for all that was said, and gives slots of the room's revision", async (t) => {
  const [board, other] = await boards(t, ["/cards"], ["/count"]);
  await other.edit([{ op: "replace", path: "/count", value: 7 }]);
  assert.equal(board.rev, 1);
  const ends = [];
  board.edit(ADD, { optimistic: true }).then(() => ends.push("done"));
  const refused = board.edit([{ op: "test", path: "/count", value: 0 }]);
  refused.catch(() => ends.push("refused"));
  board.at("/cards").update((cards) => [...cards, "eggs"]).then(() => ends.push("updated"));
  const slots = await board.sync();
  assert.deepEqual(slots, [[["milk", "bread", "tea", "eggs"]]]);
  assert.deepEqual(ends, ["done", "refused", "updated"]);
  assert.deepEqual([board.slots, board.pending, board.rev], [slots, 0, 4]);
  board.close();
  await assert.rejects(board.sync(), Closed);
});

test("`sync` goes on over a lost connection, behind the edits that waited", async (t) => {
  const sockets = cuttable();
  const [board] = await boardsOf(t, await begunRoom(), { view: ["/cards"], WebSocket: sockets });
  sockets.cut(true);
  await until(() => board.state === "waiting");
  board.edit(ADD);
  const synced = board.sync();
  sockets.cut(false);
  assert.deepEqual(await synced, [[["milk", "bread", "tea"]]]);
});

test("`set` makes the parents of a place, once for all who do", async (t) => {
  const all = await boardsOf(t, await begunRoom({ a: {}, n: null }), ["/a"], ["/a"], [""]);
  const plain = all[0].at("/a/b/c").set(1);
  await assert.rejects(plain, (error) => error instanceof Refused && error.fault === "missing");
  await Promise.all(all.map((board, k) => board.at(`/a/b/c/d${k}`).set(k, { parents: true })));
  const [whole] = await all[2].sync();
  assert.deepEqual(whole, [{ a: { b: { c: { d0: 0, d1: 1, d2: 2 } } }, n: null }]);
  // Where they are there it is an edit as any other, which shows at once.
  const { rev } = all[2];
  const done = all[0].at("/a/b/c/d0").set(9, { parents: true });
  assert.equal(all[0].at("/a/b/c/d0").value, 9);
  assert.equal(await done, rev + 1);
  await assert.rejects(all[2].at("/n/x/y").set(1, { parents: true }), Refused);
});

test("an edit that is stale when sent again is `Unknown`, with the room's revision", async (t) => {
  const sent = [];
  const sockets = class extends scripted(({ id, ...request }, tell) => {
    sent.push(request);
    if (request.do === "watch") {
      tell({ kind: "watching", id });
      tell({ kind: "snapshot", rev: 1, view: [[[]]] });
    }
    if (request.do === "resume") tell({ kind: "resumed", how: "nothing", id });
    const isAgain = request.base === 1 && sockets.all.size > 1;
    if (isAgain) tell({ kind: "refused", fault: "stale", at: null, rev: 5, id });
  }) {
    static all = new Set();
    constructor(url) {
      super(url);
      sockets.all.add(this);
    }
  };
  const own = { view: ["/cards"], WebSocket: sockets, firstWait: 1 };
  const board = connect("ws://127.0.0.1:1/rooms/a", own);
  t.after(() => board.close());
  await board.ready;
  const done = board.edit(ADD, { base: 1 });
  await until(() => sent.length === 2);
  for (const socket of sockets.all) socket.onclose({});
  const isOpen = (error) => error instanceof Unknown && error.rev === 5;
  await assert.rejects(done, isOpen);
  await assert.rejects(done, /and the room is at revision 5/);
  assert.equal(new Unknown().rev, null);
});

test("boards that share a connection have its state, what waits, and undo", async (t) => {
  const url = await begunRoom();
  const shared = room(url);
  t.after(() => shared.close());
  const [cards, title] = [shared.view(["/cards"]), shared.view(["/title"])];
  const states = [];
  title.states((state) => states.push(state));
  await Promise.all([cards.ready, title.ready]);
  assert.deepEqual([cards.state, cards.pending, cards.undoable], ["open", 0, 0]);
  assert.equal(states.at(-1), "open");
  const done = cards.edit(ADD, { optimistic: true });
  assert.deepEqual([cards.pending, title.pending], [1, 1]);
  await done;
  assert.deepEqual(await cards.sync(), [["milk", "bread", "tea"]].map((cards) => [cards]));
  assert.deepEqual([title.rev, title.epoch, title.undoable], [cards.rev, 1000, 1]);
  await title.undo();
  assert.deepEqual([await cards.sync(), cards.redoable], [[[["milk", "bread"]]], 1]);
  await cards.redo();
  assert.deepEqual((await cards.sync())[0][0].length, 3);
});

test("without a WebSocket, and without a relay, an error says what to do", async (t) => {
  const own = globalThis.WebSocket;
  globalThis.WebSocket = undefined;
  t.after(() => (globalThis.WebSocket = own));
  assert.throws(
    () => connect(newRoom(), { view: [] }),
    /TypeError: .*Node 22.*--experimental-websocket.*package `ws`/,
  );
  globalThis.WebSocket = own;
  const { warn } = console;
  t.after(() => (console.warn = warn));
  const warned = [];
  console.warn = (text) => warned.push(text);
  const board = connect("ws://127.0.0.1:1/rooms/a", { view: [], firstWait: 1, longestWait: 1 });
  let tries = 0;
  board.states((state) => (tries += Number(state === "waiting")));
  await until(() => tries > 2);
  board.close();
  const check = "start the relay there, or check the address, the port and --per-peer";
  const advice = `${check}; it is tried again`;
  assert.deepEqual(warned, [`relay: nothing answers at ws://127.0.0.1:1/rooms/a: ${advice}`]);
  const refused = new Refused({ fault: "no-container", at: 0 });
  assert.equal(
    refused.message,
    "no-container at 0: what is around it is no list and no object: write that first",
  );
  assert.equal(new Refused({ fault: "unheard-of" }).message, "unheard-of");
  const secure = new HandshakeFailed("unreachable", "wss://h/rooms/a").message;
  assert.ok(secure.endsWith(`${check}, or take ws://: the relay itself has no TLS`), secure);
  for (const status of [200, 404]) {
    const { message } = new HandshakeFailed("refused", "ws://h/rooms/a", status);
    assert.match(message, /with \d+: what answers there has no rooms, or is the --admin port$/);
  }
});

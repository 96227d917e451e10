// `begin`: the document that a room begins with, also after a restart, and before anything that
// waits.
import assert from "node:assert/strict";
import { test } from "node:test";
import { Refused, connect, room } from "../../clients/javascript/relay.mjs";
import { boardsOf, newRoom, pause, restartable, scripted, until } from "./rooms.mjs";

const LIST = { items: [] };
const BEGIN = [{ op: "test", path: "", value: null }, { op: "add", path: "", value: LIST }];
const add = (value) => [{ op: "add", path: "/items/-", value }];

test("a new room begins with it, and a room that has a document keeps that", async (t) => {
  const url = newRoom();
  const [first] = await boardsOf(t, url, { view: [""], begin: LIST });
  assert.deepEqual(first.slots, [[LIST]]);
  await first.edit(add("milk"));
  const [second] = await boardsOf(t, url, { view: ["/items"], begin: LIST });
  assert.deepEqual(second.slots, [[["milk"]]]);
  const shared = room(url, { begin: LIST });
  t.after(() => shared.close());
  assert.deepEqual(await shared.view([""]).ready, [[{ items: ["milk"] }]]);
  assert.deepEqual([first.undoable, second.undoable, second.rev], [1, 0, 2]);
});

test("what is edited while the relay restarts goes in behind it", async (t) => {
  const relay = await restartable(t);
  const [board] = await boardsOf(t, relay.url, { view: ["/items"], begin: LIST, queue: "all" });
  await board.edit(add("before"));
  await relay.stop();
  await until(() => board.state === "waiting");
  const edits = ["milk", "bread"].map((value) => board.edit(add(value), { optimistic: true }));
  await relay.start();
  await Promise.all(edits);
  await until(() => board.pending === 0);
  assert.deepEqual([board.slots, board.epoch], [[[["milk", "bread"]]], 2]);
});

test("on each connection it goes before the view, and before an edit that waited", async (t) => {
  const said = [];
  const sockets = class extends scripted(({ id, ...request }, tell) => {
    said.push(request);
    const isBegin = request.patch?.length === 2;
    if (isBegin) tell({ kind: "refused", fault: "test-failed", at: 0, id });
    if (request.do === "watch") {
      tell({ kind: "watching", id });
      tell({ kind: "snapshot", rev: 1, view: [[[]]] });
    }
    if (request.do === "resume") tell({ kind: "resumed", how: "nothing", id });
  }) {
    static newest;
    constructor(url) {
      super(url);
      sockets.newest = this;
    }
  };
  const board = connect("ws://127.0.0.1:1/rooms/a", {
    view: ["/items"],
    begin: LIST,
    WebSocket: sockets,
    firstWait: 1,
  });
  t.after(() => board.close());
  const waits = add("waits");
  board.edit(waits).catch(() => {});
  await board.ready;
  assert.deepEqual(said.splice(0), [
    { do: "edit", patch: BEGIN },
    { do: "watch", view: ["/items"] },
    { do: "edit", patch: waits },
  ]);
  const again = add("again");
  board.edit(again, { base: 1 }).catch(() => {});
  sockets.newest.onclose({});
  await until(() => said.length === 4);
  const resume = { do: "resume", epoch: 1, rev: 1, view: ["/items"] };
  const edit = { do: "edit", base: 1, patch: again };
  assert.deepEqual(said, [edit, { do: "edit", patch: BEGIN }, resume, edit]);
  await until(() => board.state === "open");
});

test("it counts among the requests that are on their way", async (t) => {
  const said = [];
  const sockets = scripted((request) => said.push(request));
  const board = connect("ws://127.0.0.1:1/rooms/a", { view: [], begin: LIST, WebSocket: sockets });
  t.after(() => board.close());
  for (let k = 0; k < 40; k += 1) board.edit([]).catch(() => {});
  await pause(50);
  assert.equal(said.length, 31);
});

test("one whose text would end the connection is not sent, and closes the board", async () => {
  const states = [];
  const onState = (state, cause) => states.push([state, cause?.fault]);
  const board = connect(newRoom(), { view: [], begin: "x".repeat(1_056_768), onState });
  await assert.rejects(
    board.ready,
    (error) => error instanceof Refused && error.fault === "too-long" && error.at === null,
  );
  assert.deepEqual(states, [["closed", "too-long"]]);
});

test("another refusal of it closes the board", async () => {
  const url = newRoom();
  const states = [];
  const board = connect(url, {
    view: [],
    begin: "x".repeat(300_000),
    onState: (state, cause) => states.push([state, cause?.fault]),
  });
  await assert.rejects(
    board.ready,
    (error) => error instanceof Refused && error.fault === "too-heavy" && error.at === 1,
  );
  assert.deepEqual(states, [["closed", "too-heavy"]]);
  assert.throws(() => connect(url, { view: [], begin: { items: [0.5] } }), {
    name: "TypeError",
    message: /^\/begin\/items\/0 is 0.5/,
  });
});

// `set`: one value of a place is on its way at a time, and of those that wait the newest is sent.
import assert from "node:assert/strict";
import { test } from "node:test";
import { Refused, connect } from "../../clients/javascript/relay.mjs";
import { applied } from "../../clients/javascript/src/known.mjs";
import { chance } from "./changes.mjs";
import { begunRoom, boardsOf, cuttable, newRoom, scripted, until } from "./rooms.mjs";

// More than may be on their way, so that edits wait too.
const ASKED = 80;

/**
 * A board that shows these values by their pointers, of a relay that answers an edit when it is
 * told to. `sent` is what it was sent, an edit a line.
 */
async function slow(t, values, options = {}) {
  const [sent, unanswered, view] = [[], [], Object.keys(values)];
  let rev = 1;
  const WebSocket = scripted((message, tell) => {
    const { id, patch } = message;
    if (message.do === "watch") {
      tell({ kind: "watching", id });
      tell({ kind: "snapshot", rev, view: view.map((pointer) => [values[pointer]]) });
    } else if (message.do === "edit") {
      sent.push(patch.map(({ op, path, value }) => [op, path, value].join(" ").trim()).join(", "));
      unanswered.push({ id, patch, tell });
    }
  });
  const board = connect(newRoom(), { view, WebSocket, ...options });
  t.after(() => board.close());
  await board.ready;
  const done = async () => {
    const { id, patch, tell } = unanswered.shift();
    rev += 1;
    tell({ kind: "done", id, rev });
    const slots = patch.flatMap((operation) => inSlot(view, operation));
    if (slots.length > 0) tell({ kind: "patch", rev, patch: slots });
    await until(() => slots.length === 0 || board.rev === rev);
  };
  const refuse = () => {
    const { id, tell } = unanswered.shift();
    tell({ kind: "refused", id, fault: "missing", at: 0 });
  };
  return { board, sent, unanswered, done, refuse };
}

/** An operation as a watcher is told it; none, where no slot shows its place. */
function inSlot(view, operation) {
  const { path } = operation;
  const at = view.findIndex((pointer) => `${path}/`.startsWith(`${pointer}/`));
  return at < 0 ? [] : [{ ...operation, path: `/${at}/0${path.slice(view[at].length)}` }];
}

test("of the values that are set while one is on its way the newest is sent", async (t) => {
  const { board, sent, done } = await slow(t, { "/n": 0 });
  const n = board.at("/n");
  const told = [];
  n.subscribe((value) => told.push(value));
  const made = [1, 2, 3, 4].map((value) => n.set(value));
  assert.deepEqual(
    [sent, told, n.confirmed, board.pending],
    [["replace /n 1"], [1, 2, 3, 4], 0, 2],
  );
  await done();
  assert.deepEqual([sent, n.value, board.pending], [["replace /n 1", "replace /n 4"], 4, 1]);
  made.push(n.set(5));
  await done();
  await done();
  assert.deepEqual([sent.slice(2), n.confirmed, board.pending], [["replace /n 5"], 5, 0]);
  assert.deepEqual(await Promise.all(made), [2, 3, 3, 3, 4]);
});

test("places apart do not hold each other up", async (t) => {
  const { board, sent, done } = await slow(t, { "/x": 0, "/y": 0 });
  for (const value of [1, 2, 3]) for (const name of ["/x", "/y"]) board.at(name).set(value);
  assert.deepEqual(sent, ["replace /x 1", "replace /y 1"]);
  assert.deepEqual([board.slots, board.pending], [[[3], [3]], 4]);
  await done();
  assert.deepEqual(sent.slice(2), ["replace /x 3"]);
  for (let k = 0; k < 3; k += 1) await done();
  assert.deepEqual([sent.slice(3), board.confirmed], [["replace /y 3"], [[3], [3]]]);
});

test("what is asked for behind a value sends it, and comes after it", async (t) => {
  const { board, sent } = await slow(t, { "/n": 0, "/o": { x: 0 } });
  // None of them is answered before the board is closed.
  const set = (path, value) => void board.at(path).set(value).catch(() => {});
  set("/n", 1);
  set("/n", 2);
  board.edit([{ op: "remove", path: "/n" }]).catch(() => {});
  assert.deepEqual(sent, ["replace /n 1", "replace /n 2", "remove /n"]);
  sent.length = 0;
  // Of two places of which one is in the other, too.
  set("/o/x", 1);
  set("/o/x", 2);
  set("/o", "all");
  set("/o", "of it");
  assert.deepEqual(sent, ["replace /o/x 1", "replace /o/x 2", "replace /o all"]);
  assert.deepEqual(board.at("/o").value, "of it");
});

test("a value that is refused is taken back with those that came after it", async (t) => {
  const taken = [];
  const onTakenBack = ({ patch, cause }) => taken.push([patch[0].value, cause.fault]);
  const { board, refuse } = await slow(t, { "/n": 0 }, { onTakenBack });
  const made = [1, 2, 3].map((value) => board.at("/n").set(value));
  refuse();
  await until(() => board.pending === 1);
  assert.equal(board.at("/n").value, 3);
  refuse();
  for (const each of made) await assert.rejects(each, Refused);
  assert.deepEqual([taken, board.slots], [[[1, "missing"], [3, "missing"]], [[0]]]);
});

test("a board that is closed sends what waits", async (t) => {
  const { board, sent } = await slow(t, { "/n": 0 });
  const made = [1, 2, 3].map((value) => board.at("/n").set(value));
  board.close();
  assert.deepEqual(sent, ["replace /n 1", "replace /n 3"]);
  for (const each of made) await assert.rejects(each, { name: "Unknown" });
});

test("what adds, or is sent again where its answer was lost, is sent each time", async (t) => {
  const begin = { list: [], n: 0, once: {} };
  const [board] = await boardsOf(t, await begunRoom(begin), {
    view: ["/list", "/n"],
    once: "/once",
  });
  const list = board.at("/list/-");
  const made = [list.set("a"), list.set("b")];
  for (const value of [1, 2]) made.push(board.at("/n").set(value, { once: true }));
  for (const value of [3, 4]) made.push(board.at("/n").set(value, { base: board.rev }));
  const ended = await Promise.allSettled(made);
  assert.equal(new Set(ended.slice(0, 4).map(({ value }) => value)).size, 4);
  await board.sync();
  assert.deepEqual(board.slots, [[["a", "b"]], [2]]);
});

test("what is set while away is one edit, also where it is kept for another page", async (t) => {
  const kept = new Map();
  const storage = {
    getItem: (key) => kept.get(key) ?? null,
    setItem: (key, text) => kept.set(key, text),
    removeItem: (key) => kept.delete(key),
  };
  const WebSocket = cuttable();
  const url = await begunRoom({ x: 0, y: 0 });
  const view = ["/x", "/y"];
  const [board, other] = await boardsOf(
    t,
    url,
    { view, storage, storageKey: "kept", WebSocket },
    [""],
  );
  WebSocket.cut(true);
  await until(() => board.state !== "open");
  for (const value of [1, 2, 3]) for (const name of view) board.at(name).set(value);
  const patches = JSON.parse(kept.get("kept")).map(({ patch }) => patch);
  assert.deepEqual(patches, view.map((path) => [{ op: "replace", path, value: 3 }]));
  const before = other.rev;
  WebSocket.away = false;
  await until(() => board.pending === 0 && board.state === "open");
  await other.sync();
  assert.deepEqual([other.rev - before, other.slots], [2, [[{ x: 3, y: 3 }]]]);
});

test("undo takes back all that was sent as one", async (t) => {
  const [board] = await boardsOf(t, await begunRoom({ n: 0 }), ["/n"]);
  await Promise.all([1, 2, 3].map((value) => board.at("/n").set(value)));
  await board.sync();
  assert.deepEqual([board.slots, board.undoable], [[[3]], 2]);
  await board.undo();
  assert.deepEqual(board.slots, [[1]]);
  await board.undo();
  assert.deepEqual(board.slots, [[0]]);
  await board.redo();
  await board.redo();
  assert.deepEqual(board.slots, [[3]]);
});

/** Something to do to a document: a value of a place, or an edit. */
function chosen(random, k) {
  const places = ["/a", "/a/x", "/a/y", "/list", "/list/0", "/n", "/n", "/n"];
  const path = places[random(places.length)];
  if (random(5) > 0) return { path, value: { "/a": { x: k, y: k }, "/list": [k, k] }[path] ?? k };
  return random(2) === 0
    ? { op: "add", path: "/list/0", value: k }
    : { op: "replace", path: "/list", value: [] };
}

test("the document comes to what each value and edit by itself leads to", async (t) => {
  const counts = { asked: 0, sent: 0 };
  for (let seed = 1; seed <= 40; seed += 1) {
    const random = chance(seed);
    let plain = { a: { x: 0, y: 0 }, list: [0, 1], n: 0 };
    const { board, sent, unanswered, done } = await slow(t, { "": plain });
    for (let k = 0; k < ASKED; k += 1) {
      const { op, path, value } = chosen(random, k);
      const isThere = board.at(path).value !== undefined;
      if (op === undefined) board.at(path).set(value);
      else board.edit([{ op, path, value }], { optimistic: true });
      plain = applied(plain, [{ op: op ?? (isThere ? "replace" : "add"), path, value }]);
      assert.deepEqual(board.slots, [[plain]]);
      if (random(6) === 0 && unanswered.length > 0) await done();
    }
    while (unanswered.length > 0) await done();
    assert.deepEqual([board.confirmed, board.pending], [[[plain]], 0]);
    counts.asked += ASKED;
    counts.sent += sent.length;
    board.close();
  }
  assert.ok(counts.sent < counts.asked * 0.9, `${counts.sent} of ${counts.asked} are sent`);
});

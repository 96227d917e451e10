// Tests of what the JavaScript client offers beyond slots that stay right: each in a room of its
// own of one relay (RELAY names the program).
import assert from "node:assert/strict";
import { copyFileSync, mkdirSync, mkdtempSync, rmSync, writeFileSync } from "node:fs";
import { tmpdir } from "node:os";
import { join } from "node:path";
import { test } from "node:test";
import { pathToFileURL } from "node:url";
import {
  Closed,
  HandshakeFailed,
  Refused,
  Superseded,
  connect,
  overlaid,
  room,
} from "../../clients/javascript/relay.mjs";
import { relayStore } from "../../clients/javascript/adapters/svelte.mjs";
import { begunRoom, boards, boardsOf, cuttable, newRoom, scripted, until } from "./rooms.mjs";

test("a value that JSON cannot say, or the relay refuses, is named by its path", async (t) => {
  const [board] = await boards(t, ["/cards"]);
  const loop = {};
  loop.self = loop;
  const numbers = [NaN, Infinity, 0.5, 2 ** 53, 1n];
  const texts = ["\ud800", { "\udc00": 1 }];
  for (const bad of [...numbers, ...texts, undefined, () => {}, Symbol("s"), new Map()]) {
    const refused = board.edit([
      { op: "add", path: "/cards/-", value: { a: ["b", { "c/d": bad }] } },
    ]);
    await assert.rejects(
      refused,
      (error) => error instanceof TypeError && error.message.startsWith("/0/value/a/1/c~1d"),
    );
  }
  await assert.rejects(board.edit([{ op: "add", path: "/cards/-", value: loop }]), TypeError);
  await board.edit([
    {
      op: "add",
      path: "/cards/-",
      value: [-0, 2 ** 53 - 1, new Date(0), "😀", JSON.parse('{"__proto__":1}')],
    },
  ]);
  await until(() => board.slots[0][0].length === 3);
  assert.equal(
    JSON.stringify(board.slots[0][0][2]),
    '[0,9007199254740991,"1970-01-01T00:00:00.000Z","😀",{"__proto__":1}]',
  );
  assert.equal(board.rev, 2);
});

test("a room's address is checked at once", () => {
  assert.throws(() => connect("ws://h/room/x", { view: [] }), {
    name: "RangeError",
    message: "an address ends with /rooms/NAME, and this path is /room/x",
  });
  assert.throws(() => connect(newRoom("a/watch"), { view: [] }), {
    name: "RangeError",
    message: "leave out `/watch`, and use the option `readOnly`",
  });
  for (const name of ["", "a b", "ä", "a.b", "x".repeat(65)]) {
    assert.throws(() => connect(newRoom(name), { view: [] }), RangeError);
  }
  assert.throws(() => room("ws://127.0.0.1:1/rooms/a%20b"), RangeError);
});

test("a failed handshake has a cause", async () => {
  const failed = (url) =>
    new Promise((resolve) => {
      const board = connect(url, {
        view: [],
        onState(state, cause) {
          if (cause === null) return;
          board.close();
          resolve([state, cause, cause.reason, cause.status]);
        },
      });
    });
  const [state, cause, ...refused] = await failed(newRoom().replace("/rooms/", "/other/rooms/"));
  assert.ok(cause instanceof HandshakeFailed);
  assert.deepEqual([state, ...refused], ["closed", "refused", 404]);
  const { message } = cause;
  assert.match(message, /with 404: a room is at \/rooms\/NAME, and this path is \/other\/rooms\/r/);
  const [, asked] = await failed(`${newRoom()}?token=a`);
  assert.match(asked.message, /with 404: leave out the `\?` and what follows/);
  const [waits, , ...unreachable] = await failed("ws://127.0.0.1:1/rooms/a");
  assert.deepEqual([waits, ...unreachable], ["waiting", "unreachable", null]);
});

test("a 404 ends a board only if no room was ever entered there", async (t) => {
  let url = await begunRoom();
  const sockets = cuttable();
  const moved = class extends sockets {
    constructor() {
      super(url);
    }
  };
  const [board] = await boardsOf(t, url, { view: ["/n"], WebSocket: moved, longestWait: 10 });
  url = url.replace("/rooms/", "/other/rooms/");
  const states = [];
  board.states((state) => states.push(state));
  sockets.cut(false);
  await until(() => states.filter((state) => state === "waiting").length > 2);
  url = url.replace("/other/", "/");
  await until(() => board.state === "open");
});

test("an optimistic edit shows at once, and stays", async (t) => {
  const [board, other] = await boards(t, ["/cards", { size: "/cards" }, "/title"], ["/cards"]);
  const seen = [];
  board.subscribe(({ slots, confirmed, pending }) =>
    seen.push([slots[0][0].length, confirmed[0][0].length, pending]),
  );
  const done = board.edit([{ op: "add", path: "/cards/-", value: "eggs" }], { optimistic: true });
  assert.deepEqual(board.slots, [[["milk", "bread", "eggs"]], [3], ["Shopping"]]);
  assert.deepEqual(board.confirmed, [[["milk", "bread"]], [2], ["Shopping"]]);
  assert.equal(board.pending, 1);
  await done;
  await until(() => board.pending === 0);
  assert.deepEqual(board.slots, board.confirmed);
  assert.deepEqual(seen, [[3, 2, 1], [3, 3, 0]]);
  await until(() => other.slots[0][0].length === 3);
});

test("a refused edit is taken back, with its cause", async (t) => {
  const told = [];
  const [board, other] = await boards(
    t,
    { view: ["/cards"], onTakenBack: ({ cause, patch }) => told.push([cause.fault, patch.length]) },
    ["/cards"],
  );
  await other.edit([{ op: "remove", path: "/cards/0" }]);
  const edit = board.edit(
    [{ op: "test", path: "/cards/0", value: "milk" }, { op: "remove", path: "/cards/0" }],
    { optimistic: true },
  );
  await assert.rejects(edit, Refused);
  await until(() => board.slots[0][0].length === 1);
  assert.deepEqual(board.slots, [[["bread"]]]);
  assert.deepEqual(told, [["test-failed", 2]]);
});

test("pending edits are laid over anew on what others did", async (t) => {
  const sockets = cuttable();
  const [board, other] = await boards(
    t,
    { view: ["/cards"], WebSocket: sockets, firstWait: 200 },
    ["/cards"],
  );
  sockets.cut(true);
  await until(() => board.state === "waiting");
  const edits = [
    board.edit([{ op: "add", path: "/cards/0", value: "mine" }], { optimistic: true }),
    board.edit([{ op: "remove", path: "/cards/1" }], { optimistic: true }),
  ];
  assert.deepEqual(board.slots, [[["mine", "bread"]]]);
  await other.edit([{ op: "add", path: "/cards/-", value: "theirs" }]);
  sockets.away = false;
  await Promise.all(edits);
  await until(() => board.pending === 0);
  assert.deepEqual(board.slots, [[["mine", "bread", "theirs"]]]);
});

test("an edit that leaves no trace in the slots does not wait", async (t) => {
  const [board] = await boards(t, ["/title"]);
  await board.edit([{ op: "add", path: "/cards/-", value: "eggs" }], { optimistic: true });
  assert.equal(board.pending, 0);
  await board.edit([{ op: "test", path: "/title", value: "Shopping" }], { optimistic: true });
  await until(() => board.pending === 0);
  await board.edit([{ op: "move", from: "", path: "" }], { optimistic: true });
  await until(() => board.pending === 0);
  // The last element moves to the end: nothing changes, and the slot does not tell that it is the
  // last one.
  await board.watch(["/cards/2"]);
  await board.edit([{ op: "move", from: "/cards/2", path: "/cards/-" }], { optimistic: true });
  await until(() => board.pending === 0);
  assert.deepEqual(board.slots, [["eggs"]]);
});

test("what the slots do not tell stays as it is", () => {
  const laid = (view, slots, operation) => {
    const after = overlaid(view, slots, [operation]);
    return [after.slots, after.known];
  };
  const add = { op: "add", path: "/a/0", value: 1 };
  assert.deepEqual(laid(["/a/1"], [["x"]], add), [[["x"]], [false]]);
  assert.deepEqual(laid(["/a/0"], [["x"]], add), [[[1]], [true]]);
  const copy = { op: "copy", from: "/b", path: "/a/-" };
  assert.deepEqual(laid(["/a"], [[[1]]], copy), [[[[1]]], [false]]);
  const move = { op: "move", from: "/b/0", path: "/a/0" };
  assert.deepEqual(laid(["/a", "/b/0"], [[[1]], [2]], move), [[[[2, 1]], [2]], [true, false]]);
  const member = { op: "add", path: "/o/x", value: 1 };
  const sized = [{ size: "/o" }, "/o/x"];
  assert.deepEqual(laid(sized, [[1], []], member), [[[2], [1]], [true, true]]);
  const replace = { op: "replace", path: "/a", value: { b: 2 } };
  assert.deepEqual(laid(["/a/b"], [[1]], replace), [[[2]], [true]]);
  assert.throws(() => laid(["/a"], [[[1]]], { op: "remove", path: "/a/1" }));
});

test("what is known of a slot is what the patch makes of it", () => {
  let state = 1;
  const chance = (count) => (state = (state * 48271) % 2147483647) % count;
  const one = (list) => list[chance(list.length)];
  const value = (deep) => {
    if (deep === 0 || chance(3) === 0) return one([0, 1, "a", null]);
    const parts = Array.from({ length: chance(4) }, () => value(deep - 1));
    return chance(2)
      ? parts
      : Object.fromEntries(parts.map((part, k) => [one(["a", "b", "0", "-"]) + (k || ""), part]));
  };
  const path = () =>
    Array.from({ length: chance(4) }, () => `/${one(["a", "b", "0", "1", "-", "a1"])}`).join("");
  const operation = () => ({
    op: one(["add", "remove", "replace", "move", "copy", "test"]),
    path: path(),
    from: path(),
    value: value(1),
  });
  let known = 0;
  let slots = 0;
  for (let tries = 0; tries < 40_000; tries += 1) {
    const document = value(3);
    const patch = [operation(), operation()];
    const view = Array.from({ length: 4 }, () => (chance(3) ? path() : { size: path() }));
    let after;
    try {
      after = overlaid([""], [[document]], patch).slots[0][0];
    } catch {
      continue;
    }
    const shown = (whole) =>
      overlaid(["", ...view], [[whole], ...view.map(() => [])], []).slots.slice(1);
    const laid = overlaid(view, shown(document), patch);
    const wanted = shown(after);
    laid.known.forEach((told, k) => {
      if (!told) return;
      assert.deepEqual(laid.slots[k], wanted[k], JSON.stringify({ document, patch, view, k }));
    });
    slots += view.length;
    known += laid.known.filter(Boolean).length;
  }
  assert.ok(known > slots / 2, `${known} of ${slots} slots are known`);
});

test("one slot: its value, its listeners, and counting by many", async (t) => {
  const all = await boards(t, ["/count", "/title"], ["/count"], ["/count"], ["/count"]);
  const count = all[0].at("/count");
  const seen = [];
  const end = all[0].at("/title").subscribe((title) => seen.push(title));
  await all[0].at("/title").set("Party");
  await Promise.all(
    all.flatMap((board) => [1, 2, 3].map(() => board.at("/count").update((n) => n + 1))),
  );
  await until(() => count.value === 12);
  end();
  await all[0].at("/title").set("Other");
  assert.deepEqual(seen, ["Party"]);
  assert.equal(await count.update(() => undefined), all[0].rev);
});

test("undo and redo", async (t) => {
  const [board, other] = await boards(t, ["/cards", "/title"], ["/cards", "/title"]);
  const cards = () => board.slots[0][0].join();
  await board.edit([
    { op: "move", from: "/cards/0", path: "/cards/-" },
    { op: "add", path: "/cards/1", value: "eggs" },
  ]);
  await board.at("/title").set("Party");
  await board.edit([{ op: "remove", path: "/cards/2" }], { optimistic: true });
  assert.equal(cards(), "bread,eggs");
  await Promise.all([board.undo(), board.undo(), board.undo()]);
  await until(() => board.pending === 0);
  assert.deepEqual([cards(), board.slots[1][0]], ["milk,bread", "Shopping"]);
  assert.equal(await board.undo(), null);
  await Promise.all([board.redo(), board.redo(), board.redo()]);
  await until(() => board.pending === 0);
  assert.deepEqual(
    [cards(), board.slots[1][0], board.undoable, board.redoable],
    ["bread,eggs", "Party", 3, 0],
  );
  await board.undo();
  await until(() => other.slots[0][0].length === 3);
  await other.at("/title").set("Theirs");
  await assert.rejects(
    board.undo(),
    (error) => error instanceof Refused && error.fault === "changed",
  );
  await board.undo();
  await until(() => cards() === "milk,bread");
  assert.equal(board.slots[1][0], "Theirs");
});

test("an undo of moves that shift or replace what is put back", async (t) => {
  const [board] = await boards(t, [""]);
  const [[before]] = board.slots;
  for (const patch of [
    [{ op: "move", from: "/cards/1", path: "/cards" }],
    [{ op: "move", from: "/cards", path: "" }],
    [
      { op: "add", path: "/cards/0", value: { text: "eggs" } },
      { op: "move", from: "/cards/0/text", path: "/cards/0" },
    ],
    [
      { op: "add", path: "/cards/2", value: { text: "eggs" } },
      { op: "move", from: "/cards/0", path: "/cards/1/text" },
    ],
  ]) {
    await board.edit(patch);
    await board.undo();
    await until(() => board.pending === 0);
    assert.deepEqual(board.slots, [[before]], JSON.stringify(patch));
  }
});

test("an undo of a removed member is refused where somebody put one there", async (t) => {
  const [board, other] = await boards(t, [""], [""]);
  await board.edit([{ op: "remove", path: "/title" }]);
  await board.undo();
  await until(() => board.slots[0][0].title === "Shopping");
  await board.edit([{ op: "remove", path: "/title" }]);
  await other.edit([{ op: "add", path: "/title", value: "Theirs" }]);
  await until(() => board.slots[0][0].title === "Theirs");
  await assert.rejects(board.undo(), (error) => error.fault === "changed");
  assert.equal(board.slots[0][0].title, "Theirs");
});

test("edits made away wait in order; unguarded only if the application says so", async (t) => {
  const sockets = cuttable();
  const kept = new Map();
  const storage = {
    getItem: (key) => kept.get(key) ?? null,
    setItem: (key, text) => kept.set(key, text),
    removeItem: (key) => kept.delete(key),
  };
  const [board] = await boards(t, {
    view: ["/cards"],
    queue: "guarded",
    storage,
    storageKey: "q",
    WebSocket: sockets,
  });
  sockets.cut(true);
  await until(() => board.state === "waiting");
  await assert.rejects(
    board.edit([{ op: "add", path: "/cards/-", value: "never" }]),
    (error) => error.fault === "away",
  );
  const guarded = (value) =>
    board.edit(
      [{ op: "test", path: "/title", value: "Shopping" }, { op: "add", path: "/cards/-", value }],
      { optimistic: true },
    );
  const edits = [guarded("one"), guarded("two")];
  assert.equal(JSON.parse(kept.get("q")).length, 2);
  assert.deepEqual(board.slots, [[["milk", "bread", "one", "two"]]]);
  sockets.away = false;
  await Promise.all(edits);
  await until(() => board.pending === 0);
  assert.deepEqual(board.confirmed, [[["milk", "bread", "one", "two"]]]);
  assert.equal(kept.size, 0);
});

test("what a page left in its storage the next one sends", async (t) => {
  const waiting = [{ patch: [{ op: "add", path: "/cards/-", value: "kept" }], epoch: null }];
  const kept = new Map([["q", JSON.stringify(waiting)]]);
  const storage = {
    getItem: (key) => kept.get(key) ?? null,
    setItem: (key, text) => kept.set(key, text),
    removeItem: (key) => kept.delete(key),
  };
  const [board] = await boards(t, { view: ["/cards"], storage, storageKey: "q" });
  await until(() => board.confirmed[0][0].length === 3 && board.pending === 0);
  assert.equal(kept.size, 0);
});

test("a storage that is full loses no edit, and keeps none that is older", async (t) => {
  const { warn } = console;
  t.after(() => (console.warn = warn));
  const warned = [];
  console.warn = (...words) => warned.push(words.join(" "));
  const kept = new Map();
  const storage = {
    getItem: (key) => kept.get(key) ?? null,
    setItem(key, text) {
      if (text.length > 100) throw new Error("it is full");
      kept.set(key, text);
    },
    removeItem: (key) => kept.delete(key),
  };
  const board = connect(await begunRoom(), { view: ["/cards"], storage, storageKey: "q" });
  t.after(() => board.close());
  const push = (value) => board.edit([{ op: "add", path: "/cards/-", value }]);
  const edits = [push("one")];
  assert.equal(kept.size, 1);
  edits.push(push("two"), push("three"));
  assert.equal(kept.size, 0);
  await Promise.all(edits);
  await board.sync();
  assert.deepEqual(board.slots, [[["milk", "bread", "one", "two", "three"]]]);
  assert.match(warned[0], /^relay: edits that wait .* end with this page: Error: it is full/);
});

test("a storage in which something else stands is empty", async (t) => {
  const url = await begunRoom();
  for (const text of ["", "{", "7", "null", '{"patch":[]}', '[null,5,"x",[],{},{"patch":7}]']) {
    const storage = { getItem: () => text, setItem() {}, removeItem() {} };
    const [board] = await boardsOf(t, url, { view: ["/title"], storage });
    assert.deepEqual([board.pending, board.slots, board.rev], [0, [["Shopping"]], 1]);
  }
});

test("views of one room share connections of 16 slots", async (t) => {
  const url = await begunRoom();
  const [other] = await boardsOf(t, url, ["/cards"]);
  const counts = [];
  const shared = room(url, { onConnections: (count) => counts.push(count) });
  t.after(() => shared.close());
  const cards = shared.view(["/cards"]);
  const both = shared.view(["/title", "/cards"]);
  assert.deepEqual(await both.ready, [["Shopping"], [["milk", "bread"]]]);
  assert.deepEqual(await cards.ready, [[["milk", "bread"]]]);
  const titles = [];
  both.subscribe(({ slots: [title] }) => titles.push(title[0]));
  const told = [];
  cards.subscribe(({ slots, pending }) => told.push([slots[0][0].length, pending]));
  await both.at("/title").set("Party");
  await other.edit([{ op: "add", path: "/cards/-", value: "eggs" }]);
  await until(() => both.slots[1][0].length === 3);
  assert.equal(titles[0], "Party");
  // An edit of another view is one of the same connection, which waits.
  assert.deepEqual(told, [[2, 1], [2, 0], [3, 0]]);
  const many = shared.view(Array.from({ length: 15 }, (_, k) => `/more/${k}`));
  assert.equal((await many.ready).length, 15);
  assert.deepEqual(counts, [1, 2]);
  many.close();
  const another = shared.view(["/count", ...Array.from({ length: 14 }, (_, k) => `/others/${k}`)]);
  assert.deepEqual((await another.ready)[0], [0]);
  assert.equal(shared.connections, 2);
});

test("a Svelte store tells at once, and is written", async (t) => {
  const [board] = await boards(t, ["/title"]);
  const title = relayStore(board.at("/title"));
  const seen = [];
  const end = title.subscribe((value) => seen.push(value));
  await title.set("Party");
  end();
  await title.set("Other");
  assert.deepEqual(seen, ["Shopping", "Party"]);
  assert.deepEqual(relayStore(board).subscribe(() => {}).length, 0);
});

test("a Vue ref holds what is shown, until its component ends", async (t) => {
  // Debian has no Vue 3: the two functions of it that the adapter calls stand here, as its
  // documentation has them.
  const folder = mkdtempSync(join(tmpdir(), "vue-"));
  t.after(() => rmSync(folder, { recursive: true }));
  mkdirSync(join(folder, "node_modules/vue"), { recursive: true });
  writeFileSync(
    join(folder, "node_modules/vue/package.json"),
    JSON.stringify({ exports: "./vue.mjs" }),
  );
  writeFileSync(
    join(folder, "node_modules/vue/vue.mjs"),
    `export const ends = [];
    export const onScopeDispose = (end) => ends.push(end);
    export const shallowRef = (value) => ({ value });`,
  );
  copyFileSync(
    new URL("../../clients/javascript/adapters/vue.mjs", import.meta.url),
    join(folder, "adapter.mjs"),
  );
  const { useRelay } = await import(pathToFileURL(join(folder, "adapter.mjs")));
  const { ends } = await import(pathToFileURL(join(folder, "node_modules/vue/vue.mjs")));
  const [board] = await boards(t, ["/title"]);
  const title = useRelay(board.at("/title"));
  await board.at("/title").set("Party");
  assert.equal(title.value, "Party");
  ends.forEach((end) => end());
  await board.at("/title").set("Other");
  assert.equal(title.value, "Party");
});

test("a watch that another one replaces is superseded, and shows no other slots", async (t) => {
  const asked = [];
  const WebSocket = scripted(({ id, view: [pointer] }, tell) => {
    asked.push(pointer);
    tell({ kind: "watching", id });
    // The snapshot that is due for `/b` is that of the view after it.
    if (pointer !== "/b") tell({ kind: "snapshot", rev: 1, view: [[pointer]] });
  });
  const board = connect("ws://example.org/rooms/a", { view: ["/a"], WebSocket });
  t.after(() => board.close());
  await board.ready;
  const watches = ["/b", "/c", "/c"].map((pointer) => board.watch([pointer]));
  await assert.rejects(watches[0], Superseded);
  assert.deepEqual(await Promise.all(watches.slice(1)), [[["/c"]], [["/c"]]]);
  // The slots of `sync` are those of whatever is watched then.
  board.watch(["/b"]);
  const synced = board.sync();
  await until(() => asked.length === 6);
  board.watch(["/d"]);
  assert.deepEqual(await synced, [["/d"]]);
  assert.deepEqual(asked, ["/a", "/b", "/c", "/c", "/b", "/b", "/d"]);
});

test("of two watches at once each gives its own slots, or is superseded", async (t) => {
  const [board] = await boards(t, []);
  for (let round = 0; round < 100; round += 1) {
    const ends = [["/title"], ["/count"]].map((view) => board.watch(view));
    const [title, count] = await Promise.allSettled(ends);
    assert.deepEqual(count.value, [[0]]);
    if (title.status === "rejected") assert.ok(title.reason instanceof Superseded, title.reason);
    else assert.deepEqual(title.value, [["Shopping"]]);
  }
});

test("a closed board sends nothing", async (t) => {
  const [board] = await boards(t, ["/title"]);
  board.close();
  await assert.rejects(board.edit([]), Closed);
  await assert.rejects(board.watch([""]), Closed);
});

// Changes by drafts and of lists, with others who edit at the same time.
import assert from "node:assert/strict";
import { test } from "node:test";
import { Refused, room } from "../../clients/javascript/relay.mjs";
import { begunRoom, boards, boardsOf, cuttable, until } from "./rooms.mjs";

const TWO = [{ id: "m", text: "milk" }, { id: "b", text: "bread" }];
const CARDS = { cards: TWO, done: [], title: "Plan", n: 0 };
const isRefused = (fault) => (error) => error instanceof Refused && error.fault === fault;
const texts = ({ value }) => value.map(({ text }) => text);

test("a change shows at once, and is sent as one patch", async (t) => {
  const [board, other] = await boards(t, ["/cards", "/title"], [""]);
  const done = board.change((draft) => {
    draft.cards.push("eggs");
    draft.cards.splice(1, 1);
    draft.title = `${draft.title}!`;
  });
  assert.deepEqual([board.slots, board.pending], [[[["milk", "eggs"]], ["Shopping!"]], 1]);
  assert.equal(await done, 2);
  const [[{ cards, title }]] = await other.sync();
  assert.deepEqual([cards, title, other.rev], [["milk", "eggs"], "Shopping!", 2]);
  await board.sync();
  await board.undo();
  assert.deepEqual((await other.sync())[0][0].cards, ["milk", "bread"]);
  // Where nothing is changed nothing is sent.
  assert.equal(await board.change((draft) => void draft.cards.length), 3);
  assert.equal((await other.sync(), other.rev), 3);
});

test("one that was made of an older list is made anew, until nobody was faster", async (t) => {
  const all = await boardsOf(t, await begunRoom(CARDS), ["/n", "/done"], ["/n", "/done"], ["/n"]);
  let calls = 0;
  const changes = all.flatMap((board) =>
    Array.from({ length: 10 }, () => board.change((draft) => {
      calls += 1;
      draft.n += 1;
    })),
  );
  await Promise.all(changes);
  await all[0].sync();
  assert.deepEqual(all[0].slots, [[30], [[]]]);
  assert.ok(calls > 30, `${calls} calls`);
});

test("a refusal of another kind, or after so many tries, is told once", async (t) => {
  const backs = [];
  // What it sends is heard after what others send meanwhile.
  const sockets = class extends WebSocket {
    send(text) {
      setTimeout(() => super.send(text), 50);
    }
  };
  const onTakenBack = ({ cause }) => backs.push(cause.fault);
  const own = { view: ["/n", "/cards"], WebSocket: sockets, onTakenBack };
  const [board, other] = await boardsOf(t, await begunRoom(CARDS), own, ["/n"]);
  const heavy = board.change((draft) => void draft.cards.push("x".repeat(300_000)));
  await assert.rejects(heavy, (error) => error instanceof Refused && error.fault === "too-heavy");
  const late = [];
  const again = board.change((draft) => {
    late.push(other.at("/n").set((draft.n += 1) + 100, { optimistic: false }));
  }, { tries: 2 });
  await assert.rejects(again, (error) => error instanceof Refused && error.fault === "test-failed");
  assert.deepEqual([backs, late.length], [["too-heavy", "test-failed"], 2]);
  await assert.rejects(board.change(() => {}, { guard: "all" }), RangeError);
  await assert.rejects(board.change(async () => {}), TypeError);
});

test("guards: the revision, and nothing", async (t) => {
  const [board, other] = await boardsOf(t, await begunRoom(CARDS), ["/n"], ["/title"]);
  await other.at("/title").set("Party");
  let calls = 0;
  await board.change((draft) => void (draft.n = (calls += 1)), { guard: "base" });
  assert.equal(calls, 2);
  const waits = board.change((draft) => void (draft.n = 7));
  await board.change((draft) => void (draft.n += 1), { guard: "base" });
  await waits;
  assert.deepEqual(await board.sync(), [[8]]);
  await board.change((draft) => void (draft.n += 1), { guard: "none" });
  assert.deepEqual(await board.sync(), [[9]]);
});

test("a change waits for the first slots, and one made away for the connection", async (t) => {
  const sockets = cuttable();
  const url = await begunRoom(CARDS);
  const shared = room(url, { WebSocket: sockets, firstWait: 10, onState: () => {} });
  t.after(() => shared.close());
  const view = shared.view(["/n"]);
  await view.change((draft) => void (draft.n += 1));
  sockets.cut(true);
  await until(() => view.state === "waiting");
  const done = view.change((draft) => void (draft.n += 1));
  assert.deepEqual(view.slots, [[2]]);
  sockets.cut(false);
  await done;
});

test("a list: what is meant is the element that was shown, wherever it is by then", async (t) => {
  const url = await begunRoom({ list: ["a", "b", "c"] });
  const [board, other] = await boardsOf(t, url, ["/list"], ["/list"]);
  const [list, theirs] = [board.at("/list"), other.at("/list")];
  await list.push("d", "e");
  await theirs.insert(0, "z");
  await Promise.all([theirs.insert(0, "y"), list.remove(list.value.indexOf("b"))]);
  await list.move(list.value.indexOf("e"), list.value.indexOf("a"));
  await list.insert(list.value.length, "f");
  assert.deepEqual(await board.sync(), [[["y", "z", "e", "a", "c", "d", "f"]]]);
  const gone = other.edit([{ op: "replace", path: "/list", value: ["a"] }]);
  await assert.rejects(list.remove(5), isRefused("changed"));
  await gone;
  assert.throws(() => list.remove(9), RangeError);
});

test("elements by a key: found, changed, moved and removed, wherever they are then", async (t) => {
  const [board, other] = await boardsOf(t, await begunRoom(CARDS), ["/cards"], ["/cards"]);
  const [cards, theirs] = [board, other].map((one) => one.at("/cards").byKey("id"));
  assert.deepEqual([cards.get("b").text, cards.indexOf("m")], ["bread", 0]);
  assert.deepEqual([cards.get("x"), cards.indexOf("x")], [undefined, -1]);
  const sent = [];
  const edit = board.edit.bind(board);
  board.edit = (patch, options) => (sent.push(patch), edit(patch, options));
  // Both change one card at once: the guard is its key, and each changes another member.
  await Promise.all([
    cards.change("b", (card) => void (card.done = true)),
    theirs.insert({ id: "e", text: "eggs" }, "m"),
    theirs.change("b", (card) => void (card.text += "!")),
  ]);
  const guard = { op: "test", path: "/cards/1/id", value: "b" };
  assert.deepEqual(sent[0], [guard, { op: "add", path: "/cards/1/done", value: true }]);
  await board.sync();
  await cards.move("b", "e");
  await Promise.all([cards.remove("m"), theirs.move("e", null)]);
  const [[shown]] = await board.sync();
  assert.deepEqual(shown, [{ id: "b", text: "bread!", done: true }, { id: "e", text: "eggs" }]);
  await cards.move("b", null);
  assert.deepEqual(texts(board.at("/cards")), ["eggs", "bread!"]);
  const acts = [
    () => cards.remove("m"),
    () => cards.move("b", "m"),
    () => cards.change("m", () => {}),
  ];
  for (const act of [...acts, () => cards.insert({ id: "x" }, "m")]) {
    await assert.rejects(act(), isRefused("missing"));
  }
});

test("an element is put in by a key of its own, which no other element has", async (t) => {
  const [board, other] = await boardsOf(t, await begunRoom(CARDS), ["/cards"], ["/cards"]);
  const [cards, theirs] = [board, other].map((one) => one.at("/cards").byKey("id"));
  for (const element of [{ id: "b", text: "tea" }, { text: "tea" }, "tea", null]) {
    await assert.rejects(cards.insert(element, null), isRefused("key"));
  }
  const { message } = await cards.insert({ id: "b" }, "m").catch((cause) => cause);
  assert.equal(message, 'key: "b" is no new key');
  // Of two at once the second is refused where it asks for that.
  const insert = (list) => list.insert({ id: "e", text: "eggs" }, null, { guard: "base" });
  const ends = await Promise.allSettled([insert(cards), insert(theirs)]);
  const refused = ends.filter(({ status }) => status === "rejected");
  assert.equal(refused.length, 1);
  assert.ok(isRefused("key")(refused[0].reason), refused[0].reason);
  await board.sync();
  assert.deepEqual(texts(board.at("/cards")), ["milk", "bread", "eggs"]);
  // One that is shown still, and was just taken away.
  await theirs.remove("e");
  await insert(cards);
});

test("a key that no element has is looked for in fresh slots, once", async (t) => {
  let watches = 0;
  let isDeaf = false;
  const sockets = class extends WebSocket {
    set onmessage(hear) {
      super.onmessage = (event) => (isDeaf && event.data.includes('"patch"')) || hear(event);
    }
    send(text) {
      watches += Number(JSON.parse(text).do === "watch");
      super.send(text);
    }
  };
  const own = { view: ["/cards"], WebSocket: sockets };
  const [board, other] = await boardsOf(t, await begunRoom(CARDS), own, ["/cards"]);
  const [cards, theirs] = [board, other].map((one) => one.at("/cards").byKey("id"));
  watches = 0;
  await assert.rejects(cards.change("x", () => {}), isRefused("missing"));
  assert.equal(watches, 1);
  // One that is shown, and was just removed: the relay refuses that first.
  isDeaf = true;
  await theirs.remove("m");
  await assert.rejects(cards.change("m", (card) => void (card.done = 1)), isRefused("missing"));
  assert.equal(watches, 2);
  // One that is there, and is not shown yet.
  await theirs.insert({ id: "e", text: "eggs" }, null);
  await cards.change("e", (card) => void (card.text += "!"));
  assert.deepEqual([watches, texts(board.at("/cards"))], [3, ["bread", "eggs!"]]);
});

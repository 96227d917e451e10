// Boards that only watch, and rooms that are ended (RELAY names the program).
import assert from "node:assert/strict";
import { test } from "node:test";
import {
  HandshakeFailed,
  Refused,
  connect,
  presence,
  room,
} from "../../clients/javascript/relay.mjs";
import { begunRoom, boardsOf, cuttable, newRoom, scripted, until } from "./rooms.mjs";

const VIEW = ["/cards", "/title", "/count"];
const PUSH = [{ op: "add", path: "/cards/-", value: "eggs" }];
// A platform may tell the status.
const NO_ROOM_YET = /\/watch refuses the connection(, with 404)?: there is no room of this name/;
const isReadOnly = (error) => error instanceof Refused && error.fault === "read-only";

test("who only watches sees what others do, also over a lost connection", async (t) => {
  const url = await begunRoom();
  const WebSocket = cuttable();
  const [board, other] = await boardsOf(t, url, { view: VIEW, readOnly: true, WebSocket }, VIEW);
  await other.edit(PUSH);
  await until(() => board.slots[0][0].length === 3);
  WebSocket.cut(true);
  await other.edit(PUSH);
  WebSocket.away = false;
  await until(() => board.slots[0][0].length === 4);
  assert.deepEqual(await board.watch(["/title"]), [["Shopping"]]);
});

test("each edit of who only watches fails at once, and nothing is shown or sent", async (t) => {
  const url = await begunRoom();
  const told = [];
  const options = { view: VIEW, readOnly: true, onChange: (change) => told.push(change) };
  const [board, other] = await boardsOf(
    t,
    url,
    { ...options, onTakenBack: (back) => told.push(back) },
    VIEW,
  );
  const before = told.length;
  const place = board.at("/cards");
  const edits = [
    board.edit(PUSH),
    board.edit(PUSH, { optimistic: true, base: 1 }),
    board.change((draft) => void draft.cards.push("eggs")),
    board.change(() => assert.fail("it is not called"), { guard: "base" }),
    place.push("eggs"),
    place.byKey("id").remove("a"),
    board.at("/title").set("Party"),
    board.at("/count").update((count) => count + 1),
    board.end(),
    board.undo(),
    board.redo(),
  ];
  for (const edit of edits) await assert.rejects(edit, isReadOnly);
  assert.deepEqual([told.length, board.pending, board.undoable], [before, 0, 0]);
  assert.deepEqual(await board.sync(), other.slots);
  assert.equal(board.rev, 1);
});

test("it fails also before there is a connection, and a room is not begun", async () => {
  const said = [];
  const heard = [];
  const answer = (message, tell) => {
    said.push(message.do);
    tell({ kind: "watching", id: message.id });
    tell({ kind: "snapshot", rev: 0, view: [[null]] });
  };
  const WebSocket = scripted(answer);
  const Told = class extends WebSocket {
    constructor(url) {
      super();
      heard.push(url);
    }
  };
  const options = { view: [""], begin: { cards: [] }, readOnly: true, WebSocket: Told };
  const board = connect("ws://example.org/rooms/a?token=b", options);
  await assert.rejects(board.edit(PUSH), isReadOnly);
  await assert.rejects(board.end(), isReadOnly);
  assert.deepEqual(await board.ready, [[null]]);
  board.close();
  assert.deepEqual([heard, said], [["ws://example.org/rooms/a/watch?token=b"], ["watch"]]);
});

test("the relay refuses it as well", async (t) => {
  const url = await begunRoom();
  const WebSocket = class extends globalThis.WebSocket {
    constructor(url) {
      super(`${url}/watch`);
    }
  };
  const [board] = await boardsOf(t, url, { view: VIEW, WebSocket });
  await assert.rejects(board.edit(PUSH), isReadOnly);
});

test("parts of a page that only watch share a connection", async (t) => {
  const shared = room(await begunRoom(), { readOnly: true });
  t.after(() => shared.close());
  const [title, cards] = [shared.view(["/title"]), shared.view(["/cards"])];
  assert.deepEqual([await title.ready, await cards.ready], [[["Shopping"]], [[["milk", "bread"]]]]);
  await assert.rejects(cards.at("/cards").push("eggs"), isReadOnly);
  await assert.rejects(title.end(), isReadOnly);
});

test("who only watches sees who is here, and is not here", async (t) => {
  const url = await begunRoom({ here: {} });
  const [board, other] = await boardsOf(t, url, { view: ["/here"], readOnly: true }, ["/here"]);
  const [mine, others] = [
    presence(board, "/here", { name: "Ann" }),
    presence(other, "/here", { name: "Bob" }),
  ];
  await assert.rejects(mine.ready, isReadOnly);
  await others.ready;
  await until(() => Object.values(mine.people).map(({ name }) => name).join() === "Bob");
});

/** The causes that a board that only watches is told, each time that it has no connection. */
function refusedOf(t, url) {
  const told = [];
  const onState = (state, cause) => cause !== null && told.push([state, cause]);
  const times = { firstWait: 10, longestWait: 10 };
  const board = connect(url, { view: ["/n"], readOnly: true, onState, ...times });
  t.after(() => board.close());
  return [board, told];
}

test("who only watches waits for a room that is not there, and begins none", async (t) => {
  const url = newRoom();
  const [board, told] = refusedOf(t, url);
  await until(() => told.length > 2);
  assert.equal(board.slots, null);
  for (const [state, cause] of told) {
    assert.deepEqual([state, cause.reason], ["waiting", "refused"]);
    assert.match(cause.message, NO_ROOM_YET);
  }
  const [other] = await boardsOf(t, url, { view: [], begin: { n: 5 } });
  await until(() => board.slots?.[0][0] === 5);
  assert.equal(other.rev, 1);
});

test("what does not know the address is tried again, if its path can be right", async (t) => {
  const [, told] = refusedOf(t, newRoom().replace("/rooms/", "/old/rooms/"));
  await until(() => told.length > 2);
  const [state, cause] = told[0];
  assert.ok(cause instanceof HandshakeFailed);
  assert.deepEqual([state, cause.status], ["waiting", 404]);
  const noRooms = "what answers there has no rooms, or is the --admin port";
  const yet = `there is no room of this name yet, or ${noRooms}`;
  assert.ok(cause.message.endsWith(`with 404: ${yet}`), cause.message);
  const [asked, refused] = refusedOf(t, `${newRoom()}?token=a`);
  await until(() => asked.state === "closed");
  assert.match(refused[0][1].message, /\/watch\?token=a .* with 404: leave out the `\?` and/);
});

test("a room is ended if nobody edited since", async (t) => {
  const url = await begunRoom();
  const [board, other] = await boardsOf(t, url, ["/cards"], ["/title"]);
  await other.edit([{ op: "replace", path: "/title", value: "Party" }]);
  await assert.rejects(board.end(), (error) => error instanceof Refused && error.fault === "stale");
  await board.sync();
  assert.equal(await board.end(), 3);
  await until(() => board.slots[0].length === 0);
  assert.deepEqual(await other.sync(), [[]]);
});

test("a room is ended before the first slots, and by a board that closes", async (t) => {
  const url = await begunRoom();
  const first = connect(url, { view: ["/cards"] });
  assert.equal(await first.end(), 2);
  first.close();
  const [board, other] = await boardsOf(t, url, { view: ["/cards"], begin: { cards: [] } }, [""]);
  const done = board.end();
  board.close();
  await done.catch(() => {});
  await until(() => other.slots[0][0] === null);
});

test("a shared view ends its room", async (t) => {
  const shared = room(await begunRoom());
  t.after(() => shared.close());
  const title = shared.view(["/title"]);
  await title.ready;
  assert.equal(await title.end(), 2);
});

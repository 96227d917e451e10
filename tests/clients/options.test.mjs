// Tests of what is given in another shape than a call takes: each error names it, and what is
// meant.
import assert from "node:assert/strict";
import { test } from "node:test";
import { connect, presence, room } from "../../clients/javascript/relay.mjs";
import { begunRoom, boardsOf, newRoom, until } from "./rooms.mjs";

const says = (words) => (error) => {
  assert.deepEqual([error.constructor, error.message], [TypeError, words]);
  return true;
};
const PATCH = 'takes a list of operations, as [{ op: "add", path: "/cards/-", value: "milk" }]';

test("an option that a call does not have is refused, with the nearest one", async (t) => {
  const url = await begunRoom();
  const rows = [
    [{ readonly: true }, '`connect` has no option "readonly": is "readOnly" meant?'],
    [{ onchange() {} }, '`connect` has no option "onchange": is "onChange" meant?'],
    [{ begins: {} }, '`connect` has no option "begins": is "begin" meant?'],
  ];
  for (const [options, words] of rows) {
    assert.throws(() => connect(url, { view: [], ...options }), says(words));
  }
  const none = /`room` has no option "view": it has onConnections, begin, /;
  assert.throws(() => room(url, { view: [] }), none);
  const [board] = await boardsOf(t, url, ["/cards", "/count"]);
  const place = board.at("/count");
  const wrong = [
    () => board.edit([], { optimisic: true }),
    () => board.change(() => {}, { trys: 2 }),
    () => board.at("/cards").remove(0, { silent: true }),
    async () => place.set(1, { parent: true }),
    async () => place.update(() => 1, { optimistic: true }),
    async () => presence(board, "/cards", {}, { ids: "a" }),
  ];
  const words = [
    '`edit` has no option "optimisic": is "optimistic" meant?',
    '`change` has no option "trys": is "tries" meant?',
    '`change` has no option "silent": it has guard, tries, optimistic, undo, once',
    '`set` has no option "parent": is "parents" meant?',
    '`update` has no option "optimistic": it has tries, undo',
    '`presence` has no option "ids": is "id" meant?',
  ];
  for (const [k, act] of wrong.entries()) await assert.rejects(act(), says(words[k]));
  assert.equal((await board.sync(), board.rev), 1);
});

test("what is no view, no patch, no function and no address is named", async (t) => {
  const url = newRoom();
  const view = '`connect` takes a view, a list of pointers as ["/cards"]';
  assert.throws(() => connect(url), says(view));
  assert.throws(() => connect(url, {}), says(view));
  assert.throws(() => connect(url, { view: "/cards" }), says(`${view}, not /cards`));
  assert.throws(
    () => connect(url, ["/cards"]),
    says("the options of `connect` are an object, not a list"),
  );
  const address = "is no address of a room, as ws://127.0.0.1:8080/rooms/NAME";
  assert.throws(() => connect("a room", { view: [] }), says(`"a room" ${address}`));
  assert.throws(() => connect(undefined, { view: [] }), says(`undefined ${address}`));
  const aView = 'takes a view, a list of pointers as ["/cards"]';
  assert.throws(() => room(url).view("/cards"), says(`\`view\` ${aView}, not /cards`));
  const [board] = await boardsOf(t, await begunRoom(), ["/count"]);
  assert.throws(() => board.watch(), says(`\`watch\` ${aView}`));
  await assert.rejects(board.edit(undefined), says(`\`edit\` ${PATCH}, not undefined`));
  await assert.rejects(board.edit({ op: "remove" }), says(`\`edit\` ${PATCH}, not an object`));
  await assert.rejects(board.will("leave"), says(`\`will\` ${PATCH}, not leave`));
  await assert.rejects(board.change(5), says("`change` takes a function, not 5"));
  assert.throws(() => board.at("/count").update(5), says("`update` takes a function, not 5"));
  await assert.rejects(board.edit([], null), says("the options of `edit` are an object, not null"));
});

test("a board is closed also after a presence that failed", async (t) => {
  const [board] = await boardsOf(t, await begunRoom(), ["/count"]);
  assert.throws(() => presence(board, "/here", { name: "Ann" }), RangeError);
  await board.edit([{ op: "replace", path: "/count", value: 2 }]);
  await until(() => board.slots[1] === undefined && board.slots[0][0] === 2);
  board.close();
  assert.equal(board.state, "closed");
});

test("a view that is refused is said in the console, if nobody listens to states", async (t) => {
  const { warn } = console;
  t.after(() => (console.warn = warn));
  const warned = [];
  console.warn = (text) => warned.push(text);
  const board = connect(newRoom(), { view: ["cards"] });
  await until(() => board.state === "closed");
  const advice = "a pointer is empty or begins with /; in a name ~1 is / and ~0 is ~";
  assert.deepEqual(warned, [`relay: pointer at 0: ${advice}; it is given up`]);
});

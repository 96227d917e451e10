// Wills: what the relay does when a session ends, over lost connections, and of boards that share
// one.
import assert from "node:assert/strict";
import { test } from "node:test";
import { Closed, connect, room } from "../../clients/javascript/relay.mjs";
import { WithoutWills, begunRoom, boards, boardsOf, cuttable, until } from "./rooms.mjs";

const count = (value) => [{ op: "replace", path: "/count", value }];
const push = (card) => [{ op: "add", path: "/cards/-", value: card }];

test("a will is done when the board is closed, and a withdrawn one is not", async (t) => {
  const [one, two, other] = await boards(t, [], [], ["/cards", "/count"]);
  await one.will(count(1));
  await two.will(count(2));
  await two.will([]);
  two.close();
  one.close();
  await until(() => other.at("/count").value === 1);
  assert.equal(other.rev, 2);
  await assert.rejects(one.will(count(3)), Closed);
});

test("each connection leaves it again, before the edits that waited", async (t) => {
  const sockets = cuttable();
  const [board, other] = await boardsOf(
    t,
    await begunRoom(),
    { view: ["/cards"], WebSocket: sockets },
    ["/cards"],
  );
  await board.will(push("left"));
  for (let lost = 1; lost < 4; lost += 1) {
    sockets.cut(true);
    await until(() => other.at("/cards").value.filter((card) => card === "left").length === lost);
    await until(() => board.state === "waiting");
    board.edit(push("back"));
    sockets.cut(false);
    await until(() => other.at("/cards").value.at(-1) === "back");
  }
  board.close();
  await until(() => other.at("/cards").value.at(-1) === "left");
});

test("a will that was asked for while there is no connection waits for one", async (t) => {
  const sockets = cuttable();
  const [board, other] = await boardsOf(
    t,
    await begunRoom(),
    { view: ["/count"], WebSocket: sockets },
    ["/count"],
  );
  sockets.cut(true);
  await until(() => board.state === "waiting");
  const left = board.will(count(5));
  sockets.cut(false);
  await left;
  assert.equal(other.at("/count").value, 0);
  board.close();
  await until(() => other.at("/count").value === 5);
});

test("what boards that share a connection leave is done together, when it ends", async (t) => {
  const url = await begunRoom();
  const [other] = await boardsOf(t, url, ["/cards", "/count"]);
  const shared = room(url);
  const [one, two] = [shared.view(["/cards"]), shared.view(["/count"])];
  await Promise.all([one.will(push("one")), two.will(count(7)), one.will(push("two"))]);
  one.close();
  shared.close();
  await until(() => other.at("/count").value === 7);
  assert.deepEqual([other.at("/cards").value.at(-1), other.rev], ["two", 2]);
});

test("a relay that knows no wills refuses it, and who only watches asks for none", async (t) => {
  const url = await begunRoom();
  const [board] = await boardsOf(t, url, { view: [], WebSocket: WithoutWills });
  await assert.rejects(board.will(count(1)), { name: "Refused", fault: "shape", at: null });
  await board.edit(count(2));
  const screen = connect(url, { view: [], readOnly: true });
  t.after(() => screen.close());
  await assert.rejects(screen.will(count(1)), { name: "Refused", fault: "read-only" });
});

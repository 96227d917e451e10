// Texts that are long: the relay refuses those that it still reads, and the client those that would
// end the connection.
import assert from "node:assert/strict";
import { test } from "node:test";
import { Refused, connect } from "../../clients/javascript/relay.mjs";
import { boards, newRoom } from "./rooms.mjs";

const isTooLong = (error) =>
  error instanceof Refused && error.fault === "too-long" && error.at === null;
const TOO_LONG = "/" + "x".repeat(1_056_768);

test("an edit that is too long is refused, by either side, and the connection stays", async (t) => {
  const states = [];
  const [board] = await boards(t, { view: ["/title"], onState: (state) => states.push(state) });
  for (const value of ["x".repeat(1_050_000), TOO_LONG, "€".repeat(360_000)]) {
    for (const options of [{}, { base: board.rev }, { optimistic: true }]) {
      await assert.rejects(
        board.edit([{ op: "replace", path: "/title", value }], options),
        isTooLong,
      );
    }
  }
  assert.deepEqual([states, board.pending, board.slots], [["open"], 0, [["Shopping"]]]);
  assert.equal(await board.edit([{ op: "replace", path: "/title", value: "Done" }]), 2);
});

test("a view that is too long is refused, and the one before stays", async (t) => {
  const [board] = await boards(t, { view: ["/title"] });
  await assert.rejects(board.watch([TOO_LONG]), isTooLong);
  await board.edit([{ op: "replace", path: "/title", value: "Still here" }]);
  assert.deepEqual([await board.watch(["/title"]), board.view], [[["Still here"]], ["/title"]]);
});

test("a first view that is too long closes the board", async () => {
  const board = connect(newRoom(), { view: [TOO_LONG] });
  await assert.rejects(board.ready, isTooLong);
  assert.equal(board.state, "closed");
});

// Tests of who is here: over restarts, in rooms that have not begun, and beside clients that write
// something else there.
import assert from "node:assert/strict";
import { spawn } from "node:child_process";
import { test } from "node:test";
import { connect, presence } from "../../clients/javascript/relay.mjs";
import {
  WithoutWills,
  begunRoom,
  boards,
  boardsOf,
  cuttable,
  newRoom,
  pause,
  restartable,
  until,
} from "./rooms.mjs";

const names = (here) => Object.values(here.people).map(({ name }) => name).sort().join();

test("who is here, and who is not any more", async (t) => {
  const sent = [];
  const counting = class extends WebSocket {
    send(text) {
      sent.push(JSON.parse(text).do);
      super.send(text);
    }
  };
  const [ann, bob] = await boardsOf(
    t,
    await begunRoom({ here: {} }),
    { view: ["/here"], WebSocket: counting },
    ["/here"],
  );
  const first = presence(ann, "/here", { name: "Ann" }, { every: 20 });
  const second = presence(bob, "/here", { name: "Bob" });
  await Promise.all([first.ready, second.ready]);
  await until(() => names(first) === "Ann,Bob" && names(second) === "Ann,Bob");
  await first.set({ name: "Anne" });
  await until(() => names(second) === "Anne,Bob");
  bob.close();
  await until(() => names(first) === "Anne");
  await pause(60);
  // The will first; nothing is renewed.
  assert.deepEqual(sent, ["watch", "will", "edit", "edit"]);
  await first.leave();
  await until(() => names(first) === "");
  assert.deepEqual([sent, ann.undoable], [["watch", "will", "edit", "edit", "edit", "will"], 0]);
  await assert.rejects(first.set({ name: "Ann" }), { name: "Closed" });
});

test("a lost connection takes its entry away, and the next one writes it again", async (t) => {
  const sockets = cuttable();
  const views = [{ view: ["/here"], WebSocket: sockets }, ["/here"]];
  const [ann, bob] = await boardsOf(t, await begunRoom({ here: {} }), ...views);
  const [first, second] = [
    presence(ann, "/here", { name: "Ann" }),
    presence(bob, "/here", { name: "Bob" }),
  ];
  await Promise.all([first.ready, second.ready]);
  await until(() => names(second) === "Ann,Bob");
  const { session } = second.people[first.id];
  sockets.cut(true);
  await until(() => names(second) === "Bob");
  sockets.cut(false);
  await until(() => names(second) === "Ann,Bob");
  assert.notEqual(second.people[first.id].session, session);
});

test("the will of an earlier session leaves the entry of a later one", async (t) => {
  const wills = [];
  const silent = class extends WebSocket {
    send(text) {
      const { patch, ...request } = JSON.parse(text);
      if (request.do === "will") wills.push(patch);
      super.send(text);
    }
  };
  const [ann, bob] = await boardsOf(
    t,
    await begunRoom({ here: {} }),
    { view: ["/here"], WebSocket: silent },
    ["/here"],
  );
  const here = presence(ann, "/here", { name: "Ann" });
  await here.ready;
  await bob.edit([{ op: "replace", path: `/here/${here.id}/session`, value: "another" }]);
  await assert.rejects(bob.edit(wills[0]), { fault: "test-failed" });
  await until(() => here.people[here.id].session === "another");
});

test("two windows with one id are here until both have left", async (t) => {
  const [ann, bob, other] = await boards(t, ["/here"], ["/here"], ["/here"]);
  const [first, second] = [ann, bob].map((board) =>
    presence(board, "/here", { name: "Ann" }, { id: "ann" }),
  );
  await Promise.all([first.ready, second.ready]);
  await second.set({ name: "Anne" });
  bob.close();
  await until(() => names(first) === "Ann");
  ann.close();
  await until(() => Object.keys(other.at("/here").value).length === 0);
});

test("an entry of an earlier run, as a keeper puts it back, is taken away", async (t) => {
  const old = { bob: { name: "Bob", session: "7.x" }, eve: { name: "Eve" } };
  const [ann] = await boardsOf(t, await begunRoom({ here: old }), ["/here"]);
  const here = presence(ann, "/here", { name: "Ann" });
  await until(() => names(here) === "Ann,Eve");
});

test("what several parts of a page leave is done together", async (t) => {
  const [ann, other] = await boards(t, ["/here", "/there"], [""]);
  const [one, two] = [
    presence(ann, "/here", { name: "Ann" }),
    presence(ann, "/there", { name: "Ann" }),
  ];
  await ann.will([{ op: "add", path: "/title", value: "left" }]);
  await Promise.all([one.ready, two.ready]);
  await assert.rejects(ann.will([{ op: "add", path: "", value: "x".repeat(70_000) }]), {
    fault: "too-heavy",
  });
  await two.leave();
  ann.close();
  await until(() => other.at("/title").value === "left");
  assert.deepEqual([other.at("/here").value, other.at("/there").value], [{}, {}]);
});

test("who is here, told to a relay that knows no wills", async (t) => {
  let asked = 0;
  const counting = class extends WithoutWills {
    send(text) {
      asked += JSON.parse(text).do === "will";
      super.send(text);
    }
  };
  const old = { view: ["/here"], WebSocket: counting };
  const [ann, bob] = await boardsOf(t, await begunRoom({ here: {} }), old, old);
  const waits = { every: 30, gone: 150 };
  const first = presence(ann, "/here", { name: "Ann" }, waits);
  const second = presence(bob, "/here", { name: "Bob" }, waits);
  await Promise.all([first.ready, second.ready]);
  await until(() => names(first) === "Ann,Bob" && names(second) === "Ann,Bob");
  await first.set({ name: "Anne" });
  await until(() => names(second) === "Anne,Bob");
  bob.close();
  await pause(100);
  // Each session asks once.
  assert.deepEqual([names(first), asked], ["Anne,Bob", 2]);
  await until(() => names(first) === "Anne");
  assert.equal(ann.undoable, 0);
  await first.leave();
  await until(() => names(first) === "");
  await assert.rejects(first.set({ name: "Ann" }), { name: "Closed" });
});

for (const begin of [undefined, { here: {} }, { cards: [] }]) {
  const beginning = JSON.stringify(begin) ?? "nothing";
  test(`it comes back after a restart, with ${beginning} to begin with`, async (t) => {
    const relay = await restartable(t);
    const options = { view: ["/here"], begin };
    const [ann, bob, other] = await boardsOf(t, relay.url, options, options, [""]);
    const start = () =>
      begin === undefined && other.edit([{ op: "add", path: "", value: { cards: [] } }]);
    await start();
    const [first, second] = [
      presence(ann, "/here", { name: "Ann" }),
      presence(bob, "/here", { name: "Bob" }),
    ];
    await until(() => names(first) === "Ann,Bob" && names(second) === "Ann,Bob");
    await relay.stop();
    await until(() => [ann, bob, other].every(({ state }) => state === "waiting"));
    const told = first.set({ name: "Anne" });
    await relay.start();
    await until(() => [ann, bob, other].every(({ state }) => state === "open"));
    await start();
    await told;
    await until(() => names(first) === "Anne,Bob" && names(second) === "Anne,Bob");
  });
}

test("in a room that has not begun it waits for the document", async (t) => {
  const url = newRoom();
  const [ann, other] = await boardsOf(t, url, ["/in/here"], [""]);
  const here = presence(ann, "/in/here", { name: "Ann" });
  let ready = false;
  here.ready.then(() => (ready = true));
  for (const value of [{ cards: [] }, 5, { in: "text" }]) {
    await other.edit([{ op: "add", path: "", value }]);
    await pause(30);
  }
  assert.deepEqual([ready, names(here)], [false, ""]);
  await other.edit([{ op: "add", path: "", value: { in: {} } }]);
  await here.ready;
  await until(() => names(here) === "Ann");
});

test("in a full document it waits for another one, and asks for nothing meanwhile", async (t) => {
  let sent = 0;
  const counting = class extends WebSocket {
    send(text) {
      sent += 1;
      super.send(text);
    }
  };
  const url = await begunRoom({ here: {}, text: "x".repeat(262_050) });
  const [ann, other] = await boardsOf(t, url, { view: ["", "/here"], WebSocket: counting }, [""]);
  const here = presence(ann, "/here", { name: "Ann", more: "y".repeat(100) });
  // The answer is slow: the document is as large as one can be.
  await until(() => sent === 3 && ann.pending === 0);
  await pause(50);
  assert.deepEqual([sent, names(here)], [3, ""]);
  // What is laid over it and taken back is no other document.
  await ann.edit([{ op: "remove", path: "/nothing" }], { optimistic: true }).catch(() => {});
  await pause(50);
  assert.equal(sent, 4);
  await other.edit([{ op: "replace", path: "/text", value: "" }]);
  await here.ready;
  assert.deepEqual([sent, names(here)], [5, "Ann"]);
});

test("what is no object is replaced, and what is no entry is left out", async (t) => {
  for (const here of [null, 5, "text", ["a"]]) {
    const [ann, other] = await boardsOf(t, await begunRoom({ here }), ["/here"], ["/here"]);
    const shown = presence(ann, "/here", { name: "Ann" });
    await shown.ready;
    await until(() => names(shown) === "Ann");
    await other.edit(
      ["x", "y", "z"].map((id, k) => ({
        op: "add",
        path: `/here/${id}`,
        value: [null, 7, [1]][k],
      })),
    );
    await until(() => Object.keys(ann.slots[0][0]).length === 4);
    assert.deepEqual([Object.keys(shown.people), shown.people], [[shown.id], shown.people]);
    assert.equal(shown.people, shown.people);
    await pause(50);
    const isBack = () => Object.keys(ann.confirmed[0][0] ?? {}).includes(shown.id);
    // A client that spoils it: it is there again at once.
    await other.edit([{ op: "replace", path: "/here", value: here }]);
    await until(isBack);
    await other.edit([{ op: "remove", path: "/here" }]);
    await until(isBack);
  }
});

test("without wills an entry lives 150 seconds, so one renewal in a minute keeps it", async (t) => {
  const old = { view: ["/here"], WebSocket: WithoutWills };
  const [ann, other] = await boardsOf(t, await begunRoom({ here: {} }), old, ["/here"]);
  t.mock.timers.enable({ apis: ["setInterval", "Date"] });
  const here = presence(ann, "/here", { name: "Ann" });
  await here.ready;
  const seconds = async (count) => {
    for (let k = 0; k < count; k += 20) {
      t.mock.timers.tick(20_000);
      await pause(10);
    }
  };
  for (let beat = 0; beat < 4; beat += 1) {
    await other.edit([{ op: "add", path: "/here/hidden", value: { name: "Hidden", beat } }]);
    await until(() => here.people.hidden?.beat === beat);
    await seconds(60);
  }
  await seconds(80);
  assert.equal(names(here), "Ann,Hidden");
  await seconds(40);
  await until(() => names(here) === "Ann");
});

test("the application is not told of what presence is refused", async (t) => {
  const relay = await restartable(t);
  const taken = [];
  const [ann, other] = await boardsOf(
    t,
    relay.url,
    { view: ["/here"], onTakenBack: (told) => taken.push(told) },
    [""],
  );
  await other.edit([{ op: "add", path: "", value: { here: {} } }]);
  const here = presence(ann, "/here", { name: "Ann" }, { every: 5 });
  await here.ready;
  for (let tries = 0; tries < 20; tries += 1) {
    await other.edit([{ op: "replace", path: "/here", value: 1 }]);
    await pause(5);
  }
  await relay.stop();
  await relay.start();
  await until(() => ann.state === "open");
  await pause(50);
  assert.deepEqual(taken, []);
});

test("nothing that the client does by itself ends the process", async (t) => {
  const relay = await restartable(t);
  const script = `
    import { connect, presence } from "./clients/javascript/relay.mjs";
    const kept = JSON.stringify([
      { patch: [{ op: "remove", path: "/nothing" }], epoch: null },
      { patch: [], base: 7, epoch: 3 },
    ]);
    const storage = { getItem: () => kept, setItem() {}, removeItem() {} };
    const states = [];
    const onState = (state) => console.log(state);
    const options = { view: ["/here"], begin: { here: 5 }, storage, firstWait: 10, onState };
    const board = connect("${relay.url}", options);
    const here = presence(board, "/here", { name: "Ann" }, { every: 5 });
    const elsewhere = presence(board, "/elsewhere", { name: "Ann" }, { every: 5 });
    setInterval(() => { here.set({ name: "Ann" }); elsewhere.set({ name: "Ann" }); }, 7);
    process.stdin.on("data", () => board.close()).on("end", () => process.exit(0));
  `;
  const words = [
    ...process.execArgv.filter((word) => word.includes("websocket")),
    "--no-warnings",
    "--input-type=module",
    "-e",
    script,
  ];
  const child = spawn(process.execPath, words, { stdio: ["pipe", "pipe", "inherit"] });
  t.after(() => child.kill());
  let told = "";
  child.stdout.on("data", (text) => (told += text));
  const ended = new Promise((resolve) => child.once("exit", resolve));
  await until(() => told.includes("open"));
  const other = connect(relay.url, { view: [""], firstWait: 10 });
  t.after(() => other.close());
  await other.edit([{ op: "add", path: "", value: 5 }]);
  await relay.stop();
  await until(() => told.includes("waiting"));
  await relay.start();
  await until(() => told.split("open").length === 3);
  child.stdin.write("close\n");
  await until(() => told.includes("closed"));
  await pause(50);
  child.stdin.end();
  assert.equal(await ended, 0, told);
});

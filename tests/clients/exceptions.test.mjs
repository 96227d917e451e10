// Tests of what an application's functions do to the client that calls them. What they throw is
// reported as an uncaught exception, and it goes on.
import assert from "node:assert/strict";
import { spawn } from "node:child_process";
import { test } from "node:test";
import { connect } from "../../clients/javascript/relay.mjs";
import { pause, restartable, until } from "./rooms.mjs";

const THROWS = `
  import { connect } from "./clients/javascript/relay.mjs";
  process.on("uncaughtException", ({ message }, origin) => console.log(origin, message));
  const onState = (state, cause) => { throw new Error([state, cause?.reason].join(" ")); };
  const onChange = ({ slots }) => console.log("slots", JSON.stringify(slots));
  connect(process.argv[1], { view: ["/n"], onState, onChange, firstWait: 10, longestWait: 10 });
  process.stdin.on("end", () => process.exit(0)).resume();
`;

test("an exception of `onState` is no rejection, and hinders no connection", async (t) => {
  const relay = await restartable(t);
  const board = connect(relay.url, { view: ["/n"], firstWait: 10, begin: { n: 1 } });
  t.after(() => board.close());
  await board.ready;
  await relay.stop();
  const words = [
    ...process.execArgv.filter((word) => word.includes("websocket")),
    "--no-warnings",
    "--input-type=module",
    "-e",
    THROWS,
  ];
  const child = spawn(process.execPath, [...words, relay.url], {
    stdio: ["pipe", "pipe", "inherit"],
  });
  t.after(() => child.kill());
  let told = "";
  child.stdout.on("data", (text) => (told += text));
  const ended = new Promise((resolve) => child.once("exit", resolve));
  await until(() => told.split("waiting unreachable").length > 3);
  await relay.start();
  await until(() => told.includes("slots [[1]]"));
  await relay.stop();
  const lost = "uncaughtException waiting \n";
  await until(() => told.includes(lost));
  child.stdin.end();
  assert.equal(await ended, 0);
  assert.ok(!told.includes("unhandledRejection"), told);
  assert.ok(told.includes("uncaughtException open"), told);
});

test("a board that `onState` closes makes no further connection", async () => {
  let made = 0;
  const sockets = class {
    constructor() {
      made += 1;
      setTimeout(() => this.onerror({}));
    }
    close() {}
  };
  const onState = (state) => state === "connecting" && board.close();
  const board = connect("ws://127.0.0.1:1/rooms/a", {
    view: [],
    WebSocket: sockets,
    firstWait: 1,
    longestWait: 1,
    onState,
  });
  await until(() => board.state === "closed");
  await pause(50);
  assert.equal(made, 1);
});

const IGNORES = `
  import { connect } from "./clients/javascript/relay.mjs";
  process.on("unhandledRejection", ({ name, fault, message }) => console.log(fault ?? message));
  const onTakenBack = ({ cause }) => console.log("told of", cause.fault);
  const board = connect(process.argv[1], { view: ["/n"], begin: { n: 1 } });
  const told = connect(process.argv[1], { view: ["/n"], onTakenBack });
  await Promise.all([board.ready, told.ready]);
  const step = async (name, act) => {
    console.log(name);
    act();
    await Promise.all([board.sync(), told.sync()]);
  };
  const test = [{ op: "test", path: "/n", value: 2 }];
  const bug = () => { throw new TypeError("a bug"); };
  await step("- an edit", () => board.edit(test));
  await step("- shown at once", () => board.edit(test, { optimistic: true }));
  await step("- a pointer", () => board.edit([{ op: "remove", path: "n" }]));
  await step("- a value", () => board.at("/n").set(1.5));
  await step("- a change", () => board.change(bug));
  await step("- an update", () => board.at("/n").update(bug));
  await step("- a will", () => board.will([{}]));
  await step("- looked at", () => void board.edit(test).catch(() => {}));
  await step("- told", () => told.edit(test, { optimistic: true }));
  await step("- a change that is told of a bug", () => told.change(bug));
  await step("- not shown at once", () => told.edit(test));
  board.close();
  told.close();
`;

test("what fails is reported as any promise is, if nobody looks at it", async (t) => {
  const relay = await restartable(t);
  const words = ["--no-warnings", "--experimental-websocket", "--input-type=module", "-e", IGNORES];
  const child = spawn(process.execPath, [...words, relay.url], {
    stdio: ["ignore", "pipe", "inherit"],
  });
  let told = "";
  child.stdout.on("data", (text) => (told += text));
  const status = await new Promise((resolve) => child.once("exit", resolve));
  assert.deepEqual([status, told.trim().split("\n")], [0, [
    "- an edit", "test-failed",
    "- shown at once", "test-failed",
    "- a pointer", "pointer",
    "- a value", "/0/value is 1.5, no whole number within 2^53: scale it, or send a text",
    "- a change", "a bug",
    "- an update", "a bug",
    "- a will", "shape",
    "- looked at",
    "- told", "told of test-failed",
    "- a change that is told of a bug", "a bug",
    "- not shown at once", "test-failed",
  ]]);
});

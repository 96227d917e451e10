// Tests of when a connection is given up: one that is gone, and not one that is slow.
import assert from "node:assert/strict";
import { connect as dial, createServer } from "node:net";
import { once } from "node:events";
import { test } from "node:test";
import { connect } from "../../clients/javascript/relay.mjs";
import { begunRoom, scripted, until } from "./rooms.mjs";

/**
 * A proxy before the relay, over which so many bytes a second come to a client. Gives its address,
 * and counts what is lost.
 */
async function throttled(t, url, rate) {
  const sockets = new Set();
  // A loss of a connection whose handshake was done has no cause.
  const proxy = {
    lost: 0,
    bytes: 0,
    url,
    told: (state, cause) => (proxy.lost += Number(state === "waiting" && cause === null)),
  };
  const server = createServer((near) => {
    const far = dial(new URL(url).port, "127.0.0.1");
    const end = () => [near, far].forEach((socket) => socket.destroy());
    for (const socket of [near, far]) sockets.add(socket.on("error", () => {}).on("close", end));
    near.pipe(far);
    let due = performance.now(); // when the line is free again: a busy machine catches up
    far.on("data", (bytes) => {
      near.write(bytes);
      proxy.bytes += bytes.length;
      due += (bytes.length / rate) * 1000;
      far.pause();
      setTimeout(() => far.resume(), due - performance.now());
    });
  });
  server.listen(0, "127.0.0.1");
  await once(server, "listening");
  t.after(() => {
    for (const socket of sockets) socket.destroy();
    server.close();
  });
  proxy.url = url.replace(/:\d+/, `:${server.address().port}`);
  return proxy;
}

/** The milliseconds between the changes to `waiting`, which are so many. */
function losses(t, { edits, ...options }, count) {
  return new Promise((resolve) => {
    const at = [];
    let begun = performance.now();
    const board = connect("ws://127.0.0.1:1/rooms/a", {
      view: ["/n"], firstWait: 1, longestWait: 1, ...options,
      onState: (state) => {
        if (state === "connecting") begun = performance.now();
        if (state === "waiting") at.push(Math.round(performance.now() - begun));
        if (at.length === count) resolve(at);
      },
    });
    t.after(() => board.close());
    edits?.(board);
  });
}

function about(seen, wanted) {
  seen.forEach((took, k) =>
    assert.ok(
      took > wanted[k] * 0.9 && took < wanted[k] * 1.5 + 400,
      `${seen} ms, and not about ${wanted}`,
    ),
  );
}

test("patience counts from the oldest request without an answer", async (t) => {
  const sockets = scripted(({ do: asked, id }, tell) => {
    if (asked !== "watch") return;
    tell({ kind: "watching", id });
    tell({ kind: "snapshot", rev: 1, view: [[1]] });
  });
  const edits = (board) => {
    const editing = setInterval(() => board.edit([]).catch(() => {}), 50);
    t.after(() => clearInterval(editing));
  };
  const [took] = await losses(t, { WebSocket: sockets, patience: 300, edits }, 1);
  // Counted from the newest request it would never be noticed.
  assert.ok(took < 5_000, `a peer that is gone was noticed after ${took} ms`);
});

test("a snapshot that takes longer than quiet and patience arrives", async (t) => {
  const text = "x".repeat(100_000);
  const proxy = await throttled(t, await begunRoom({ text, n: 0 }), 660_000);
  const view = [...Array(10).fill("/text"), "/n"]; // 1 MB, which take 1.5 s, where patience has 6 s
  const board = connect(proxy.url, {
    view,
    quiet: 100,
    patience: 1000,
    firstWait: 10,
    onState: proxy.told,
  });
  t.after(() => board.close());
  // An edit meanwhile is answered behind it.
  await until(() => proxy.bytes > 100_000);
  const done = board.edit([{ op: "replace", path: "/n", value: 1 }]);
  await board.ready;
  assert.equal(await done, 2);
  await until(() => board.confirmed[10][0] === 1);
  assert.equal(proxy.lost, 0);
});

test("and so does one that takes many times longer", async (t) => {
  const text = "x".repeat(100_000);
  const proxy = await throttled(t, await begunRoom({ text }), 330_000);
  // 1 MB, which take 3 s, where patience has 2.4 s, and then 4.8
  const view = Array(10).fill("/text");
  const board = connect(proxy.url, {
    view,
    quiet: 100,
    patience: 400,
    firstWait: 10,
    onState: proxy.told,
  });
  t.after(() => board.close());
  await board.ready;
  assert.equal(proxy.lost, 1);
});

test("a snapshot that never comes is given up, later each time; no request then", async (t) => {
  const said = [];
  const sockets = scripted((request, tell) => {
    said.push(request.do);
    if (request.do === "watch") tell({ kind: "watching", id: request.id });
  });
  about(await losses(t, { WebSocket: sockets, quiet: 10, patience: 10 }, 5), [
    60, 120, 240, 480, 480,
  ]);
  assert.deepEqual(said, Array(5).fill("watch"));
});

test("once slots came the first patience is back", async (t) => {
  let connections = 0;
  const sockets = class extends scripted(({ do: asked, id }, tell) => {
    if (asked === "watch") tell({ kind: "watching", id });
    if (asked === "watch" && connections >= 3) tell({ kind: "snapshot", rev: 1, view: [[1]] });
    if (asked === "resume") tell({ kind: "resumed", how: "nothing", id });
  }) {
    constructor(url) {
      super(url);
      connections += 1;
    }
  };
  // From the third connection on slots come, and then nothing: after `quiet` a request asks for an
  // answer, for as long as patience has.
  about(await losses(t, { WebSocket: sockets, quiet: 30, patience: 100 }, 5), [
    600, 1200, 130, 130, 130,
  ]);
});

test("where nobody answers a handshake, patience stays what it is", async (t) => {
  const silent = class {
    close() {}
  };
  about(await losses(t, { WebSocket: silent, patience: 50 }, 4), [50, 50, 50, 50]);
});

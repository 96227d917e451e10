// Handshakes that are refused, by a relay that the test plays: which end a board, which are tried
// again, and what is said of them.
import assert from "node:assert/strict";
import { createHash } from "node:crypto";
import { once } from "node:events";
import { createServer } from "node:http";
import { test } from "node:test";
import { HandshakeFailed, connect } from "../../clients/javascript/relay.mjs";

const ROOM = "ws://127.0.0.1:1/rooms/a";
const NO_ROOM_YET = "there is no room of this name yet, or";
const GUID = "258EAFA5-E914-47DA-95CA-C5AB0DC85B11";
const WELCOME = { kind: "welcome", epoch: 1, rev: 1, session: 1 };
const SHOWN = [{ kind: "watching", id: 1 }, { kind: "snapshot", rev: 1, view: [[5]] }];

/** A class of sockets whose first handshakes fail with a status, as the package `ws` tells it. */
function refusing(...statuses) {
  return class {
    constructor(url) {
      this.url = url;
      const status = statuses.shift();
      const message = `Unexpected server response: ${status}`;
      setTimeout(() => (status === undefined ? this.enter() : this.onerror({ message })));
    }
    enter() {
      this.onopen();
      this.tell(WELCOME);
    }
    tell(message) {
      this.onmessage({ data: JSON.stringify(message) });
    }
    send() {
      setTimeout(() => SHOWN.forEach((message) => this.tell(message)));
    }
    close() {}
  };
}

/** A board with what it is told of states, until it ends or has slots. */
async function board(t, url, options) {
  const told = [];
  const onState = (state, cause) => told.push([state, cause]);
  const times = { firstWait: 1, longestWait: 1 };
  const own = connect(url, { view: ["/n"], onState, ...times, ...options });
  t.after(() => own.close());
  const ready = await own.ready.catch((cause) => cause);
  return { told, ready, states: told.map(([state]) => state), cause: told[0][1] };
}

test("who only watches waits until the room is there", async (t) => {
  const options = { readOnly: true, WebSocket: refusing(404, 404, 404) };
  const { states, cause, ready } = await board(t, ROOM, options);
  assert.deepEqual(ready, [[5]]);
  const tries = Array(3).fill(["waiting", "connecting"]).flat();
  assert.deepEqual(states, [...tries, "open"]);
  assert.ok(cause instanceof HandshakeFailed);
  assert.deepEqual([cause.reason, cause.status], ["refused", 404]);
  const words = `${NO_ROOM_YET} what answers there has no rooms, or is the --admin port`;
  assert.equal(cause.message, `${ROOM}/watch refuses the connection, with 404: ${words}`);
});

test("so it is behind a path of a proxy", async (t) => {
  const options = { readOnly: true, WebSocket: refusing(404, 404) };
  const { cause, ready } = await board(t, "ws://h/b/rooms/a", options);
  assert.deepEqual(ready, [[5]]);
  assert.match(cause.message, /^ws:\/\/h\/b\/rooms\/a\/watch refuses .* no room of this name yet/);
});

test("its pauses are those of a lost connection", async (t) => {
  const WebSocket = refusing(...Array(8).fill(404));
  const begun = performance.now();
  await board(t, ROOM, { readOnly: true, WebSocket, firstWait: 20, longestWait: 40 });
  // Of 20 and 7 of 40 ms each is half at least. A timer may come a little early.
  assert.ok(performance.now() - begun > 140);
});

test("any other 404 is of a wrong address, and ends a board", async (t) => {
  const rows = [
    [ROOM, {}, "what answers there has no rooms, or is the --admin port"],
    ["ws://h/b/rooms/a", {}, "a room is at /rooms/NAME, and this path is /b/rooms/a"],
    ["ws://h/rooms/a?b=c", { readOnly: true }, "leave out the `?` and what follows"],
    // A room named `watch`, behind a path. Its address tells no more than that.
    ["ws://h/rooms/rooms/watch", {}, ""],
  ];
  for (const [url, options, words] of rows) {
    const { told, ready } = await board(t, url, { WebSocket: refusing(404), ...options });
    assert.deepEqual(told, [["closed", ready]], url);
    assert.ok(ready instanceof HandshakeFailed && ready.message.endsWith(words), ready.message);
  }
});

/**
 * A relay that answers a handshake as `answer` says, or lets it in where that gives undefined; and
 * any other request as `asked` says, with 400 as it does where the address is good. Gives a room's
 * address.
 */
async function played(t, answer, asked = () => 400) {
  const server = createServer(({ headers }, reply) => reply.writeHead(asked(headers)).end());
  server.on("upgrade", ({ headers }, socket) => {
    const status = answer(headers);
    const closes = "Content-Length: 0\r\nConnection: close\r\n\r\n";
    if (status !== undefined) return socket.end(`HTTP/1.1 ${status} Refused\r\n${closes}`);
    const accept = createHash("sha1").update(headers["sec-websocket-key"] + GUID).digest("base64");
    const upgrades = "Upgrade: websocket\r\nConnection: Upgrade\r\n";
    const accepts = `Sec-WebSocket-Accept: ${accept}\r\n\r\n`;
    socket.write(`HTTP/1.1 101 Switching Protocols\r\n${upgrades}${accepts}`);
    socket.write(framed(WELCOME));
    // What comes first is the watch.
    socket.once("data", () => SHOWN.forEach((message) => socket.write(framed(message))));
    t.after(() => socket.destroy());
  });
  server.listen(0, "127.0.0.1");
  await once(server, "listening");
  t.after(() => server.close());
  return `ws://127.0.0.1:${server.address().port}/rooms/a`;
}

function framed(message) {
  const text = Buffer.from(JSON.stringify(message));
  return Buffer.concat([Buffer.from([0x81, text.length]), text]);
}

test("a platform that does not tell a 404 from a 503 has both said of who watches", async (t) => {
  const statuses = [404, 404];
  const url = await played(t, () => statuses.shift());
  const { states, cause, ready } = await board(t, url, { readOnly: true });
  assert.deepEqual(ready, [[5]]);
  assert.deepEqual(states, ["waiting", "connecting", "waiting", "connecting", "open"]);
  assert.deepEqual([cause.reason, cause.status], ["refused", null]);
  const full = "it is full (--sessions, --rooms), --closed, or stopping";
  const words = `${NO_ROOM_YET} ${full}, or what answers is no relay`;
  assert.equal(cause.message, `${url}/watch refuses the connection: ${words}`);
  const others = [503];
  const own = await played(t, () => others.shift());
  const { cause: refused } = await board(t, own, {});
  assert.equal(refused.message, `${own} refuses the connection, with 503: ${full}`);
});

test("no message has the password of an address, or a name that may be a token", async (t) => {
  const rows = [
    ["ws://anna:secret@127.0.0.1:1/rooms/a", "ws://anna:***@127.0.0.1:1/rooms/a"],
    ["wss://anna:s:cr@secret@h/rooms/a", "wss://anna:***@h/rooms/a"],
    // A slash has to be escaped; where it is not, the message is of an address of another form.
    ["ws://anna:1/secret@h/rooms/a", "ws://anna:***@h/rooms/a"],
    ["ws://secret@h:8080/rooms/a", "ws://***@h:8080/rooms/a"],
    ["ws://h:8080/rooms/a", "ws://h:8080/rooms/a"],
  ];
  const { warn } = console;
  t.after(() => (console.warn = warn));
  for (const [url, shown] of rows) {
    const { cause } = await board(t, url, { WebSocket: refusing(503) });
    assert.ok(cause.message.startsWith(`${shown} refuses the connection, with 503`), url);
    const { message } = new HandshakeFailed("unreachable", url);
    assert.ok(message.startsWith(`nothing answers at ${shown}: `), message);
    const warned = [];
    console.warn = (text) => warned.push(text);
    const ended = connect(url, { view: ["/n"], WebSocket: refusing(404) });
    const ready = await ended.ready.catch((cause) => cause);
    assert.ok(warned[0].startsWith(`relay: ${shown} refuses the connection, with 404`), warned[0]);
    assert.ok(![cause, ready, ...warned].some((told) => `${told}`.includes("secret")), warned[0]);
  }
  const says = (failed) => /is no address|ends with/.test(failed) && !/secret/.test(failed);
  for (const url of ["ws://anna:pa/secret@h/rooms/a", "ws://anna:secret@h/a", "anna:secret@h/a"]) {
    assert.throws(() => connect(url, { view: [] }), says, url);
  }
});

test("a password that the platform does not send is what a refusal says", async (t) => {
  const statuses = [401];
  const named = await played(t, () => statuses.shift(), () => 401);
  const url = named.replace("//", "//anna:secret@");
  const { cause, ready } = await board(t, url, {});
  assert.deepEqual(ready, [[5]]);
  assert.deepEqual([cause.reason, cause.status], ["refused", 401]);
  const words = "the name or the password is wrong, or not sent: Node's own WebSocket sends";
  const shown = named.replace("//", "//anna:***@");
  assert.ok(cause.message.startsWith(`${shown} refuses the connection, with 401: ${words}`));
});

test("sockets that are given headers send a name and a password", async (t) => {
  const basic = `Basic ${btoa("anna:sec/ret")}`;
  const own = await played(t, ({ authorization }) => (authorization === basic ? undefined : 401));
  class Named extends WebSocket {
    constructor(url) {
      const address = new URL(url);
      const user = [address.username, address.password].map(decodeURIComponent).join(":");
      address.username = address.password = "";
      super(address, { headers: { authorization: `Basic ${btoa(user)}` } });
    }
  }
  const url = own.replace("//", "//anna:sec%2Fret@");
  const { states, ready } = await board(t, url, { WebSocket: Named });
  assert.deepEqual([states, ready], [["open"], [[5]]]);
});

test("each status that is tried again says its own thing", async (t) => {
  const rows = [
    [403, ": it lets no page of this origin in (--origin)"],
    [429, ": too many requests or connections of this address"],
    [502, ""],
    [503, ": it is full (--sessions, --rooms), --closed, or stopping"],
  ];
  for (const [status, words] of rows) {
    const { cause, ready } = await board(t, ROOM, { WebSocket: refusing(status) });
    assert.deepEqual(ready, [[5]]);
    assert.deepEqual([cause.reason, cause.status], ["refused", status]);
    assert.equal(cause.message, `${ROOM} refuses the connection, with ${status}${words}`);
  }
});

// Rooms of one relay for the tests of the JavaScript client (RELAY names the program), boards in
// them, and sockets that a test plays.
import assert from "node:assert/strict";
import { spawn } from "node:child_process";
import { createInterface } from "node:readline";
import { after } from "node:test";
import { connect } from "../../clients/javascript/relay.mjs";

export const BEGUN = { cards: ["milk", "bread"], title: "Shopping", count: 0, away: [] };
let rooms = 0;

/** A run of the relay, and its port. */
export async function serve(port = 0, epoch = 1000) {
  const words = ["serve", "--port", String(port), "--epoch", String(epoch)];
  const program = spawn(process.env.RELAY, words, { stdio: ["ignore", "pipe", "ignore"] });
  const { value } = await createInterface({ input: program.stdout })[Symbol.asyncIterator]().next();
  return [program, Number(value.split(" ")[1])];
}

const [relay, port] = await serve();
after(() => relay.kill());

/** The URL of a room. */
export function newRoom(name = `r${(rooms += 1)}`) {
  return `ws://127.0.0.1:${port}/rooms/${name}`;
}

/** The URL of a new room with a document. */
export async function begunRoom(value = BEGUN) {
  const url = newRoom();
  const board = connect(url, { view: [] });
  await board.edit([{ op: "add", path: "", value }]);
  board.close();
  return url;
}

/** Boards of one new room, which has begun; they are closed when the test ends. */
export async function boards(t, ...views) {
  return boardsOf(t, await begunRoom(), ...views);
}

/** Boards of a room, once they have their slots; they are closed when the test ends. */
export async function boardsOf(t, url, ...views) {
  const all = views.map((options) => {
    const own = Array.isArray(options) ? { view: options } : options;
    return connect(url, { firstWait: 10, onState: () => {}, ...own });
  });
  t.after(() => all.forEach((board) => board.close()));
  await Promise.all(all.map(({ ready }) => ready));
  return all;
}

/** A relay of its own that a test stops and starts again, each time as another run. */
export async function restartable(t) {
  // Below the ports that the system gives to connections, so that it is free again.
  const port = 20_000 + Math.floor(Math.random() * 10_000);
  let [program] = await serve(port, 1);
  let epoch = 1;
  t.after(() => program.kill());
  return {
    url: `ws://127.0.0.1:${port}/rooms/own`,
    async stop() {
      program.kill();
      await new Promise((resolve) => program.once("exit", resolve));
    },
    async start() {
      [program] = await serve(port, (epoch += 1));
    },
  };
}

export async function until(holds) {
  for (let tries = 0; !holds(); tries += 1) {
    assert.ok(tries < 2000, `${holds} does not come to hold`);
    await pause(5);
  }
}

export function pause(wait) {
  return new Promise((resolve) => setTimeout(resolve, wait));
}

/** A class of sockets whose connections a test can cut, and keep from being made. */
export function cuttable() {
  return class Cuttable extends WebSocket {
    static all = new Set();
    static away = false;
    constructor(url) {
      super(Cuttable.away ? url.replace(/:\d+/, ":1") : url);
      Cuttable.all.add(this);
    }
    static cut(away) {
      Cuttable.away = away;
      for (const socket of Cuttable.all) socket.close();
      Cuttable.all.clear();
    }
  };
}

/** Sockets to a relay that knows no wills: it is asked for a word that it does not know either. */
export class WithoutWills extends WebSocket {
  send(text) {
    super.send(text.replace('"do":"will"', '"do":"unheard-of"'));
  }
}

/** A class of sockets to a relay that welcomes, and then answers as `answer` says, or not. */
export function scripted(answer) {
  return class Scripted {
    constructor() {
      setTimeout(() => {
        this.onopen();
        this.tell({ kind: "welcome", epoch: 1, rev: 1, session: 1 });
      });
    }
    tell(message) {
      this.onmessage({ data: JSON.stringify(message) });
    }
    send(text) {
      answer(JSON.parse(text), (message) => setTimeout(() => this.tell(message)));
    }
    close() {}
  };
}

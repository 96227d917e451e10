// The JavaScript client, driven by the lines of docs/CONFORMANCE.md.
import { createInterface } from "node:readline";
import { setTimeout as after } from "node:timers/promises";
import { pathToFileURL } from "node:url";

const root = new URL("../../../", import.meta.url);
const { JAVASCRIPT: file } = process.env;
const client = file ? pathToFileURL(file) : new URL("clients/javascript/relay.mjs", root);
const { connect, presence } = await import(client);

// No time is played, so none may pass: neither before another connection, nor until the client asks
// whether the relay is there.
const HOUR = 3_600_000;
const times = { firstWait: 1, longestWait: 1, quiet: HOUR, patience: HOUR };

const tell = (line) => process.stdout.write(JSON.stringify(line) + "\n");
let socket = null;
let former = null; // the connection that was lost or left last
let board = null;

class FakeSocket {
  constructor(url) {
    socket = this;
    tell({ opens: url });
  }
  send(text) {
    tell({ says: text });
  }
  close() {
    if (socket === this && former !== this) tell({ leaves: true });
    former = this;
  }
}

const ends = (key, word, asked) =>
  asked.then(
    (value) => tell({ ends: key, [word]: value }),
    ({ name, fault, at, rev, message }) => {
      if (name === "Refused") tell({ ends: key, refused: fault, at, rev });
      else if (name === "Unknown") tell({ ends: key, unknown: true });
      else if (name === "Superseded") tell({ ends: key, superseded: true });
      else if (name === "Closed") tell({ ends: key, closed: true });
      else tell({ ends: key, invalid: message });
    },
  );

const does = {
  connect: ({ url, view, readOnly }) => {
    board = connect(url, { view, readOnly, WebSocket: FakeSocket, ...times });
  },
  accept: () => socket.onopen?.({}),
  // A status is told as the package `ws` does.
  fail: ({ status }) =>
    socket.onerror?.(status ? { message: `Unexpected server response: ${status}` } : {}),
  hear: ({ text }) => socket.onmessage({ data: text }),
  late: ({ text }) => former.onmessage({ data: text }),
  cut: () => {
    former = socket;
    socket.onclose?.({});
  },
  edit: ({ do: _, key, patch, ...options }) => ends(key, "done", board.edit(patch, options)),
  endRoom: ({ key }) => ends(key, "done", board.end()),
  will: ({ key, patch }) => ends(key, "willing", board.will(patch).then(() => true)),
  present: ({ key, path, entry }) =>
    ends(key, "here", presence(board, path, entry).ready.then(() => true)),
  watch: ({ key, view }) => ends(key, "shown", board.watch(view)),
  look: () => {
    const { view, confirmed: slots, rev, epoch, slots: shown } = board;
    tell({ held: { view, slots, rev, epoch, shown } });
  },
  end: () => board.close(),
};

tell({ traits: ["optimistic", "rounding", "late", "read-only", "end-room", "wills", "presence"] });
for await (const line of createInterface({ input: process.stdin })) {
  const words = JSON.parse(line);
  does[words.do](words);
  // What follows without time has followed behind this: promises have settled.
  await after(0);
}
process.exit(0);

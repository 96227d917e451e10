// The first list of a board in a terminal: shows its cards as they change, and adds each line that
// is typed. The line `drop` drops the connection on purpose: the client comes back, and is told
// what it missed.
//
//     node --experimental-websocket examples/board.js PORT [ROOM]
//
// From node 22 on it needs no option.
const { createInterface } = require("node:readline");
const { connect } = require("../clients/javascript/relay.js");

const [port, room = "board", ...more] = process.argv.slice(2);
const isUsed = /^\d+$/.test(port) && port < 65536 && /^[\w-]{1,64}$/.test(room) && !more.length;
if (!isUsed || typeof WebSocket === "undefined") {
  console.error("usage: node --experimental-websocket examples/board.js PORT [ROOM]");
  process.exit(2);
}
let socket = null;

class Droppable extends WebSocket {
  constructor(url) {
    super(url);
    socket = this;
  }
}

const board = connect(`ws://127.0.0.1:${port}/rooms/${room}`, {
  view: ["/todo"],
  begin: { todo: [], doing: [], done: [], away: [] },
  WebSocket: Droppable,
  onChange: ({ slots, rev, patch }) =>
    console.log(rev, patch ? "patch:" : "snapshot:", ...shown(slots[0][0])),
  onState: (state) => console.log(state),
});

const shown = (cards) => (Array.isArray(cards) ? cards : ["no list yet"]);
const add = (value) =>
  board.edit([{ op: "add", path: "/todo/-", value }]).catch((error) => console.log(error.message));

createInterface({ input: process.stdin })
  .on("line", (line) => (line === "drop" ? socket.close() : add(line)))
  .on("close", () => board.close());

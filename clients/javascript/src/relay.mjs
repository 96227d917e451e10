// A client of the relay (docs/PROTOCOL.md): the slots of a view, which stay right when connections
// are lost and the relay is restarted.
import { Board } from "./board.mjs";
import { Room } from "./room.mjs";
import { checkRoom } from "./handshake.mjs";
import { checkOptions, checkView } from "./options.mjs";
import { checked } from "./json.mjs";
import { afterAll, knownBy, slotOf, slotsOf } from "./known.mjs";

export { Closed, HandshakeFailed, Refused, Superseded, Unknown } from "./errors.mjs";
export { inspected } from "./inspected.mjs";
export { pointer } from "./pointer.mjs";
export { presence } from "./presence.mjs";

/** @typedef {import("../relay.js").Shown} Shown */
/** @typedef {import("../relay.js").Operation} Operation */

const BOARD = [
  "begin",
  "readOnly",
  "onState",
  "onTakenBack",
  "queue",
  "storage",
  "storageKey",
  "once",
  "WebSocket",
  "firstWait",
  "longestWait",
  "quiet",
  "patience",
];

/** @param {string} url @param {any} options @returns {any} */
export function connect(url, options = {}) {
  checkOptions("connect", options, ["view", "onChange", ...BOARD]);
  checkView("connect", options.view);
  checkSockets(options);
  checkRoom(url);
  return new Board(url, options);
}

/** @param {string} url @param {any} [options] @returns {any} */
export function room(url, options = {}) {
  checkOptions("room", options, ["onConnections", ...BOARD]);
  checkSockets(options);
  checkRoom(url);
  return new Room(url, options);
}

/**
 * Returns what the slots of a view show when a patch is laid over them, as far as they tell it: of
 * the others each is as it was, and `known` is false. Fails where an operation is known not to fit.
 * @param {readonly Shown[]} view @param {readonly any[]} slots @param {readonly Operation[]} patch
 */
export function overlaid(view, slots, patch) {
  const whole = afterAll(knownBy(view, slots), checked(patch));
  return {
    slots: slotsOf(whole, view, slots),
    known: view.map((shown) => slotOf(whole, shown) !== null),
  };
}

const NO_SOCKETS =
  "no WebSocket: take Node 22, --experimental-websocket, or that of the package `ws`";

/** @param {any} options */
function checkSockets(options) {
  const sockets = options.WebSocket ?? globalThis.WebSocket;
  if (typeof sockets !== "function") throw new TypeError(NO_SOCKETS);
}

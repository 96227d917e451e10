// A connection to a room that comes back when it is lost, and the requests that go over it, in
// order.
import { HandshakeFailed, isWatching } from "./errors.mjs";
import { endsConnection } from "./length.mjs";
import { Failures } from "./handshake.mjs";
import { parsed } from "./json.mjs";
import { overlap } from "./pointer.mjs";
import { WAITS } from "./once.mjs";

// With one more on the way 32 replies could wait, and the relay would read nothing from this client
// until it drew one.
const ON_THE_WAY = 31;

// A snapshot may take as many times as long as an answer: it has up to 25 MB, and whatever is
// answered meanwhile comes behind it.
const SNAPSHOT = 6;

// The number of times that patience is doubled at most, since connections were given up.
const DOUBLINGS = 3;

// As what answers says that there is no room at the address.
const NO_ROOM = 404;

// As the relay refuses a text that it still reads.
const TOO_LONG = { kind: "refused", fault: "too-long", at: null };

// The messages that answer a request if it is not refused, each with what it answers. The welcome
// answers none.
const REPLIES = new Map([
  ["done", "edit"],
  ["watching", "watch"],
  ["resumed", "resume"],
  ["willing", "will"],
]);

/**
 * A request: what is sent, the id with which it was, and what becomes of it. Only an edit has the
 * last seven; others end with their connection.
 *
 * @typedef {{ epoch: number, rev: number }} Welcome
 * @typedef {{
 *   request: { do?: string, [member: string]: unknown },
 *   id?: number,
 *   answered: (reply: any) => void,
 *   ahead?: (welcome: Welcome) => Asked | typeof WAITS | null | undefined,
 *   goesTo?: (welcome: Welcome) => boolean,
 *   lost?: () => boolean,
 *   dropped?: () => void,
 *   kept?: import("./queue.mjs").Kept,
 *   sets?: string,
 *   exchange?: (later: import("./overlay.mjs").Unconfirmed) => Promise<number>,
 * }} Asked
 * @typedef {{
 *   entered: (welcome: Welcome) => void,
 *   told: (message: any) => void,
 *   astray: () => void,
 *   lost: (cause: Error | null) => void,
 *   refused: (cause: Error) => void,
 *   connecting: () => void,
 *   waiting: (asked: Asked[]) => void,
 * }} Hearer
 * @typedef {{
 *   WebSocket: any,
 *   firstWait: number,
 *   longestWait: number,
 *   quiet: number,
 *   patience: number,
 *   readOnly?: boolean,
 * }} Options
 */

export class Link {
  #url;
  #options;
  #on;
  /** @type {any} */
  #socket = null;
  #opened = false; // whether the handshake of this connection is done
  /** @type {Welcome | null} */
  #welcome = null; // of this connection
  /** @type {Asked[]} */
  #unsent = [];
  /** @type {Asked[]} */
  #sent = []; // without an answer, oldest first
  #isDue = false; // whether a snapshot is on its way
  #ids = 0;
  #failures = 0;
  #givenUp = 0; // connections in a row, since slots came
  /** @type {ReturnType<typeof setTimeout> | undefined} */
  #timer;
  /** @type {ReturnType<typeof setTimeout> | undefined} */
  #patience;
  #closed = false;
  #failed;
  #mayBeThere; // the room, also where the answer is 404
  /** @type {Asked | undefined} */
  will; // that the relay took last: it goes with its connection, so the next one leaves it again

  /** @param {string} url @param {Options} options @param {Hearer} on */
  constructor(url, options, on) {
    this.#url = url;
    this.#options = options;
    this.#on = on;
    this.#failed = new Failures(url);
    // One that is only watched may begin later.
    this.#mayBeThere = options.readOnly && isWatching(url);
  }

  /** Of this connection; null while there is none. */
  get welcome() {
    return this.#welcome;
  }

  connect() {
    if (this.#closed) return;
    try {
      this.#on.connecting();
    } finally {
      // Also where an application's function throws; but it may have closed the board.
      if (!this.#closed) this.#open();
    }
  }

  #open() {
    const socket = new this.#options.WebSocket(this.#url);
    this.#socket = socket;
    this.#opened = false;
    /** @param {(event: any) => void} act @returns {(event: any) => void} */
    const here = (act) => (event) => {
      if (this.#socket === socket) act(event);
    };
    socket.onopen = here(() => (this.#opened = true));
    socket.onmessage = here(({ data }) => this.#hear(data));
    socket.onclose = here(() => this.#lose(null));
    // Where a connection cannot be had, Node's sockets say so and no more.
    socket.onerror = here((event) => this.#abandon(event));
    this.#beginPatience();
  }

  /** @param {Asked} asked */
  ask(asked) {
    if (this.#closed) return asked.dropped?.();
    this.#unsent.push(asked);
    this.#send();
  }

  /**
   * Before whatever waits.
   * @param {Asked} asked
   */
  askFirst(asked) {
    this.#unsent.unshift(asked);
  }

  /**
   * A value of a place is sent for one that was not sent yet, where all that was asked for since
   * sets places apart. Gives what becomes of it; undefined where there is no such one.
   * @param {string | undefined} sets
   * @param {import("./overlay.mjs").Unconfirmed} later
   */
  exchange(sets, later) {
    if (sets === undefined) return undefined;
    const isNear = (/** @type {Asked} */ asked) =>
      asked.sets === undefined || overlap(asked.sets, sets);
    const earlier = [...this.#unsent].reverse().find(isNear);
    if (earlier?.sets !== sets) return undefined;
    const done = earlier.exchange?.(later);
    this.#send();
    return done;
  }

  /** Leaves this connection for another one. */
  renew() {
    this.#abandon(null);
  }

  close() {
    this.#closed = true;
    this.#send();
    const socket = this.#socket;
    this.#detach();
    socket?.close();
    const unsent = this.#unsent.splice(0);
    this.#on.waiting([]);
    for (const asked of unsent) asked.dropped?.();
  }

  // Leaves the connection: what was sent has no answer any more, and only edits wait for the next
  // one.
  #detach() {
    clearTimeout(this.#timer);
    clearTimeout(this.#patience);
    this.#socket = null;
    this.#welcome = null;
    this.#isDue = false;
    const again = this.#sent.splice(0).filter((asked) => asked.lost?.());
    this.#unsent = [...again, ...this.#unsent.filter((asked) => asked.dropped)];
    this.#on.waiting(this.#unsent);
  }

  /** @param {any} event of the socket, or the cause */
  #lose(event) {
    const handshaken = this.#opened;
    this.#detach();
    if (handshaken) return this.#wait(null);
    if (event instanceof HandshakeFailed) return this.#wait(event);
    // Not within the promise, so that what an application's function throws is reported as it is
    // elsewhere.
    this.#failed.newest(event).then((cause) => queueMicrotask(() => this.#wait(cause)));
  }

  /** @param {HandshakeFailed | null} cause */
  #wait(cause) {
    if (this.#closed) return;
    if (cause?.status === NO_ROOM && !this.#mayBeThere) return this.#on.refused(cause);
    const { firstWait, longestWait } = this.#options;
    const wait = Math.min(firstWait * 2 ** this.#failures, longestWait) * (0.5 + Math.random() / 2);
    this.#failures += 1;
    this.#timer = setTimeout(() => this.connect(), wait);
    this.#on.lost(cause);
  }

  /** @param {any} event of the socket, or the cause */
  #abandon(event) {
    const socket = this.#socket;
    try {
      this.#lose(event);
    } finally {
      socket?.close();
    }
  }

  // Whether the other end is there. What has waited longest for an answer, or for the welcome, says
  // it; each answer shows that it is. Where nothing waits and nothing comes, a request that does
  // nothing asks for an answer: it has no `do`, and is refused. While a snapshot is on its way
  // nothing is asked, since the answer would come behind it, and the snapshot is what is waited
  // for. A line that is slower than that gets it all the same: each connection that is given up
  // doubles the patience of the next one.

  #beginPatience() {
    clearTimeout(this.#patience);
    this.#patience = setTimeout(() => this.#giveUp(), this.#longest);
  }

  get #longest() {
    const { patience } = this.#options;
    if (this.#welcome === null) return patience;
    return patience * (this.#isDue ? SNAPSHOT : 1) * 2 ** Math.min(this.#givenUp, DOUBLINGS);
  }

  #giveUp() {
    if (this.#welcome !== null) this.#givenUp += 1;
    this.#abandon(this.#opened ? null : new HandshakeFailed("unreachable", this.#url));
  }

  // Something came that shows that the other end is there.
  #goOn() {
    clearTimeout(this.#patience);
    if (this.#isDue || this.#sent.length > 0) this.#beginPatience();
  }

  #listen() {
    clearTimeout(this.#timer);
    if (this.#socket === null || this.#isDue) return;
    this.#timer = setTimeout(() => this.ask({ request: {}, answered() {} }), this.#options.quiet);
  }

  // One value of a place is on its way at a time. The next one waits until that is answered, or
  // something else is asked for: until then a newer one is sent for it.
  get #isHeld() {
    const waits = (/** @type {Asked} */ { sets }) =>
      sets !== undefined && this.#sent.some((asked) => asked.sets === sets);
    return !this.#closed && this.#unsent.every(waits);
  }

  #send() {
    while (this.#welcome !== null && this.#sent.length < ON_THE_WAY && this.#unsent.length > 0) {
      if (this.#isHeld) break;
      const ahead = this.#unsent[0].ahead?.(this.#welcome);
      if (ahead === WAITS) break;
      if (ahead) this.#unsent.unshift(ahead);
      const asked = /** @type {Asked} */ (this.#unsent.shift());
      // What is kept elsewhere ends there before it is sent, so that it is never sent twice.
      if (asked.dropped) this.#on.waiting(this.#unsent);
      if (asked.goesTo?.(this.#welcome) === false) continue;
      const text = JSON.stringify({ id: this.#ids + 1, ...asked.request });
      if (endsConnection(text)) asked.answered(TOO_LONG);
      else this.#sendText(text, asked);
    }
    if (this.#welcome === null) this.#on.waiting(this.#unsent);
  }

  /** @param {string} text @param {Asked} asked */
  #sendText(text, asked) {
    this.#ids += 1;
    asked.id = this.#ids;
    this.#sent.push(asked);
    if (this.#sent.length === 1 && !this.#isDue) this.#beginPatience();
    this.#socket.send(text);
  }

  /** @param {string} text */
  #hear(text) {
    // What is no message is of no kind.
    const message = parsed(text) ?? {};
    try {
      if (message.kind === "welcome" && this.#welcome === null) this.#enter(message);
      else if (this.#welcome === null) this.#on.astray();
      else if (message.kind === "snapshot" || message.kind === "patch") this.#tell(message);
      else if (this.#answersOldest(message)) this.#answer(message);
      else this.#on.astray();
    } finally {
      // Also where an application's function throws.
      if (this.#socket !== null) {
        this.#send();
        this.#listen();
      }
    }
  }

  /** @param {Welcome} welcome */
  #enter(welcome) {
    this.#welcome = welcome;
    // From now on a 404 may be that of a proxy that is being set up anew.
    this.#mayBeThere = true;
    this.#failures = 0;
    this.#failed.end();
    clearTimeout(this.#patience);
    if (this.will) this.askFirst(this.will);
    this.#on.entered(welcome);
  }

  /** @param {any} message A snapshot or a patch. */
  #tell(message) {
    this.#givenUp = 0;
    if (message.kind === "snapshot" && this.#isDue) {
      this.#isDue = false;
      this.#goOn();
    }
    this.#on.told(message);
  }

  // Replies come in the order of their requests; the id says so, if the relay could read it.
  /** @param {any} message */
  #answersOldest({ id, kind }) {
    const [oldest] = this.#sent;
    if (oldest === undefined || (id !== null && id !== oldest.id)) return false;
    return kind === "refused" || (REPLIES.has(kind) && REPLIES.get(kind) === oldest.request.do);
  }

  /** @param {any} reply */
  #answer(reply) {
    const asked = this.#sent.shift();
    if (reply.kind === "watching" || reply.how === "snapshot") this.#isDue = true;
    if (reply.how === "nothing") this.#givenUp = 0;
    this.#goOn();
    asked?.answered(reply);
  }
}

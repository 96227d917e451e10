// The outcomes that a request can have besides its answer.
import { shownAddress } from "./address.mjs";
import { ADVICE } from "./advice.mjs";

// The kind that an error is of, whichever copy of this module made it: a program may have several,
// as one by `import` and one by `require`.
const KIND = Symbol.for("@bolsteregret/relay: error");

/** An error that is an instance of the class of its kind in each copy. */
class Failure extends Error {
  name = /** @type {any} */ (this)[KIND];

  /** @param {any} value */
  static [Symbol.hasInstance](value) {
    if (!Object.hasOwn(this.prototype, KIND)) return super[Symbol.hasInstance](value);
    return value?.[KIND] === /** @type {any} */ (this.prototype)[KIND];
  }
}

/** The relay refused a request, and nothing changed by it. */
export class Refused extends Failure {
  get [KIND]() {
    return "Refused";
  }

  /**
   * @param {{ fault: string, at?: number | null, rev?: number | null }} reply
   * @param {string} [advice] what to do
   */
  constructor({ fault, at = null, rev = null }, advice = ADVICE[fault] ?? "") {
    const place = at === null ? "" : ` at ${at}`;
    const room = rev === null ? "" : `, the room is at revision ${rev}`;
    super(fault + place + room + (advice && `: ${advice}`));
    this.fault = fault;
    this.at = at;
    this.rev = rev;
  }
}

/** The answer was lost: the edit may have been done, or not; `rev` is the room's revision since. */
export class Unknown extends Failure {
  get [KIND]() {
    return "Unknown";
  }

  /** @param {number | null} [rev] null where it may still be done */
  constructor(rev = null) {
    const since = rev === null ? "" : `, and the room is at revision ${rev}`;
    super(`the connection was lost before the answer${since}`);
    this.rev = rev;
  }
}

/** Another view was asked for later, and its slots came in place of those of this one. */
export class Superseded extends Failure {
  message = "another view was watched before its slots came";

  get [KIND]() {
    return "Superseded";
  }
}

/** The board was closed, and what was asked for was not sent. */
export class Closed extends Failure {
  message = "the board is closed";

  get [KIND]() {
    return "Closed";
  }
}

const FULL = "it is full (--sessions, --rooms), --closed, or stopping";
const NO_ROOMS = "what answers there has no rooms, or is the --admin port";
const FOREIGN = "it lets no page of this origin in (--origin)";

/** @type {Record<number, string>} */
const CAUSES = {
  200: NO_ROOMS,
  401:
    "the name or the password is wrong, or not sent: Node's own WebSocket sends neither, so give " +
    "`connect` another one (docs/CLIENTS.md)",
  403: FOREIGN,
  429: "too many requests or connections of this address",
  503: FULL,
};

/**
 * No connection could be made. The client goes on trying, unless the first answer is a 404: then
 * the address is none of a room. But a room that is only watched may begin later.
 */
export class HandshakeFailed extends Failure {
  get [KIND]() {
    return "HandshakeFailed";
  }

  /**
   * @param {"refused" | "unreachable"} reason
   * @param {string} url
   * @param {number | null} [status]
   */
  constructor(reason, url, status = null) {
    const shown = shownAddress(url);
    super(reason === "refused" ? refusal(shown, status) : silence(shown));
    this.reason = reason;
    this.status = status;
  }
}

/** @param {string} url */
function silence(url) {
  const plain = /^wss/.test(url) ? ", or take ws://: the relay itself has no TLS" : "";
  const advice = "start the relay there, or check the address, the port and --per-peer";
  return `nothing answers at ${url}: ${advice}${plain}`;
}

/** @param {string} url @param {number | null} status */
function refusal(url, status) {
  const refuses = `${url} refuses the connection`;
  // A browser tells no page a 403 from a 503, and a page of another origin no status at all.
  if (status === null) {
    const page = globalThis.location ? `${FOREIGN}, or ` : "";
    return `${refuses}: ${why(url, `${FULL}, or ${page}what answers is no relay`)}`;
  }
  const cause = status === 404 ? why(url, NO_ROOMS) : CAUSES[status];
  return `${refuses}, with ${status}${cause ? `: ${cause}` : ""}`;
}

/**
 * Tells why an address is refused, as far as it shows.
 * @param {string} url @param {string} otherwise where nothing is wrong with it
 */
function why(url, otherwise) {
  if (isWatching(url)) return `there is no room of this name yet, or ${otherwise}`;
  const { pathname, search } = new URL(url, globalThis.location?.href);
  if (!/^\/rooms\/[\w-]+(\/watch)?$/.test(pathname)) {
    return `a room is at /rooms/NAME, and this path is ${pathname}`;
  }
  return search ? "leave out the `?` and what follows" : otherwise;
}

/**
 * True for an address by which a room is only watched, as a board makes it. What stands before
 * /rooms/ is a proxy's concern.
 * @param {string} url
 */
export function isWatching(url) {
  return /^[^?#]*\/rooms\/[\w-]+\/watch$/.test(url);
}

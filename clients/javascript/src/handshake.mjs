// Finds why a handshake failed. A WebSocket does not say it, so the same address is asked by HTTP.
//
// For each question that fails Chromium writes a line to the console, beside the one that it writes
// for the socket. So in a browser an answer holds for a while, and most tries write one line.
import { shownAddress } from "./address.mjs";
import { HandshakeFailed, isWatching } from "./errors.mjs";

// The status by which the relay answers a request that is no handshake, where the room's name is
// good. So a handshake was refused there for its place, for the origin of a page, or since the room
// that it only watches is not there: which of these does not show.
const NO_HANDSHAKE = 400;
const NO_PLACE = 503;
const LONGEST = 2000;

// For how long an answer holds in a browser, in milliseconds.
const HOLDS = 30_000;

export class Failures {
  #url;
  /** @type {HandshakeFailed | null} */
  #last = null;
  #asked = 0; // when that was; 0 if it holds no more

  /** @param {string} url of the room, as `ws://HOST/rooms/NAME` */
  constructor(url) {
    this.#url = url;
  }

  /**
   * Tells why the newest handshake failed.
   * @param {{ message?: string } | null} event of the socket
   */
  async newest(event) {
    if (!globalThis.location || Date.now() - this.#asked > HOLDS) {
      this.#asked = Date.now();
      this.#last = await failure(this.#url, event);
    }
    return this.#last;
  }

  /** A handshake succeeded. */
  end() {
    this.#asked = 0;
  }
}

/**
 * `refused` with a status where the platform tells one; a page of another origin is only told that
 * something answers.
 * @param {string} url
 * @param {{ message?: string } | null} event
 */
async function failure(url, event) {
  const told = /\b[45]\d\d\b/.exec(event?.message ?? "");
  if (told) return new HandshakeFailed("refused", url, Number(told[0]));
  const ending = new AbortController();
  const timer = setTimeout(() => ending.abort(), LONGEST);
  try {
    const { location } = globalThis;
    const address = new URL(url.replace(/^ws/, "http"), location?.href);
    // `fetch` takes no address with a name or a password.
    address.username = address.password = "";
    const isForeign = location && location.origin !== address.origin;
    const { status } = await fetch(address, {
      // By `no-cors` Chromium asks nothing of another origin unless it may follow redirections.
      ...(isForeign ? { mode: "no-cors" } : { redirect: "manual" }),
      cache: "no-store",
      signal: ending.signal,
    });
    const meant = location || isWatching(url) ? null : NO_PLACE;
    return new HandshakeFailed("refused", url, status === NO_HANDSHAKE ? meant : status || null);
  } catch {
    return new HandshakeFailed("unreachable", url);
  } finally {
    clearTimeout(timer);
  }
}

/**
 * Fails with a `RangeError` where a path does not end with a room's name (docs/PROTOCOL.md,
 * "Scripts"). What stands before it is a proxy's concern.
 * @param {string} url
 */
export function checkRoom(url) {
  const { pathname } = parsed(url);
  const [rooms, name = ""] = pathname.split("/").slice(-2);
  if (rooms !== "rooms") {
    if (isWatching(url)) throw new RangeError("leave out `/watch`, and use the option `readOnly`");
    const path = shownAddress(pathname);
    throw new RangeError(`an address ends with /rooms/NAME, and this path is ${path}`);
  }
  if (!/^[\w-]{1,64}$/.test(name)) {
    throw new RangeError(`"${name}" is no room's name: 1 to 64 ASCII letters, digits, "-" and "_"`);
  }
}

/** @param {string} url */
function parsed(url) {
  try {
    return new URL(url, globalThis.location?.href);
  } catch {
    const example = "ws://127.0.0.1:8080/rooms/NAME";
    const shown = shownAddress(`${JSON.stringify(url)}`);
    throw new TypeError(`${shown} is no address of a room, as ${example}`);
  }
}

// Made from src/ by build.mjs. What it is for: ../README.md; its types: relay.d.ts.
// SPDX-License-Identifier: MIT OR Apache-2.0

const addressModule = (() => {
// The address of a room as it may be shown: a program logs messages, and a page shows them.

/**
 * The address with `***` in place of a password, or of a name that has none: that may be a token. A
 * password that is not escaped may have a slash, so it ends at the last `@`.
 * @param {string} url or its JSON text
 */
function shownAddress(url) {
  return url.replace(/^("?[\w+.-]+:)?([/\\]*)([^:]*:)?.*@/s, "$1$2$3***@");
}

return { shownAddress };
})();

const adviceModule = (() => {
// The advice for each word of a fault: the relay's (docs/PROTOCOL.md, "Messages"), and the client's
// own. Every client says the same.

/** @type {Record<string, string>} */
const ADVICE = {
  "too-long": "a request has at most 1,048,576 bytes: send it in parts",
  "not-json": "it is no JSON, or nests more than 127 containers",
  number: "numbers are whole and have 64 bits: scale a fraction, or send a text",
  shape: "a member is missing or wrong, or the relay is too old for it",
  "too-many": "a patch has at most 64 operations, a view 16 slots: split it",
  "unknown-op": "an operation is add, remove, replace, move, copy or test",
  pointer: "a pointer is empty or begins with /; in a name ~1 is / and ~0 is ~",
  missing: "nothing stands there: look again, or add what is around it first",
  "not-index": "there is a list, which takes an index, or - for its end",
  "past-end": "the list is shorter: look again, or add at its end, by -",
  "no-container": "what is around it is no list and no object: write that first",
  root: "the whole document is not removed: replace it by null",
  "into-itself": "a value does not move into itself: move it elsewhere, or copy it",
  "test-failed": "another value stands there: look again, and make the edit of that",
  "too-deep": "a document has at most 64 levels: nest less",
  "too-heavy": "it is more than the relay takes: split it, or remove something first",
  exhausted: "the room has no revision left: go on in another room",
  stale: "somebody edited since: look again, and make the edit of that",
  future: "that revision is of another run of the relay: watch anew",
  "read-only": "it only watches: connect again without that",
  away: "there is no connection: try again once there is one, or guard the edit",
  changed: "somebody changed that since: look again",
};

return { ADVICE };
})();

const errorsModule = (() => {
// The outcomes that a request can have besides its answer.
const { shownAddress } = addressModule;
const { ADVICE } = adviceModule;

// The kind that an error is of, whichever copy of this module made it: a program may have several,
// as one by `import` and one by `require`.
const KIND = Symbol.for("@bolsteregret/relay: error");

/** An error that is an instance of the class of its kind in each copy. */
class Failure extends Error {
  name = /** @type {any} */ (this)[KIND];

  /** @param {any} value */
  static [Symbol.hasInstance](value) {
    if (!Object.hasOwn(this.prototype, KIND)) return super[Symbol.hasInstance](value);
    return value?.[KIND] === /** @type {any} */ (this.prototype)[KIND];
  }
}

/** The relay refused a request, and nothing changed by it. */
class Refused extends Failure {
  get [KIND]() {
    return "Refused";
  }

  /**
   * @param {{ fault: string, at?: number | null, rev?: number | null }} reply
   * @param {string} [advice] what to do
   */
  constructor({ fault, at = null, rev = null }, advice = ADVICE[fault] ?? "") {
    const place = at === null ? "" : ` at ${at}`;
    const room = rev === null ? "" : `, the room is at revision ${rev}`;
    super(fault + place + room + (advice && `: ${advice}`));
    this.fault = fault;
    this.at = at;
    this.rev = rev;
  }
}

/** The answer was lost: the edit may have been done, or not; `rev` is the room's revision since. */
class Unknown extends Failure {
  get [KIND]() {
    return "Unknown";
  }

  /** @param {number | null} [rev] null where it may still be done */
  constructor(rev = null) {
    const since = rev === null ? "" : `, and the room is at revision ${rev}`;
    super(`the connection was lost before the answer${since}`);
    this.rev = rev;
  }
}

/** Another view was asked for later, and its slots came in place of those of this one. */
class Superseded extends Failure {
  message = "another view was watched before its slots came";

  get [KIND]() {
    return "Superseded";
  }
}

/** The board was closed, and what was asked for was not sent. */
class Closed extends Failure {
  message = "the board is closed";

  get [KIND]() {
    return "Closed";
  }
}

const FULL = "it is full (--sessions, --rooms), --closed, or stopping";
const NO_ROOMS = "what answers there has no rooms, or is the --admin port";
const FOREIGN = "it lets no page of this origin in (--origin)";

/** @type {Record<number, string>} */
const CAUSES = {
  200: NO_ROOMS,
  401:
    "the name or the password is wrong, or not sent: Node's own WebSocket sends neither, so give " +
    "`connect` another one (docs/CLIENTS.md)",
  403: FOREIGN,
  429: "too many requests or connections of this address",
  503: FULL,
};

/**
 * No connection could be made. The client goes on trying, unless the first answer is a 404: then
 * the address is none of a room. But a room that is only watched may begin later.
 */
class HandshakeFailed extends Failure {
  get [KIND]() {
    return "HandshakeFailed";
  }

  /**
   * @param {"refused" | "unreachable"} reason
   * @param {string} url
   * @param {number | null} [status]
   */
  constructor(reason, url, status = null) {
    const shown = shownAddress(url);
    super(reason === "refused" ? refusal(shown, status) : silence(shown));
    this.reason = reason;
    this.status = status;
  }
}

/** @param {string} url */
function silence(url) {
  const plain = /^wss/.test(url) ? ", or take ws://: the relay itself has no TLS" : "";
  const advice = "start the relay there, or check the address, the port and --per-peer";
  return `nothing answers at ${url}: ${advice}${plain}`;
}

/** @param {string} url @param {number | null} status */
function refusal(url, status) {
  const refuses = `${url} refuses the connection`;
  // A browser tells no page a 403 from a 503, and a page of another origin no status at all.
  if (status === null) {
    const page = globalThis.location ? `${FOREIGN}, or ` : "";
    return `${refuses}: ${why(url, `${FULL}, or ${page}what answers is no relay`)}`;
  }
  const cause = status === 404 ? why(url, NO_ROOMS) : CAUSES[status];
  return `${refuses}, with ${status}${cause ? `: ${cause}` : ""}`;
}

/**
 * Tells why an address is refused, as far as it shows.
 * @param {string} url @param {string} otherwise where nothing is wrong with it
 */
function why(url, otherwise) {
  if (isWatching(url)) return `there is no room of this name yet, or ${otherwise}`;
  const { pathname, search } = new URL(url, globalThis.location?.href);
  if (!/^\/rooms\/[\w-]+(\/watch)?$/.test(pathname)) {
    return `a room is at /rooms/NAME, and this path is ${pathname}`;
  }
  return search ? "leave out the `?` and what follows" : otherwise;
}

/**
 * True for an address by which a room is only watched, as a board makes it. What stands before
 * /rooms/ is a proxy's concern.
 * @param {string} url
 */
function isWatching(url) {
  return /^[^?#]*\/rooms\/[\w-]+\/watch$/.test(url);
}

return { Closed, HandshakeFailed, Refused, Superseded, Unknown, isWatching };
})();

const editModule = (() => {
// An edit that was asked for, until its answer. Where its answer was lost, one with a base is sent
// to the same run of the relay again: revisions only rise, so of all edits with one base at most
// one is done. So is one with a counter, which tests that and raises it (once.mjs).
const { Closed, Refused, Unknown } = errorsModule;

// The number of times that an edit is sent at most: one that ends its connection each time has to
// come to an end.
const SENDINGS = 5;

/**
 * @typedef {import("../relay.js").Operation} Operation
 * @typedef {import("./once.mjs").Counter} Counter
 * @typedef {{ epoch: number, rev: number }} Welcome
 * @typedef {import("./overlay.mjs").Unconfirmed} Unconfirmed
 * @typedef {{
 *   own: Unconfirmed,
 *   base?: number,
 *   epoch: number | null,
 *   counter: Counter | null,
 *   sets?: string,
 *   exchange: (later: Unconfirmed) => Promise<number>,
 * }} Asked
 * @typedef {{
 *   done: (rev: number, epoch: number) => void,
 *   doneBefore: (edit: Edit, epoch: number) => void,
 *   failed: (cause: Error) => void,
 *   again: (edit: Edit) => void,
 * }} Outcome
 * `doneBefore`: on a connection that was lost, at a revision that the relay did not tell. `again`:
 * it is to be sent before whatever waits.
 */

class Edit {
  #own;
  #base;
  #counter;
  #epoch; // the run to which it belongs; null where the first connection decides
  #sendings = 0;
  #hasEnded = false;
  /** @type {Refused | null} */
  #refusal = null; // of its patch: from then on what is sent raises the counter alone
  #on;

  /** @param {Asked} asked @param {Outcome} on */
  constructor({ own, base, epoch, counter, sets, exchange }, on) {
    /** The place whose value it replaces, if it does no more and is sent once. */
    this.sets = base === undefined && counter === null ? sets : undefined;
    /** Has a later one that sets the same place be sent for it. Gives what becomes of that. */
    this.exchange = exchange;
    this.#own = own;
    this.#base = base;
    this.#epoch = epoch;
    this.#counter = counter;
    this.#on = on;
  }

  /** The message that is sent. */
  get request() {
    const own = this.#refusal ? [] : this.#own.patch;
    const patch = [...(this.#counter?.raise ?? []), ...own];
    return { do: "edit", base: this.#base, patch }; // without a base JSON leaves that out
  }

  /** The part of it that is kept while it waits, so that another board can send it. */
  get kept() {
    const once = this.#counter ? true : undefined;
    return { patch: this.#own.patch, base: this.#base, epoch: this.#epoch, once };
  }

  get #hasBase() {
    return this.#base !== undefined;
  }

  /** True if it does no harm when it is late: it has a base, or tests something first. */
  get isGuarded() {
    return this.#hasBase || this.#own.patch[0]?.op === "test";
  }

  /**
   * Returns what has to be sent before it: nothing (null), a request, or `WAITS`.
   * @param {Welcome} welcome
   */
  ahead(welcome) {
    return this.#hasEnded ? null : this.#counter?.ahead(this, welcome);
  }

  /**
   * Before each sending: whether it goes to that run. Else it has ended.
   * @param {Welcome} welcome
   */
  goesTo({ epoch, rev }) {
    if (this.#hasEnded) return false;
    const wasSent = this.#sendings > 0;
    this.#epoch = this.#hasBase || wasSent ? this.#epoch ?? epoch : epoch;
    const goes = this.#epoch === epoch;
    if (goes) this.#sendings += 1;
    else this.fail(wasSent ? new Unknown() : new Refused({ fault: "stale", rev }));
    return goes;
  }

  /** @param {any} reply */
  answered(reply) {
    if (reply.kind === "done") this.#done(reply.rev);
    else if (reply.fault === "stale" && this.#isResent) this.fail(new Unknown(reply.rev));
    else if (this.#counter === null || reply.at === null) this.fail(new Refused(reply));
    else this.#refused(reply, this.#counter);
  }

  get #isResent() {
    return this.#sendings > 1;
  }

  /** @param {number} rev */
  #done(rev) {
    this.#counter?.raised();
    if (this.#refusal !== null) return this.fail(this.#refusal);
    this.#hasEnded = true;
    this.#on.done(rev, Number(this.#epoch));
  }

  /** @param {{ fault: string, at: number }} reply @param {Counter} counter */
  #refused({ fault, at }, counter) {
    if (at === 0) return this.#counterDiffers(fault, counter);
    this.#refusal = new Refused({ fault, at: at - counter.raise.length });
    // What was sent before may still be read, and done, as long as the counter stands.
    if (this.#isResent) this.#on.again(this);
    else this.fail(this.#refusal);
  }

  /** @param {string} fault @param {Counter} counter */
  #counterDiffers(fault, counter) {
    if (this.#isResent && fault === "test-failed") {
      counter.raised();
      this.#on.doneBefore(this, Number(this.#epoch));
    } else if (this.#isResent) {
      this.fail(new Unknown());
    } else {
      // Somebody took it away, as who puts an earlier document into the room.
      counter.lost(this);
      this.#sendings = 0;
      this.#on.again(this);
    }
  }

  /** Its connection was lost: whether it is to be sent again. Else it has ended. */
  lost() {
    const again = (this.#hasBase || this.#counter !== null) && this.#sendings < SENDINGS;
    if (!again) this.fail(new Unknown());
    return again;
  }

  /** It has no answer any more. */
  dropped() {
    this.fail(this.#sendings > 0 ? new Unknown() : new Closed());
  }

  /** @param {Error} cause */
  fail(cause) {
    if (this.#hasEnded) return;
    this.#hasEnded = true;
    if (cause instanceof Unknown) this.#counter?.lost(this);
    else this.#counter?.kept(this);
    this.#on.failed(cause);
  }
}

return { Edit };
})();

const pointerModule = (() => {
// JSON Pointers (RFC 6901).

/** @param {string} pointer */
function tokens(pointer) {
  if (!/^(\/([^~/]|~[01])*)*$/.test(pointer)) {
    throw new RangeError(`"${pointer}" is no JSON Pointer`);
  }
  return pointer
    .split("/")
    .slice(1)
    .map((token) => token.replaceAll("~1", "/").replaceAll("~0", "~"));
}

/**
 * The pointer of keys: names of members and indexes in lists.
 * @param {...(string | number)} keys
 */
function pointer(...keys) {
  for (const key of keys) {
    if (!isKey(key)) throw new TypeError(`${String(key)} is no name and no index`);
  }
  return spelled(keys);
}

/** @param {unknown} key */
function isKey(key) {
  return typeof key === "string" || (Number.isSafeInteger(key) && Number(key) >= 0);
}

/** @param {readonly (string | number)[]} path */
function spelled(path) {
  return path
    .map((token) => `/${String(token).replaceAll("~", "~0").replaceAll("/", "~1")}`)
    .join("");
}

/**
 * The place in a list that a token names, or null where it names none.
 * @param {string} token
 */
function index(token) {
  return /^(0|[1-9]\d*)$/.test(token) ? Number(token) : null;
}

/**
 * True if one of two pointers leads to the other's value or into it.
 * @param {string} one
 * @param {string} other
 */
function overlap(one, other) {
  return `${one}/`.startsWith(`${other}/`) || `${other}/`.startsWith(`${one}/`);
}

/**
 * True if a path is another one, or leads into its value.
 * @param {readonly string[]} path
 * @param {readonly string[]} start
 */
function startsWith(path, start) {
  return start.length <= path.length && start.every((token, k) => token === path[k]);
}

return { index, overlap, pointer, spelled, startsWith, tokens };
})();

const jsonModule = (() => {
// Values that the relay takes: JSON whose numbers are whole and exact in JavaScript.
const { spelled } = pointerModule;

/** @typedef {import("../relay.js").Json} Json */

// The relay's documents have at most 64 levels. A value past this is deeper than any, or in a
// cycle.
const DEEPEST = 128;

/**
 * A copy of a value, so that what is sent is what it was when it was asked for. A `TypeError` names
 * the path of what no JSON can say, or the relay would refuse.
 * @param {unknown} value
 * @param {readonly (string | number)[]} [path]
 * @returns {any}
 */
function checked(value, path = []) {
  if (path.length > DEEPEST) throw wrong(path.slice(0, 8), "is too deep, or contains itself");
  if (value === null || typeof value === "boolean") return value;
  if (typeof value === "string") return wellFormed(value, path);
  if (typeof value === "number") return whole(value, path);
  if (Array.isArray(value)) return Array.from(value, (part, k) => checked(part, [...path, k]));
  if (typeof value === "object") return members(value, path);
  throw wrong(path, `is ${typeof value}, which JSON cannot say`);
}

/** @param {object} value @param {readonly (string | number)[]} path */
function members(value, path) {
  const { toJSON } = /** @type {any} */ (value);
  if (typeof toJSON === "function") return checked(toJSON.call(value), path);
  const kind = kindOf(value);
  if (kind !== "Object") throw wrong(path, `is a ${kind}, which JSON cannot say`);
  return Object.fromEntries(Object.entries(value).map(([name, part]) => {
    const at = [...path, name];
    return [wellFormed(name, at), checked(part, at)];
  }));
}

/**
 * The kind of an object, as "Map"; "Object" of a plain one, and of one of a class of one's own.
 * @param {object} value
 */
function kindOf(value) {
  return Object.prototype.toString.call(value).slice(8, -1);
}

/** @param {number} value @param {readonly (string | number)[]} path */
function whole(value, path) {
  if (!Number.isSafeInteger(value)) {
    throw wrong(path, `is ${value}, no whole number within 2^53: scale it, or send a text`);
  }
  return value === 0 ? 0 : value;
}

/** @param {string} text @param {readonly (string | number)[]} path */
function wellFormed(text, path) {
  if (/\p{Surrogate}/u.test(text)) throw wrong(path, "has half a surrogate pair");
  return text;
}

/** @param {readonly (string | number)[]} path @param {string} words */
function wrong(path, words) {
  return new TypeError(`${spelled(path) || "the value"} ${words}`);
}

/**
 * The value that a text says; null where it is no JSON.
 * @param {string} text
 * @returns {any}
 */
function parsed(text) {
  try {
    return JSON.parse(text);
  } catch {
    return null;
  }
}

/**
 * The value itself, to which nobody can write from then on. What is frozen already is so as deep as
 * it goes, so of a value that has new parts only those cost anything.
 * @template T
 * @param {T} value
 * @returns {T}
 */
function frozen(value) {
  if (!isContainer(value) || Object.isFrozen(value)) return value;
  Object.freeze(value);
  const isList = Array.isArray(value);
  for (const part of isList ? value : Object.values(value)) {
    if (typeof part === "object") frozen(part);
  }
  return value;
}

/**
 * True if a value has members, and so is no list.
 * @param {unknown} value
 * @returns {value is Record<string, any>}
 */
function isObject(value) {
  return isContainer(value) && !Array.isArray(value);
}

/**
 * True if a value is a list, or has members.
 * @param {unknown} value
 * @returns {value is object}
 */
function isContainer(value) {
  return typeof value === "object" && value !== null;
}

/**
 * True if two values are equal as RFC 6902, section 4.6, says.
 * @param {Json} one
 * @param {Json} other
 * @returns {boolean}
 */
function same(one, other) {
  if (one === other) return true;
  if (!isContainer(one) || !isContainer(other)) return false;
  if (Array.isArray(one) !== Array.isArray(other)) return false;
  const names = Object.keys(one);
  const [parts, others] = /** @type {Record<string, Json>[]} */ ([one, other]);
  return (
    names.length === Object.keys(other).length &&
    names.every((name) => Object.hasOwn(other, name) && same(parts[name], others[name]))
  );
}

return { checked, frozen, isContainer, isObject, kindOf, parsed, same };
})();

const patchModule = (() => {
// JSON Patch (RFC 6902) on values that are never written to: what a patch leads to has new parts
// where it differs, so a value that was handed out stays what it was. A patch copies each container
// once, however many of its operations change it.
const { index, startsWith } = pointerModule;
const { isContainer, isObject } = jsonModule;

/** An operation does not fit the value. */
class Misfit extends Error {
  message = "the patch does not fit";
}

/**
 * The containers that one patch made. Nobody else has them, and each stands in one place, so the
 * patch may write to them.
 */
class Owned {
  /** @type {Set<object>} */
  #made = new Set();

  /**
   * The container itself if the patch made it, and else a copy that stands for it from now on.
   * @param {any} part
   */
  writable(part) {
    if (!isContainer(part)) throw new Misfit();
    if (this.#made.has(part)) return part;
    const copy = Array.isArray(part) ? [...part] : { ...part }; // of a frozen list `slice` is slow
    this.#made.add(copy);
    return copy;
  }

  /**
   * Before a value stands in a second place, or is kept: no later operation writes to it. What the
   * patch did not make holds nothing that it made, since a container is made with all those around
   * it.
   * @param {any} part
   */
  share(part) {
    if (!this.#made.delete(part)) return;
    Object.freeze(part);
    for (const inner of Object.values(part)) this.share(inner);
  }

  /** Nobody writes to what the patch made any more. */
  freeze() {
    for (const part of this.#made) Object.freeze(part);
    this.#made.clear();
  }
}

/** @param {readonly string[]} from @param {readonly string[]} path */
function checkMove(from, path) {
  if (path.length > from.length && startsWith(path, from)) throw new Misfit();
}

/** @param {any} part @param {string} token */
function has(part, token) {
  if (Array.isArray(part)) return (index(token) ?? part.length) < part.length;
  return isObject(part) && Object.hasOwn(part, token);
}

/** @param {any} whole @param {readonly string[]} path */
function found(whole, path) {
  return path.reduce((part, token) => {
    if (!has(part, token)) throw new Misfit();
    return part[token];
  }, whole);
}

/** @param {any} whole @param {readonly string[]} path @param {any} value @param {Owned} owned */
function added(whole, path, value, owned) {
  return changed(whole, path, owned, () => value, (part, token) => {
    if (!Array.isArray(part)) return put(part, token, value);
    const place = token === "-" ? part.length : index(token) ?? Infinity;
    if (place > part.length) throw new Misfit();
    part.splice(place, 0, value);
  });
}

/** @param {any} whole @param {readonly string[]} path @param {Owned} owned */
function removed(whole, path, owned) {
  found(whole, path);
  const atRoot = () => {
    throw new Misfit();
  };
  return changed(whole, path, owned, atRoot, (part, token) => {
    if (Array.isArray(part)) part.splice(Number(token), 1);
    else delete part[token];
  });
}

/** @param {any} whole @param {readonly string[]} path @param {any} value @param {Owned} owned */
function replaced(whole, path, value, owned) {
  found(whole, path);
  return changed(whole, path, owned, () => value, (part, token) => put(part, token, value));
}

// An assignment of `__proto__` would set no member.
/** @param {any} part @param {string} token @param {any} value */
function put(part, token, value) {
  const member = { value, writable: true, enumerable: true, configurable: true };
  Object.defineProperty(part, token, member);
}

/**
 * The whole, in which what holds the last token is changed.
 * @param {any} whole
 * @param {readonly string[]} path
 * @param {Owned} owned
 * @param {() => any} atRoot
 * @param {(part: any, token: string) => void} change writes to a container of the patch's own
 * @returns {any}
 */
function changed(whole, path, owned, atRoot, change) {
  if (path.length === 0) return atRoot();
  const [token, ...rest] = path;
  const part = owned.writable(whole);
  if (rest.length === 0) change(part, token);
  else put(part, token, changed(found(part, [token]), rest, owned, atRoot, change));
  return part;
}

return { Misfit, Owned, added, checkMove, found, has, removed, replaced };
})();

const knownModule = (() => {
// A client's knowledge of the document by its slots, and of the documents to which its own patches
// lead: some values are known, some places are known to be empty, and of the rest nothing is known.
// What an operation means to a slot (docs/PROTOCOL.md, "What a change means to a slot") follows:
// the operation is done on what is known, and the slots are read again.
const { index, tokens } = pointerModule;
const { frozen, isContainer, same } = jsonModule;
const { Misfit, Owned, added, checkMove, has, removed, replaced } = patchModule;

/**
 * A part of the document: a value; nothing (`absent`); unknown; or a container of which only some
 * children, or the size, are known.
 *
 * @typedef {{ is: "value", value: any } | { is: "absent" } | { is: "unknown" } | Container} Part
 * @typedef {{ is: "container", children: Map<string, Part>, size: number | null }} Container
 * @typedef {import("../relay.js").Shown} Shown
 * @typedef {import("../relay.js").Operation} Operation
 * @typedef {readonly unknown[]} Slot
 */

/** @type {{ is: "unknown" }} */
const UNKNOWN = { is: "unknown" };
/** @type {{ is: "absent" }} */
const ABSENT = { is: "absent" };

/** @param {any} value @returns {{ is: "value", value: any }} */
const known = (value) => ({ is: "value", value });

/** @param {Shown} shown */
function pathOf(shown) {
  return tokens(typeof shown === "string" ? shown : shown.size);
}

/**
 * Returns what slots tell of their document.
 * @param {readonly Shown[]} view
 * @param {readonly Slot[]} slots
 */
function knownBy(view, slots) {
  const told = view.map((shown, k) => ({
    path: pathOf(shown),
    value: typeof shown === "string",
    slot: slots[k],
  }));
  // What an outer slot shows stands first, and values before sizes: what lies within a known value
  // tells nothing new.
  told.sort(
    (one, other) => one.path.length - other.path.length || Number(other.value) - Number(one.value),
  );
  return told.reduce(tell, UNKNOWN);
}

/** @param {Part} whole @param {{ path: string[], value: boolean, slot: Slot }} told */
function tell(whole, { path, value, slot }) {
  const before = read(whole, path);
  if (before.is === "value" || before.is === "absent") return whole;
  if (value) return laid(whole, path, () => (slot.length === 0 ? ABSENT : known(slot[0])));
  if (slot.length === 0) return whole;
  return laid(whole, path, (part) => ({ ...container(part), size: Number(slot[0]) }));
}

/** @param {Part} part @returns {Container} */
function container(part) {
  return part.is === "container" ? part : { is: "container", children: new Map(), size: null };
}

/** @param {Part} part @param {string} token @returns {Part} */
function child(part, token) {
  if (part.is === "value") return has(part.value, token) ? known(part.value[token]) : ABSENT;
  if (part.is === "container") return part.children.get(token) ?? UNKNOWN;
  return part;
}

/** @param {Part} whole @param {readonly string[]} path */
function read(whole, path) {
  return path.reduce(child, whole);
}

/**
 * Another part in a place, where nothing moves.
 * @param {Part} whole
 * @param {readonly string[]} path
 * @param {(part: Part) => Part} change
 * @returns {Part}
 */
function laid(whole, path, change) {
  if (path.length === 0) return change(whole);
  const [token, ...rest] = path;
  const { children, size } = container(whole);
  return {
    is: "container",
    children: new Map(children).set(token, laid(child(whole, token), rest, change)),
    size,
  };
}

/**
 * True if a part is a list, or null where that is not known.
 * @param {Part} part
 * @returns {boolean | null}
 */
function isList(part) {
  if (part.is === "value") return Array.isArray(part.value);
  if (part.is !== "container") return null;
  return [...part.children].some(([token, child]) => index(token) === null && isThere(child))
    ? false
    : null;
}

/**
 * True if a part is known to be there. A container of which only absent children are known may be
 * absent itself.
 * @param {Part} part
 * @returns {boolean}
 */
function isThere(part) {
  if (part.is === "container") {
    return part.size !== null || [...part.children.values()].some(isThere);
  }
  return part.is === "value";
}

/**
 * True if a part is known to have more behind an index, if it is a list.
 * @param {Part} part
 * @param {number} at
 */
function goesOn(part, at) {
  if (part.is !== "container") return false;
  return (
    (part.size ?? 0) > at + 1 ||
    [...part.children].some(([token, child]) => (index(token) ?? 0) > at && isThere(child))
  );
}

/**
 * The place that a path names: the part that holds it, whether that is a list, and the index there;
 * null where that is not known.
 * @param {Part} whole
 * @param {readonly string[]} path
 */
function placeOf(whole, path) {
  const [token] = path.slice(-1);
  if (token === undefined) return { path, holder: null, list: false, at: null };
  const holder = read(whole, path.slice(0, -1));
  const list = index(token) === null && token !== "-" ? false : isList(holder);
  const end = holder.is === "value" && list ? holder.value.length : null;
  const at = list === false ? null : token === "-" ? end : index(token);
  const canonical = list && at !== null ? [...path.slice(0, -1), String(at)] : path;
  return { path: canonical, holder, list, at };
}

/**
 * Returns what is known after one operation. Fails with `Misfit` where it is known to be refused.
 * @param {Part} whole
 * @param {Operation} operation
 */
function after(whole, operation) {
  return afterAll(whole, [operation]);
}

/**
 * The same after a patch. Nobody can write to the values that are new.
 * @param {Part} whole @param {readonly Operation[]} patch
 */
function afterAll(whole, patch) {
  const draft = new Draft(whole);
  for (const operation of patch) draft.do(operation);
  draft.freeze();
  return draft.whole;
}

/**
 * A value after a patch. Fails with `Misfit` where an operation does not fit.
 * @param {any} value
 * @param {readonly Operation[]} patch
 * @returns {any}
 */
function applied(value, patch) {
  return /** @type {any} */ (afterAll(known(value), patch)).value;
}

/**
 * Holds what is known while a patch is done, operation by operation, on values that the draft alone
 * has: so it copies each container once.
 */
class Draft {
  #owned = new Owned();

  /** @param {Part} whole */
  constructor(whole) {
    this.whole = whole;
  }

  /**
   * The value at a path, which no later operation writes to; undefined where it is not known.
   * @param {readonly string[]} path
   */
  kept(path) {
    const part = read(this.whole, path);
    if (part.is !== "value") return undefined;
    this.#owned.share(part.value);
    return part.value;
  }

  /**
   * Fails with `Misfit` where the operation is known to be refused.
   * @param {Operation} operation
   * @param {() => void} [puts] told before something is added, copied or moved to a place; of a
   *   move, when it was taken from where it was
   */
  do(operation, puts = () => {}) {
    const path = tokens(operation.path);
    switch (operation.op) {
      case "add":
        return this.#put(path, known(frozen(operation.value)), puts);
      case "remove":
        return this.#take(path);
      case "replace":
        this.whole = exchanged(this.whole, path, known(frozen(operation.value)), this.#owned);
        return;
      case "test":
        return tested(this.whole, path, operation.value);
      case "copy":
        return this.#put(path, this.#shared(source(this.whole, tokens(operation.from))), puts);
      case "move":
        return this.#move(operation, puts);
      default:
        throw new TypeError(`no operation: ${/** @type {any} */ (operation).op}`);
    }
  }

  /** The patch has ended. */
  freeze() {
    this.#owned.freeze();
  }

  /** @param {readonly string[]} path @param {Part} part @param {() => void} puts */
  #put(path, part, puts) {
    puts();
    this.whole = put(this.whole, path, part, this.#owned);
  }

  /** @param {readonly string[]} path */
  #take(path) {
    this.whole = taken(this.whole, path, this.#owned);
  }

  /** @param {{ from: string, path: string }} operation @param {() => void} puts */
  #move(operation, puts) {
    const [from, path] = [tokens(operation.from), tokens(operation.path)];
    const moved = source(this.whole, from);
    if (operation.path === operation.from) return;
    checkMove(from, path);
    this.#take(from);
    this.#put(path, moved, puts);
  }

  /** @param {Part} part */
  #shared(part) {
    if (part.is === "value") this.#owned.share(part.value);
    if (part.is === "container") part.children.forEach((inner) => this.#shared(inner));
    return part;
  }
}

/** @param {Part} whole @param {readonly string[]} from */
function source(whole, from) {
  const part = read(whole, from);
  if (part.is === "absent") throw new Misfit();
  return part;
}

/** @param {Part} whole @param {readonly string[]} path @param {any} value */
function tested(whole, path, value) {
  const part = read(whole, path);
  if (part.is === "absent" || (part.is === "value" && !same(part.value, value))) throw new Misfit();
}

/** @param {Part} whole @param {readonly string[]} path @param {Part} part @param {Owned} owned */
function put(whole, path, part, owned) {
  return changed(whole, path, () => part, {
    inValue: (value, rest) =>
      part.is === "value" ? known(added(value, rest, part.value, owned)) : UNKNOWN,
    inContainer: (holder, token) => inserted(holder, token, part),
  });
}

/** @param {Part} whole @param {readonly string[]} path @param {Owned} owned */
function taken(whole, path, owned) {
  const atRoot = () => {
    throw new Misfit();
  };
  return changed(whole, path, atRoot, {
    inValue: (value, rest) => known(removed(value, rest, owned)),
    inContainer: dropped,
  });
}

/**
 * @param {Part} whole
 * @param {readonly string[]} path
 * @param {{ is: "value", value: any }} part
 * @param {Owned} owned
 */
function exchanged(whole, path, part, owned) {
  return changed(whole, path, () => part, {
    inValue: (value, rest) => known(replaced(value, rest, part.value, owned)),
    inContainer: (holder, token) => {
      if (child(holder, token).is === "absent") throw new Misfit();
      return { ...holder, children: new Map(holder.children).set(token, part) };
    },
  });
}

/**
 * Goes along a path to where a value is known, or to the container that holds the last token, and
 * changes that.
 * @param {Part} whole
 * @param {readonly string[]} path
 * @param {() => Part} atRoot
 * @param {{
 *   inValue: (value: any, rest: readonly string[]) => Part,
 *   inContainer: (holder: Container, token: string) => Part,
 * }} change
 * @returns {Part}
 */
function changed(whole, path, atRoot, change) {
  if (path.length === 0) return atRoot();
  if (whole.is === "absent") throw new Misfit();
  if (whole.is === "value") return change.inValue(whole.value, path);
  const [token, ...rest] = path;
  const holder = container(whole);
  if (rest.length === 0) return change.inContainer(holder, token);
  const part = changed(child(holder, token), rest, atRoot, change);
  return { ...holder, children: new Map(holder.children).set(token, part) };
}

// In a container that may be a list, what stands behind an insertion or a removal may have moved,
// and is not known any more.

/** @param {Container} holder @param {string} token @returns {Map<string, Part>} */
function unmoved({ children }, token) {
  const from = index(token);
  const stays = (/** @type {string} */ name, /** @type {Part} */ part) => {
    const at = index(name);
    return at === null || (from === null ? isThere(part) : at < from);
  };
  return new Map([...children].filter(([name, part]) => name !== "-" && stays(name, part)));
}

/** @param {Container} holder @param {string} token @param {Part} part @returns {Part} */
function inserted(holder, token, part) {
  const { list } = placeOf(holder, [token]);
  if (list !== false) {
    const children = unmoved(holder, token);
    return {
      is: "container",
      children: token === "-" ? children : children.set(token, part),
      size: null,
    };
  }
  const before = child(holder, token);
  const isKnown = before.is === "absent" || isThere(before);
  const size =
    holder.size === null || !isKnown ? null : holder.size + Number(before.is === "absent");
  return { is: "container", children: new Map(holder.children).set(token, part), size };
}

/** @param {Container} holder @param {string} token @returns {Part} */
function dropped(holder, token) {
  if (child(holder, token).is === "absent") throw new Misfit();
  const size = holder.size === null ? null : holder.size - 1;
  const { list } = placeOf(holder, [token]);
  // Nothing is removed at the end of a list: `-` is a member here.
  const children =
    list === false || token === "-"
      ? new Map(holder.children).set(token, ABSENT)
      : unmoved(holder, token);
  return { is: "container", children, size };
}

/**
 * The slots of a view, each as it was where it is not known what it shows.
 * @template {Slot} S
 * @param {Part} whole
 * @param {readonly Shown[]} view
 * @param {readonly S[]} before
 * @returns {S[]}
 */
function slotsOf(whole, view, before) {
  const slots = view.map((shown, k) => {
    const slot = slotOf(whole, shown);
    const isKept = slot === null || equal(slot, before[k]);
    return /** @type {any} */ (isKept ? before[k] : Object.freeze(slot));
  });
  return /** @type {S[]} */ (Object.freeze(slots));
}

/** @param {Slot} one @param {Slot} other */
function equal(one, other) {
  return one.length === other.length && one[0] === other[0];
}

/**
 * Returns what one slot shows; null where that is not known.
 * @param {Part} whole
 * @param {Shown} shown
 * @returns {Slot | null}
 */
function slotOf(whole, shown) {
  const part = read(whole, pathOf(shown));
  if (part.is === "absent") return [];
  if (part.is === "value") return typeof shown === "string" ? [part.value] : sizeOf(part.value);
  if (part.is === "container" && typeof shown !== "string" && part.size !== null) {
    return [part.size];
  }
  return null;
}

/** @param {any} value @returns {Slot} */
function sizeOf(value) {
  if (!isContainer(value)) return [];
  return [Array.isArray(value) ? value.length : Object.keys(value).length];
}

return {
  Draft,
  after,
  afterAll,
  applied,
  child,
  goesOn,
  knownBy,
  pathOf,
  placeOf,
  read,
  slotOf,
  slotsOf,
};
})();

const followerModule = (() => {
// The slots of a view as the relay shows them, kept right over lost connections and restarts
// (docs/PROTOCOL.md, "What a client does").
const { Closed, Refused, Superseded } = errorsModule;
const { applied } = knownModule;
const { checked, frozen, same } = jsonModule;

/**
 * @typedef {import("./link.mjs").Link} Link
 * @typedef {import("../relay.js").Shown} Shown
 * @typedef {import("../relay.js").Operation} Operation
 * @typedef {readonly [] | readonly [any]} Slot
 * @typedef {{ number: number, view: readonly Shown[] }} Wanted
 * @typedef {Wanted & {
 *   slots: readonly Slot[] | null,
 *   rev: number | null,
 *   epoch: number | null,
 * }} Held
 * @typedef {{
 *   number: number,
 *   only: readonly Shown[] | null,
 *   resolve: (slots: any) => void,
 *   reject: (cause: Error) => void,
 * }} Waiter
 * Waits for the slots of a view, or of any that was asked for later; `only` for those of that one.
 * @typedef {{
 *   took: (before: Held, patch: Operation[] | null) => void,
 *   slots: () => readonly Slot[] | null,
 *   present: () => void,
 *   refused: (cause: Refused) => void,
 * }} Hearer
 */

class Follower {
  #link;
  #on;
  /** @type {Wanted} */
  #wanted; // the view that was asked for last, by the number of its asking
  /** @type {Wanted | null} */
  #taken = null; // the view that the newest `watching` or `resumed` of this connection is about
  /** @type {Held} */
  #held = { number: -1, view: [], slots: null, rev: null, epoch: null };
  /** @type {Waiter[]} */
  #waiters = [];
  /** @type {Error | null} */
  #ended = null;

  /** @param {readonly Shown[]} view @param {Link} link @param {Hearer} on */
  constructor(view, link, on) {
    this.#link = link;
    this.#on = on;
    this.#wanted = { number: 0, view: checked(view) };
  }

  get held() {
    return this.#held;
  }

  /** The view that is wanted, anew: its slots are of the room's revision. */
  watchAgain() {
    return this.#watch(this.#wanted.view, null);
  }

  /**
   * The slots of this view: `Superseded` where those of another one come in their place.
   * @param {readonly Shown[]} view
   */
  watch(view) {
    const only = checked(view);
    return this.#watch(only, only);
  }

  /**
   * The slots of this view, or of one that is asked for later.
   * @param {readonly Shown[]} view
   */
  watchOrLater(view) {
    return this.#watch(checked(view), null);
  }

  /** The slots of the view that was asked for last, or of a later one. */
  shown() {
    return this.#shown(null);
  }

  /** @param {readonly Shown[]} view @param {readonly Shown[] | null} only */
  #watch(view, only) {
    this.#wanted = { number: this.#wanted.number + 1, view };
    const shown = this.#shown(only);
    if (this.#link.welcome !== null) this.#link.ask(this.#watching());
    return shown;
  }

  /**
   * @param {readonly Shown[] | null} only
   * @returns {Promise<any>}
   */
  #shown(only) {
    const { number } = this.#wanted;
    return new Promise((resolve, reject) => {
      if (this.#ended !== null) reject(this.#ended);
      else this.#waiters.push({ number, only, resolve, reject });
    });
  }

  /**
   * The first request of a connection goes on where the slots are, if they are those of the view
   * that is wanted.
   */
  entered() {
    this.#taken = null;
    this.#link.askFirst(
      this.#held.number === this.#wanted.number ? this.#resuming() : this.#watching(),
    );
  }

  /** @param {any} message A snapshot or a patch. */
  told(message) {
    if (message.kind === "patch") this.#follow(message);
    else if (Array.isArray(message.view) && message.view.length === this.#taken?.view.length) {
      this.#take(message.rev, frozen(message.view), null);
    } else this.astray();
  }

  /**
   * Asks for the slots anew, by a connection that has nothing to resume: what is held may be wrong.
   */
  astray() {
    this.#held = { ...this.#held, number: -1 };
    this.#link.renew();
  }

  /** @param {Error | null} cause */
  end(cause) {
    this.#ended = cause ?? new Closed();
    for (const waiter of this.#waiters.splice(0)) waiter.reject(this.#ended);
  }

  #watching() {
    const wanted = this.#wanted;
    const answered = (/** @type {any} */ reply) => {
      if (reply.kind === "watching") this.#taken = wanted;
      else this.#refuse(wanted, reply);
    };
    return { request: { do: "watch", view: wanted.view }, answered };
  }

  #resuming() {
    const { number, view, rev, epoch } = this.#held;
    const answered = (/** @type {any} */ reply) => {
      // `future`: an epoch was given to two runs, and what is held is of the other one.
      if (reply.kind !== "resumed") return this.#link.ask(this.#watching());
      this.#taken = { number, view };
      if (reply.how === "nothing") this.#on.present();
    };
    return { request: { do: "resume", epoch, rev, view }, answered };
  }

  // A view that the relay does not take: the one before it stays. Without any there is nothing to
  // be had.
  /** @param {Wanted} wanted @param {any} reply */
  #refuse({ number }, reply) {
    const refused = new Refused(reply);
    for (const waiter of this.#leaving((asked) => asked === number)) waiter.reject(refused);
    if (this.#wanted.number !== number) return;
    if (this.#held.slots === null) return this.#on.refused(refused);
    this.#wanted = this.#taken ?? this.#held;
    if (this.#taken === null) this.#link.ask(this.#watching());
  }

  /** @param {{ rev: number, patch: Operation[] }} message */
  #follow({ rev, patch }) {
    let slots = null;
    try {
      if (rev > (this.#held.rev ?? Infinity) && this.#taken?.number === this.#held.number) {
        slots = applied(this.#held.slots, patch);
      }
    } catch {
      // What is held is not what the patch was made for.
    }
    if (slots !== null) this.#take(rev, slots, patch);
    else this.astray();
  }

  /**
   * The waiters of some numbers, which wait no more.
   * @param {(number: number) => boolean} isOf
   */
  #leaving(isOf) {
    const leaving = this.#waiters.filter(({ number }) => isOf(number));
    this.#waiters = this.#waiters.filter(({ number }) => !isOf(number));
    return leaving;
  }

  /** @param {number} rev @param {readonly Slot[]} slots @param {Operation[] | null} patch */
  #take(rev, slots, patch) {
    const before = this.#held;
    const epoch = this.#link.welcome?.epoch ?? null;
    const seen = patch === null ? { .../** @type {Wanted} */ (this.#taken), epoch } : before;
    this.#held = { ...seen, slots, rev };
    const told = this.#leaving((asked) => asked <= this.#held.number);
    try {
      this.#on.took(before, patch);
    } finally {
      for (const { only, resolve, reject } of told) {
        if (only === null || same(only, this.#held.view)) resolve(this.#on.slots());
        else reject(new Superseded());
      }
    }
  }
}

return { Follower };
})();

const historyModule = (() => {
// The edits that this client did and can take back, and those that it took back and can do again.

/** @typedef {import("./inverse.mjs").Inverse} Inverse */
/** @typedef {"edit" | "undo" | "redo"} Role */

// Older ones are forgotten.
const KEPT = 100;

class History {
  /** @type {Inverse[]} */
  #undo = [];
  /** @type {Inverse[]} */
  #redo = [];

  get undoable() {
    return this.#undo.length;
  }

  get redoable() {
    return this.#redo.length;
  }

  /**
   * Records what takes back an edit that was done.
   * @param {Role} role Why it was made.
   * @param {Inverse} inverse
   */
  record(role, inverse) {
    const list = role === "undo" ? this.#redo : this.#undo;
    if (role === "edit") this.#redo = [];
    list.push(inverse);
    if (list.length > KEPT) list.shift();
  }

  /**
   * The newest one, which is there no more.
   * @param {"undo" | "redo"} role
   */
  take(role) {
    return (role === "undo" ? this.#undo : this.#redo).pop() ?? null;
  }

  forget() {
    this.#undo = [];
    this.#redo = [];
  }
}

return { History };
})();

const inverseModule = (() => {
// Takes a patch back, as far as the slots tell: each operation backwards, behind tests that nobody
// changed since what it did.
const { spelled, startsWith, tokens } = pointerModule;
const { Draft, placeOf, read } = knownModule;
const { Misfit } = patchModule;

/**
 * @typedef {import("./known.mjs").Part} Part
 * @typedef {import("../relay.js").Operation} Operation
 * @typedef {{ patch: Operation[], putsBack: boolean }} Inverse
 * A patch, and whether it puts a member back: no operation tests that none is there.
 */

// An edit has no more operations.
const LONGEST = 64;

/**
 * @param {Part} whole What is known before the patch.
 * @param {readonly Operation[]} patch
 * @returns {Inverse | null} null where the slots do not tell enough, or nothing is to be taken
 *   back.
 */
function inverse(whole, patch) {
  const draft = new Draft(whole);
  /** @type {Operation[]} */
  let back = [];
  try {
    back = patch.map((operation) => backwards(draft, operation)).reverse().flat();
    if (back.length === 0 || back.length > LONGEST) return null;
    const free = newMembers(draft.whole, back);
    return free.includes(false) ? null : { patch: back, putsBack: free.length > 0 };
  } catch {
    return null;
  }
}

/**
 * True if an inverse can be done, and puts no member where one may stand.
 * @param {Part} whole What is known before it.
 * @param {readonly Operation[]} patch
 */
function fits(whole, patch) {
  try {
    return !newMembers(whole, patch).includes(false);
  } catch {
    return false;
  }
}

/**
 * Of each operation that puts something elsewhere than in a list, whether nothing is known to stand
 * there. Fails where one does not fit.
 * @param {Part} whole
 * @param {readonly Operation[]} patch
 */
function newMembers(whole, patch) {
  const draft = new Draft(whole);
  return patch.flatMap((operation) => {
    const path = tokens(operation.path);
    const isFree = read(draft.whole, path).is === "absent";
    let isMember = false;
    draft.do(operation, () => (isMember = !placeOf(draft.whole, path).list));
    return isMember ? [isFree] : [];
  });
}

/**
 * The operations that take back an operation that is done.
 * @param {Draft} draft
 * @param {Operation} operation
 * @returns {Operation[]}
 */
function backwards(draft, operation) {
  if (operation.op === "move") return movedBack(draft, operation);
  const back = unmovedBack(draft, operation);
  draft.do(operation);
  return back;
}

/** @param {Draft} draft @param {Operation} operation @returns {Operation[]} */
function unmovedBack(draft, operation) {
  const path = tokens(operation.path);
  switch (operation.op) {
    case "test":
      return [];
    case "replace":
      return exchange(path, operation.value, valueAt(draft, path));
    case "add":
      return addedBack(draft, path, operation.value);
    case "copy":
      return addedBack(draft, path, valueAt(draft, tokens(operation.from)));
    case "remove":
      return removedBack(draft, path);
    default:
      throw new Misfit();
  }
}

/** @param {Draft} draft @param {readonly string[]} path */
function valueAt(draft, path) {
  const value = draft.kept(path);
  if (value === undefined) throw new Misfit();
  return value;
}

/**
 * @param {readonly string[]} path
 * @param {any} value What stands there.
 * @param {any} old What is to stand there.
 * @returns {Operation[]}
 */
function exchange(path, value, old) {
  const there = spelled(path);
  return [{ op: "test", path: there, value }, { op: "replace", path: there, value: old }];
}

/**
 * @param {Draft} draft
 * @param {readonly string[]} path
 * @param {any} value
 * @returns {Operation[]}
 */
function addedBack(draft, path, value) {
  const place = placeOf(draft.whole, path);
  if (place.list === null || (place.list && place.at === null)) throw new Misfit();
  if (!place.list && read(draft.whole, path).is !== "absent") {
    return exchange(path, value, valueAt(draft, path));
  }
  const there = spelled(place.path);
  return [{ op: "test", path: there, value }, { op: "remove", path: there }];
}

/** @param {Draft} draft @param {readonly string[]} path @returns {Operation[]} */
function removedBack(draft, path) {
  const place = placeOf(draft.whole, path);
  if (place.list === null) throw new Misfit();
  /** @type {Operation} */
  const add = { op: "add", path: spelled(place.path), value: valueAt(draft, path) };
  return place.list ? [...neighbours(draft, place), add] : [add];
}

// The place at which an element was removed from a list: between the same two, or in a list that is
// empty.
/**
 * @param {Draft} draft
 * @param {{ path: readonly string[], holder: Part | null, at: number | null }} place
 * @returns {Operation[]}
 */
function neighbours(draft, { path, holder, at }) {
  if (holder?.is !== "value" || at === null) throw new Misfit();
  const list = path.slice(0, -1);
  const { length } = holder.value;
  if (length === 1) return [{ op: "test", path: spelled(list), value: [] }];
  /** @type {(place: number, at: number) => Operation} */
  const test = (place, at) => {
    const value = valueAt(draft, [...list, String(at)]);
    return { op: "test", path: spelled([...list, place]), value };
  };
  return [
    ...(at > 0 ? [test(at - 1, at - 1)] : []),
    ...(at + 1 < length ? [test(at, at + 1)] : []),
  ];
}

/**
 * @param {Draft} draft
 * @param {{ op: "move" | "copy", from: string, path: string }} operation
 * @returns {Operation[]}
 */
function movedBack(draft, operation) {
  if (operation.path === operation.from) return [];
  const [from, path] = [tokens(operation.from), tokens(operation.path)];
  const moved = valueAt(draft, from);
  const origin = placeOf(draft.whole, from);
  if (origin.list === null) throw new Misfit();
  // It came in the place of what it was taken from.
  if (startsWith(from, path) && placeOf(draft.whole, path).list === false) {
    const back = exchange(path, moved, valueAt(draft, path));
    draft.do(operation);
    return back;
  }
  /** @type {Operation[]} */
  let back = [];
  draft.do(operation, () => (back = addedBack(draft, path, moved)));
  const [test, last] = back;
  const place = spelled(origin.path);
  // A move back would be one into itself where it came in front of what it was taken from, and may
  // shift a place that is put back.
  const isMove = !startsWith(from, path) && last.op === "remove";
  return isMove
    ? [test, { op: "move", from: last.path, path: place }]
    : [test, last, { op: "add", path: place, value: moved }];
}

return { fits, inverse };
})();

const lengthModule = (() => {
// The length of a text that is sent, as the relay counts it.

// Bytes of UTF-8. A longer text ends its connection without an answer, each time that it is sent.
const LONGEST = 1_056_768;

// A unit of a text takes three bytes at most: a character of four has two units.
const BYTES = 3;

/** @param {string} text */
function endsConnection(text) {
  // Most texts are so short that their bytes need not be counted.
  return text.length * BYTES > LONGEST && new TextEncoder().encode(text).length > LONGEST;
}

return { endsConnection };
})();

const handshakeModule = (() => {
// Finds why a handshake failed. A WebSocket does not say it, so the same address is asked by HTTP.
//
// For each question that fails Chromium writes a line to the console, beside the one that it writes
// for the socket. So in a browser an answer holds for a while, and most tries write one line.
const { shownAddress } = addressModule;
const { HandshakeFailed, isWatching } = errorsModule;

// The status by which the relay answers a request that is no handshake, where the room's name is
// good. So a handshake was refused there for its place, for the origin of a page, or since the room
// that it only watches is not there: which of these does not show.
const NO_HANDSHAKE = 400;
const NO_PLACE = 503;
const LONGEST = 2000;

// For how long an answer holds in a browser, in milliseconds.
const HOLDS = 30_000;

class Failures {
  #url;
  /** @type {HandshakeFailed | null} */
  #last = null;
  #asked = 0; // when that was; 0 if it holds no more

  /** @param {string} url of the room, as `ws://HOST/rooms/NAME` */
  constructor(url) {
    this.#url = url;
  }

  /**
   * Tells why the newest handshake failed.
   * @param {{ message?: string } | null} event of the socket
   */
  async newest(event) {
    if (!globalThis.location || Date.now() - this.#asked > HOLDS) {
      this.#asked = Date.now();
      this.#last = await failure(this.#url, event);
    }
    return this.#last;
  }

  /** A handshake succeeded. */
  end() {
    this.#asked = 0;
  }
}

/**
 * `refused` with a status where the platform tells one; a page of another origin is only told that
 * something answers.
 * @param {string} url
 * @param {{ message?: string } | null} event
 */
async function failure(url, event) {
  const told = /\b[45]\d\d\b/.exec(event?.message ?? "");
  if (told) return new HandshakeFailed("refused", url, Number(told[0]));
  const ending = new AbortController();
  const timer = setTimeout(() => ending.abort(), LONGEST);
  try {
    const { location } = globalThis;
    const address = new URL(url.replace(/^ws/, "http"), location?.href);
    // `fetch` takes no address with a name or a password.
    address.username = address.password = "";
    const isForeign = location && location.origin !== address.origin;
    const { status } = await fetch(address, {
      // By `no-cors` Chromium asks nothing of another origin unless it may follow redirections.
      ...(isForeign ? { mode: "no-cors" } : { redirect: "manual" }),
      cache: "no-store",
      signal: ending.signal,
    });
    const meant = location || isWatching(url) ? null : NO_PLACE;
    return new HandshakeFailed("refused", url, status === NO_HANDSHAKE ? meant : status || null);
  } catch {
    return new HandshakeFailed("unreachable", url);
  } finally {
    clearTimeout(timer);
  }
}

/**
 * Fails with a `RangeError` where a path does not end with a room's name (docs/PROTOCOL.md,
 * "Scripts"). What stands before it is a proxy's concern.
 * @param {string} url
 */
function checkRoom(url) {
  const { pathname } = parsed(url);
  const [rooms, name = ""] = pathname.split("/").slice(-2);
  if (rooms !== "rooms") {
    if (isWatching(url)) throw new RangeError("leave out `/watch`, and use the option `readOnly`");
    const path = shownAddress(pathname);
    throw new RangeError(`an address ends with /rooms/NAME, and this path is ${path}`);
  }
  if (!/^[\w-]{1,64}$/.test(name)) {
    throw new RangeError(`"${name}" is no room's name: 1 to 64 ASCII letters, digits, "-" and "_"`);
  }
}

/** @param {string} url */
function parsed(url) {
  try {
    return new URL(url, globalThis.location?.href);
  } catch {
    const example = "ws://127.0.0.1:8080/rooms/NAME";
    const shown = shownAddress(`${JSON.stringify(url)}`);
    throw new TypeError(`${shown} is no address of a room, as ${example}`);
  }
}

return { Failures, checkRoom };
})();

const idModule = (() => {
// Names that nobody else has, for what a client keeps in a document.

const PARTS = 4;
const RANGE = 2 ** 24;

function newId() {
  const part = () => Math.floor(Math.random() * RANGE).toString(36);
  return Array.from({ length: PARTS }, part).join("");
}

return { newId };
})();

const onceModule = (() => {
// A counter of this client's own in the document. Each edit that is `once` tests and raises it, so
// one that is sent again is done at most once (docs/PROTOCOL.md, "Edits without an answer").
//
// One such edit is on its way at a time, and what was asked for behind it waits. The counter has a
// name that nobody had before, and is added by a request that is sent once: where the answer of
// that was lost, a counter of another name is added. So no late one sets back a counter that has
// gone on.
const { Refused } = errorsModule;
const { newId } = idModule;
const { spelled, tokens } = pointerModule;

/** Stands ahead of an edit that has to wait. */
const WAITS = Symbol("waits");

/**
 * @typedef {import("./edit.mjs").Edit} Edit
 * @typedef {import("./edit.mjs").Welcome} Welcome
 * @typedef {import("../relay.js").Operation} Operation
 */

class Counter {
  #parent;
  #path = ""; // of the counter
  #value = 0; // what stands there
  /** @type {number | null} */
  #epoch = null; // the run in whose document it stands; null where it stands in none
  /** @type {Welcome | null} */
  #adding = null; // the connection on which it is being added
  /** @type {Edit | null} */
  #edit = null; // which has no answer yet

  /** @param {string} parent a pointer to an object of the document */
  constructor(parent) {
    tokens(parent);
    this.#parent = parent;
  }

  /**
   * Returns what has to be sent before an edit: nothing (null), a request, or `WAITS`.
   * @param {Edit} edit
   * @param {Welcome} welcome of the connection
   */
  ahead(edit, welcome) {
    if (this.#edit === edit) return null;
    if (this.#edit !== null || this.#adding === welcome) return WAITS;
    if (this.#epoch !== welcome.epoch) return this.#add(edit, welcome);
    this.#edit = edit;
    return null;
  }

  /** @param {Edit} edit that waits for it @param {Welcome} welcome */
  #add(edit, welcome) {
    this.#adding = welcome;
    const path = this.#parent + spelled([newId()]);
    const answered = (/** @type {any} */ reply) => {
      this.#adding = null;
      const advice = `\`once\` needs an object at "${this.#parent}", as \`begin\` makes it`;
      if (reply.kind !== "done") return edit.fail(new Refused({ fault: reply.fault }, advice));
      this.#path = path;
      this.#value = 0;
      this.#epoch = welcome.epoch;
    };
    return { request: { do: "edit", patch: [{ op: "add", path, value: 0 }] }, answered };
  }

  /** @returns {Operation[]} */
  get raise() {
    const [path, value] = [this.#path, this.#value];
    return [{ op: "test", path, value }, { op: "replace", path, value: value + 1 }];
  }

  /** The edit that was on its way was done. */
  raised() {
    this.#value += 1;
    this.#edit = null;
  }

  /**
   * An edit was not done, and the counter stands as it did.
   * @param {Edit} edit
   */
  kept(edit) {
    if (this.#edit === edit) this.#edit = null;
  }

  /**
   * The counter after an edit is not known: the next edit has another one.
   * @param {Edit} edit
   */
  lost(edit) {
    if (this.#edit === edit) this.#edit = this.#epoch = null;
  }
}

return { Counter, WAITS };
})();

const linkModule = (() => {
// A connection to a room that comes back when it is lost, and the requests that go over it, in
// order.
const { HandshakeFailed, isWatching } = errorsModule;
const { endsConnection } = lengthModule;
const { Failures } = handshakeModule;
const { parsed } = jsonModule;
const { overlap } = pointerModule;
const { WAITS } = onceModule;

// With one more on the way 32 replies could wait, and the relay would read nothing from this client
// until it drew one.
const ON_THE_WAY = 31;

// A snapshot may take as many times as long as an answer: it has up to 25 MB, and whatever is
// answered meanwhile comes behind it.
const SNAPSHOT = 6;

// The number of times that patience is doubled at most, since connections were given up.
const DOUBLINGS = 3;

// As what answers says that there is no room at the address.
const NO_ROOM = 404;

// As the relay refuses a text that it still reads.
const TOO_LONG = { kind: "refused", fault: "too-long", at: null };

// The messages that answer a request if it is not refused, each with what it answers. The welcome
// answers none.
const REPLIES = new Map([
  ["done", "edit"],
  ["watching", "watch"],
  ["resumed", "resume"],
  ["willing", "will"],
]);

/**
 * A request: what is sent, the id with which it was, and what becomes of it. Only an edit has the
 * last seven; others end with their connection.
 *
 * @typedef {{ epoch: number, rev: number }} Welcome
 * @typedef {{
 *   request: { do?: string, [member: string]: unknown },
 *   id?: number,
 *   answered: (reply: any) => void,
 *   ahead?: (welcome: Welcome) => Asked | typeof WAITS | null | undefined,
 *   goesTo?: (welcome: Welcome) => boolean,
 *   lost?: () => boolean,
 *   dropped?: () => void,
 *   kept?: import("./queue.mjs").Kept,
 *   sets?: string,
 *   exchange?: (later: import("./overlay.mjs").Unconfirmed) => Promise<number>,
 * }} Asked
 * @typedef {{
 *   entered: (welcome: Welcome) => void,
 *   told: (message: any) => void,
 *   astray: () => void,
 *   lost: (cause: Error | null) => void,
 *   refused: (cause: Error) => void,
 *   connecting: () => void,
 *   waiting: (asked: Asked[]) => void,
 * }} Hearer
 * @typedef {{
 *   WebSocket: any,
 *   firstWait: number,
 *   longestWait: number,
 *   quiet: number,
 *   patience: number,
 *   readOnly?: boolean,
 * }} Options
 */

class Link {
  #url;
  #options;
  #on;
  /** @type {any} */
  #socket = null;
  #opened = false; // whether the handshake of this connection is done
  /** @type {Welcome | null} */
  #welcome = null; // of this connection
  /** @type {Asked[]} */
  #unsent = [];
  /** @type {Asked[]} */
  #sent = []; // without an answer, oldest first
  #isDue = false; // whether a snapshot is on its way
  #ids = 0;
  #failures = 0;
  #givenUp = 0; // connections in a row, since slots came
  /** @type {ReturnType<typeof setTimeout> | undefined} */
  #timer;
  /** @type {ReturnType<typeof setTimeout> | undefined} */
  #patience;
  #closed = false;
  #failed;
  #mayBeThere; // the room, also where the answer is 404
  /** @type {Asked | undefined} */
  will; // that the relay took last: it goes with its connection, so the next one leaves it again

  /** @param {string} url @param {Options} options @param {Hearer} on */
  constructor(url, options, on) {
    this.#url = url;
    this.#options = options;
    this.#on = on;
    this.#failed = new Failures(url);
    // One that is only watched may begin later.
    this.#mayBeThere = options.readOnly && isWatching(url);
  }

  /** Of this connection; null while there is none. */
  get welcome() {
    return this.#welcome;
  }

  connect() {
    if (this.#closed) return;
    try {
      this.#on.connecting();
    } finally {
      // Also where an application's function throws; but it may have closed the board.
      if (!this.#closed) this.#open();
    }
  }

  #open() {
    const socket = new this.#options.WebSocket(this.#url);
    this.#socket = socket;
    this.#opened = false;
    /** @param {(event: any) => void} act @returns {(event: any) => void} */
    const here = (act) => (event) => {
      if (this.#socket === socket) act(event);
    };
    socket.onopen = here(() => (this.#opened = true));
    socket.onmessage = here(({ data }) => this.#hear(data));
    socket.onclose = here(() => this.#lose(null));
    // Where a connection cannot be had, Node's sockets say so and no more.
    socket.onerror = here((event) => this.#abandon(event));
    this.#beginPatience();
  }

  /** @param {Asked} asked */
  ask(asked) {
    if (this.#closed) return asked.dropped?.();
    this.#unsent.push(asked);
    this.#send();
  }

  /**
   * Before whatever waits.
   * @param {Asked} asked
   */
  askFirst(asked) {
    this.#unsent.unshift(asked);
  }

  /**
   * A value of a place is sent for one that was not sent yet, where all that was asked for since
   * sets places apart. Gives what becomes of it; undefined where there is no such one.
   * @param {string | undefined} sets
   * @param {import("./overlay.mjs").Unconfirmed} later
   */
  exchange(sets, later) {
    if (sets === undefined) return undefined;
    const isNear = (/** @type {Asked} */ asked) =>
      asked.sets === undefined || overlap(asked.sets, sets);
    const earlier = [...this.#unsent].reverse().find(isNear);
    if (earlier?.sets !== sets) return undefined;
    const done = earlier.exchange?.(later);
    this.#send();
    return done;
  }

  /** Leaves this connection for another one. */
  renew() {
    this.#abandon(null);
  }

  close() {
    this.#closed = true;
    this.#send();
    const socket = this.#socket;
    this.#detach();
    socket?.close();
    const unsent = this.#unsent.splice(0);
    this.#on.waiting([]);
    for (const asked of unsent) asked.dropped?.();
  }

  // Leaves the connection: what was sent has no answer any more, and only edits wait for the next
  // one.
  #detach() {
    clearTimeout(this.#timer);
    clearTimeout(this.#patience);
    this.#socket = null;
    this.#welcome = null;
    this.#isDue = false;
    const again = this.#sent.splice(0).filter((asked) => asked.lost?.());
    this.#unsent = [...again, ...this.#unsent.filter((asked) => asked.dropped)];
    this.#on.waiting(this.#unsent);
  }

  /** @param {any} event of the socket, or the cause */
  #lose(event) {
    const handshaken = this.#opened;
    this.#detach();
    if (handshaken) return this.#wait(null);
    if (event instanceof HandshakeFailed) return this.#wait(event);
    // Not within the promise, so that what an application's function throws is reported as it is
    // elsewhere.
    this.#failed.newest(event).then((cause) => queueMicrotask(() => this.#wait(cause)));
  }

  /** @param {HandshakeFailed | null} cause */
  #wait(cause) {
    if (this.#closed) return;
    if (cause?.status === NO_ROOM && !this.#mayBeThere) return this.#on.refused(cause);
    const { firstWait, longestWait } = this.#options;
    const wait = Math.min(firstWait * 2 ** this.#failures, longestWait) * (0.5 + Math.random() / 2);
    this.#failures += 1;
    this.#timer = setTimeout(() => this.connect(), wait);
    this.#on.lost(cause);
  }

  /** @param {any} event of the socket, or the cause */
  #abandon(event) {
    const socket = this.#socket;
    try {
      this.#lose(event);
    } finally {
      socket?.close();
    }
  }

  // Whether the other end is there. What has waited longest for an answer, or for the welcome, says
  // it; each answer shows that it is. Where nothing waits and nothing comes, a request that does
  // nothing asks for an answer: it has no `do`, and is refused. While a snapshot is on its way
  // nothing is asked, since the answer would come behind it, and the snapshot is what is waited
  // for. A line that is slower than that gets it all the same: each connection that is given up
  // doubles the patience of the next one.

  #beginPatience() {
    clearTimeout(this.#patience);
    this.#patience = setTimeout(() => this.#giveUp(), this.#longest);
  }

  get #longest() {
    const { patience } = this.#options;
    if (this.#welcome === null) return patience;
    return patience * (this.#isDue ? SNAPSHOT : 1) * 2 ** Math.min(this.#givenUp, DOUBLINGS);
  }

  #giveUp() {
    if (this.#welcome !== null) this.#givenUp += 1;
    this.#abandon(this.#opened ? null : new HandshakeFailed("unreachable", this.#url));
  }

  // Something came that shows that the other end is there.
  #goOn() {
    clearTimeout(this.#patience);
    if (this.#isDue || this.#sent.length > 0) this.#beginPatience();
  }

  #listen() {
    clearTimeout(this.#timer);
    if (this.#socket === null || this.#isDue) return;
    this.#timer = setTimeout(() => this.ask({ request: {}, answered() {} }), this.#options.quiet);
  }

  // One value of a place is on its way at a time. The next one waits until that is answered, or
  // something else is asked for: until then a newer one is sent for it.
  get #isHeld() {
    const waits = (/** @type {Asked} */ { sets }) =>
      sets !== undefined && this.#sent.some((asked) => asked.sets === sets);
    return !this.#closed && this.#unsent.every(waits);
  }

  #send() {
    while (this.#welcome !== null && this.#sent.length < ON_THE_WAY && this.#unsent.length > 0) {
      if (this.#isHeld) break;
      const ahead = this.#unsent[0].ahead?.(this.#welcome);
      if (ahead === WAITS) break;
      if (ahead) this.#unsent.unshift(ahead);
      const asked = /** @type {Asked} */ (this.#unsent.shift());
      // What is kept elsewhere ends there before it is sent, so that it is never sent twice.
      if (asked.dropped) this.#on.waiting(this.#unsent);
      if (asked.goesTo?.(this.#welcome) === false) continue;
      const text = JSON.stringify({ id: this.#ids + 1, ...asked.request });
      if (endsConnection(text)) asked.answered(TOO_LONG);
      else this.#sendText(text, asked);
    }
    if (this.#welcome === null) this.#on.waiting(this.#unsent);
  }

  /** @param {string} text @param {Asked} asked */
  #sendText(text, asked) {
    this.#ids += 1;
    asked.id = this.#ids;
    this.#sent.push(asked);
    if (this.#sent.length === 1 && !this.#isDue) this.#beginPatience();
    this.#socket.send(text);
  }

  /** @param {string} text */
  #hear(text) {
    // What is no message is of no kind.
    const message = parsed(text) ?? {};
    try {
      if (message.kind === "welcome" && this.#welcome === null) this.#enter(message);
      else if (this.#welcome === null) this.#on.astray();
      else if (message.kind === "snapshot" || message.kind === "patch") this.#tell(message);
      else if (this.#answersOldest(message)) this.#answer(message);
      else this.#on.astray();
    } finally {
      // Also where an application's function throws.
      if (this.#socket !== null) {
        this.#send();
        this.#listen();
      }
    }
  }

  /** @param {Welcome} welcome */
  #enter(welcome) {
    this.#welcome = welcome;
    // From now on a 404 may be that of a proxy that is being set up anew.
    this.#mayBeThere = true;
    this.#failures = 0;
    this.#failed.end();
    clearTimeout(this.#patience);
    if (this.will) this.askFirst(this.will);
    this.#on.entered(welcome);
  }

  /** @param {any} message A snapshot or a patch. */
  #tell(message) {
    this.#givenUp = 0;
    if (message.kind === "snapshot" && this.#isDue) {
      this.#isDue = false;
      this.#goOn();
    }
    this.#on.told(message);
  }

  // Replies come in the order of their requests; the id says so, if the relay could read it.
  /** @param {any} message */
  #answersOldest({ id, kind }) {
    const [oldest] = this.#sent;
    if (oldest === undefined || (id !== null && id !== oldest.id)) return false;
    return kind === "refused" || (REPLIES.has(kind) && REPLIES.get(kind) === oldest.request.do);
  }

  /** @param {any} reply */
  #answer(reply) {
    const asked = this.#sent.shift();
    if (reply.kind === "watching" || reply.how === "snapshot") this.#isDue = true;
    if (reply.how === "nothing") this.#givenUp = 0;
    this.#goOn();
    asked?.answered(reply);
  }
}

return { Link };
})();

const listenersModule = (() => {
// Functions that are told of something. Whoever changes something while others are told is heard
// after them, so all hear it in one order.

/** @template T */
class Listeners {
  /** @type {Set<(told: T) => void>} */
  #all = new Set();
  /** @type {T[]} */
  #untold = [];
  #telling = false;

  /** @param {(told: T) => void} listener Gives its end. */
  add(listener) {
    // The same function may be told twice.
    const own = (/** @type {T} */ told) => listener(told);
    this.#all.add(own);
    return () => {
      this.#all.delete(own);
    };
  }

  /** @param {T} told */
  tell(told) {
    this.#untold.push(told);
    if (this.#telling) return;
    this.#telling = true;
    /** @type {unknown[]} */
    const thrown = [];
    while (this.#untold.length > 0) this.#each(/** @type {T} */ (this.#untold.shift()), thrown);
    this.#telling = false;
    if (thrown.length > 0) throw thrown[0];
  }

  /** @param {T} told @param {unknown[]} thrown */
  #each(told, thrown) {
    for (const listener of [...this.#all]) {
      if (!this.#all.has(listener)) continue;
      try {
        listener(told);
      } catch (error) {
        thrown.push(error);
      }
    }
  }
}

return { Listeners };
})();

const touchModule = (() => {
// Finds changes that surely touch a slot (docs/PROTOCOL.md, "What a change means to a slot"): of
// those the relay tells a watcher.
const { index, startsWith, tokens } = pointerModule;
const { Draft, goesOn, pathOf, placeOf, read } = knownModule;

/**
 * @typedef {import("./known.mjs").Part} Part
 * @typedef {import("../relay.js").Shown} Shown
 * @typedef {import("../relay.js").Operation} Operation
 * @typedef {{
 *   path: readonly string[],
 *   list: boolean | null,
 *   at: number | null,
 *   set: boolean,
 * }} Place
 * @typedef {Place & { holder: Part | null }} Origin
 */

/**
 * True if a patch surely touches a slot of a view. Fails with `Misfit` where it is known to be
 * refused.
 * @param {Part} whole
 * @param {readonly Operation[]} patch
 * @param {readonly Shown[]} view
 */
function touches(whole, patch, view) {
  const draft = new Draft(whole);
  return patch
    .flatMap((operation) => changed(draft, operation))
    .some((place) => view.some((shown) => touch(shown, place)));
}

/**
 * The places that an operation changes, which is done.
 * @param {Draft} draft
 * @param {Operation} operation
 */
function changed(draft, operation) {
  const from = fromPlaces(draft.whole, operation);
  /** @type {Place[]} */
  let to = [];
  draft.do(operation, () => (to = [target(draft.whole, tokens(operation.path))]));
  if (operation.op !== "move") return [...from, ...to];
  return to.length === 0 || mayStay(from[0], to[0]) ? [] : [from[0], to[0]];
}

// The places at which something is taken away or exchanged.
/** @param {Part} whole @param {Operation} operation @returns {Origin[]} */
function fromPlaces(whole, operation) {
  if (operation.op === "remove" || operation.op === "replace") {
    return [{ ...placeOf(whole, tokens(operation.path)), set: operation.op === "replace" }];
  }
  return operation.op === "move" ? [{ ...placeOf(whole, tokens(operation.from)), set: false }] : [];
}

// The place at which something is added. Of a member that may be there already it is not known
// whether it is merely set: then no size surely changes.
/** @param {Part} whole @param {readonly string[]} path @returns {Place} */
function target(whole, path) {
  const place = placeOf(whole, path);
  return { ...place, set: place.list !== true && read(whole, path).is !== "absent" };
}

// True if a move may lead to its own place, and so change nothing: the last element of a list to
// the end of it, which may not be known.
/** @param {Origin} from @param {Place} to */
function mayStay({ path, holder, at }, to) {
  if (to.path.length !== path.length) return false;
  if (startsWith(to.path, path)) return true;
  const isEnd =
    to.list === null && to.path[path.length - 1] === "-" && startsWith(to.path, path.slice(0, -1));
  return isEnd && holder !== null && at !== null && !goesOn(holder, at);
}

/** @param {Shown} shown @param {Place} place */
function touch(shown, { path, list, at, set }) {
  const slot = pathOf(shown);
  if (slot.length < path.length && startsWith(path, slot)) {
    return typeof shown === "string" || (path.length === slot.length + 1 && !set);
  }
  if (list === false) return startsWith(slot, path);
  const holder = path.slice(0, -1);
  if (slot.length < path.length || !startsWith(slot, holder)) return false;
  const place = index(slot[holder.length]);
  if (place === null || at === null) return false;
  return list ? place >= at : place === at;
}

return { touches };
})();

const overlayModule = (() => {
// This client's edits that the slots do not show yet, and the slots with those of them laid over
// that are to show at once.
const { afterAll, knownBy, slotsOf } = knownModule;
const { touches } = touchModule;
const { inverse } = inverseModule;

/**
 * @typedef {import("./known.mjs").Part} Part
 * @typedef {import("./inverse.mjs").Inverse} Inverse
 * @typedef {import("./follower.mjs").Held} Held
 * @typedef {import("./follower.mjs").Slot} Slot
 * @typedef {import("../relay.js").Operation} Operation
 *
 * @typedef {{
 *   patch: Operation[],
 *   optimistic: boolean,
 *   silent: boolean,
 *   rev: number | null,
 *   epoch: number | null,
 *   left: (inverse: Inverse | null) => void,
 *   laid?: { below: Part, slots: readonly Slot[], whole: Part, shown: readonly Slot[] },
 * }} Unconfirmed
 * An edit, in the order in which they were made; `rev` and `epoch` are of its `done`, and `left` is
 * told when the slots show it. Of a silent one that is taken back the application is told nothing:
 * the client made it by itself.
 */

class Overlay {
  /** @type {Unconfirmed[]} */
  #edits = [];
  /** @type {{ slots: readonly Slot[] | null, whole: Part } | null} */
  #base = null; // what the slots that the relay showed tell, made once for each

  /** The number of edits that are laid over. */
  get pending() {
    return this.#edits.filter(({ optimistic }) => optimistic).length;
  }

  get isEmpty() {
    return this.#edits.length === 0;
  }

  /** @param {Unconfirmed} edit */
  add(edit) {
    this.#edits.push(edit);
  }

  /**
   * It was refused, or may not have been done.
   * @param {Unconfirmed} edit Gives whether it was there.
   */
  drop(edit) {
    const there = this.#edits.includes(edit);
    this.#edits = this.#edits.filter((other) => other !== edit);
    return there;
  }

  /** The slots of the relay are those of the room's revision: they show whatever was done. */
  settleAll(/** @type {Held} */ held) {
    this.#leave(held, () => true);
  }

  /**
   * Other slots came: drops what they show, what was done in an earlier run than theirs, and what
   * left no trace.
   * @param {Held} before
   * @param {Held} held
   */
  settle(before, held) {
    this.#leave(
      before,
      ({ rev, epoch }) => epoch !== held.epoch || Number(rev) <= (held.rev ?? -1),
    );
    this.settleTraceless(held);
  }

  /**
   * Drops what was done and will not show. The slots may still be of an earlier run: then other
   * ones come.
   * @param {Held} held
   */
  settleTraceless(held) {
    this.#leave(held, (edit) => edit.epoch === held.epoch && !this.#willShow(edit, held));
  }

  /** @param {Held} held @returns {readonly Slot[] | null} */
  shown(held) {
    if (held.slots === null) return null;
    const start = { whole: this.#known(held), shown: held.slots };
    return this.#edits
      .filter(({ optimistic }) => optimistic)
      .reduce((below, edit) => over(below, edit, held), start)
      .shown;
  }

  /** @param {Held} held */
  #known({ view, slots }) {
    if (this.#base?.slots !== slots) this.#base = { slots, whole: knownBy(view, slots ?? []) };
    return /** @type {{ whole: Part }} */ (this.#base).whole;
  }

  // True if a patch will come for an edit that was done: of one that only might touch a slot none
  // may ever come.
  /** @param {Unconfirmed} edit @param {Held} held */
  #willShow(edit, held) {
    if (held.slots === null || edit.rev === null || edit.rev <= (held.rev ?? -1)) return false;
    const earlier = this.#edits
      .slice(0, this.#edits.indexOf(edit))
      .filter(({ rev }) => rev !== null);
    try {
      return touches(folded(this.#known(held), earlier), edit.patch, held.view);
    } catch {
      // It was done, and does not fit the slots: so they are behind, and what brings them on is on
      // its way.
      return true;
    }
  }

  // Of those that were done.
  /**
   * @param {Held} before The slots that do not show them yet.
   * @param {(edit: Unconfirmed) => boolean} leaves
   */
  #leave(before, leaves) {
    const edits = this.#edits.filter((edit) => edit.rev !== null && leaves(edit));
    if (edits.length === 0) return;
    this.#edits = this.#edits.filter((edit) => !edits.includes(edit));
    let whole = knownBy(before.view, before.slots ?? []);
    for (const edit of edits) {
      // Of an edit of another run nothing can be undone.
      edit.left(edit.epoch === before.epoch ? inverse(whole, edit.patch) : null);
      whole = folded(whole, [edit]);
    }
  }
}

// A patch is done whole or not at all, so an edit of which an operation is known not to fit shows
// nothing.
/** @param {Part} whole @param {readonly Unconfirmed[]} edits */
function folded(whole, edits) {
  return edits.reduce((below, { patch }) => {
    try {
      return afterAll(below, patch);
    } catch {
      return below;
    }
  }, whole);
}

// An edit that was laid over the same once is not laid again, so slots stay the same values where
// nothing changed.
/**
 * @param {{ whole: Part, shown: readonly Slot[] }} below
 * @param {Unconfirmed} edit
 * @param {Held} held
 */
function over(below, edit, held) {
  if (edit.laid?.below !== below.whole || edit.laid.slots !== below.shown) {
    const whole = folded(below.whole, [edit]);
    const shown = whole === below.whole ? below.shown : slotsOf(whole, held.view, below.shown);
    edit.laid = { below: below.whole, slots: below.shown, whole, shown };
  }
  return edit.laid;
}

return { Overlay };
})();

const elementsModule = (() => {
// Operations on the elements of one list: by their places, or by a member that tells them apart.
const { Refused } = errorsModule;
const { isObject, same } = jsonModule;

/**
 * Finds where an element is by now: the one that stood at a place when it was asked for, as far as
 * its value tells. The nearest one, if there are several.
 * @param {() => unknown} list what is shown
 * @param {number} at
 */
function followed(list, at) {
  const before = shown(list());
  if (!(Number.isSafeInteger(at) && at in before)) throw new RangeError(`no element ${at}`);
  const wanted = before[at];
  return () => {
    const places = shown(list()).flatMap((value, place) => (same(value, wanted) ? [place] : []));
    const [place] = places.sort((one, other) => Math.abs(one - at) - Math.abs(other - at));
    if (place !== undefined) return place;
    throw new Refused({ fault: "changed" }, `element ${at} is gone`);
  };
}

/** @param {unknown} list @returns {any[]} */
function shown(list) {
  return Array.isArray(list) ? list : [];
}

/** The elements of a list, told apart by a member. */
class Keyed {
  #place;
  #name;
  #change;

  /**
   * @param {{ value: any }} place of the list
   * @param {string} name of the member
   * @param {(make: (list: any[]) => void, options: object) => Promise<number>} change
   */
  constructor(place, name, change) {
    this.#place = place;
    this.#name = name;
    this.#change = change;
  }

  /**
   * The index of the element with a key; -1 where there is none.
   * @param {any} key
   */
  indexOf(key) {
    const name = this.#name;
    const has = (/** @type {any} */ element) => isObject(element) && same(element[name], key);
    return shown(this.#place.value).findIndex(has);
  }

  /**
   * The element with a key; undefined where there is none.
   * @param {any} key
   */
  get(key) {
    return shown(this.#place.value)[this.indexOf(key)];
  }

  /** @param {any} key @param {any} [options] @returns {Promise<number>} */
  remove(key, options) {
    return this.#change((list) => void list.splice(this.#at(key), 1), options);
  }

  /**
   * In front of the element with another key; to the end, where that is null.
   * @param {any} key @param {any} before @param {any} [options] @returns {Promise<number>}
   */
  move(key, before, options) {
    return this.#change((list) => {
      const [from, to] = [this.#at(key), this.#to(before)];
      if (from === to) return;
      const [element] = list.splice(from, 1);
      if (to === null) list.push(element);
      else list.splice(to > from ? to - 1 : to, 0, element);
    }, options);
  }

  /** @param {any} value @param {any} before @param {any} [options] @returns {Promise<number>} */
  insert(value, before, options) {
    return this.#change((list) => {
      const key = value?.[this.#name];
      if (key === undefined || this.indexOf(key) >= 0) {
        throw new Refused({ fault: "key" }, `${JSON.stringify(key)} is no new key`);
      }
      const to = this.#to(before);
      if (to === null) list.push(value);
      else list.splice(to, 0, value);
    }, options);
  }

  /**
   * @param {any} key @param {(element: any) => void} make @param {any} [options]
   * @returns {Promise<number>}
   */
  change(key, make, options) {
    return this.#change((list) => void make(list[this.#at(key)]), options);
  }

  /** @param {any} key */
  #at(key) {
    const at = this.indexOf(key);
    if (at >= 0) return at;
    throw new Refused({ fault: "missing" }, `no element has the key ${JSON.stringify(key)}`);
  }

  /** @param {any} before @returns {number | null} */
  #to(before) {
    return before === null || before === undefined ? null : this.#at(before);
  }
}

return { Keyed, followed, shown };
})();

const optionsModule = (() => {
// The options that an application gives a call, checked before anything is done with it: a name
// that nobody reads would change nothing, and nobody would hear of it.
const { isObject } = jsonModule;

/**
 * Fails with a `TypeError` where the call has no such option, and names the nearest one.
 * @param {string} call
 * @param {unknown} options
 * @param {readonly string[]} names
 * @param {readonly string[]} [own] what the client itself gives as well
 */
function checkOptions(call, options, names, own = []) {
  if (!isObject(options)) {
    throw new TypeError(`the options of \`${call}\` are an object, not ${shown(options)}`);
  }
  const unknown = Object.keys(options).find((name) => ![...names, ...own].includes(name));
  if (unknown === undefined) return;
  const byDistance = (/** @type {string} */ one, /** @type {string} */ other) =>
    distance(unknown, one) - distance(unknown, other);
  const [nearest] = [...names].sort(byDistance);
  const isNear = distance(unknown, nearest) <= Math.max(2, unknown.length / 3);
  const advice = isNear ? `is "${nearest}" meant?` : `it has ${names.join(", ")}`;
  throw new TypeError(`\`${call}\` has no option "${unknown}": ${advice}`);
}

/**
 * @param {string} call
 * @param {unknown} patch
 */
function checkPatch(call, patch) {
  if (Array.isArray(patch)) return;
  const example = '[{ op: "add", path: "/cards/-", value: "milk" }]';
  throw new TypeError(`\`${call}\` takes a list of operations, as ${example}, not ${shown(patch)}`);
}

/** @param {string} call @param {unknown} view */
function checkView(call, view) {
  if (Array.isArray(view)) return;
  const not = view === undefined ? "" : `, not ${shown(view)}`;
  throw new TypeError(`\`${call}\` takes a view, a list of pointers as ["/cards"]${not}`);
}

/** @param {string} call @param {unknown} make */
function checkFunction(call, make) {
  if (typeof make === "function") return;
  throw new TypeError(`\`${call}\` takes a function, not ${shown(make)}`);
}

/** @param {unknown} value */
function shown(value) {
  if (Array.isArray(value)) return "a list";
  return isObject(value) ? "an object" : String(value);
}

/**
 * The number of letters that are to be put in, taken out or exchanged.
 * @param {string} one
 * @param {string} other
 */
function distance(one, other) {
  let row = Array.from({ length: other.length + 1 }, (_, k) => k);
  for (const [at, letter] of [...one.toLowerCase()].entries()) {
    const next = [at + 1];
    for (const [k, wanted] of [...other.toLowerCase()].entries()) {
      const exchanged = row[k] + Number(letter !== wanted);
      next.push(Math.min(exchanged, row[k + 1] + 1, next[k] + 1));
    }
    row = next;
  }
  return row[other.length];
}

return { checkFunction, checkOptions, checkPatch, checkView };
})();

const placeModule = (() => {
// A value that a view shows, by itself or as a part of another one: who hears of it, and changes of
// it.
const { Closed, Refused } = errorsModule;
const { Keyed, followed, shown } = elementsModule;
const { checkFunction, checkOptions } = optionsModule;
const { spelled, startsWith, tokens } = pointerModule;
const { has } = patchModule;
const { same } = jsonModule;

/** @typedef {import("../relay.js").Shown} Shown */
/** @typedef {import("../relay.js").Operation} Operation */
/** @typedef {readonly (readonly any[])[] | null} Slots */
/** @typedef {(listener: () => void) => () => void} Subscribe */
/**
 * @typedef {{ view: readonly Shown[], slots: Slots, confirmed: Slots, ready: Promise<any>,
 * subscribe: Subscribe }} Source
 */

const SET = ["parents", "base", "epoch", "optimistic", "undo", "once"];

// The number of times that `update` tries, if nothing is said.
const TRIES = 20;

// The milliseconds that the second try waits at most; each further one up to twice as long, so that
// many who count take turns.
const PAUSE = 10;
const LONGEST_PAUSE = 500;

class Place {
  #source;
  #board;
  #shown;
  #path;

  /**
   * @param {Source} source a board or a view
   * @param {any} board
   * @param {Shown} shown
   */
  constructor(source, board, shown) {
    this.#source = source;
    this.#board = board;
    this.#shown = shown;
    this.#path = tokens(typeof shown === "string" ? shown : shown.size);
    this.subscribe = this.subscribe.bind(this);
  }

  /** The value that stands there; undefined where nothing does, or before the first slots. */
  get value() {
    return this.#slot(this.#source.slots)[0];
  }

  /** The value that stands there as the relay showed it, without edits that wait. */
  get confirmed() {
    return this.#slot(this.#source.confirmed)[0];
  }

  /** @param {(value: any) => void} listener Told of each other value. Gives its end. */
  subscribe(listener) {
    let last = this.value;
    return this.#source.subscribe(() => {
      // A view that was exchanged since tells nothing of it.
      if (this.#cover() === null) return;
      const before = last;
      last = this.value;
      if (!same(before, last)) listener(last);
    });
  }

  /**
   * @param {any} value
   * @param {import("../relay.js").SetOptions} [asked]
   * @returns {Promise<number>}
   */
  set(value, asked = {}) {
    checkOptions("set", asked, SET);
    const { parents = false, ...options } = asked;
    const { slots } = this.#source;
    if (slots === null) throw new Error("the slots are not there yet");
    if (parents && this.#missing(slots) > 0) {
      return this.#setWithParents(value, { optimistic: true, ...options });
    }
    const operation = this.#write(this.#slot(slots), value);
    const sets = operation.op === "replace" ? operation.path : undefined;
    return this.#board.edit([operation], { optimistic: true, ...options, sets });
  }

  // No operation tests that nothing stands in a place: so it is done on what was seen.
  /** @param {any} value @param {object} options */
  #setWithParents(value, options) {
    /** @returns {Operation[]} */
    const make = () => {
      const missing = this.#missing(this.#source.confirmed);
      if (missing === 0) return [this.#write(this.#slot(this.#source.confirmed), value)];
      const start = this.#path.length - missing;
      const below = this.#path.slice(start).reduceRight(nested, value);
      return [{ op: "add", path: spelled(this.#path.slice(0, start)), value: below }];
    };
    return this.#compareAndSet(make, TRIES, options);
  }

  // The number of containers around it that are not there, as far as the view shows them.
  /** @param {Slots} slots */
  #missing(slots) {
    const cover = this.#cover();
    if (slots === null || cover === null) return 0;
    const { rest } = cover;
    const holder = (/** @type {number} */ k) => rest.slice(0, k).reduce(part, slots[cover.at]);
    const there = rest.findIndex((_, k) => holder(k).length === 0);
    return there < 0 ? 0 : rest.length - there;
  }

  /**
   * @param {(value: any) => any} change
   * @param {{ tries?: number, undo?: boolean }} options
   * @returns {Promise<number>}
   */
  update(change, options = {}) {
    checkFunction("update", change);
    checkOptions("update", options, ["tries", "undo"]);
    const { tries = TRIES, undo = true } = options;
    const make = () => {
      const slot = this.#slot(this.#source.confirmed);
      const value = change(slot[0]);
      return value === undefined ? null : [this.#write(slot, value)];
    };
    return this.#compareAndSet(make, tries, { undo });
  }

  // Of a list, guarded by what stands around the place, and made anew where that has moved.

  /** @param {...any} values @returns {Promise<number>} */
  push(...values) {
    return this.#change((list) => void list.push(...values));
  }

  /** @param {number} at @param {any} value @param {any} [options] @returns {Promise<number>} */
  insert(at, value, options) {
    const list = () => this.value;
    const { length } = shown(list());
    const place = at === length ? () => null : followed(list, at);
    return this.#change((list) => {
      const at = place();
      if (at === null) list.push(value);
      else list.splice(at, 0, value);
    }, options);
  }

  /** @param {number} at @param {any} [options] @returns {Promise<number>} */
  remove(at, options) {
    const place = followed(() => this.value, at);
    return this.#change((list) => void list.splice(place(), 1), options);
  }

  /**
   * So that it stands at another place of the list as it is shown now.
   * @param {number} from @param {number} to @param {any} [options] @returns {Promise<number>}
   */
  move(from, to, options) {
    const list = () => this.value;
    const [element, other] = [followed(list, from), followed(list, to)];
    return this.#change((list) => {
      const [from, to] = [element(), other()];
      if (from !== to) list.splice(to, 0, list.splice(from, 1)[0]);
    }, options);
  }

  /** @param {string} name */
  byKey(name) {
    const keys = new Map([[spelled(this.#path), name]]);
    return new Keyed(this, name, (make, options) => this.#change(make, { ...options, keys }));
  }

  /** @param {(list: any[]) => void} make @param {object} [options] @returns {Promise<number>} */
  #change(make, options = {}) {
    this.#checkSet();
    return this.#board.changePlace(this.#path, make, options);
  }

  /** @param {() => Operation[] | null} make @param {number} tries @param {object} options */
  #compareAndSet(make, tries, options) {
    const edit = (/** @type {Operation[]} */ patch, /** @type {object} */ seen) =>
      this.#board.edit(patch, { ...options, ...seen });
    return this.#board.said(() =>
      this.#source.ready.then(() => compareAndSet(this.#board, tries, make, edit)),
    );
  }

  /** @param {Slots} slots @returns {readonly any[]} */
  #slot(slots) {
    if (slots === null) return [];
    const cover = this.#cover();
    if (cover === null) {
      throw new RangeError(
        `${JSON.stringify(this.#shown)} is not in the view ${JSON.stringify(this.#source.view)}`,
      );
    }
    return cover.rest.reduce(part, slots[cover.at] ?? []);
  }

  // The slot that shows it, and where in that slot's value. A size is a slot of its own or nothing.
  #cover() {
    const { view } = this.#source;
    const at = view.findIndex((shown) => same(shown, this.#shown));
    if (at >= 0) return { at, rest: [] };
    if (typeof this.#shown !== "string") return null;
    const outer = view.findIndex(
      (shown) => typeof shown === "string" && startsWith(this.#path, tokens(shown)),
    );
    return outer < 0
      ? null
      : { at: outer, rest: this.#path.slice(tokens(/** @type {string} */ (view[outer])).length) };
  }

  /** @param {readonly any[]} slot @param {any} value @returns {Operation} */
  #write(slot, value) {
    this.#checkSet();
    return { op: slot.length === 0 ? "add" : "replace", path: spelled(this.#path), value };
  }

  #checkSet() {
    if (typeof this.#shown !== "string") {
      throw new TypeError("a size is not set: what it counts is");
    }
  }
}

/** @param {any} value @param {string} name */
function nested(value, name) {
  return { [name]: value };
}

/** @param {readonly any[]} slot @param {string} token @returns {readonly any[]} */
function part(slot, token) {
  return slot.length > 0 && has(slot[0], token) ? [slot[0][token]] : [];
}

/**
 * An edit made from what is shown on its revision, and made again until nobody was faster.
 * @param {any} board
 * @param {number} tries
 * @param {() => Operation[] | null} make null where nothing is to be done
 * @param {(patch: Operation[], seen: { base: number, epoch: number }) => Promise<number>} edit
 * @returns {Promise<number>}
 */
function compareAndSet(board, tries, make, edit) {
  return anew(board, tries, ["stale"], async (sends) => {
    const patch = make();
    sends();
    return patch === null ? board.rev : edit(patch, { base: board.rev, epoch: board.epoch });
  });
}

/**
 * Tries again as long as it is refused by one of these faults, on what is shown by then. What this
 * client refuses before it sends anything, as a key that no element has, is tried once more: from
 * then on the slots are of the room's revision, and would show the same.
 * @param {any} board
 * @param {number} tries
 * @param {readonly string[]} faults
 * @param {(sends: () => void) => Promise<number>} attempt tells when it begins to send
 */
async function anew(board, tries, faults, attempt) {
  for (let tried = 1; ; tried += 1) {
    if (board.state === "closed") throw new Closed();
    let isSent = false;
    try {
      return await attempt(() => void (isSent = true));
    } catch (error) {
      const isOutdated = error instanceof Refused && faults.includes(error.fault);
      if (!isOutdated || tried >= tries || (tried > 1 && !isSent)) throw error;
    }
    if (tried > 1) await pause(tried);
    // An edit elsewhere leaves the slots' revision behind the room's: only slots that come anew are
    // of that one.
    await board.watchAgain();
  }
}

/** @param {number} tried */
function pause(tried) {
  const longest = Math.min(PAUSE * 2 ** tried, LONGEST_PAUSE);
  return new Promise((resolve) => setTimeout(resolve, Math.random() * longest));
}

return { Place, anew, compareAndSet };
})();

const placesModule = (() => {
// The places of a board or a view. Each is made once, so that a component which asks for one each
// time it is drawn is given the same one. They are held weakly: one that nobody holds or listens to
// is forgotten, and made anew when it is asked for again.
const { Place } = placeModule;

/** @typedef {import("../relay.js").Shown} Shown */

class Places {
  /** @type {Map<string, WeakRef<Place>>} */
  #made = new Map();
  /** @type {FinalizationRegistry<string>} */
  #forgotten = new FinalizationRegistry((key) => {
    // Another one may have been made under the same key.
    if (this.#made.get(key)?.deref() === undefined) this.#made.delete(key);
  });
  #make;

  /** @param {(shown: Shown) => Place} make */
  constructor(make) {
    this.#make = make;
  }

  /** @param {Shown} shown */
  at(shown) {
    const key = JSON.stringify(shown);
    const made = this.#made.get(key)?.deref();
    if (made !== undefined) return made;
    const place = this.#make(shown);
    this.#made.set(key, new WeakRef(place));
    this.#forgotten.register(place, key);
    return place;
  }
}

return { Places };
})();

const queueModule = (() => {
// Edits that wait for a connection: which are taken while there is none, and where they are kept
// beyond this page.
const { parsed } = jsonModule;

/**
 * @typedef {import("./edit.mjs").Edit} Edit
 * @typedef {{ patch: any[], base?: number, epoch: number | null, once?: boolean }} Kept
 */

class Queue {
  #mode;
  #storage;
  #key;

  /**
   * @param {"guarded" | "all"} [mode]
   * @param {import("../relay.js").Store | null} [storage]
   * @param {string} [key]
   */
  constructor(mode = "all", storage = null, key = "") {
    if (mode !== "all" && mode !== "guarded") throw new RangeError(`no queue: ${mode}`);
    this.#mode = mode;
    this.#storage = storage;
    this.#key = key;
  }

  /**
   * True if an edit may wait for the connection to come back.
   * @param {Edit} edit
   */
  takes(edit) {
    return this.#mode === "all" || edit.isGuarded;
  }

  /** @param {readonly { kept?: Kept }[]} asked What waits now. */
  keep(asked) {
    const storage = this.#storage;
    if (storage === null) return;
    const waiting = asked.flatMap(({ kept }) => (kept === undefined ? [] : [kept]));
    if (waiting.length === 0) return storage.removeItem(this.#key);
    try {
      storage.setItem(this.#key, JSON.stringify(waiting));
    } catch (cause) {
      // What was kept before may be done by then, and would be sent once more.
      storage.removeItem(this.#key);
      console.warn("relay: edits that wait for the connection end with this page:", cause);
    }
  }

  /**
   * The edits that an earlier page left, in its order. What no page leaves, as another program may,
   * is nothing.
   * @returns {Kept[]}
   */
  left() {
    const left = parsed(this.#storage?.getItem(this.#key) ?? "");
    return Array.isArray(left) ? left.filter((kept) => Array.isArray(kept?.patch)) : [];
  }
}

return { Queue };
})();

const willModule = (() => {
// A will: what the relay is to do when this client's session ends (docs/PROTOCOL.md, "Wills"). It
// goes with its session, so each connection leaves it again. A session has one: what the parts of a
// page leave is put together.
const { Closed, Refused } = errorsModule;
const { checkPatch } = optionsModule;
const { checked } = jsonModule;

/** @typedef {import("../relay.js").Operation} Operation */
/** @typedef {import("./link.mjs").Asked} Asked */

/** @param {import("./link.mjs").Link} link */
function wills(link) {
  /** @type {Map<unknown, Operation[]>} */
  let parts = new Map(); // by whose they are

  /**
   * In place of what was left before for the same part.
   * @param {readonly Operation[]} patch @param {unknown} of
   * @returns {Promise<void>}
   */
  return (patch, of) =>
    new Promise((resolve, reject) => {
      checkPatch("will", patch);
      const before = parts;
      const own = (parts = new Map(before).set(of, checked(patch)));
      /** @type {Asked} */
      const asked = {
        request: { do: "will", patch: [...own.values()].flat() },
        answered(reply) {
          if (reply.kind === "willing") {
            link.will = asked;
            resolve();
          } else {
            if (parts === own) parts = before;
            reject(new Refused(reply));
          }
        },
        lost: () => link.will !== asked,
        dropped: () => reject(new Closed()),
      };
      link.ask(asked);
    });
}

return { wills };
})();

const beginModule = (() => {
// The document that a room begins with: each connection writes it before anything else, and the
// relay refuses that if the room has one.
const { Refused } = errorsModule;
const { checked } = jsonModule;

/**
 * The request that does it.
 * @param {unknown} value
 * @param {(cause: Refused) => void} refused told of every refusal, but that there is a document
 */
function beginning(value, refused) {
  const patch = [
    { op: "test", path: "", value: null },
    { op: "add", path: "", value: checked(value, ["begin"]) },
  ];
  const answered = (/** @type {any} */ reply) => {
    if (reply.kind !== "done" && reply.fault !== "test-failed") refused(new Refused(reply));
  };
  return { request: { do: "edit", patch }, answered };
}

return { beginning };
})();

const nodeModule = (() => {
// The parts of a draft: what was seen, each part by where it stood, and what is made of it. A part
// keeps what it is when it is moved, so that the patch can be a move. Containers are opened when
// they are looked into.
const { checked, isContainer, isObject, kindOf } = jsonModule;
const { child } = knownModule;
const { index, spelled } = pointerModule;

/**
 * @typedef {import("./known.mjs").Part} Part
 * @typedef {Node[] | Map<string, Node>} Kids
 */

class Node {
  /** @type {Kids | null} */
  #kids = null; // what stands in it now
  /** @type {Kids | null} */
  #before = null; // what stood in it
  /** @type {any} */
  #value; // of one that was not opened

  /**
   * @param {Part} part
   * @param {readonly string[] | null} origin where it stood; null for what was put into the draft
   * @param {Node | null} [element] the innermost element of a list that it is, or is within
   */
  constructor(part, origin, element = null) {
    this.part = part;
    this.origin = origin;
    this.element = element;
    this.#value = this.seen;
  }

  get isList() {
    return Array.isArray(this.#kids ?? this.#value);
  }

  /** Of which some members are known, and others are not. */
  get isPartial() {
    return this.part.is === "container";
  }

  get isContainer() {
    return this.#kids !== null || this.isPartial || isContainer(this.#value);
  }

  /** True if it was looked into, so that something in it may be another one. */
  get isOpen() {
    return this.#kids !== null;
  }

  /** The value that stood there. */
  get seen() {
    return this.part.is === "value" ? this.part.value : undefined;
  }

  get kids() {
    this.#open();
    return /** @type {Kids} */ (this.#kids);
  }

  set kids(kids) {
    this.#kids = kids;
  }

  /** The parts that stood in it; none, if it was put in. */
  get before() {
    return this.#before ?? (this.isList ? [] : new Map());
  }

  /**
   * The part that stood at a name.
   * @param {string} name
   */
  memberBefore(name) {
    this.#open();
    return /** @type {Map<string, Node>} */ (this.#before).get(name);
  }

  /** @returns {Node[]} */
  get list() {
    return /** @type {Node[]} */ (this.kids);
  }

  /** @returns {Map<string, Node>} */
  get members() {
    return /** @type {Map<string, Node>} */ (this.kids);
  }

  #open() {
    if (this.isOpen) return;
    const { part } = this;
    const isList = Array.isArray(this.#value);
    const parts = part.is === "container" ? part.children : partsOf(this.#value);
    const there = [...parts].filter(([, { is }]) => is === "value" || is === "container");
    const kids = there.map(([token, part]) => this.#kid(part, token, isList));
    this.#before = isList ? kids : new Map(there.map(([token], k) => [token, kids[k]]));
    this.#kids = isList ? [...kids] : new Map(/** @type {Map<string, Node>} */ (this.#before));
  }

  /** @param {Part} part @param {string} token @param {boolean} isList */
  #kid(part, token, isList) {
    const kid = new Node(part, [...(this.origin ?? []), token], this.element);
    // Of a container that is known in parts it is open whether it is a list.
    if (isList || (this.isPartial && index(token) !== null)) kid.element = kid;
    return kid;
  }

  /**
   * Of a partial one: fails where the view does not show what stands at a name.
   * @param {string} name
   */
  check(name) {
    if (!this.isPartial || this.members.has(name) || child(this.part, name).is === "absent") return;
    throw new RangeError(`${spelled([...(this.origin ?? []), name])} is not in the view`);
  }

  /**
   * The value that it is now, as JSON.
   * @returns {any}
   */
  get value() {
    if (this.#kids === null) return this.#value;
    if (Array.isArray(this.#kids)) return this.#kids.map(({ value }) => value);
    return Object.fromEntries([...this.#kids].map(([name, { value }]) => [name, value]));
  }
}

/** @param {any} value @returns {[string, Part][]} */
function partsOf(value) {
  return Object.entries(value).map(([token, value]) => [token, { is: "value", value }]);
}

/**
 * A part of what an application puts in: parts of the draft stay what they are.
 * @param {any} value
 * @param {(value: any) => Node | undefined} nodeOf
 * @param {readonly (string | number)[]} [path]
 */
function put(value, nodeOf, path) {
  const isPlain =
    Array.isArray(value) ||
    (isObject(value) && kindOf(value) === "Object" && !("toJSON" in value));
  return (
    nodeOf(value) ??
    new Node({ is: "value", value: isPlain ? value : checked(value, path) }, null)
  );
}

/**
 * Takes up what stands in a value that was put in, which its owner may have changed since.
 * @param {Node} node
 * @param {(value: any) => Node | undefined} nodeOf
 * @param {readonly (string | number)[]} path
 */
function takeUp(node, nodeOf, path) {
  if (node.origin !== null || !node.isContainer || node.isOpen) return;
  checked(null, path); // fails at a path that is too deep
  const kid = (/** @type {any} */ value, /** @type {string | number} */ name) => {
    const kid = put(value, nodeOf, [...path, name]);
    takeUp(kid, nodeOf, [...path, name]);
    return kid;
  };
  const { value } = node;
  if (Array.isArray(value)) node.kids = Array.from(value, kid);
  else node.kids = new Map(members(value).map(([name, part]) => [name, kid(part, name)]));
}

/**
 * @param {object} value
 * @returns {[string, any][]}
 */
function members(value) {
  checked(Object.fromEntries(Object.keys(value).map((name) => [name, 0])));
  return Object.entries(value);
}

return { Node, put, takeUp };
})();

const listModule = (() => {
// Operations on a list of a draft. What hangs on the whole list, as its length, has it noted as
// seen; what hangs on one element, that one.
const { put } = nodeModule;

/**
 * @typedef {import("./node.mjs").Node} Node
 * @typedef {import("./draft.mjs").Draft} Draft
 */

/**
 * @param {Draft} draft
 * @param {Node} node
 * @returns {any}
 */
function methods(draft, node) {
  const list = () => node.list;
  const all = () => draft.see(node);
  const taken = (/** @type {any[]} */ values) => values.map((value) => put(value, draft.nodeOf));
  /** @type {any} */
  const own = {
    length: () => (all(), list().length),
    at(/** @type {number} */ at) {
      const kid = list()[at < 0 ? own.length() + at : at];
      return kid === undefined ? void all() : draft.read(kid);
    },
    set(/** @type {number} */ at, /** @type {any} */ value) {
      if (at >= list().length) all();
      if (at > list().length) throw new RangeError("a list has no holes");
      replaceAt(draft, node, at, 1, taken([value]));
    },
    cut(/** @type {number} */ length) {
      if (length > own.length()) throw new RangeError("a list has no holes");
      replaceAt(draft, node, length, list().length - length, []);
    },
    push(/** @type {any[]} */ ...values) {
      const made = taken(values);
      draft.change(node);
      list().push(...made);
      for (const kid of made) draft.pushed.set(kid, node);
    },
    unshift: (/** @type {any[]} */ ...values) => void replaceAt(draft, node, 0, 0, taken(values)),
    pop() {
      const last = own.length() - 1;
      return last < 0 ? undefined : replaceAt(draft, node, last, 1, [])[0];
    },
    shift: () => (list().length === 0 ? void all() : replaceAt(draft, node, 0, 1, [])[0]),
    splice(/** @type {any[]} */ ...asked) {
      const [start, count] = span(asked, list().length, all);
      return replaceAt(draft, node, start, count, taken(asked.slice(2)));
    },
    /** Only who comes to the end knows how long it is. */
    *values() {
      for (let at = 0; at < list().length; at += 1) yield draft.read(list()[at]);
      all();
    },
    ...orders(draft, node),
    ...searches(() => own),
  };
  return own;
}

/** @param {Draft} draft @param {Node} node */
function orders(draft, node) {
  return {
    reverse: () => reordered(draft, node, (kids) => kids.reverse()),
    sort(/** @type {(one: any, other: any) => number} */ compare = byText) {
      const order = (/** @type {Node} */ one, /** @type {Node} */ other) =>
        compare(draft.of(one), draft.of(other));
      return reordered(draft, node, (kids) => kids.sort(order));
    },
  };
}

/** @param {any} one @param {any} other */
function byText(one, other) {
  return String(one) < String(other) ? -1 : Number(String(one) > String(other));
}

// These end where they find something, and hang on nothing behind it.
/** @param {() => any} own */
function searches(own) {
  /** @param {(value: any, at: number) => unknown} holds */
  const first = (holds) => {
    let at = 0;
    for (const value of own().values()) {
      if (holds(value, at)) return [at, value];
      at += 1;
    }
    return [-1, undefined];
  };
  return {
    find: (/** @type {any} */ holds) => first(holds)[1],
    findIndex: (/** @type {any} */ holds) => first(holds)[0],
    indexOf: (/** @type {any} */ wanted) => first((value) => value === wanted)[0],
    includes: (/** @type {any} */ wanted) => first((value) => value === wanted)[0] >= 0,
  };
}

/**
 * The index at which `splice` begins, and the number that it takes, as `Array` has it.
 * @param {any[]} asked
 * @param {number} length
 * @param {() => void} all
 */
function span(asked, length, all) {
  const from = Math.trunc(Number(asked[0] ?? 0)) || 0;
  const wanted = asked.length === 1 ? Infinity : Math.max(Math.trunc(Number(asked[1])) || 0, 0);
  if (from < 0 || from + wanted > length) all();
  const start = from < 0 ? Math.max(length + from, 0) : Math.min(from, length);
  return [start, asked.length === 0 ? 0 : Math.min(wanted, length - start)];
}

/**
 * @param {Draft} draft @param {Node} node
 * @param {number} start @param {number} count @param {Node[]} made
 * @returns {any[]} what was taken away
 */
function replaceAt(draft, node, start, count, made) {
  const { list } = node;
  draft.change(node);
  const taken = list.slice(start, start + count);
  for (const kid of taken) draft.address(kid);
  if (made.length > count) neighbour(draft, node, start, start + count);
  list.splice(start, count, ...made);
  for (const kid of made) draft.pushed.delete(kid);
  return taken.map((kid) => draft.of(kid));
}

// Elements that are put in are put in front of one or behind one, but at the start.
/** @param {Draft} draft @param {Node} node @param {number} start @param {number} end */
function neighbour(draft, node, start, end) {
  const { list } = node;
  if (start === 0) return;
  const behind = list.slice(end).find(({ origin }) => origin !== null);
  draft.address(behind ?? list.slice(0, start).reverse().find(({ origin }) => origin !== null));
}

/** @param {Draft} draft @param {Node} node @param {(kids: Node[]) => Node[]} order */
function reordered(draft, node, order) {
  draft.see(node);
  draft.change(node);
  node.kids = order([...node.list]);
  return draft.of(node);
}

return { methods };
})();

const draftModule = (() => {
// A draft of what a board shows, which an application changes as any value. What it reads and what
// it addresses is noted, so that the patch can be guarded by tests of that.
const { Node, put } = nodeModule;
const { isContainer } = jsonModule;
const { index, spelled } = pointerModule;
const { methods } = listModule;

/** @typedef {import("./known.mjs").Part} Part */

class Draft {
  #proxies = new WeakMap(); // by the node
  #nodes = new WeakMap(); // by the proxy
  /** @type {Set<Node>} */
  seen = new Set(); // parts whose values the outcome hangs on
  /** @type {Set<Node>} */
  there = new Set(); // containers that were looked for
  /** @type {Map<Node, Node>} */
  pushed = new Map(); // parts that were put at the end of a list, however long it is
  isGuardedByBase = false; // no test says what was read
  #keys;

  /**
   * @param {Part} whole what is known of the document
   * @param {Map<string, string>} [keys] the name of the member that tells the elements of a list
   * apart, by the list's pointer
   */
  constructor(whole, keys = new Map()) {
    this.root = new Node(whole, []);
    this.#keys = keys;
    if (!this.root.isContainer) throw new TypeError("the document is no container");
  }

  /**
   * The part that stands at a path.
   * @param {readonly string[]} path
   */
  at(path) {
    const value = path.reduce((part, token) => part?.[token], this.of(this.root));
    if (isContainer(value)) return value;
    throw new TypeError(`${spelled(path)} is no container`);
  }

  /**
   * Returns what the application is given of a node.
   * @param {Node} node
   */
  of(node) {
    // What the application put in is its own.
    if (!node.isContainer || node.origin === null) return node.value;
    const made = this.#proxies.get(node);
    if (made !== undefined) return made;
    const proxy = node.isList ? listProxy(this, node) : objectProxy(this, node);
    this.#proxies.set(node, proxy);
    this.#nodes.set(proxy, node);
    return proxy;
  }

  /** @param {any} value @returns {Node | undefined} */
  nodeOf = (value) => this.#nodes.get(value);

  /**
   * The value of a part is read.
   * @param {Node} node
   */
  read(node) {
    if (node.isContainer) this.there.add(node);
    else this.see(node);
    return this.of(node);
  }

  /**
   * The outcome hangs on all of a part, as on the length of a list.
   * @param {Node} node
   */
  see(node) {
    if (node.isPartial) this.isGuardedByBase = true;
    else if (node.origin !== null) this.seen.add(node);
  }

  /**
   * An element is addressed by its place in a list: what stands there has to be that one. Its key
   * says so where there is one.
   * @param {Node | null | undefined} element
   */
  address(element) {
    if (!element?.origin) return;
    const key = this.#keys.get(spelled(element.origin.slice(0, -1)));
    const holds = key !== undefined && element.isContainer && !element.isList;
    this.see((holds && element.memberBefore(key)) || element);
  }

  /**
   * Something in a container is changed.
   * @param {Node} node
   */
  change(node) {
    if (node.origin !== null) this.address(node.element);
  }
}

/** @param {Draft} draft @param {Node} node */
function listProxy(draft, node) {
  const own = methods(draft, node);
  /** @type {ProxyHandler<any>} */
  const traps = {
    ...SHUT,
    get(_, key, receiver) {
      if (key === "length") return own.length();
      if (key === Symbol.iterator) return own.values;
      const at = placeAt(key);
      if (at !== null) return own.at(at);
      return Object.hasOwn(own, key) ? own[key] : Reflect.get(Array.prototype, key, receiver);
    },
    set(_, key, value) {
      const at = placeAt(key);
      if (at !== null) own.set(at, value);
      else if (key === "length") own.cut(value);
      else throw new TypeError(`a list has no member ${String(key)}`);
      return true;
    },
    has(_, key) {
      const at = placeAt(key);
      return at === null ? Reflect.has(Array.prototype, key) : at < own.length();
    },
    deleteProperty() {
      throw new TypeError("a list has no holes: `splice` it");
    },
    ownKeys: () => Reflect.ownKeys(Array(own.length()).fill(0)),
    getOwnPropertyDescriptor(target, key) {
      if (key === "length") {
        return { ...Reflect.getOwnPropertyDescriptor(target, key), value: own.length() };
      }
      const at = placeAt(key);
      return at === null || at >= own.length() ? undefined : member(own.at(at));
    },
  };
  return new Proxy([], traps);
}

/** @param {Draft} draft @param {Node} node */
function objectProxy(draft, node) {
  const get = (/** @type {string} */ name) => {
    node.check(name);
    const kid = node.members.get(name);
    if (kid !== undefined) return draft.read(kid);
    if (!(/** @type {Map<string, Node>} */ (node.before).has(name))) draft.see(node);
    return undefined;
  };
  const has = (/** @type {string} */ name) => {
    get(name);
    return node.members.has(name);
  };
  /** @type {ProxyHandler<any>} */
  const traps = {
    ...SHUT,
    get(_, key, receiver) {
      const isOwn =
        typeof key !== "symbol" && (node.members.has(key) || !(key in Object.prototype));
      return isOwn ? get(key) : Reflect.get(Object.prototype, key, receiver);
    },
    set(_, key, value) {
      setMember(draft, node, String(key), value);
      return true;
    },
    has: (_, key) => (typeof key === "symbol" ? key in Object.prototype : has(key)),
    deleteProperty(_, key) {
      dropMember(draft, node, String(key));
      return true;
    },
    ownKeys() {
      if (node.isPartial) throw new RangeError("the view does not show all members");
      draft.see(node);
      return [...node.members.keys()];
    },
    getOwnPropertyDescriptor(_, key) {
      return typeof key === "string" && has(key) ? member(get(key)) : undefined;
    },
  };
  return new Proxy({}, traps);
}

/** @param {Draft} draft @param {Node} node @param {string} name @param {any} value */
function setMember(draft, node, name, value) {
  node.check(name);
  const before = node.members.get(name);
  checkPlace(node, name, before !== undefined);
  const made = put(value, draft.nodeOf, [.../** @type {readonly string[]} */ (node.origin), name]);
  draft.change(node);
  if (before?.element === before) draft.address(before);
  node.members.set(name, made);
}

/** @param {Draft} draft @param {Node} node @param {string} name */
function dropMember(draft, node, name) {
  node.check(name);
  checkPlace(node, name, false);
  // That nothing stood there: no operation says it, also where something was put there since.
  if (!(/** @type {Map<string, Node>} */ (node.before).has(name))) draft.see(node);
  if (!node.members.has(name)) return;
  draft.change(node);
  node.members.delete(name);
}

// Another place would stand for another element then, where it may be a list.
/** @param {Node} node @param {string} name @param {boolean} isReplaced */
function checkPlace(node, name, isReplaced) {
  if (!node.isPartial || isReplaced || (index(name) === null && name !== "-")) return;
  throw new RangeError("the view does not show all elements");
}

// A symbol names no element.
/** @param {string | symbol} key */
function placeAt(key) {
  return typeof key === "string" ? index(key) : null;
}

/** @param {any} value */
function member(value) {
  return { value, writable: true, enumerable: true, configurable: true };
}

/** @returns {never} */
function shut() {
  throw new TypeError("a draft is changed by assignments and `delete`");
}

const SHUT = { defineProperty: shut, setPrototypeOf: shut, preventExtensions: shut };

return { Draft };
})();

const risingModule = (() => {
// The longest rising subsequence: which elements of a list stay where they are, when the others
// move.

/** @param {readonly number[]} places @returns {number[]} */
function longestRising(places) {
  /** @type {number[]} */
  const ends = []; // by the length: where the lowest end of a rising sequence of it is
  /** @type {number[]} */
  const before = [];
  places.forEach((place, k) => {
    const length = firstNotBelow(ends, places, place);
    before[k] = length > 0 ? ends[length - 1] : -1;
    ends[length] = k;
  });
  const rising = [];
  for (let k = ends.at(-1) ?? -1; k >= 0; k = before[k]) rising.push(places[k]);
  return rising.reverse();
}

/** @param {readonly number[]} ends @param {readonly number[]} places @param {number} place */
function firstNotBelow(ends, places, place) {
  let [low, high] = [0, ends.length];
  while (low < high) {
    const middle = (low + high) >> 1;
    if (places[ends[middle]] < place) low = middle + 1;
    else high = middle;
  }
  return low;
}

return { longestRising };
})();

const matchedModule = (() => {
// The elements of a list that are those of another one: the same parts, and values that are equal.

/** @typedef {import("./node.mjs").Node} Node */

/**
 * @param {readonly Node[]} list what stands there
 * @param {readonly Node[]} goal what is to stand there
 * @param {(kid: Node) => boolean} isFree whether an element may stand for an equal value
 * @returns {Map<Node, Node>} by the goal
 */
function matched(list, goal, isFree) {
  /** @type {Map<Node, Node>} */
  const by = new Map();
  const left = new Set(list);
  const match = (/** @type {Node} */ kid, /** @type {Node} */ there) => {
    by.set(kid, there);
    left.delete(there);
  };
  const isEqual = (/** @type {Node} */ kid, /** @type {Node} */ there) =>
    kid.origin === null && left.has(there) && isFree(there) && text(kid) === text(there);
  const isMatch = (/** @type {Node} */ kid, /** @type {Node} */ there) =>
    kid === there || isEqual(kid, there);
  for (const kid of goal) if (left.has(kid)) match(kid, kid);
  const backwards = [[...list].reverse(), [...goal].reverse()];
  for (const [there, kids] of [[list, goal], backwards]) {
    const end = Math.min(there.length, kids.length);
    for (let k = 0; k < end && isMatch(kids[k], there[k]); k += 1) match(kids[k], there[k]);
  }
  const equal = queues([...left].filter((there) => isFree(there)));
  for (const kid of goal) {
    const there = by.has(kid) || kid.origin !== null ? undefined : equal.get(text(kid))?.shift();
    if (there !== undefined) match(kid, there);
  }
  return by;
}

// A part that was looked into may have lost something by then, so it stands for no value.
/** @param {Node} kid */
function text(kid) {
  return kid.origin !== null && kid.isOpen ? null : JSON.stringify(kid.value);
}

/** @param {readonly Node[]} kids */
function queues(kids) {
  /** @type {Map<string | null, Node[]>} */
  const queues = new Map();
  for (const kid of kids) {
    const key = text(kid);
    queues.set(key, [...(queues.get(key) ?? []), kid]);
  }
  return queues;
}

return { matched };
})();

const settledModule = (() => {
// In which container each part of what was seen stands in a draft. A part that an application put
// into several places stands in one of them, if it can where it stood, and is a value in the
// others.
const { Node, takeUp } = nodeModule;
const { same } = jsonModule;

/**
 * @typedef {import("./draft.mjs").Draft} Draft
 * @typedef {import("./node.mjs").Kids} Kids
 */

/** @param {Draft} draft @returns {Map<Node, Node>} */
function settled(draft) {
  const containers = live(draft);
  /** @type {Map<Node, Node>} */
  const places = new Map();
  for (const node of containers) {
    const kids = new Set(node.kids.values());
    for (const kid of node.before.values()) if (kids.has(kid)) places.set(kid, node);
  }
  for (const node of containers) {
    /** @type {Set<Node>} */
    const here = new Set();
    node.kids = each(node.kids, (kid) => {
      if (kid.origin === null) return toldBy(draft, kid);
      if (!places.has(kid)) places.set(kid, node);
      if (places.get(kid) !== node || here.has(kid)) return copied(draft, kid);
      here.add(kid);
      return kid;
    });
  }
  return places;
}

/**
 * The containers of what was seen that are in the draft, and were looked into.
 * @param {Draft} draft
 */
function live(draft) {
  /** @type {Set<Node>} */
  const found = new Set();
  /** @type {[Node, string, Node][]} */
  const exchanged = [];
  const find = (/** @type {Node} */ node) => {
    if (found.has(node) || node.origin === null || !node.isOpen) return;
    found.add(node);
    for (const [name, kid] of node.kids.entries()) {
      takeUp(kid, draft.nodeOf, [...node.origin, name]);
      if (kid.origin !== null) find(kid);
      else if (!node.isList && kid.isOpen) exchanged.push([node, String(name), kid]);
    }
  };
  find(draft.root);
  for (const [node, name, kid] of exchanged) {
    const before = /** @type {Map<string, Node>} */ (node.before).get(name);
    if (before === undefined || found.has(before) || !isLike(before, kid)) continue;
    // A list that was made of one that stood there is that one, with other elements.
    draft.see(before);
    before.kids = kid.kids;
    node.members.set(name, before);
    find(before);
  }
  return found;
}

/**
 * True if at least half of it is the same.
 * @param {Node} before
 * @param {Node} kid
 */
function isLike(before, kid) {
  if (before.isPartial || !before.isContainer || before.isList !== kid.isList) return false;
  const [old, made] = [[...before.kids.values()], [...kid.kids.values()]];
  const parts = new Set(old);
  const isScalar = (/** @type {Node} */ part) => !part.isContainer;
  const values = new Set(old.filter(isScalar).map((part) => part.value));
  const isKept = (/** @type {Node} */ part) =>
    parts.has(part) || (isScalar(part) && values.has(part.value));
  return made.filter(isKept).length * 2 >= Math.max(old.length, made.length);
}

/** @param {Kids} kids @param {(kid: Node) => Node} make @returns {Kids} */
function each(kids, make) {
  if (Array.isArray(kids)) return kids.map(make);
  return new Map([...kids].map(([name, kid]) => [name, make(kid)]));
}

/** @param {Draft} draft @param {Node} kid */
function copied(draft, kid) {
  draft.see(kid);
  return new Node({ is: "value", value: kid.value }, null);
}

// Tells, with a value that was put in, what stands in it.
/** @param {Draft} draft @param {Node} kid @returns {Node} */
function toldBy(draft, kid) {
  if (!kid.isOpen) return kid;
  for (const part of kid.kids.values()) {
    if (part.origin !== null) draft.see(part);
    else toldBy(draft, part);
  }
  return kid;
}

return { settled };
})();

const differenceModule = (() => {
// The patch that makes a draft of what was seen. The parts are led one by one to where they stand
// in the draft, from the root down, over a picture of where each stands by then: so a part that
// went elsewhere is moved, and each path is right when its operation is done.
const { Node } = nodeModule;
const { longestRising } = risingModule;
const { matched } = matchedModule;
const { same } = jsonModule;
const { settled } = settledModule;
const { spelled } = pointerModule;

/**
 * @typedef {import("./draft.mjs").Draft} Draft
 * @typedef {import("./node.mjs").Kids} Kids
 * @typedef {import("../relay.js").Operation} Operation
 */

/**
 * @param {Draft} draft It is not to be changed any more.
 * @returns {{ operations: Operation[], changed: Set<Node> }} and the containers that they change
 */
function difference(draft) {
  const difference = new Difference(draft);
  difference.lead(draft.root);
  return difference;
}

class Difference {
  /** @type {Operation[]} */
  operations = [];
  /** @type {Set<Node>} */
  changed = new Set();
  /** @type {Map<Node, Kids>} */
  #kids = new Map(); // what stands in a container by now
  /** @type {Map<Node, Node>} */
  #holders = new Map(); // in which container a part stands by now
  /** @type {Set<Node>} */
  #appended = new Set(); // parts at the end of a list, of which only the whole list tells the index
  #places; // in which container each part stands in the draft
  #draft;

  /** @param {Draft} draft */
  constructor(draft) {
    this.#draft = draft;
    this.#places = settled(draft);
    this.#picture(draft.root);
  }

  /** @param {Node} node */
  #picture(node) {
    if (!node.isOpen || node.origin === null) return;
    const { before } = node;
    this.#kids.set(node, Array.isArray(before) ? [...before] : new Map(before));
    for (const kid of before.values()) {
      this.#holders.set(kid, node);
      this.#picture(kid);
    }
  }

  /**
   * Leads what stands in a container to what stands in it in the draft.
   * @param {Node} node
   */
  lead(node) {
    if (!node.isOpen) return;
    if (node.isList) this.#leadList(node);
    else this.#leadMembers(node);
    for (const kid of node.kids.values()) {
      if (kid.origin !== null && this.#places.get(kid) === node) this.lead(kid);
    }
  }

  /** @param {Node} node */
  #leadMembers(node) {
    const members = /** @type {Map<string, Node>} */ (this.#kids.get(node));
    for (const [name, kid] of [...members]) {
      if (node.members.has(name) || this.#places.has(kid)) continue;
      this.#emit(node, { op: "remove", path: this.#pathTo(node, name) });
      this.#take(kid);
    }
    for (const [name, kid] of node.members) {
      if (members.get(name) !== kid) this.#putMember(node, members, name, kid);
    }
  }

  /**
   * @param {Node} node @param {Map<string, Node>} members
   * @param {string} name @param {Node} kid
   */
  #putMember(node, members, name, kid) {
    const from = this.#path(kid);
    const before = members.get(name);
    if (from !== null) {
      this.#move(node, from, name, kid);
    } else if (before !== undefined && !before.isOpen && same(before.value, kid.value)) {
      // What is set to what it is makes no change, so it has to be that.
      this.#draft.see(before);
    } else {
      this.#write(node, before === undefined ? "add" : "replace", name, kid);
    }
    if (before !== undefined) this.#holders.delete(before);
    members.set(name, kid);
    this.#holders.set(kid, node);
  }

  /** @param {Node} node */
  #leadList(node) {
    const list = /** @type {Node[]} */ (this.#kids.get(node));
    const end = this.#endOf(node);
    const { stays, by, isKept } = this.#matched(node, list, node.list.slice(0, end));
    const last = node.list.slice(end).map((kid) => this.#equalTo(node, list, kid, isKept));
    let at = 0;
    for (const kid of node.list.slice(0, end)) {
      while (at < list.length && this.#leaves(list[at], node)) at += 1;
      const there = by.get(kid);
      if (there !== undefined && stays.has(there)) at = this.#comeTo(node, list, at, there, isKept);
      else at = this.#putElement(node, list, at, there ?? kid, isKept);
    }
    this.#dropRest(node, list, at);
    for (const kid of last) this.#pushElement(node, list, kid);
  }

  // The end of the list: what was pushed comes there, also where others have made that longer by
  // then.
  /** @param {Node} node */
  #endOf(node) {
    const { pushed, seen } = this.#draft;
    if (seen.has(node)) return node.list.length;
    let end = node.list.length;
    while (end > 0 && pushed.get(node.list[end - 1]) === node) end -= 1;
    return end;
  }

  /**
   * A value that is taken away at one place and pushed is moved.
   * @param {Node} node @param {Node[]} list @param {Node} kid
   * @param {(kid: Node) => boolean} isKept
   */
  #equalTo(node, list, kid, isKept) {
    if (kid.origin !== null) return kid;
    const isEqual = (/** @type {Node} */ other) => !other.isOpen && same(other.value, kid.value);
    const equal = list.find((other) => !isKept(other) && isEqual(other));
    if (equal !== undefined) this.#places.set(equal, node);
    return equal ?? kid;
  }

  /** @param {Node} node @param {Node[]} list @param {readonly Node[]} goal */
  #matched(node, list, goal) {
    const by = matched(list, goal, (kid) => !this.#places.has(kid));
    // Which element stands for an equal value hangs on the whole list.
    if ([...by].some(([kid, there]) => kid !== there)) this.#draft.see(node);
    const places = goal.map((kid) => list.indexOf(/** @type {Node} */ (by.get(kid))));
    const rising = longestRising(places.filter((place) => place >= 0));
    const kept = new Set(by.values());
    const isKept = (/** @type {Node} */ kid) => kept.has(kid) || this.#places.has(kid);
    return { by, stays: new Set(rising.map((place) => list[place])), isKept };
  }

  /**
   * True if a part goes to another container.
   * @param {Node} kid
   * @param {Node} node
   */
  #leaves(kid, node) {
    return this.#places.has(kid) && this.#places.get(kid) !== node;
  }

  /**
   * Takes away what stands in front of an element that stays, and gives the place behind it.
   * @param {Node} node @param {Node[]} list @param {number} at @param {Node} there
   * @param {(kid: Node) => boolean} isKept
   */
  #comeTo(node, list, at, there, isKept) {
    for (let place = at; list[place] !== there; ) {
      if (isKept(list[place])) place += 1;
      else this.#removeAt(node, list, place);
    }
    return list.indexOf(there) + 1;
  }

  /**
   * Gives the place behind it.
   * @param {Node} node @param {Node[]} list @param {number} at @param {Node} kid
   * @param {(kid: Node) => boolean} isKept
   */
  #putElement(node, list, at, kid, isKept) {
    const from = this.#path(kid);
    const before = list[at];
    if (from !== null) {
      const was = list.indexOf(kid);
      const place = was >= 0 && was < at ? at - 1 : at;
      this.#move(node, from, place, kid);
      return this.#insert(node, list, place, kid);
    }
    const isAdded = before === undefined || isKept(before);
    this.#write(node, isAdded ? "add" : "replace", at, kid);
    if (!isAdded) this.#dropAt(list, at);
    return this.#insert(node, list, at, kid);
  }

  /** @param {Node} node @param {Node[]} list @param {Node} kid */
  #pushElement(node, list, kid) {
    const from = this.#path(kid);
    if (from === null) this.#write(node, "add", "-", kid);
    else this.#move(node, from, "-", kid);
    this.#insert(node, list, list.length, kid);
    this.#appended.add(kid);
  }

  /** @param {Node} node @param {Node[]} list @param {number} at @param {Node} kid */
  #insert(node, list, at, kid) {
    list.splice(at, 0, kid);
    this.#holders.set(kid, node);
    return at + 1;
  }

  /** @param {Node} node @param {Node[]} list @param {number} at */
  #dropRest(node, list, at) {
    for (let place = list.length - 1; place >= at; place -= 1) {
      if (!this.#places.has(list[place])) this.#removeAt(node, list, place);
    }
  }

  /** @param {Node} node @param {Node[]} list @param {number} at */
  #removeAt(node, list, at) {
    this.#emit(node, { op: "remove", path: this.#pathTo(node, at) });
    this.#dropAt(list, at);
  }

  /** @param {Node[]} list @param {number} at */
  #dropAt(list, at) {
    this.#holders.delete(list[at]);
    list.splice(at, 1);
  }

  /**
   * @param {Node} node @param {"add" | "replace"} op @param {string | number} token
   * @param {Node} kid
   */
  #write(node, op, token, kid) {
    const path = this.#pathTo(node, token);
    const value = this.#standing(kid);
    // Of a part of what was seen that is written as a value all of it is told. It stands where it
    // is written from then on, and no more in what was taken away with it.
    if (kid.origin !== null) this.#draft.see(kid);
    if (this.#holders.has(kid)) this.#take(kid);
    this.#emit(node, { op, path, value });
  }

  /**
   * The value that a part has by now. What it has besides in the draft is led to it later.
   * @param {Node} node
   * @returns {any}
   */
  #standing(node) {
    const kids = this.#kids.get(node);
    if (kids === undefined) return node.value;
    if (Array.isArray(kids)) return kids.map((kid) => this.#standing(kid));
    return Object.fromEntries([...kids].map(([name, kid]) => [name, this.#standing(kid)]));
  }

  /**
   * @param {Node} node @param {readonly string[]} from @param {string | number} token
   * @param {Node} kid
   */
  #move(node, from, token, kid) {
    this.#take(kid);
    const [place, path] = [spelled(from), this.#pathTo(node, token)];
    if (!path.startsWith(`${place}/`)) return this.#emit(node, { op: "move", from: place, path });
    // What stood behind it has its index by now, and a move into that would be one into itself.
    this.#draft.see(kid);
    this.#emit(node, { op: "remove", path: place });
    this.#emit(node, { op: "add", path, value: this.#standing(kid) });
  }

  /** @param {Node} kid */
  #take(kid) {
    const holder = /** @type {Node} */ (this.#holders.get(kid));
    const kids = /** @type {Kids} */ (this.#kids.get(holder));
    if (Array.isArray(kids)) kids.splice(kids.indexOf(kid), 1);
    else kids.delete(nameOf(kids, kid));
    this.#holders.delete(kid);
  }

  /**
   * The path at which a part stands by now; null where it stands nowhere.
   * @param {Node} kid
   * @returns {string[] | null}
   */
  #path(kid) {
    if (kid === this.#draft.root) return [];
    const holder = this.#holders.get(kid);
    const path = holder && this.#path(holder);
    if (!holder || !path) return null;
    const kids = /** @type {Kids} */ (this.#kids.get(holder));
    if (this.#appended.has(kid)) this.#draft.see(holder);
    return [...path, Array.isArray(kids) ? String(kids.indexOf(kid)) : nameOf(kids, kid)];
  }

  /** @param {Node} node @param {string | number} token */
  #pathTo(node, token) {
    return spelled([.../** @type {string[]} */ (this.#path(node)), token]);
  }

  /** @param {Node} node @param {Operation} operation */
  #emit(node, operation) {
    this.operations.push(operation);
    this.changed.add(node);
  }
}

/** @param {Map<string, Node>} kids @param {Node} kid */
function nameOf(kids, kid) {
  for (const [name, other] of kids) if (other === kid) return name;
  return "";
}

/**
 * A coarser patch: each value that the view shows is written anew where something in it is another
 * one.
 * @param {Node} node
 * @param {readonly string[]} [path]
 * @returns {Operation[]}
 */
function coarse(node, path = []) {
  if (!node.isOpen) return [];
  if (!node.isPartial) {
    const { value } = node;
    return same(value, node.seen) ? [] : [{ op: "replace", path: spelled(path), value }];
  }
  const before = /** @type {Map<string, Node>} */ (node.before);
  return [...new Set([...before.keys(), ...node.members.keys()])].flatMap((name) => {
    const [was, is] = [before.get(name), node.members.get(name)];
    const place = spelled([...path, name]);
    if (is === undefined) return /** @type {Operation[]} */ ([{ op: "remove", path: place }]);
    if (is === was) return coarse(is, [...path, name]);
    const op = was === undefined ? "add" : "replace";
    return /** @type {Operation[]} */ ([{ op, path: place, value: is.value }]);
  });
}

return { coarse, difference };
})();

const guardModule = (() => {
// The patch of a draft with its guard: tests of what was read and addressed, or the revision.
const { coarse, difference } = differenceModule;
const { spelled, startsWith } = pointerModule;

/**
 * @typedef {import("./draft.mjs").Draft} Draft
 * @typedef {import("./node.mjs").Node} Node
 * @typedef {import("../relay.js").Operation} Operation
 * @typedef {"values" | "base" | "none"} Guard
 */

// An edit has no more operations.
const OPERATIONS = 64;

// The revision is tested in place of tests that would take more characters.
const TESTS = 16_384;

/**
 * @param {Draft} draft
 * @param {Guard} guard
 * @returns {{ patch: Operation[], isByBase: boolean } | null} null where nothing is changed
 */
function guarded(draft, guard) {
  const { operations, changed } = difference(draft);
  if (operations.length === 0) return null;
  const tests = guard === "values" && !draft.isGuardedByBase ? testsOf(draft, changed) : [];
  const patch = [...tests, ...operations];
  const isLight = patch.length <= OPERATIONS && JSON.stringify(tests).length <= TESTS;
  const isByBase = guard === "base" || (guard === "values" && (draft.isGuardedByBase || !isLight));
  if (!isByBase && isLight) return { patch, isByBase };
  return { patch: operations.length <= OPERATIONS ? operations : coarse(draft.root), isByBase };
}

/** @param {Draft} draft @param {Set<Node>} changed @returns {Operation[]} */
function testsOf(draft, changed) {
  const seen = new Set(draft.seen);
  const pathOf = (/** @type {Node} */ node) => node.origin ?? [];
  const known = [...seen, ...changed].map(pathOf);
  for (const node of draft.there) {
    const { origin } = node;
    if (origin === null || node.isPartial) continue;
    // What is tested or done within it says that it is there.
    if (!known.some((path) => startsWith(path, origin))) seen.add(node);
  }
  const paths = new Set([...seen].map((node) => spelled(pathOf(node))));
  const isOuter = (/** @type {Node} */ node) =>
    !pathOf(node).some((_, length, path) => paths.has(spelled(path.slice(0, length))));
  const outer = [...seen].filter(isOuter);
  return outer.map((node) => ({ op: "test", path: spelled(pathOf(node)), value: node.seen }));
}

return { guarded };
})();

const changeModule = (() => {
// Changes of a document by a function that is given a draft of it. Where the patch is refused since
// the document is another one by then, the function is called again, on what is shown then.
const { Draft } = draftModule;
const { checkOptions } = optionsModule;
const { guarded } = guardModule;
const { knownBy } = knownModule;
const { anew } = placeModule;

/**
 * @typedef {import("./guard.mjs").Guard} Guard
 * @typedef {import("../relay.js").Operation} Operation
 * @typedef {import("../relay.js").ChangeOptions} ChangeOptions
 * @typedef {(draft: Draft) => void} Make
 * @typedef {{ patch: Operation[], isByBase: boolean }} Made
 */

const CHANGE = ["guard", "tries", "optimistic", "undo", "once"];

// The number of times that the function is called, if nothing is said.
const TRIES = 20;

// The faults by which a patch is refused that was made of another document.
const OUTDATED = [
  "stale",
  "test-failed",
  "missing",
  "key",
  "not-index",
  "past-end",
  "no-container",
  "into-itself",
];

/**
 * Gives the new revision; that of the slots where nothing is changed.
 * @param {any} board
 * @param {Make} make
 * @param {ChangeOptions & { keys?: Map<string, string> }} asked
 * @returns {Promise<number>}
 */
async function change(board, make, asked) {
  checkOptions("change", asked, CHANGE, ["keys"]);
  const { guard = "values", tries = TRIES, keys, ...options } = asked;
  checkGuard(guard);
  const own = { optimistic: true, ...options, silent: true };
  if (board.slots === null) await board.ready;
  /** @type {Made | null} */
  let made = null;
  try {
    return await anew(board, tries, OUTDATED, async (sends) => {
      made = drafted(board, make, guard, keys);
      // A base is of what the relay showed, without the edits that wait.
      while (made?.isByBase && board.slots !== board.confirmed) {
        await board.quiet();
        made = drafted(board, make, guard, keys);
      }
      sends();
      if (made === null) return board.rev;
      return board.edit(made.patch, made.isByBase ? { ...own, ...based(board) } : own);
    });
  } catch (error) {
    const sent = /** @type {Made | null} */ (made);
    if (own.optimistic && sent !== null) board.takenBack(sent.patch, error);
    throw error;
  }
}

/** @param {any} board */
function based({ rev, epoch }) {
  return { base: rev, epoch, once: false };
}

/**
 * @param {any} board @param {Make} make
 * @param {Guard} guard @param {Map<string, string>} [keys]
 */
function drafted({ view, slots }, make, guard, keys) {
  const draft = new Draft(knownBy(view, slots), keys);
  make(draft);
  return guarded(draft, guard);
}

/** @param {string} guard */
function checkGuard(guard) {
  if (!["values", "base", "none"].includes(guard)) throw new RangeError(`no guard: ${guard}`);
}

return { change };
})();

const warningModule = (() => {
// Warnings for an application that does not listen to states: why there is no connection, and why
// there will be none.
const { HandshakeFailed } = errorsModule;

/** Warns once of each time in which no connection can be had, and of a board that is refused. */
function warning() {
  let warned = false;
  return (/** @type {string} */ state, /** @type {Error | null} */ cause) => {
    if (state === "open") warned = false;
    const isOver = state === "closed" && cause !== null;
    if (!isOver && (warned || !(cause instanceof HandshakeFailed))) return;
    warned = true;
    console.warn(`relay: ${cause.message}; it is ${isOver ? "given up" : "tried again"}`);
  };
}

return { warning };
})();

const boardModule = (() => {
// A room, as an application has it: the slots of a view, and edits.
const { Closed, Refused, Superseded } = errorsModule;
const { Edit } = editModule;
const { Follower } = followerModule;
const { History } = historyModule;
const { fits } = inverseModule;
const { Link } = linkModule;
const { Listeners } = listenersModule;
const { Overlay } = overlayModule;
const { Place, compareAndSet } = placeModule;
const { Places } = placesModule;
const { Counter } = onceModule;
const { Queue } = queueModule;
const { wills } = willModule;
const { beginning } = beginModule;
const { change } = changeModule;
const { checkFunction, checkOptions, checkPatch, checkView } = optionsModule;
const { checked } = jsonModule;
const { knownBy } = knownModule;
const { warning } = warningModule;

/**
 * @typedef {import("../relay.js").Shown} Shown
 * @typedef {import("../relay.js").State} State
 * @typedef {import("../relay.js").Operation} Operation
 * @typedef {import("./follower.mjs").Held} Held
 * @typedef {import("./history.mjs").Role} Role
 * @typedef {import("./overlay.mjs").Unconfirmed} Unconfirmed
 */

// The number of times that an undo that has to be sure of an empty place tries.
const TRIES = 10;

const DEFAULTS = {
  firstWait: 200,
  longestWait: 10_000,
  quiet: 20_000,
  patience: 10_000,
};

class Board {
  /** @type {Link} */
  #link;
  /** @type {Follower} */
  #follower;
  #overlay = new Overlay();
  #history = new History();
  #queue;
  /** @type {Listeners<any>} */
  #changes = new Listeners();
  /** @type {Listeners<State>} */
  #states = new Listeners();
  #options;
  /** @type {State} */
  #state = "connecting";
  #wasOpen = false;
  /** @type {any} */
  #shown = null;
  #places = new Places((shown) => new Place(this, this, shown));
  /** @type {Promise<unknown>} */
  #stepping = Promise.resolve(); // the undo or redo that was asked for last
  /** @type {(() => void)[]} */
  #quietWaiters = []; // told when no edit of this client waits to be shown
  /** @type {Set<Promise<void>>} */
  #said = new Set(); // the ends of what was asked for, and has not ended
  /** @type {WeakSet<Error>} */
  #toldOf = new WeakSet(); // causes that `onTakenBack` was told
  /** @type {Counter | null} */
  #counter;
  #will;

  /** @param {string} url @param {any} options */
  constructor(url, { view, begin = null, once = null, ...options }) {
    this.#options = {
      WebSocket: globalThis.WebSocket,
      onState: warning(),
      ...DEFAULTS,
      ...options,
    };
    this.#counter = once === null ? null : new Counter(once);
    if (options.onChange) this.#changes.add(options.onChange);
    const { readOnly } = options;
    const first =
      begin === null || readOnly ? null : beginning(begin, (cause) => this.#finish(cause));
    const address = readOnly ? url.replace(/\?|$/, "/watch$&") : url;
    this.#queue = new Queue(options.queue, options.storage, options.storageKey ?? address);
    this.#link = new Link(address, this.#options, {
      entered: () => {
        this.#follower.entered();
        if (first !== null) this.#link.askFirst(first);
      },
      told: (message) => this.#follower.told(message),
      astray: () => this.#follower.astray(),
      lost: (cause) => this.#enter("waiting", cause),
      refused: (cause) => this.#finish(cause),
      connecting: () => this.#enter("connecting", null),
      waiting: (asked) => this.#queue.keep(asked),
    });
    this.#will = wills(this.#link);
    this.#follower = new Follower(view, this.#link, {
      took: (before, patch) => this.#took(before, patch),
      slots: () => this.slots,
      present: () => this.#present(),
      refused: (cause) => this.#finish(cause),
    });
    /** The first slots. */
    this.ready = this.#follower.shown();
    this.ready.catch(NOTHING);
    this.subscribe = this.subscribe.bind(this);
    for (const { patch, ...seen } of this.#queue.left()) this.#editLeft(patch, seen);
    this.#link.connect();
  }

  /** The view whose slots these are. */
  get view() {
    return this.#follower.held.view;
  }

  /**
   * The slots that are shown: what the relay showed, with the optimistic edits that wait laid over
   * it.
   */
  get slots() {
    return this.#shown;
  }

  /** The slots as the relay showed them. */
  get confirmed() {
    return this.#follower.held.slots;
  }

  /** The number of optimistic edits that wait. */
  get pending() {
    return this.#overlay.pending;
  }

  get rev() {
    return this.#follower.held.rev;
  }

  get epoch() {
    return this.#follower.held.epoch;
  }

  get state() {
    return this.#state;
  }

  get undoable() {
    return this.#history.undoable;
  }

  get redoable() {
    return this.#history.redoable;
  }

  /** @param {(change: any) => void} listener Gives its end. */
  subscribe(listener) {
    return this.#changes.add(listener);
  }

  /**
   * For what this client keeps going by itself.
   * @param {(state: State) => void} listener Told of each new state. Gives its end.
   */
  states(listener) {
    return this.#states.add(listener);
  }

  /** @param {Shown} shown */
  at(shown) {
    return this.#places.at(shown);
  }

  /** @param {readonly Shown[]} view */
  watch(view) {
    checkView("watch", view);
    const shown = this.#follower.watch(view).catch((cause) => {
      // Whoever asked for another view need not look at what became of this one.
      if (cause instanceof Superseded) shown.catch(NOTHING);
      throw cause;
    });
    return shown;
  }

  /**
   * For what this client keeps going by itself: the slots of a view, or of a later one.
   * @param {readonly Shown[]} view
   */
  watchOrLater(view) {
    return this.#follower.watchOrLater(view);
  }

  /** The slots, once all that was said so far is answered and shown. */
  async sync() {
    await Promise.allSettled(this.#said);
    return this.watchAgain();
  }

  /** For what this client keeps going by itself: the slots, of the room's revision. */
  watchAgain() {
    return this.#follower.watchAgain();
  }

  /**
   * Asks for what makes edits: `sync` waits for it. Who only watches asks for nothing. Nobody here
   * looks at what it gives, so the platform reports a failure at which the application does not
   * look either.
   * @template T
   * @param {() => Promise<T>} ask
   * @returns {Promise<T>}
   */
  said(ask) {
    const asked = this.#options.readOnly
      ? Promise.reject(new Refused({ fault: "read-only" }))
      : ask();
    const ended = asked.then(NOTHING, NOTHING);
    this.#said.add(ended);
    ended.then(() => this.#said.delete(ended));
    const own = asked.catch((cause) => {
      // Whoever hears of what is taken back need not look at the promise as well.
      if (this.#toldOf.has(cause)) own.catch(NOTHING);
      throw cause;
    });
    return own;
  }

  /**
   * @param {readonly Operation[]} patch
   * @param {import("../relay.js").EditOptions} [options]
   * @returns {Promise<number>}
   */
  edit(patch, options = {}) {
    return this.said(() => this.#edit(patch, options, options?.undo === false ? null : "edit"));
  }

  /**
   * @param {(draft: any) => void} make
   * @param {import("../relay.js").ChangeOptions} [options]
   * @returns {Promise<number>}
   */
  change(make, options = {}) {
    return this.changePlace([], make, options);
  }

  /**
   * A change of what stands at a path.
   * @param {readonly string[]} path
   * @param {(draft: any) => void} make
   * @param {any} options
   */
  changePlace(path, make, options) {
    /** @param {import("./draft.mjs").Draft} draft */
    const drafted = (draft) => {
      checkFunction("change", make);
      made(make(draft.at(path)));
    };
    return this.said(() => change(this, drafted, options));
  }

  /**
   * Tells the application of an optimistic edit that is shown no more.
   * @param {Operation[]} patch
   * @param {unknown} cause
   */
  takenBack(patch, cause) {
    const { onTakenBack } = this.#options;
    if (!onTakenBack) return;
    if (cause instanceof Error) this.#toldOf.add(cause);
    onTakenBack({ patch, cause });
  }

  /**
   * The room has no document any more, if nobody edited since what is shown.
   * @returns {Promise<number>}
   */
  end() {
    return this.said(async () => {
      if (this.slots === null) await this.ready;
      return this.edit([{ op: "replace", path: "", value: null }], { base: this.rev });
    });
  }

  /**
   * Tells the relay what to do when this session ends.
   * @param {readonly Operation[]} patch
   * @param {unknown} [of] the part of a page that leaves it
   * @returns {Promise<void>}
   */
  will(patch, of = this) {
    return this.said(() => this.#will(patch, of));
  }

  undo() {
    return this.#step("undo");
  }

  redo() {
    return this.#step("redo");
  }

  close() {
    this.#finish(null);
  }

  // Edits.

  /**
   * @param {readonly Operation[]} patch @param {any} options @param {Role | null} role
   * @returns {Promise<number>}
   */
  #edit(patch, options, role) {
    /** @type {Unconfirmed["left"]} */
    const left = (inverse) => void (inverse && role && this.#history.record(role, inverse));
    const done = new Promise((resolve, reject) => {
      checkPatch("edit", patch);
      checkOptions("edit", options, EDIT, ["silent", "sets"]);
      const { base, epoch = this.epoch, optimistic = false, silent = false } = options;
      const { once = false, sets } = options;
      /** @type {Unconfirmed} */
      const own = { patch: checked(patch), optimistic, silent, rev: null, epoch: null, left };
      const counter = once ? this.#counterOf(base) : null;
      const exchange = (/** @type {Unconfirmed} */ later) => {
        Object.assign(own, later, { laid: undefined });
        this.#tell(null);
        return done;
      };
      const asked = { own, base: revision(base), epoch, counter, sets, exchange };
      const edit = new Edit(asked, this.#outcome(own, resolve, reject));
      if (this.#state === "closed") throw new Closed();
      if (this.#isAway && !this.#queue.takes(edit)) throw new Refused({ fault: "away" });
      const earlier = this.#link.exchange(edit.sets, own);
      if (earlier !== undefined) return resolve(earlier);
      this.#overlay.add(own);
      if (optimistic) this.#tell(null);
      this.#link.ask(edit);
    });
    return done;
  }

  /**
   * An edit that an earlier page left. Nobody has its promise, so the console says why it fails.
   * One that is not sent now either is still kept.
   * @param {readonly Operation[]} patch @param {object} seen
   */
  #editLeft(patch, seen) {
    this.edit(patch, { optimistic: true, ...seen }).catch((cause) => {
      if (cause instanceof Closed || this.#toldOf.has(cause)) return;
      console.warn(`relay: an edit that was left waiting is not done: ${cause.message}`);
    });
  }

  /**
   * The outcome of an edit.
   * @param {Unconfirmed} unconfirmed
   * @param {(rev: number) => void} resolve @param {(cause: Error) => void} reject
   * @returns {import("./edit.mjs").Outcome}
   */
  #outcome(unconfirmed, resolve, reject) {
    const done = (/** @type {number} */ rev, /** @type {number} */ epoch) => {
      Object.assign(unconfirmed, { rev, epoch });
      resolve(rev);
      this.#settled();
    };
    return {
      done,
      // The slots that come now are of its revision, or of a later one, and what takes it back is
      // not known.
      doneBefore: (edit, epoch) => {
        unconfirmed.left = NOTHING;
        this.watchAgain().then(() => done(Number(this.rev), epoch), () => edit.dropped());
      },
      failed: (cause) => {
        reject(cause);
        this.#failed(unconfirmed, cause);
      },
      again: (edit) => this.#link.askFirst(edit),
    };
  }

  /** @param {unknown} base */
  #counterOf(base) {
    if (this.#counter === null) throw new TypeError('say where a counter is, as `once: "/once"`');
    if (revision(base) !== undefined) throw new TypeError("an edit with a base is `once`");
    return this.#counter;
  }

  get #isAway() {
    return this.#wasOpen && this.#link.welcome === null;
  }

  #settled() {
    const { pending } = this;
    this.#overlay.settleTraceless(this.#follower.held);
    this.#becomeQuiet();
    if (this.pending !== pending) this.#tell(null);
  }

  /** @param {import("./overlay.mjs").Unconfirmed} edit @param {Error} cause */
  #failed(edit, cause) {
    const there = this.#overlay.drop(edit);
    this.#becomeQuiet();
    if (!there || !edit.optimistic) return;
    try {
      this.#tell(null);
    } finally {
      if (!edit.silent) this.takenBack(edit.patch, cause);
    }
  }

  // Undo and redo: one after the other, each when all edits before it are shown.

  /** @param {"undo" | "redo"} role @returns {Promise<number | null>} */
  #step(role) {
    return this.said(() => {
      const step = this.#stepping.then(async () => {
        await this.quiet();
        const inverse = this.#history.take(role);
        return inverse === null ? null : this.#takeBack(inverse, role);
      });
      this.#stepping = step.catch(NOTHING);
      return step;
    });
  }

  /**
   * @param {import("./inverse.mjs").Inverse} inverse
   * @param {Role} role
   * @returns {Promise<number>}
   */
  async #takeBack({ patch, putsBack }, role) {
    try {
      return await (
        putsBack ? this.#putBack(patch, role) : this.#edit(patch, { optimistic: true }, role)
      );
    } catch (error) {
      if (!(error instanceof Refused) || error.fault === "away") throw error;
      throw new Refused({ fault: "changed", at: error.at, rev: error.rev });
    }
  }

  // That nothing stands in a place no operation tests: it is seen here, and the base has it so
  // until the edit is done.
  /** @param {Operation[]} patch @param {Role} role */
  #putBack(patch, role) {
    const make = () => {
      if (!fits(knownBy(this.view, this.confirmed ?? []), patch)) {
        throw new Refused({ fault: "changed" });
      }
      return patch;
    };
    return compareAndSet(this, TRIES, make, (own, seen) =>
      this.#edit(own, { optimistic: true, ...seen }, role),
    );
  }

  /**
   * Once no edit of this client waits to be shown.
   * @returns {Promise<void>}
   */
  quiet() {
    return new Promise((resolve) => {
      this.#quietWaiters.push(resolve);
      this.#becomeQuiet();
    });
  }

  #becomeQuiet() {
    if (!this.#overlay.isEmpty) return;
    for (const resolve of this.#quietWaiters.splice(0)) resolve();
  }

  // What is shown.

  /** @param {Held} before @param {Operation[] | null} patch */
  #took(before, patch) {
    const { held } = this.#follower;
    // What this client did was done to a document that is not there any more.
    if (before.epoch !== null && before.epoch !== held.epoch) this.#history.forget();
    this.#overlay.settle(before, held);
    this.#becomeQuiet();
    this.#shown = this.#overlay.shown(held);
    this.#open(() => this.#tell(patch));
  }

  // After a loss nothing was missed.
  #present() {
    const { pending } = this;
    this.#overlay.settleAll(this.#follower.held);
    this.#becomeQuiet();
    this.#open(() => this.pending !== pending && this.#tell(null));
  }

  /** @param {() => void} tell also where `onState` throws */
  #open(tell) {
    try {
      this.#enter("open", null);
    } finally {
      tell();
    }
  }

  /** @param {Operation[] | null} patch */
  #tell(patch) {
    const { held } = this.#follower;
    if (held.slots === null) return;
    this.#shown = this.#overlay.shown(held);
    this.#changes.tell({
      slots: this.#shown,
      confirmed: held.slots,
      rev: held.rev,
      pending: this.pending,
      patch,
    });
  }

  /** @param {Error | null} cause */
  #finish(cause) {
    if (this.#state === "closed") return;
    this.#link.close();
    this.#follower.end(cause);
    this.#enter("closed", cause);
  }

  /** @param {State} state @param {Error | null} cause */
  #enter(state, cause) {
    if (this.#state === state) return;
    this.#state = state;
    if (state === "open") this.#wasOpen = true;
    try {
      this.#options.onState(state, cause);
    } finally {
      this.#states.tell(state);
    }
  }
}

const NOTHING = () => {};

const EDIT = ["base", "epoch", "optimistic", "undo", "once"];

// A function that goes on later would change a draft of which the patch was made.
/** @param {any} given by the function of a change */
function made(given) {
  if (typeof given?.then === "function") throw new TypeError("a change awaits nothing");
}

/**
 * None where there are no slots yet.
 * @param {unknown} base
 */
function revision(base) {
  if (base === undefined || base === null) return undefined;
  if (!Number.isSafeInteger(base) || Number(base) < 0) {
    throw new TypeError(`a base is a revision, not ${base}`);
  }
  return Number(base);
}

return { Board };
})();

const roomModule = (() => {
// Several views of one room over as few connections as they need: each part of a page watches what
// it shows, and knows of no other part.
const { Board } = boardModule;
const { Place } = placeModule;
const { Places } = placesModule;
const { pathOf } = knownModule;
const { checkView } = optionsModule;
const { same } = jsonModule;

/** @typedef {import("../relay.js").Shown} Shown */
/** @typedef {import("../relay.js").State} State */

// The relay takes no more slots in a view.
const SLOTS = 16;

class Room {
  #url;
  #options;
  /** @type {Shared[]} */
  #boards = [];

  /** @param {string} url @param {any} options */
  constructor(url, { onConnections = () => {}, ...options } = {}) {
    this.#url = url;
    this.#options = { ...options, onConnections };
  }

  /** The number of connections that the views take: one, until they have more than 16 slots. */
  get connections() {
    return this.#boards.length;
  }

  /** @param {readonly Shown[]} pointers */
  view(pointers) {
    checkView("view", pointers);
    if (pointers.length > SLOTS) throw new RangeError(`a view has at most ${SLOTS} slots`);
    pointers.forEach(pathOf);
    const shared =
      this.#boards.find((board) => board.hasPlaceFor(pointers)) ?? this.#another(pointers);
    return new SharedBoard(shared, [...pointers]);
  }

  close() {
    for (const { board } of this.#boards) board.close();
    this.#boards = [];
  }

  /** @param {readonly Shown[]} view */
  #another(view) {
    const { onConnections, ...options } = this.#options;
    const shared = new Shared(new Board(this.#url, { ...options, view: distinct(view) }), view);
    this.#boards.push(shared);
    onConnections(this.#boards.length);
    return shared;
  }
}

// A board whose view is what all its views show.
class Shared {
  /** @type {readonly Shown[]} */
  #wanted;
  /** @type {Promise<unknown>} */
  #shown; // of what is wanted
  /** @type {Map<SharedBoard, readonly Shown[]>} */
  #views = new Map();

  /** @param {Board} board @param {readonly Shown[]} view */
  constructor(board, view) {
    this.board = board;
    this.#wanted = distinct(view);
    this.#shown = board.ready;
  }

  /** @param {readonly Shown[]} pointers */
  hasPlaceFor(pointers) {
    return this.#with(pointers).length <= SLOTS;
  }

  /** @param {SharedBoard} view @param {readonly Shown[]} pointers @returns {Promise<unknown>} */
  join(view, pointers) {
    const wanted = this.#with(pointers);
    this.#views.set(view, pointers);
    if (
      wanted.length !== this.#wanted.length ||
      !wanted.every((shown, k) => same(shown, this.#wanted[k]))
    ) {
      this.#shown = this.board.watchOrLater(wanted);
    }
    this.#wanted = wanted;
    return this.#shown;
  }

  /** @param {SharedBoard} view */
  leave(view) {
    this.#views.delete(view);
  }

  // Pointers that nobody shows any more are watched as long as there is room for it, so that no
  // slots are asked for anew.
  /** @param {readonly Shown[]} pointers */
  #with(pointers) {
    const shown = distinct([...this.#views.values(), pointers].flat());
    const both = distinct([...this.#wanted, ...shown]);
    return both.length <= SLOTS ? both : shown;
  }
}

/** @param {readonly Shown[]} all */
function distinct(all) {
  return all.filter((shown, k) => all.findIndex((other) => same(other, shown)) === k);
}

// The slots that one part of a page shows. Its edits, and what of them waits or is undone, are
// those of its connection.
class SharedBoard {
  #shared;
  #pointers;
  /** @type {{ slots: unknown, own: any }} */
  #seen = { slots: undefined, own: null };
  #places;

  /** @param {Shared} shared @param {readonly Shown[]} pointers */
  constructor(shared, pointers) {
    this.#shared = shared;
    this.#pointers = pointers;
    this.#places = new Places((shown) => new Place(this, shared.board, shown));
    this.ready = shared.join(this, pointers).then(() => this.slots);
    this.ready.catch(() => {});
    this.subscribe = this.subscribe.bind(this);
  }

  get view() {
    return this.#pointers;
  }

  /** One slot for each pointer; null until they are there. */
  get slots() {
    const { slots } = this.#shared.board;
    if (this.#seen.slots !== slots) {
      const own = this.#own(slots);
      this.#seen = { slots, own: own && this.#stable(own) };
    }
    return this.#seen.own;
  }

  /** The slots as the relay showed them. */
  get confirmed() {
    return this.#own(this.#shared.board.confirmed);
  }

  get rev() {
    return this.#shared.board.rev;
  }

  get epoch() {
    return this.#shared.board.epoch;
  }

  get state() {
    return this.#shared.board.state;
  }

  get pending() {
    return this.#shared.board.pending;
  }

  get undoable() {
    return this.#shared.board.undoable;
  }

  get redoable() {
    return this.#shared.board.redoable;
  }

  // Of the board's slots those of this view; null until the board shows all of them.
  /** @param {any} slots @returns {any} */
  #own(slots) {
    const { view } = this.#shared.board;
    const own =
      slots &&
      this.#pointers.map(
        (shown) => slots[view.findIndex((/** @type {Shown} */ other) => same(other, shown))],
      );
    return own === null || own.includes(undefined) ? null : Object.freeze(own);
  }

  // The same list as before where no slot of this view changed.
  /** @param {readonly unknown[]} own */
  #stable(own) {
    const before = this.#seen.own;
    return before !== null && own.every((slot, k) => slot === before[k]) ? before : own;
  }

  /** @param {(change: any) => void} listener Told of each change of these slots. Gives its end. */
  subscribe(listener) {
    let last = { slots: this.slots, pending: this.pending };
    return this.#shared.board.subscribe(({ rev, pending }) => {
      const { slots, confirmed } = this;
      if (slots === null || (slots === last.slots && pending === last.pending)) return;
      last = { slots, pending };
      listener({ slots, confirmed, rev, pending, patch: null });
    });
  }

  /** @param {(state: State) => void} listener Told of each new state. Gives its end. */
  states(listener) {
    return this.#shared.board.states(listener);
  }

  /** @param {Shown} shown */
  at(shown) {
    return this.#places.at(shown);
  }

  /** @param {readonly import("../relay.js").Operation[]} patch @param {any} [options] */
  edit(patch, options) {
    return this.#shared.board.edit(patch, options);
  }

  /** @param {(draft: any) => void} make @param {any} [options] */
  change(make, options) {
    return this.#shared.board.change(make, options);
  }

  end() {
    return this.#shared.board.end();
  }

  /** @param {readonly import("../relay.js").Operation[]} patch @param {unknown} [of] */
  will(patch, of = this) {
    return this.#shared.board.will(patch, of);
  }

  undo() {
    return this.#shared.board.undo();
  }

  redo() {
    return this.#shared.board.redo();
  }

  async sync() {
    await this.#shared.board.sync();
    return this.slots;
  }

  close() {
    this.#shared.leave(this);
  }
}

return { Room };
})();

const inspectedModule = (() => {
// Shows what a client says and hears, for whoever looks for a mistake: a class of sockets to
// connect with.

/**
 * @param {(told: { way: "sent" | "heard", message: any }) => void} tell of each text, in order
 * @param {any} [Sockets]
 */
function inspected(tell, Sockets = globalThis.WebSocket) {
  return class extends Sockets {
    /** @param {string} url */
    constructor(url) {
      super(url);
      // Before the client's own, so that what it says of a message is told behind it.
      this.addEventListener("message", (/** @type {any} */ { data }) => {
        tell({ way: "heard", message: JSON.parse(data) });
      });
    }

    /** @param {string} text */
    send(text) {
      tell({ way: "sent", message: JSON.parse(text) });
      super.send(text);
    }
  };
}

return { inspected };
})();

const renewalModule = (() => {
// Tells who is here to a relay that knows no wills: each entry is renewed while its client is here,
// and whoever sees that one was not renewed takes it away. Each renewal is an edit: a revision,
// told to every watcher of the object.

// A page in the background has its timers run once a minute: an entry outlives two such renewals.
const DEFAULTS = { every: 20_000, gone: 150_000 };

class Renewal {
  #options;
  #renew;
  #beat = 0;
  /** @type {ReturnType<typeof setInterval> | undefined} */
  #timer;
  /** @type {Map<string, { beat: unknown, since: number }>} */
  #seen = new Map(); // since when each entry has not been renewed, by this client's clock

  /** @param {{ every?: number, gone?: number }} options @param {() => void} renew */
  constructor(options, renew) {
    this.#options = { ...DEFAULTS, ...options };
    this.#renew = renew;
  }

  begin() {
    this.#timer ??= setInterval(this.#renew, this.#options.every);
  }

  end() {
    clearInterval(this.#timer);
    this.#timer = undefined;
  }

  /** The members that an entry has besides. */
  get mark() {
    if (this.#timer === undefined) return {};
    this.#beat += 1;
    return { beat: this.#beat };
  }

  /**
   * Those that were not renewed for too long.
   * @param {Record<string, { beat?: unknown }>} others by their ids
   * @returns {string[]}
   */
  gone(others) {
    if (this.#timer === undefined) return [];
    const now = Date.now();
    this.#seen = new Map(Object.entries(others).map(([id, { beat }]) => {
      const before = this.#seen.get(id);
      return [id, before !== undefined && before.beat === beat ? before : { beat, since: now }];
    }));
    const isGone = (/** @type {{ since: number }} */ { since }) =>
      now - since >= this.#options.gone;
    return [...this.#seen].flatMap(([id, seen]) => (isGone(seen) ? [id] : []));
  }
}

return { Renewal };
})();

const presenceModule = (() => {
// Tells who is here: an entry of this client in an object of the document. A will takes it away
// when the session ends, however it ends. A relay that knows no wills is told by renewals in its
// place (renewal.mjs).
//
// The will is left before the entry is written, so that no entry is ever there without one. It
// tests which session wrote the entry: where a later session of this client is here already, the
// late will of an earlier one is refused, and leaves the entry.
const { Closed, Refused, Unknown } = errorsModule;
const { Renewal } = renewalModule;
const { newId } = idModule;
const { checkOptions } = optionsModule;
const { checked, isObject } = jsonModule;
const { spelled, tokens } = pointerModule;

/** @typedef {{ session: string, beat?: number } & Record<string, unknown>} Entry */
/** @typedef {{ resolve: () => void, reject: (cause: unknown) => void }} Waiter */

// The options of what the client does by itself: nothing to be undone, and nothing to tell the
// application of where it is refused.
const BY_ITSELF = { optimistic: true, undo: false, silent: true };

class Presence {
  #board;
  #path;
  #place;
  #id;
  #entry;
  #renewal;
  /** @type {{ value: unknown, people: Record<string, Entry> }} */
  #shown = { value: undefined, people: {} };
  #session = ""; // a name of the present one, with its run in front; empty while there is none
  #willed = ""; // the session whose will was asked for
  #written = ""; // the session that wrote the entry last
  #isEntering = false; // while the entry is being written
  /** @type {unknown} */
  #failedOn = null; // the slots on which it was tried in vain
  /** @type {Waiter[]} */
  #waiters = []; // each is told when the entry is written
  /** @type {(() => void)[]} */
  #ends;
  #left = false;

  /**
   * @param {any} board
   * @param {string} path of the object, which is in the board's view
   * @param {object} entry what others are to know
   * @param {{ id?: string, every?: number, gone?: number }} options
   */
  constructor(board, path, entry, { id = newId(), ...options } = {}) {
    this.#board = board;
    this.#path = path;
    this.#place = board.at(path);
    this.#id = id;
    this.#entry = checked(entry);
    this.#renewal = new Renewal(options, () => this.#enter());
    this.ready = this.#here();
    // First, since it fails where the view does not show the place.
    const values = this.#place.subscribe(() => this.#returned());
    const states = board.states((/** @type {string} */ state) => this.#turned(state));
    const changes = board.subscribe(() => this.#changed());
    this.#ends = [() => this.#renewal.end(), states, changes, values];
    this.#turned(board.state);
  }

  get id() {
    return this.#id;
  }

  /** The entries of all who are here, by their ids. What is no object is no entry. */
  get people() {
    const { value } = this.#place;
    if (this.#shown.value !== value) this.#shown = { value, people: entries(value) };
    return this.#shown.people;
  }

  /** @param {(people: Record<string, Entry>) => void} listener Gives its end. */
  subscribe(listener) {
    return this.#place.subscribe(() => listener(this.people));
  }

  /**
   * Shows another entry from now on.
   * @param {object} entry
   */
  set(entry) {
    this.#entry = checked(entry);
    if (!this.#isHere) return this.#here();
    const { confirmed } = this.#board;
    const done = this.#write(this.#session);
    done.catch(() => {
      this.#fail(confirmed);
      this.#changed();
    });
    return done;
  }

  /** Takes the entry away. */
  async leave() {
    if (this.#left) return;
    this.#end(new Closed());
    const removed = this.#board.edit([{ op: "remove", path: this.#own }], BY_ITSELF);
    // Behind it: a session that ends in between leaves no entry.
    const withdrawn = this.#willed && this.#board.will([], this);
    await Promise.allSettled([removed, withdrawn]);
  }

  get #own() {
    return this.#path + spelled([this.#id]);
  }

  // True if the entry was written by the present session.
  get #isHere() {
    return this.#session !== "" && this.#written === this.#session;
  }

  /** @returns {Promise<void>} */
  #here() {
    const here = new Promise((resolve, reject) => {
      if (this.#left) reject(new Closed());
      else this.#waiters.push({ resolve: () => resolve(undefined), reject });
    });
    here.catch(() => {});
    return /** @type {Promise<void>} */ (here);
  }

  /** @param {unknown} cause */
  #end(cause) {
    this.#left = true;
    for (const end of this.#ends) end();
    for (const { reject } of this.#waiters.splice(0)) reject(cause);
  }

  // A connection that is new is another session.
  /** @param {string} state */
  #turned(state) {
    this.#session = state === "open" ? `${this.#board.epoch}.${newId()}` : "";
    this.#failedOn = null;
    if (state === "closed") this.#end(new Closed());
    else this.#enter();
  }

  // Another document is another try where the entry could not be written, as in a room that has not
  // begun.
  #changed() {
    if (!this.#isHere && this.#board.confirmed !== this.#failedOn) this.#enter();
  }

  // Somebody took the entry away: by another document, or by the will of another window that has
  // the same id.
  #returned() {
    if (this.#isHere && !Object.hasOwn(this.people, this.#id)) this.#enter();
  }

  // One try at a time. It fails for nobody: what is refused is tried again.
  #enter() {
    const session = this.#session;
    if (this.#isEntering || this.#left || session === "") return;
    this.#isEntering = true;
    this.#try(session).finally(() => {
      this.#isEntering = false;
      // Meanwhile the document may have become another one, or the session.
      this.#changed();
    });
  }

  /** @param {string} session */
  async #try(session) {
    const { confirmed } = this.#board;
    try {
      await this.#makeObject();
      if (this.#willed !== session) await this.#will(session);
      await this.#write(session);
      this.#written = session;
      for (const { resolve } of this.#waiters.splice(0)) resolve();
      for (const id of this.#gone()) this.#remove(id);
    } catch (error) {
      this.#fail(confirmed);
      const isRefused = error instanceof Refused && error.fault !== "read-only";
      if (isRefused || error instanceof Unknown) return;
      for (const { reject } of this.#waiters.splice(0)) reject(error);
    }
  }

  /** @param {unknown} confirmed the slots on which it was tried */
  #fail(confirmed) {
    this.#written = "";
    this.#failedOn = confirmed;
  }

  // Whoever comes first makes the object, which no patch can do without wiping one that is there:
  // so it is made on what was seen.
  #makeObject() {
    return this.#place.update(
      (/** @type {unknown} */ people) => (isObject(people) ? undefined : {}),
      { undo: false },
    );
  }

  /** @param {string} session */
  async #will(session) {
    const path = this.#own;
    const patch = [{ op: "test", path: `${path}/session`, value: session }, { op: "remove", path }];
    this.#willed = session;
    try {
      await this.#board.will(patch, this);
      this.#renewal.end();
    } catch (error) {
      if (error instanceof Refused && error.fault === "shape") return this.#renewal.begin();
      this.#willed = "";
      throw error;
    }
  }

  /** @param {string} session */
  async #write(session) {
    if (this.#left) throw new Closed();
    const value = { ...this.#entry, ...this.#renewal.mark, session };
    await this.#board.edit([{ op: "add", path: this.#own, value }], BY_ITSELF);
  }

  // Of the others' entries those that no will takes away: which were not renewed, or are of an
  // earlier run, as a keeper puts them back.
  #gone() {
    const { [this.#id]: own, ...others } = this.people;
    const run = `${this.#board.epoch}.`;
    const isEarlier = (/** @type {string} */ id) => {
      const { session } = others[id];
      return typeof session === "string" && !session.startsWith(run);
    };
    const earlier = Object.keys(others).filter(isEarlier);
    return new Set([...earlier, ...this.#renewal.gone(others)]);
  }

  // Others do it too: whoever is first does it. An entry that was written anew in between stays.
  /** @param {string} id */
  #remove(id) {
    const path = this.#path + spelled([id]);
    const patch = [{ op: "test", path, value: this.people[id] }, { op: "remove", path }];
    this.#board.edit(patch, { undo: false }).catch(() => {});
  }
}

/** @param {unknown} value @returns {Record<string, Entry>} */
function entries(value) {
  const own = isObject(value) ? Object.entries(value) : [];
  return Object.freeze(Object.fromEntries(own.filter(([, entry]) => isObject(entry))));
}

/**
 * @param {any} board @param {string} path @param {object} entry
 * @param {{ id?: string, every?: number, gone?: number }} [options]
 */
function presence(board, path, entry, options = {}) {
  tokens(path);
  checkOptions("presence", options, ["id", "every", "gone"]);
  return new Presence(board, path, entry, options);
}

return { Presence, presence };
})();

const relayModule = (() => {
// A client of the relay (docs/PROTOCOL.md): the slots of a view, which stay right when connections
// are lost and the relay is restarted.
const { Board } = boardModule;
const { Room } = roomModule;
const { checkRoom } = handshakeModule;
const { checkOptions, checkView } = optionsModule;
const { checked } = jsonModule;
const { afterAll, knownBy, slotOf, slotsOf } = knownModule;

const { Closed, HandshakeFailed, Refused, Superseded, Unknown } = errorsModule;
const { inspected } = inspectedModule;
const { pointer } = pointerModule;
const { presence } = presenceModule;

/** @typedef {import("../relay.js").Shown} Shown */
/** @typedef {import("../relay.js").Operation} Operation */

const BOARD = [
  "begin",
  "readOnly",
  "onState",
  "onTakenBack",
  "queue",
  "storage",
  "storageKey",
  "once",
  "WebSocket",
  "firstWait",
  "longestWait",
  "quiet",
  "patience",
];

/** @param {string} url @param {any} options @returns {any} */
function connect(url, options = {}) {
  checkOptions("connect", options, ["view", "onChange", ...BOARD]);
  checkView("connect", options.view);
  checkSockets(options);
  checkRoom(url);
  return new Board(url, options);
}

/** @param {string} url @param {any} [options] @returns {any} */
function room(url, options = {}) {
  checkOptions("room", options, ["onConnections", ...BOARD]);
  checkSockets(options);
  checkRoom(url);
  return new Room(url, options);
}

/**
 * Returns what the slots of a view show when a patch is laid over them, as far as they tell it: of
 * the others each is as it was, and `known` is false. Fails where an operation is known not to fit.
 * @param {readonly Shown[]} view @param {readonly any[]} slots @param {readonly Operation[]} patch
 */
function overlaid(view, slots, patch) {
  const whole = afterAll(knownBy(view, slots), checked(patch));
  return {
    slots: slotsOf(whole, view, slots),
    known: view.map((shown) => slotOf(whole, shown) !== null),
  };
}

const NO_SOCKETS =
  "no WebSocket: take Node 22, --experimental-websocket, or that of the package `ws`";

/** @param {any} options */
function checkSockets(options) {
  const sockets = options.WebSocket ?? globalThis.WebSocket;
  if (typeof sockets !== "function") throw new TypeError(NO_SOCKETS);
}

return {
  Closed,
  HandshakeFailed,
  Refused,
  Superseded,
  Unknown,
  connect,
  inspected,
  overlaid,
  pointer,
  presence,
  room,
};
})();

const {
  Closed,
  HandshakeFailed,
  Refused,
  Superseded,
  Unknown,
  connect,
  inspected,
  overlaid,
  pointer,
  presence,
  room,
} = relayModule;
export {
  Closed,
  HandshakeFailed,
  Refused,
  Superseded,
  Unknown,
  connect,
  inspected,
  overlaid,
  pointer,
  presence,
  room,
};

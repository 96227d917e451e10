// A value that a view shows, by itself or as a part of another one: who hears of it, and changes of
// it.
import { Closed, Refused } from "./errors.mjs";
import { Keyed, followed, shown } from "./elements.mjs";
import { checkFunction, checkOptions } from "./options.mjs";
import { spelled, startsWith, tokens } from "./pointer.mjs";
import { has } from "./patch.mjs";
import { same } from "./json.mjs";

/** @typedef {import("../relay.js").Shown} Shown */
/** @typedef {import("../relay.js").Operation} Operation */
/** @typedef {readonly (readonly any[])[] | null} Slots */
/** @typedef {(listener: () => void) => () => void} Subscribe */
/**
 * @typedef {{ view: readonly Shown[], slots: Slots, confirmed: Slots, ready: Promise<any>,
 * subscribe: Subscribe }} Source
 */

const SET = ["parents", "base", "epoch", "optimistic", "undo", "once"];

// The number of times that `update` tries, if nothing is said.
const TRIES = 20;

// The milliseconds that the second try waits at most; each further one up to twice as long, so that
// many who count take turns.
const PAUSE = 10;
const LONGEST_PAUSE = 500;

export class Place {
  #source;
  #board;
  #shown;
  #path;

  /**
   * @param {Source} source a board or a view
   * @param {any} board
   * @param {Shown} shown
   */
  constructor(source, board, shown) {
    this.#source = source;
    this.#board = board;
    this.#shown = shown;
    this.#path = tokens(typeof shown === "string" ? shown : shown.size);
    this.subscribe = this.subscribe.bind(this);
  }

  /** The value that stands there; undefined where nothing does, or before the first slots. */
  get value() {
    return this.#slot(this.#source.slots)[0];
  }

  /** The value that stands there as the relay showed it, without edits that wait. */
  get confirmed() {
    return this.#slot(this.#source.confirmed)[0];
  }

  /** @param {(value: any) => void} listener Told of each other value. Gives its end. */
  subscribe(listener) {
    let last = this.value;
    return this.#source.subscribe(() => {
      // A view that was exchanged since tells nothing of it.
      if (this.#cover() === null) return;
      const before = last;
      last = this.value;
      if (!same(before, last)) listener(last);
    });
  }

  /**
   * @param {any} value
   * @param {import("../relay.js").SetOptions} [asked]
   * @returns {Promise<number>}
   */
  set(value, asked = {}) {
    checkOptions("set", asked, SET);
    const { parents = false, ...options } = asked;
    const { slots } = this.#source;
    if (slots === null) throw new Error("the slots are not there yet");
    if (parents && this.#missing(slots) > 0) {
      return this.#setWithParents(value, { optimistic: true, ...options });
    }
    const operation = this.#write(this.#slot(slots), value);
    const sets = operation.op === "replace" ? operation.path : undefined;
    return this.#board.edit([operation], { optimistic: true, ...options, sets });
  }

  // No operation tests that nothing stands in a place: so it is done on what was seen.
  /** @param {any} value @param {object} options */
  #setWithParents(value, options) {
    /** @returns {Operation[]} */
    const make = () => {
      const missing = this.#missing(this.#source.confirmed);
      if (missing === 0) return [this.#write(this.#slot(this.#source.confirmed), value)];
      const start = this.#path.length - missing;
      const below = this.#path.slice(start).reduceRight(nested, value);
      return [{ op: "add", path: spelled(this.#path.slice(0, start)), value: below }];
    };
    return this.#compareAndSet(make, TRIES, options);
  }

  // The number of containers around it that are not there, as far as the view shows them.
  /** @param {Slots} slots */
  #missing(slots) {
    const cover = this.#cover();
    if (slots === null || cover === null) return 0;
    const { rest } = cover;
    const holder = (/** @type {number} */ k) => rest.slice(0, k).reduce(part, slots[cover.at]);
    const there = rest.findIndex((_, k) => holder(k).length === 0);
    return there < 0 ? 0 : rest.length - there;
  }

  /**
   * @param {(value: any) => any} change
   * @param {{ tries?: number, undo?: boolean }} options
   * @returns {Promise<number>}
   */
  update(change, options = {}) {
    checkFunction("update", change);
    checkOptions("update", options, ["tries", "undo"]);
    const { tries = TRIES, undo = true } = options;
    const make = () => {
      const slot = this.#slot(this.#source.confirmed);
      const value = change(slot[0]);
      return value === undefined ? null : [this.#write(slot, value)];
    };
    return this.#compareAndSet(make, tries, { undo });
  }

  // Of a list, guarded by what stands around the place, and made anew where that has moved.

  /** @param {...any} values @returns {Promise<number>} */
  push(...values) {
    return this.#change((list) => void list.push(...values));
  }

  /** @param {number} at @param {any} value @param {any} [options] @returns {Promise<number>} */
  insert(at, value, options) {
    const list = () => this.value;
    const { length } = shown(list());
    const place = at === length ? () => null : followed(list, at);
    return this.#change((list) => {
      const at = place();
      if (at === null) list.push(value);
      else list.splice(at, 0, value);
    }, options);
  }

  /** @param {number} at @param {any} [options] @returns {Promise<number>} */
  remove(at, options) {
    const place = followed(() => this.value, at);
    return this.#change((list) => void list.splice(place(), 1), options);
  }

  /**
   * So that it stands at another place of the list as it is shown now.
   * @param {number} from @param {number} to @param {any} [options] @returns {Promise<number>}
   */
  move(from, to, options) {
    const list = () => this.value;
    const [element, other] = [followed(list, from), followed(list, to)];
    return this.#change((list) => {
      const [from, to] = [element(), other()];
      if (from !== to) list.splice(to, 0, list.splice(from, 1)[0]);
    }, options);
  }

  /** @param {string} name */
  byKey(name) {
    const keys = new Map([[spelled(this.#path), name]]);
    return new Keyed(this, name, (make, options) => this.#change(make, { ...options, keys }));
  }

  /** @param {(list: any[]) => void} make @param {object} [options] @returns {Promise<number>} */
  #change(make, options = {}) {
    this.#checkSet();
    return this.#board.changePlace(this.#path, make, options);
  }

  /** @param {() => Operation[] | null} make @param {number} tries @param {object} options */
  #compareAndSet(make, tries, options) {
    const edit = (/** @type {Operation[]} */ patch, /** @type {object} */ seen) =>
      this.#board.edit(patch, { ...options, ...seen });
    return this.#board.said(() =>
      this.#source.ready.then(() => compareAndSet(this.#board, tries, make, edit)),
    );
  }

  /** @param {Slots} slots @returns {readonly any[]} */
  #slot(slots) {
    if (slots === null) return [];
    const cover = this.#cover();
    if (cover === null) {
      throw new RangeError(
        `${JSON.stringify(this.#shown)} is not in the view ${JSON.stringify(this.#source.view)}`,
      );
    }
    return cover.rest.reduce(part, slots[cover.at] ?? []);
  }

  // The slot that shows it, and where in that slot's value. A size is a slot of its own or nothing.
  #cover() {
    const { view } = this.#source;
    const at = view.findIndex((shown) => same(shown, this.#shown));
    if (at >= 0) return { at, rest: [] };
    if (typeof this.#shown !== "string") return null;
    const outer = view.findIndex(
      (shown) => typeof shown === "string" && startsWith(this.#path, tokens(shown)),
    );
    return outer < 0
      ? null
      : { at: outer, rest: this.#path.slice(tokens(/** @type {string} */ (view[outer])).length) };
  }

  /** @param {readonly any[]} slot @param {any} value @returns {Operation} */
  #write(slot, value) {
    this.#checkSet();
    return { op: slot.length === 0 ? "add" : "replace", path: spelled(this.#path), value };
  }

  #checkSet() {
    if (typeof this.#shown !== "string") {
      throw new TypeError("a size is not set: what it counts is");
    }
  }
}

/** @param {any} value @param {string} name */
function nested(value, name) {
  return { [name]: value };
}

/** @param {readonly any[]} slot @param {string} token @returns {readonly any[]} */
function part(slot, token) {
  return slot.length > 0 && has(slot[0], token) ? [slot[0][token]] : [];
}

/**
 * An edit made from what is shown on its revision, and made again until nobody was faster.
 * @param {any} board
 * @param {number} tries
 * @param {() => Operation[] | null} make null where nothing is to be done
 * @param {(patch: Operation[], seen: { base: number, epoch: number }) => Promise<number>} edit
 * @returns {Promise<number>}
 */
export function compareAndSet(board, tries, make, edit) {
  return anew(board, tries, ["stale"], async (sends) => {
    const patch = make();
    sends();
    return patch === null ? board.rev : edit(patch, { base: board.rev, epoch: board.epoch });
  });
}

/**
 * Tries again as long as it is refused by one of these faults, on what is shown by then. What this
 * client refuses before it sends anything, as a key that no element has, is tried once more: from
 * then on the slots are of the room's revision, and would show the same.
 * @param {any} board
 * @param {number} tries
 * @param {readonly string[]} faults
 * @param {(sends: () => void) => Promise<number>} attempt tells when it begins to send
 */
export async function anew(board, tries, faults, attempt) {
  for (let tried = 1; ; tried += 1) {
    if (board.state === "closed") throw new Closed();
    let isSent = false;
    try {
      return await attempt(() => void (isSent = true));
    } catch (error) {
      const isOutdated = error instanceof Refused && faults.includes(error.fault);
      if (!isOutdated || tried >= tries || (tried > 1 && !isSent)) throw error;
    }
    if (tried > 1) await pause(tried);
    // An edit elsewhere leaves the slots' revision behind the room's: only slots that come anew are
    // of that one.
    await board.watchAgain();
  }
}

/** @param {number} tried */
function pause(tried) {
  const longest = Math.min(PAUSE * 2 ** tried, LONGEST_PAUSE);
  return new Promise((resolve) => setTimeout(resolve, Math.random() * longest));
}

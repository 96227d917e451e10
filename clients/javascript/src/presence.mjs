// Tells who is here: an entry of this client in an object of the document. A will takes it away
// when the session ends, however it ends. A relay that knows no wills is told by renewals in its
// place (renewal.mjs).
//
// The will is left before the entry is written, so that no entry is ever there without one. It
// tests which session wrote the entry: where a later session of this client is here already, the
// late will of an earlier one is refused, and leaves the entry.
import { Closed, Refused, Unknown } from "./errors.mjs";
import { Renewal } from "./renewal.mjs";
import { newId } from "./id.mjs";
import { checkOptions } from "./options.mjs";
import { checked, isObject } from "./json.mjs";
import { spelled, tokens } from "./pointer.mjs";

/** @typedef {{ session: string, beat?: number } & Record<string, unknown>} Entry */
/** @typedef {{ resolve: () => void, reject: (cause: unknown) => void }} Waiter */

// The options of what the client does by itself: nothing to be undone, and nothing to tell the
// application of where it is refused.
const BY_ITSELF = { optimistic: true, undo: false, silent: true };

export class Presence {
  #board;
  #path;
  #place;
  #id;
  #entry;
  #renewal;
  /** @type {{ value: unknown, people: Record<string, Entry> }} */
  #shown = { value: undefined, people: {} };
  #session = ""; // a name of the present one, with its run in front; empty while there is none
  #willed = ""; // the session whose will was asked for
  #written = ""; // the session that wrote the entry last
  #isEntering = false; // while the entry is being written
  /** @type {unknown} */
  #failedOn = null; // the slots on which it was tried in vain
  /** @type {Waiter[]} */
  #waiters = []; // each is told when the entry is written
  /** @type {(() => void)[]} */
  #ends;
  #left = false;

  /**
   * @param {any} board
   * @param {string} path of the object, which is in the board's view
   * @param {object} entry what others are to know
   * @param {{ id?: string, every?: number, gone?: number }} options
   */
  constructor(board, path, entry, { id = newId(), ...options } = {}) {
    this.#board = board;
    this.#path = path;
    this.#place = board.at(path);
    this.#id = id;
    this.#entry = checked(entry);
    this.#renewal = new Renewal(options, () => this.#enter());
    this.ready = this.#here();
    // First, since it fails where the view does not show the place.
    const values = this.#place.subscribe(() => this.#returned());
    const states = board.states((/** @type {string} */ state) => this.#turned(state));
    const changes = board.subscribe(() => this.#changed());
    this.#ends = [() => this.#renewal.end(), states, changes, values];
    this.#turned(board.state);
  }

  get id() {
    return this.#id;
  }

  /** The entries of all who are here, by their ids. What is no object is no entry. */
  get people() {
    const { value } = this.#place;
    if (this.#shown.value !== value) this.#shown = { value, people: entries(value) };
    return this.#shown.people;
  }

  /** @param {(people: Record<string, Entry>) => void} listener Gives its end. */
  subscribe(listener) {
    return this.#place.subscribe(() => listener(this.people));
  }

  /**
   * Shows another entry from now on.
   * @param {object} entry
   */
  set(entry) {
    this.#entry = checked(entry);
    if (!this.#isHere) return this.#here();
    const { confirmed } = this.#board;
    const done = this.#write(this.#session);
    done.catch(() => {
      this.#fail(confirmed);
      this.#changed();
    });
    return done;
  }

  /** Takes the entry away. */
  async leave() {
    if (this.#left) return;
    this.#end(new Closed());
    const removed = this.#board.edit([{ op: "remove", path: this.#own }], BY_ITSELF);
    // Behind it: a session that ends in between leaves no entry.
    const withdrawn = this.#willed && this.#board.will([], this);
    await Promise.allSettled([removed, withdrawn]);
  }

  get #own() {
    return this.#path + spelled([this.#id]);
  }

  // True if the entry was written by the present session.
  get #isHere() {
    return this.#session !== "" && this.#written === this.#session;
  }

  /** @returns {Promise<void>} */
  #here() {
    const here = new Promise((resolve, reject) => {
      if (this.#left) reject(new Closed());
      else this.#waiters.push({ resolve: () => resolve(undefined), reject });
    });
    here.catch(() => {});
    return /** @type {Promise<void>} */ (here);
  }

  /** @param {unknown} cause */
  #end(cause) {
    this.#left = true;
    for (const end of this.#ends) end();
    for (const { reject } of this.#waiters.splice(0)) reject(cause);
  }

  // A connection that is new is another session.
  /** @param {string} state */
  #turned(state) {
    this.#session = state === "open" ? `${this.#board.epoch}.${newId()}` : "";
    this.#failedOn = null;
    if (state === "closed") this.#end(new Closed());
    else this.#enter();
  }

  // Another document is another try where the entry could not be written, as in a room that has not
  // begun.
  #changed() {
    if (!this.#isHere && this.#board.confirmed !== this.#failedOn) this.#enter();
  }

  // Somebody took the entry away: by another document, or by the will of another window that has
  // the same id.
  #returned() {
    if (this.#isHere && !Object.hasOwn(this.people, this.#id)) this.#enter();
  }

  // One try at a time. It fails for nobody: what is refused is tried again.
  #enter() {
    const session = this.#session;
    if (this.#isEntering || this.#left || session === "") return;
    this.#isEntering = true;
    this.#try(session).finally(() => {
      this.#isEntering = false;
      // Meanwhile the document may have become another one, or the session.
      this.#changed();
    });
  }

  /** @param {string} session */
  async #try(session) {
    const { confirmed } = this.#board;
    try {
      await this.#makeObject();
      if (this.#willed !== session) await this.#will(session);
      await this.#write(session);
      this.#written = session;
      for (const { resolve } of this.#waiters.splice(0)) resolve();
      for (const id of this.#gone()) this.#remove(id);
    } catch (error) {
      this.#fail(confirmed);
      const isRefused = error instanceof Refused && error.fault !== "read-only";
      if (isRefused || error instanceof Unknown) return;
      for (const { reject } of this.#waiters.splice(0)) reject(error);
    }
  }

  /** @param {unknown} confirmed the slots on which it was tried */
  #fail(confirmed) {
    this.#written = "";
    this.#failedOn = confirmed;
  }

  // Whoever comes first makes the object, which no patch can do without wiping one that is there:
  // so it is made on what was seen.
  #makeObject() {
    return this.#place.update(
      (/** @type {unknown} */ people) => (isObject(people) ? undefined : {}),
      { undo: false },
    );
  }

  /** @param {string} session */
  async #will(session) {
    const path = this.#own;
    const patch = [{ op: "test", path: `${path}/session`, value: session }, { op: "remove", path }];
    this.#willed = session;
    try {
      await this.#board.will(patch, this);
      this.#renewal.end();
    } catch (error) {
      if (error instanceof Refused && error.fault === "shape") return this.#renewal.begin();
      this.#willed = "";
      throw error;
    }
  }

  /** @param {string} session */
  async #write(session) {
    if (this.#left) throw new Closed();
    const value = { ...this.#entry, ...this.#renewal.mark, session };
    await this.#board.edit([{ op: "add", path: this.#own, value }], BY_ITSELF);
  }

  // Of the others' entries those that no will takes away: which were not renewed, or are of an
  // earlier run, as a keeper puts them back.
  #gone() {
    const { [this.#id]: own, ...others } = this.people;
    const run = `${this.#board.epoch}.`;
    const isEarlier = (/** @type {string} */ id) => {
      const { session } = others[id];
      return typeof session === "string" && !session.startsWith(run);
    };
    const earlier = Object.keys(others).filter(isEarlier);
    return new Set([...earlier, ...this.#renewal.gone(others)]);
  }

  // Others do it too: whoever is first does it. An entry that was written anew in between stays.
  /** @param {string} id */
  #remove(id) {
    const path = this.#path + spelled([id]);
    const patch = [{ op: "test", path, value: this.people[id] }, { op: "remove", path }];
    this.#board.edit(patch, { undo: false }).catch(() => {});
  }
}

/** @param {unknown} value @returns {Record<string, Entry>} */
function entries(value) {
  const own = isObject(value) ? Object.entries(value) : [];
  return Object.freeze(Object.fromEntries(own.filter(([, entry]) => isObject(entry))));
}

/**
 * @param {any} board @param {string} path @param {object} entry
 * @param {{ id?: string, every?: number, gone?: number }} [options]
 */
export function presence(board, path, entry, options = {}) {
  tokens(path);
  checkOptions("presence", options, ["id", "every", "gone"]);
  return new Presence(board, path, entry, options);
}

// A counter of this client's own in the document. Each edit that is `once` tests and raises it, so
// one that is sent again is done at most once (docs/PROTOCOL.md, "Edits without an answer").
//
// One such edit is on its way at a time, and what was asked for behind it waits. The counter has a
// name that nobody had before, and is added by a request that is sent once: where the answer of
// that was lost, a counter of another name is added. So no late one sets back a counter that has
// gone on.
import { Refused } from "./errors.mjs";
import { newId } from "./id.mjs";
import { spelled, tokens } from "./pointer.mjs";

/** Stands ahead of an edit that has to wait. */
export const WAITS = Symbol("waits");

/**
 * @typedef {import("./edit.mjs").Edit} Edit
 * @typedef {import("./edit.mjs").Welcome} Welcome
 * @typedef {import("../relay.js").Operation} Operation
 */

export class Counter {
  #parent;
  #path = ""; // of the counter
  #value = 0; // what stands there
  /** @type {number | null} */
  #epoch = null; // the run in whose document it stands; null where it stands in none
  /** @type {Welcome | null} */
  #adding = null; // the connection on which it is being added
  /** @type {Edit | null} */
  #edit = null; // which has no answer yet

  /** @param {string} parent a pointer to an object of the document */
  constructor(parent) {
    tokens(parent);
    this.#parent = parent;
  }

  /**
   * Returns what has to be sent before an edit: nothing (null), a request, or `WAITS`.
   * @param {Edit} edit
   * @param {Welcome} welcome of the connection
   */
  ahead(edit, welcome) {
    if (this.#edit === edit) return null;
    if (this.#edit !== null || this.#adding === welcome) return WAITS;
    if (this.#epoch !== welcome.epoch) return this.#add(edit, welcome);
    this.#edit = edit;
    return null;
  }

  /** @param {Edit} edit that waits for it @param {Welcome} welcome */
  #add(edit, welcome) {
    this.#adding = welcome;
    const path = this.#parent + spelled([newId()]);
    const answered = (/** @type {any} */ reply) => {
      this.#adding = null;
      const advice = `\`once\` needs an object at "${this.#parent}", as \`begin\` makes it`;
      if (reply.kind !== "done") return edit.fail(new Refused({ fault: reply.fault }, advice));
      this.#path = path;
      this.#value = 0;
      this.#epoch = welcome.epoch;
    };
    return { request: { do: "edit", patch: [{ op: "add", path, value: 0 }] }, answered };
  }

  /** @returns {Operation[]} */
  get raise() {
    const [path, value] = [this.#path, this.#value];
    return [{ op: "test", path, value }, { op: "replace", path, value: value + 1 }];
  }

  /** The edit that was on its way was done. */
  raised() {
    this.#value += 1;
    this.#edit = null;
  }

  /**
   * An edit was not done, and the counter stands as it did.
   * @param {Edit} edit
   */
  kept(edit) {
    if (this.#edit === edit) this.#edit = null;
  }

  /**
   * The counter after an edit is not known: the next edit has another one.
   * @param {Edit} edit
   */
  lost(edit) {
    if (this.#edit === edit) this.#edit = this.#epoch = null;
  }
}

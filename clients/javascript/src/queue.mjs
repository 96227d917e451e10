// Edits that wait for a connection: which are taken while there is none, and where they are kept
// beyond this page.
import { parsed } from "./json.mjs";

/**
 * @typedef {import("./edit.mjs").Edit} Edit
 * @typedef {{ patch: any[], base?: number, epoch: number | null, once?: boolean }} Kept
 */

export class Queue {
  #mode;
  #storage;
  #key;

  /**
   * @param {"guarded" | "all"} [mode]
   * @param {import("../relay.js").Store | null} [storage]
   * @param {string} [key]
   */
  constructor(mode = "all", storage = null, key = "") {
    if (mode !== "all" && mode !== "guarded") throw new RangeError(`no queue: ${mode}`);
    this.#mode = mode;
    this.#storage = storage;
    this.#key = key;
  }

  /**
   * True if an edit may wait for the connection to come back.
   * @param {Edit} edit
   */
  takes(edit) {
    return this.#mode === "all" || edit.isGuarded;
  }

  /** @param {readonly { kept?: Kept }[]} asked What waits now. */
  keep(asked) {
    const storage = this.#storage;
    if (storage === null) return;
    const waiting = asked.flatMap(({ kept }) => (kept === undefined ? [] : [kept]));
    if (waiting.length === 0) return storage.removeItem(this.#key);
    try {
      storage.setItem(this.#key, JSON.stringify(waiting));
    } catch (cause) {
      // What was kept before may be done by then, and would be sent once more.
      storage.removeItem(this.#key);
      console.warn("relay: edits that wait for the connection end with this page:", cause);
    }
  }

  /**
   * The edits that an earlier page left, in its order. What no page leaves, as another program may,
   * is nothing.
   * @returns {Kept[]}
   */
  left() {
    const left = parsed(this.#storage?.getItem(this.#key) ?? "");
    return Array.isArray(left) ? left.filter((kept) => Array.isArray(kept?.patch)) : [];
  }
}

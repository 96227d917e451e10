// The edits that this client did and can take back, and those that it took back and can do again.

/** @typedef {import("./inverse.mjs").Inverse} Inverse */
/** @typedef {"edit" | "undo" | "redo"} Role */

// Older ones are forgotten.
const KEPT = 100;

export class History {
  /** @type {Inverse[]} */
  #undo = [];
  /** @type {Inverse[]} */
  #redo = [];

  get undoable() {
    return this.#undo.length;
  }

  get redoable() {
    return this.#redo.length;
  }

  /**
   * Records what takes back an edit that was done.
   * @param {Role} role Why it was made.
   * @param {Inverse} inverse
   */
  record(role, inverse) {
    const list = role === "undo" ? this.#redo : this.#undo;
    if (role === "edit") this.#redo = [];
    list.push(inverse);
    if (list.length > KEPT) list.shift();
  }

  /**
   * The newest one, which is there no more.
   * @param {"undo" | "redo"} role
   */
  take(role) {
    return (role === "undo" ? this.#undo : this.#redo).pop() ?? null;
  }

  forget() {
    this.#undo = [];
    this.#redo = [];
  }
}

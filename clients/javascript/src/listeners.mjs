// Functions that are told of something. Whoever changes something while others are told is heard
// after them, so all hear it in one order.

/** @template T */
export class Listeners {
  /** @type {Set<(told: T) => void>} */
  #all = new Set();
  /** @type {T[]} */
  #untold = [];
  #telling = false;

  /** @param {(told: T) => void} listener Gives its end. */
  add(listener) {
    // The same function may be told twice.
    const own = (/** @type {T} */ told) => listener(told);
    this.#all.add(own);
    return () => {
      this.#all.delete(own);
    };
  }

  /** @param {T} told */
  tell(told) {
    this.#untold.push(told);
    if (this.#telling) return;
    this.#telling = true;
    /** @type {unknown[]} */
    const thrown = [];
    while (this.#untold.length > 0) this.#each(/** @type {T} */ (this.#untold.shift()), thrown);
    this.#telling = false;
    if (thrown.length > 0) throw thrown[0];
  }

  /** @param {T} told @param {unknown[]} thrown */
  #each(told, thrown) {
    for (const listener of [...this.#all]) {
      if (!this.#all.has(listener)) continue;
      try {
        listener(told);
      } catch (error) {
        thrown.push(error);
      }
    }
  }
}

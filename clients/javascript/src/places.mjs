// The places of a board or a view. Each is made once, so that a component which asks for one each
// time it is drawn is given the same one. They are held weakly: one that nobody holds or listens to
// is forgotten, and made anew when it is asked for again.
import { Place } from "./place.mjs";

/** @typedef {import("../relay.js").Shown} Shown */

export class Places {
  /** @type {Map<string, WeakRef<Place>>} */
  #made = new Map();
  /** @type {FinalizationRegistry<string>} */
  #forgotten = new FinalizationRegistry((key) => {
    // Another one may have been made under the same key.
    if (this.#made.get(key)?.deref() === undefined) this.#made.delete(key);
  });
  #make;

  /** @param {(shown: Shown) => Place} make */
  constructor(make) {
    this.#make = make;
  }

  /** @param {Shown} shown */
  at(shown) {
    const key = JSON.stringify(shown);
    const made = this.#made.get(key)?.deref();
    if (made !== undefined) return made;
    const place = this.#make(shown);
    this.#made.set(key, new WeakRef(place));
    this.#forgotten.register(place, key);
    return place;
  }
}

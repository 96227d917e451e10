// This client's edits that the slots do not show yet, and the slots with those of them laid over
// that are to show at once.
import { afterAll, knownBy, slotsOf } from "./known.mjs";
import { touches } from "./touch.mjs";
import { inverse } from "./inverse.mjs";

/**
 * @typedef {import("./known.mjs").Part} Part
 * @typedef {import("./inverse.mjs").Inverse} Inverse
 * @typedef {import("./follower.mjs").Held} Held
 * @typedef {import("./follower.mjs").Slot} Slot
 * @typedef {import("../relay.js").Operation} Operation
 *
 * @typedef {{
 *   patch: Operation[],
 *   optimistic: boolean,
 *   silent: boolean,
 *   rev: number | null,
 *   epoch: number | null,
 *   left: (inverse: Inverse | null) => void,
 *   laid?: { below: Part, slots: readonly Slot[], whole: Part, shown: readonly Slot[] },
 * }} Unconfirmed
 * An edit, in the order in which they were made; `rev` and `epoch` are of its `done`, and `left` is
 * told when the slots show it. Of a silent one that is taken back the application is told nothing:
 * the client made it by itself.
 */

export class Overlay {
  /** @type {Unconfirmed[]} */
  #edits = [];
  /** @type {{ slots: readonly Slot[] | null, whole: Part } | null} */
  #base = null; // what the slots that the relay showed tell, made once for each

  /** The number of edits that are laid over. */
  get pending() {
    return this.#edits.filter(({ optimistic }) => optimistic).length;
  }

  get isEmpty() {
    return this.#edits.length === 0;
  }

  /** @param {Unconfirmed} edit */
  add(edit) {
    this.#edits.push(edit);
  }

  /**
   * It was refused, or may not have been done.
   * @param {Unconfirmed} edit Gives whether it was there.
   */
  drop(edit) {
    const there = this.#edits.includes(edit);
    this.#edits = this.#edits.filter((other) => other !== edit);
    return there;
  }

  /** The slots of the relay are those of the room's revision: they show whatever was done. */
  settleAll(/** @type {Held} */ held) {
    this.#leave(held, () => true);
  }

  /**
   * Other slots came: drops what they show, what was done in an earlier run than theirs, and what
   * left no trace.
   * @param {Held} before
   * @param {Held} held
   */
  settle(before, held) {
    this.#leave(
      before,
      ({ rev, epoch }) => epoch !== held.epoch || Number(rev) <= (held.rev ?? -1),
    );
    this.settleTraceless(held);
  }

  /**
   * Drops what was done and will not show. The slots may still be of an earlier run: then other
   * ones come.
   * @param {Held} held
   */
  settleTraceless(held) {
    this.#leave(held, (edit) => edit.epoch === held.epoch && !this.#willShow(edit, held));
  }

  /** @param {Held} held @returns {readonly Slot[] | null} */
  shown(held) {
    if (held.slots === null) return null;
    const start = { whole: this.#known(held), shown: held.slots };
    return this.#edits
      .filter(({ optimistic }) => optimistic)
      .reduce((below, edit) => over(below, edit, held), start)
      .shown;
  }

  /** @param {Held} held */
  #known({ view, slots }) {
    if (this.#base?.slots !== slots) this.#base = { slots, whole: knownBy(view, slots ?? []) };
    return /** @type {{ whole: Part }} */ (this.#base).whole;
  }

  // True if a patch will come for an edit that was done: of one that only might touch a slot none
  // may ever come.
  /** @param {Unconfirmed} edit @param {Held} held */
  #willShow(edit, held) {
    if (held.slots === null || edit.rev === null || edit.rev <= (held.rev ?? -1)) return false;
    const earlier = this.#edits
      .slice(0, this.#edits.indexOf(edit))
      .filter(({ rev }) => rev !== null);
    try {
      return touches(folded(this.#known(held), earlier), edit.patch, held.view);
    } catch {
      // It was done, and does not fit the slots: so they are behind, and what brings them on is on
      // its way.
      return true;
    }
  }

  // Of those that were done.
  /**
   * @param {Held} before The slots that do not show them yet.
   * @param {(edit: Unconfirmed) => boolean} leaves
   */
  #leave(before, leaves) {
    const edits = this.#edits.filter((edit) => edit.rev !== null && leaves(edit));
    if (edits.length === 0) return;
    this.#edits = this.#edits.filter((edit) => !edits.includes(edit));
    let whole = knownBy(before.view, before.slots ?? []);
    for (const edit of edits) {
      // Of an edit of another run nothing can be undone.
      edit.left(edit.epoch === before.epoch ? inverse(whole, edit.patch) : null);
      whole = folded(whole, [edit]);
    }
  }
}

// A patch is done whole or not at all, so an edit of which an operation is known not to fit shows
// nothing.
/** @param {Part} whole @param {readonly Unconfirmed[]} edits */
function folded(whole, edits) {
  return edits.reduce((below, { patch }) => {
    try {
      return afterAll(below, patch);
    } catch {
      return below;
    }
  }, whole);
}

// An edit that was laid over the same once is not laid again, so slots stay the same values where
// nothing changed.
/**
 * @param {{ whole: Part, shown: readonly Slot[] }} below
 * @param {Unconfirmed} edit
 * @param {Held} held
 */
function over(below, edit, held) {
  if (edit.laid?.below !== below.whole || edit.laid.slots !== below.shown) {
    const whole = folded(below.whole, [edit]);
    const shown = whole === below.whole ? below.shown : slotsOf(whole, held.view, below.shown);
    edit.laid = { below: below.whole, slots: below.shown, whole, shown };
  }
  return edit.laid;
}

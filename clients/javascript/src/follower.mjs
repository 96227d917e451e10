// The slots of a view as the relay shows them, kept right over lost connections and restarts
// (docs/PROTOCOL.md, "What a client does").
import { Closed, Refused, Superseded } from "./errors.mjs";
import { applied } from "./known.mjs";
import { checked, frozen, same } from "./json.mjs";

/**
 * @typedef {import("./link.mjs").Link} Link
 * @typedef {import("../relay.js").Shown} Shown
 * @typedef {import("../relay.js").Operation} Operation
 * @typedef {readonly [] | readonly [any]} Slot
 * @typedef {{ number: number, view: readonly Shown[] }} Wanted
 * @typedef {Wanted & {
 *   slots: readonly Slot[] | null,
 *   rev: number | null,
 *   epoch: number | null,
 * }} Held
 * @typedef {{
 *   number: number,
 *   only: readonly Shown[] | null,
 *   resolve: (slots: any) => void,
 *   reject: (cause: Error) => void,
 * }} Waiter
 * Waits for the slots of a view, or of any that was asked for later; `only` for those of that one.
 * @typedef {{
 *   took: (before: Held, patch: Operation[] | null) => void,
 *   slots: () => readonly Slot[] | null,
 *   present: () => void,
 *   refused: (cause: Refused) => void,
 * }} Hearer
 */

export class Follower {
  #link;
  #on;
  /** @type {Wanted} */
  #wanted; // the view that was asked for last, by the number of its asking
  /** @type {Wanted | null} */
  #taken = null; // the view that the newest `watching` or `resumed` of this connection is about
  /** @type {Held} */
  #held = { number: -1, view: [], slots: null, rev: null, epoch: null };
  /** @type {Waiter[]} */
  #waiters = [];
  /** @type {Error | null} */
  #ended = null;

  /** @param {readonly Shown[]} view @param {Link} link @param {Hearer} on */
  constructor(view, link, on) {
    this.#link = link;
    this.#on = on;
    this.#wanted = { number: 0, view: checked(view) };
  }

  get held() {
    return this.#held;
  }

  /** The view that is wanted, anew: its slots are of the room's revision. */
  watchAgain() {
    return this.#watch(this.#wanted.view, null);
  }

  /**
   * The slots of this view: `Superseded` where those of another one come in their place.
   * @param {readonly Shown[]} view
   */
  watch(view) {
    const only = checked(view);
    return this.#watch(only, only);
  }

  /**
   * The slots of this view, or of one that is asked for later.
   * @param {readonly Shown[]} view
   */
  watchOrLater(view) {
    return this.#watch(checked(view), null);
  }

  /** The slots of the view that was asked for last, or of a later one. */
  shown() {
    return this.#shown(null);
  }

  /** @param {readonly Shown[]} view @param {readonly Shown[] | null} only */
  #watch(view, only) {
    this.#wanted = { number: this.#wanted.number + 1, view };
    const shown = this.#shown(only);
    if (this.#link.welcome !== null) this.#link.ask(this.#watching());
    return shown;
  }

  /**
   * @param {readonly Shown[] | null} only
   * @returns {Promise<any>}
   */
  #shown(only) {
    const { number } = this.#wanted;
    return new Promise((resolve, reject) => {
      if (this.#ended !== null) reject(this.#ended);
      else this.#waiters.push({ number, only, resolve, reject });
    });
  }

  /**
   * The first request of a connection goes on where the slots are, if they are those of the view
   * that is wanted.
   */
  entered() {
    this.#taken = null;
    this.#link.askFirst(
      this.#held.number === this.#wanted.number ? this.#resuming() : this.#watching(),
    );
  }

  /** @param {any} message A snapshot or a patch. */
  told(message) {
    if (message.kind === "patch") this.#follow(message);
    else if (Array.isArray(message.view) && message.view.length === this.#taken?.view.length) {
      this.#take(message.rev, frozen(message.view), null);
    } else this.astray();
  }

  /**
   * Asks for the slots anew, by a connection that has nothing to resume: what is held may be wrong.
   */
  astray() {
    this.#held = { ...this.#held, number: -1 };
    this.#link.renew();
  }

  /** @param {Error | null} cause */
  end(cause) {
    this.#ended = cause ?? new Closed();
    for (const waiter of this.#waiters.splice(0)) waiter.reject(this.#ended);
  }

  #watching() {
    const wanted = this.#wanted;
    const answered = (/** @type {any} */ reply) => {
      if (reply.kind === "watching") this.#taken = wanted;
      else this.#refuse(wanted, reply);
    };
    return { request: { do: "watch", view: wanted.view }, answered };
  }

  #resuming() {
    const { number, view, rev, epoch } = this.#held;
    const answered = (/** @type {any} */ reply) => {
      // `future`: an epoch was given to two runs, and what is held is of the other one.
      if (reply.kind !== "resumed") return this.#link.ask(this.#watching());
      this.#taken = { number, view };
      if (reply.how === "nothing") this.#on.present();
    };
    return { request: { do: "resume", epoch, rev, view }, answered };
  }

  // A view that the relay does not take: the one before it stays. Without any there is nothing to
  // be had.
  /** @param {Wanted} wanted @param {any} reply */
  #refuse({ number }, reply) {
    const refused = new Refused(reply);
    for (const waiter of this.#leaving((asked) => asked === number)) waiter.reject(refused);
    if (this.#wanted.number !== number) return;
    if (this.#held.slots === null) return this.#on.refused(refused);
    this.#wanted = this.#taken ?? this.#held;
    if (this.#taken === null) this.#link.ask(this.#watching());
  }

  /** @param {{ rev: number, patch: Operation[] }} message */
  #follow({ rev, patch }) {
    let slots = null;
    try {
      if (rev > (this.#held.rev ?? Infinity) && this.#taken?.number === this.#held.number) {
        slots = applied(this.#held.slots, patch);
      }
    } catch {
      // What is held is not what the patch was made for.
    }
    if (slots !== null) this.#take(rev, slots, patch);
    else this.astray();
  }

  /**
   * The waiters of some numbers, which wait no more.
   * @param {(number: number) => boolean} isOf
   */
  #leaving(isOf) {
    const leaving = this.#waiters.filter(({ number }) => isOf(number));
    this.#waiters = this.#waiters.filter(({ number }) => !isOf(number));
    return leaving;
  }

  /** @param {number} rev @param {readonly Slot[]} slots @param {Operation[] | null} patch */
  #take(rev, slots, patch) {
    const before = this.#held;
    const epoch = this.#link.welcome?.epoch ?? null;
    const seen = patch === null ? { .../** @type {Wanted} */ (this.#taken), epoch } : before;
    this.#held = { ...seen, slots, rev };
    const told = this.#leaving((asked) => asked <= this.#held.number);
    try {
      this.#on.took(before, patch);
    } finally {
      for (const { only, resolve, reject } of told) {
        if (only === null || same(only, this.#held.view)) resolve(this.#on.slots());
        else reject(new Superseded());
      }
    }
  }
}

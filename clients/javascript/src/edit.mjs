// An edit that was asked for, until its answer. Where its answer was lost, one with a base is sent
// to the same run of the relay again: revisions only rise, so of all edits with one base at most
// one is done. So is one with a counter, which tests that and raises it (once.mjs).
import { Closed, Refused, Unknown } from "./errors.mjs";

// The number of times that an edit is sent at most: one that ends its connection each time has to
// come to an end.
const SENDINGS = 5;

/**
 * @typedef {import("../relay.js").Operation} Operation
 * @typedef {import("./once.mjs").Counter} Counter
 * @typedef {{ epoch: number, rev: number }} Welcome
 * @typedef {import("./overlay.mjs").Unconfirmed} Unconfirmed
 * @typedef {{
 *   own: Unconfirmed,
 *   base?: number,
 *   epoch: number | null,
 *   counter: Counter | null,
 *   sets?: string,
 *   exchange: (later: Unconfirmed) => Promise<number>,
 * }} Asked
 * @typedef {{
 *   done: (rev: number, epoch: number) => void,
 *   doneBefore: (edit: Edit, epoch: number) => void,
 *   failed: (cause: Error) => void,
 *   again: (edit: Edit) => void,
 * }} Outcome
 * `doneBefore`: on a connection that was lost, at a revision that the relay did not tell. `again`:
 * it is to be sent before whatever waits.
 */

export class Edit {
  #own;
  #base;
  #counter;
  #epoch; // the run to which it belongs; null where the first connection decides
  #sendings = 0;
  #hasEnded = false;
  /** @type {Refused | null} */
  #refusal = null; // of its patch: from then on what is sent raises the counter alone
  #on;

  /** @param {Asked} asked @param {Outcome} on */
  constructor({ own, base, epoch, counter, sets, exchange }, on) {
    /** The place whose value it replaces, if it does no more and is sent once. */
    this.sets = base === undefined && counter === null ? sets : undefined;
    /** Has a later one that sets the same place be sent for it. Gives what becomes of that. */
    this.exchange = exchange;
    this.#own = own;
    this.#base = base;
    this.#epoch = epoch;
    this.#counter = counter;
    this.#on = on;
  }

  /** The message that is sent. */
  get request() {
    const own = this.#refusal ? [] : this.#own.patch;
    const patch = [...(this.#counter?.raise ?? []), ...own];
    return { do: "edit", base: this.#base, patch }; // without a base JSON leaves that out
  }

  /** The part of it that is kept while it waits, so that another board can send it. */
  get kept() {
    const once = this.#counter ? true : undefined;
    return { patch: this.#own.patch, base: this.#base, epoch: this.#epoch, once };
  }

  get #hasBase() {
    return this.#base !== undefined;
  }

  /** True if it does no harm when it is late: it has a base, or tests something first. */
  get isGuarded() {
    return this.#hasBase || this.#own.patch[0]?.op === "test";
  }

  /**
   * Returns what has to be sent before it: nothing (null), a request, or `WAITS`.
   * @param {Welcome} welcome
   */
  ahead(welcome) {
    return this.#hasEnded ? null : this.#counter?.ahead(this, welcome);
  }

  /**
   * Before each sending: whether it goes to that run. Else it has ended.
   * @param {Welcome} welcome
   */
  goesTo({ epoch, rev }) {
    if (this.#hasEnded) return false;
    const wasSent = this.#sendings > 0;
    this.#epoch = this.#hasBase || wasSent ? this.#epoch ?? epoch : epoch;
    const goes = this.#epoch === epoch;
    if (goes) this.#sendings += 1;
    else this.fail(wasSent ? new Unknown() : new Refused({ fault: "stale", rev }));
    return goes;
  }

  /** @param {any} reply */
  answered(reply) {
    if (reply.kind === "done") this.#done(reply.rev);
    else if (reply.fault === "stale" && this.#isResent) this.fail(new Unknown(reply.rev));
    else if (this.#counter === null || reply.at === null) this.fail(new Refused(reply));
    else this.#refused(reply, this.#counter);
  }

  get #isResent() {
    return this.#sendings > 1;
  }

  /** @param {number} rev */
  #done(rev) {
    this.#counter?.raised();
    if (this.#refusal !== null) return this.fail(this.#refusal);
    this.#hasEnded = true;
    this.#on.done(rev, Number(this.#epoch));
  }

  /** @param {{ fault: string, at: number }} reply @param {Counter} counter */
  #refused({ fault, at }, counter) {
    if (at === 0) return this.#counterDiffers(fault, counter);
    this.#refusal = new Refused({ fault, at: at - counter.raise.length });
    // What was sent before may still be read, and done, as long as the counter stands.
    if (this.#isResent) this.#on.again(this);
    else this.fail(this.#refusal);
  }

  /** @param {string} fault @param {Counter} counter */
  #counterDiffers(fault, counter) {
    if (this.#isResent && fault === "test-failed") {
      counter.raised();
      this.#on.doneBefore(this, Number(this.#epoch));
    } else if (this.#isResent) {
      this.fail(new Unknown());
    } else {
      // Somebody took it away, as who puts an earlier document into the room.
      counter.lost(this);
      this.#sendings = 0;
      this.#on.again(this);
    }
  }

  /** Its connection was lost: whether it is to be sent again. Else it has ended. */
  lost() {
    const again = (this.#hasBase || this.#counter !== null) && this.#sendings < SENDINGS;
    if (!again) this.fail(new Unknown());
    return again;
  }

  /** It has no answer any more. */
  dropped() {
    this.fail(this.#sendings > 0 ? new Unknown() : new Closed());
  }

  /** @param {Error} cause */
  fail(cause) {
    if (this.#hasEnded) return;
    this.#hasEnded = true;
    if (cause instanceof Unknown) this.#counter?.lost(this);
    else this.#counter?.kept(this);
    this.#on.failed(cause);
  }
}

// A room, as an application has it: the slots of a view, and edits.
import { Closed, Refused, Superseded } from "./errors.mjs";
import { Edit } from "./edit.mjs";
import { Follower } from "./follower.mjs";
import { History } from "./history.mjs";
import { fits } from "./inverse.mjs";
import { Link } from "./link.mjs";
import { Listeners } from "./listeners.mjs";
import { Overlay } from "./overlay.mjs";
import { Place, compareAndSet } from "./place.mjs";
import { Places } from "./places.mjs";
import { Counter } from "./once.mjs";
import { Queue } from "./queue.mjs";
import { wills } from "./will.mjs";
import { beginning } from "./begin.mjs";
import { change } from "./change.mjs";
import { checkFunction, checkOptions, checkPatch, checkView } from "./options.mjs";
import { checked } from "./json.mjs";
import { knownBy } from "./known.mjs";
import { warning } from "./warning.mjs";

/**
 * @typedef {import("../relay.js").Shown} Shown
 * @typedef {import("../relay.js").State} State
 * @typedef {import("../relay.js").Operation} Operation
 * @typedef {import("./follower.mjs").Held} Held
 * @typedef {import("./history.mjs").Role} Role
 * @typedef {import("./overlay.mjs").Unconfirmed} Unconfirmed
 */

// The number of times that an undo that has to be sure of an empty place tries.
const TRIES = 10;

const DEFAULTS = {
  firstWait: 200,
  longestWait: 10_000,
  quiet: 20_000,
  patience: 10_000,
};

export class Board {
  /** @type {Link} */
  #link;
  /** @type {Follower} */
  #follower;
  #overlay = new Overlay();
  #history = new History();
  #queue;
  /** @type {Listeners<any>} */
  #changes = new Listeners();
  /** @type {Listeners<State>} */
  #states = new Listeners();
  #options;
  /** @type {State} */
  #state = "connecting";
  #wasOpen = false;
  /** @type {any} */
  #shown = null;
  #places = new Places((shown) => new Place(this, this, shown));
  /** @type {Promise<unknown>} */
  #stepping = Promise.resolve(); // the undo or redo that was asked for last
  /** @type {(() => void)[]} */
  #quietWaiters = []; // told when no edit of this client waits to be shown
  /** @type {Set<Promise<void>>} */
  #said = new Set(); // the ends of what was asked for, and has not ended
  /** @type {WeakSet<Error>} */
  #toldOf = new WeakSet(); // causes that `onTakenBack` was told
  /** @type {Counter | null} */
  #counter;
  #will;

  /** @param {string} url @param {any} options */
  constructor(url, { view, begin = null, once = null, ...options }) {
    this.#options = {
      WebSocket: globalThis.WebSocket,
      onState: warning(),
      ...DEFAULTS,
      ...options,
    };
    this.#counter = once === null ? null : new Counter(once);
    if (options.onChange) this.#changes.add(options.onChange);
    const { readOnly } = options;
    const first =
      begin === null || readOnly ? null : beginning(begin, (cause) => this.#finish(cause));
    const address = readOnly ? url.replace(/\?|$/, "/watch$&") : url;
    this.#queue = new Queue(options.queue, options.storage, options.storageKey ?? address);
    this.#link = new Link(address, this.#options, {
      entered: () => {
        this.#follower.entered();
        if (first !== null) this.#link.askFirst(first);
      },
      told: (message) => this.#follower.told(message),
      astray: () => this.#follower.astray(),
      lost: (cause) => this.#enter("waiting", cause),
      refused: (cause) => this.#finish(cause),
      connecting: () => this.#enter("connecting", null),
      waiting: (asked) => this.#queue.keep(asked),
    });
    this.#will = wills(this.#link);
    this.#follower = new Follower(view, this.#link, {
      took: (before, patch) => this.#took(before, patch),
      slots: () => this.slots,
      present: () => this.#present(),
      refused: (cause) => this.#finish(cause),
    });
    /** The first slots. */
    this.ready = this.#follower.shown();
    this.ready.catch(NOTHING);
    this.subscribe = this.subscribe.bind(this);
    for (const { patch, ...seen } of this.#queue.left()) this.#editLeft(patch, seen);
    this.#link.connect();
  }

  /** The view whose slots these are. */
  get view() {
    return this.#follower.held.view;
  }

  /**
   * The slots that are shown: what the relay showed, with the optimistic edits that wait laid over
   * it.
   */
  get slots() {
    return this.#shown;
  }

  /** The slots as the relay showed them. */
  get confirmed() {
    return this.#follower.held.slots;
  }

  /** The number of optimistic edits that wait. */
  get pending() {
    return this.#overlay.pending;
  }

  get rev() {
    return this.#follower.held.rev;
  }

  get epoch() {
    return this.#follower.held.epoch;
  }

  get state() {
    return this.#state;
  }

  get undoable() {
    return this.#history.undoable;
  }

  get redoable() {
    return this.#history.redoable;
  }

  /** @param {(change: any) => void} listener Gives its end. */
  subscribe(listener) {
    return this.#changes.add(listener);
  }

  /**
   * For what this client keeps going by itself.
   * @param {(state: State) => void} listener Told of each new state. Gives its end.
   */
  states(listener) {
    return this.#states.add(listener);
  }

  /** @param {Shown} shown */
  at(shown) {
    return this.#places.at(shown);
  }

  /** @param {readonly Shown[]} view */
  watch(view) {
    checkView("watch", view);
    const shown = this.#follower.watch(view).catch((cause) => {
      // Whoever asked for another view need not look at what became of this one.
      if (cause instanceof Superseded) shown.catch(NOTHING);
      throw cause;
    });
    return shown;
  }

  /**
   * For what this client keeps going by itself: the slots of a view, or of a later one.
   * @param {readonly Shown[]} view
   */
  watchOrLater(view) {
    return this.#follower.watchOrLater(view);
  }

  /** The slots, once all that was said so far is answered and shown. */
  async sync() {
    await Promise.allSettled(this.#said);
    return this.watchAgain();
  }

  /** For what this client keeps going by itself: the slots, of the room's revision. */
  watchAgain() {
    return this.#follower.watchAgain();
  }

  /**
   * Asks for what makes edits: `sync` waits for it. Who only watches asks for nothing. Nobody here
   * looks at what it gives, so the platform reports a failure at which the application does not
   * look either.
   * @template T
   * @param {() => Promise<T>} ask
   * @returns {Promise<T>}
   */
  said(ask) {
    const asked = this.#options.readOnly
      ? Promise.reject(new Refused({ fault: "read-only" }))
      : ask();
    const ended = asked.then(NOTHING, NOTHING);
    this.#said.add(ended);
    ended.then(() => this.#said.delete(ended));
    const own = asked.catch((cause) => {
      // Whoever hears of what is taken back need not look at the promise as well.
      if (this.#toldOf.has(cause)) own.catch(NOTHING);
      throw cause;
    });
    return own;
  }

  /**
   * @param {readonly Operation[]} patch
   * @param {import("../relay.js").EditOptions} [options]
   * @returns {Promise<number>}
   */
  edit(patch, options = {}) {
    return this.said(() => this.#edit(patch, options, options?.undo === false ? null : "edit"));
  }

  /**
   * @param {(draft: any) => void} make
   * @param {import("../relay.js").ChangeOptions} [options]
   * @returns {Promise<number>}
   */
  change(make, options = {}) {
    return this.changePlace([], make, options);
  }

  /**
   * A change of what stands at a path.
   * @param {readonly string[]} path
   * @param {(draft: any) => void} make
   * @param {any} options
   */
  changePlace(path, make, options) {
    /** @param {import("./draft.mjs").Draft} draft */
    const drafted = (draft) => {
      checkFunction("change", make);
      made(make(draft.at(path)));
    };
    return this.said(() => change(this, drafted, options));
  }

  /**
   * Tells the application of an optimistic edit that is shown no more.
   * @param {Operation[]} patch
   * @param {unknown} cause
   */
  takenBack(patch, cause) {
    const { onTakenBack } = this.#options;
    if (!onTakenBack) return;
    if (cause instanceof Error) this.#toldOf.add(cause);
    onTakenBack({ patch, cause });
  }

  /**
   * The room has no document any more, if nobody edited since what is shown.
   * @returns {Promise<number>}
   */
  end() {
    return this.said(async () => {
      if (this.slots === null) await this.ready;
      return this.edit([{ op: "replace", path: "", value: null }], { base: this.rev });
    });
  }

  /**
   * Tells the relay what to do when this session ends.
   * @param {readonly Operation[]} patch
   * @param {unknown} [of] the part of a page that leaves it
   * @returns {Promise<void>}
   */
  will(patch, of = this) {
    return this.said(() => this.#will(patch, of));
  }

  undo() {
    return this.#step("undo");
  }

  redo() {
    return this.#step("redo");
  }

  close() {
    this.#finish(null);
  }

  // Edits.

  /**
   * @param {readonly Operation[]} patch @param {any} options @param {Role | null} role
   * @returns {Promise<number>}
   */
  #edit(patch, options, role) {
    /** @type {Unconfirmed["left"]} */
    const left = (inverse) => void (inverse && role && this.#history.record(role, inverse));
    const done = new Promise((resolve, reject) => {
      checkPatch("edit", patch);
      checkOptions("edit", options, EDIT, ["silent", "sets"]);
      const { base, epoch = this.epoch, optimistic = false, silent = false } = options;
      const { once = false, sets } = options;
      /** @type {Unconfirmed} */
      const own = { patch: checked(patch), optimistic, silent, rev: null, epoch: null, left };
      const counter = once ? this.#counterOf(base) : null;
      const exchange = (/** @type {Unconfirmed} */ later) => {
        Object.assign(own, later, { laid: undefined });
        this.#tell(null);
        return done;
      };
      const asked = { own, base: revision(base), epoch, counter, sets, exchange };
      const edit = new Edit(asked, this.#outcome(own, resolve, reject));
      if (this.#state === "closed") throw new Closed();
      if (this.#isAway && !this.#queue.takes(edit)) throw new Refused({ fault: "away" });
      const earlier = this.#link.exchange(edit.sets, own);
      if (earlier !== undefined) return resolve(earlier);
      this.#overlay.add(own);
      if (optimistic) this.#tell(null);
      this.#link.ask(edit);
    });
    return done;
  }

  /**
   * An edit that an earlier page left. Nobody has its promise, so the console says why it fails.
   * One that is not sent now either is still kept.
   * @param {readonly Operation[]} patch @param {object} seen
   */
  #editLeft(patch, seen) {
    this.edit(patch, { optimistic: true, ...seen }).catch((cause) => {
      if (cause instanceof Closed || this.#toldOf.has(cause)) return;
      console.warn(`relay: an edit that was left waiting is not done: ${cause.message}`);
    });
  }

  /**
   * The outcome of an edit.
   * @param {Unconfirmed} unconfirmed
   * @param {(rev: number) => void} resolve @param {(cause: Error) => void} reject
   * @returns {import("./edit.mjs").Outcome}
   */
  #outcome(unconfirmed, resolve, reject) {
    const done = (/** @type {number} */ rev, /** @type {number} */ epoch) => {
      Object.assign(unconfirmed, { rev, epoch });
      resolve(rev);
      this.#settled();
    };
    return {
      done,
      // The slots that come now are of its revision, or of a later one, and what takes it back is
      // not known.
      doneBefore: (edit, epoch) => {
        unconfirmed.left = NOTHING;
        this.watchAgain().then(() => done(Number(this.rev), epoch), () => edit.dropped());
      },
      failed: (cause) => {
        reject(cause);
        this.#failed(unconfirmed, cause);
      },
      again: (edit) => this.#link.askFirst(edit),
    };
  }

  /** @param {unknown} base */
  #counterOf(base) {
    if (this.#counter === null) throw new TypeError('say where a counter is, as `once: "/once"`');
    if (revision(base) !== undefined) throw new TypeError("an edit with a base is `once`");
    return this.#counter;
  }

  get #isAway() {
    return this.#wasOpen && this.#link.welcome === null;
  }

  #settled() {
    const { pending } = this;
    this.#overlay.settleTraceless(this.#follower.held);
    this.#becomeQuiet();
    if (this.pending !== pending) this.#tell(null);
  }

  /** @param {import("./overlay.mjs").Unconfirmed} edit @param {Error} cause */
  #failed(edit, cause) {
    const there = this.#overlay.drop(edit);
    this.#becomeQuiet();
    if (!there || !edit.optimistic) return;
    try {
      this.#tell(null);
    } finally {
      if (!edit.silent) this.takenBack(edit.patch, cause);
    }
  }

  // Undo and redo: one after the other, each when all edits before it are shown.

  /** @param {"undo" | "redo"} role @returns {Promise<number | null>} */
  #step(role) {
    return this.said(() => {
      const step = this.#stepping.then(async () => {
        await this.quiet();
        const inverse = this.#history.take(role);
        return inverse === null ? null : this.#takeBack(inverse, role);
      });
      this.#stepping = step.catch(NOTHING);
      return step;
    });
  }

  /**
   * @param {import("./inverse.mjs").Inverse} inverse
   * @param {Role} role
   * @returns {Promise<number>}
   */
  async #takeBack({ patch, putsBack }, role) {
    try {
      return await (
        putsBack ? this.#putBack(patch, role) : this.#edit(patch, { optimistic: true }, role)
      );
    } catch (error) {
      if (!(error instanceof Refused) || error.fault === "away") throw error;
      throw new Refused({ fault: "changed", at: error.at, rev: error.rev });
    }
  }

  // That nothing stands in a place no operation tests: it is seen here, and the base has it so
  // until the edit is done.
  /** @param {Operation[]} patch @param {Role} role */
  #putBack(patch, role) {
    const make = () => {
      if (!fits(knownBy(this.view, this.confirmed ?? []), patch)) {
        throw new Refused({ fault: "changed" });
      }
      return patch;
    };
    return compareAndSet(this, TRIES, make, (own, seen) =>
      this.#edit(own, { optimistic: true, ...seen }, role),
    );
  }

  /**
   * Once no edit of this client waits to be shown.
   * @returns {Promise<void>}
   */
  quiet() {
    return new Promise((resolve) => {
      this.#quietWaiters.push(resolve);
      this.#becomeQuiet();
    });
  }

  #becomeQuiet() {
    if (!this.#overlay.isEmpty) return;
    for (const resolve of this.#quietWaiters.splice(0)) resolve();
  }

  // What is shown.

  /** @param {Held} before @param {Operation[] | null} patch */
  #took(before, patch) {
    const { held } = this.#follower;
    // What this client did was done to a document that is not there any more.
    if (before.epoch !== null && before.epoch !== held.epoch) this.#history.forget();
    this.#overlay.settle(before, held);
    this.#becomeQuiet();
    this.#shown = this.#overlay.shown(held);
    this.#open(() => this.#tell(patch));
  }

  // After a loss nothing was missed.
  #present() {
    const { pending } = this;
    this.#overlay.settleAll(this.#follower.held);
    this.#becomeQuiet();
    this.#open(() => this.pending !== pending && this.#tell(null));
  }

  /** @param {() => void} tell also where `onState` throws */
  #open(tell) {
    try {
      this.#enter("open", null);
    } finally {
      tell();
    }
  }

  /** @param {Operation[] | null} patch */
  #tell(patch) {
    const { held } = this.#follower;
    if (held.slots === null) return;
    this.#shown = this.#overlay.shown(held);
    this.#changes.tell({
      slots: this.#shown,
      confirmed: held.slots,
      rev: held.rev,
      pending: this.pending,
      patch,
    });
  }

  /** @param {Error | null} cause */
  #finish(cause) {
    if (this.#state === "closed") return;
    this.#link.close();
    this.#follower.end(cause);
    this.#enter("closed", cause);
  }

  /** @param {State} state @param {Error | null} cause */
  #enter(state, cause) {
    if (this.#state === state) return;
    this.#state = state;
    if (state === "open") this.#wasOpen = true;
    try {
      this.#options.onState(state, cause);
    } finally {
      this.#states.tell(state);
    }
  }
}

const NOTHING = () => {};

const EDIT = ["base", "epoch", "optimistic", "undo", "once"];

// A function that goes on later would change a draft of which the patch was made.
/** @param {any} given by the function of a change */
function made(given) {
  if (typeof given?.then === "function") throw new TypeError("a change awaits nothing");
}

/**
 * None where there are no slots yet.
 * @param {unknown} base
 */
function revision(base) {
  if (base === undefined || base === null) return undefined;
  if (!Number.isSafeInteger(base) || Number(base) < 0) {
    throw new TypeError(`a base is a revision, not ${base}`);
  }
  return Number(base);
}

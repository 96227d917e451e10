// Several views of one room over as few connections as they need: each part of a page watches what
// it shows, and knows of no other part.
import { Board } from "./board.mjs";
import { Place } from "./place.mjs";
import { Places } from "./places.mjs";
import { pathOf } from "./known.mjs";
import { checkView } from "./options.mjs";
import { same } from "./json.mjs";

/** @typedef {import("../relay.js").Shown} Shown */
/** @typedef {import("../relay.js").State} State */

// The relay takes no more slots in a view.
const SLOTS = 16;

export class Room {
  #url;
  #options;
  /** @type {Shared[]} */
  #boards = [];

  /** @param {string} url @param {any} options */
  constructor(url, { onConnections = () => {}, ...options } = {}) {
    this.#url = url;
    this.#options = { ...options, onConnections };
  }

  /** The number of connections that the views take: one, until they have more than 16 slots. */
  get connections() {
    return this.#boards.length;
  }

  /** @param {readonly Shown[]} pointers */
  view(pointers) {
    checkView("view", pointers);
    if (pointers.length > SLOTS) throw new RangeError(`a view has at most ${SLOTS} slots`);
    pointers.forEach(pathOf);
    const shared =
      this.#boards.find((board) => board.hasPlaceFor(pointers)) ?? this.#another(pointers);
    return new SharedBoard(shared, [...pointers]);
  }

  close() {
    for (const { board } of this.#boards) board.close();
    this.#boards = [];
  }

  /** @param {readonly Shown[]} view */
  #another(view) {
    const { onConnections, ...options } = this.#options;
    const shared = new Shared(new Board(this.#url, { ...options, view: distinct(view) }), view);
    this.#boards.push(shared);
    onConnections(this.#boards.length);
    return shared;
  }
}

// A board whose view is what all its views show.
class Shared {
  /** @type {readonly Shown[]} */
  #wanted;
  /** @type {Promise<unknown>} */
  #shown; // of what is wanted
  /** @type {Map<SharedBoard, readonly Shown[]>} */
  #views = new Map();

  /** @param {Board} board @param {readonly Shown[]} view */
  constructor(board, view) {
    this.board = board;
    this.#wanted = distinct(view);
    this.#shown = board.ready;
  }

  /** @param {readonly Shown[]} pointers */
  hasPlaceFor(pointers) {
    return this.#with(pointers).length <= SLOTS;
  }

  /** @param {SharedBoard} view @param {readonly Shown[]} pointers @returns {Promise<unknown>} */
  join(view, pointers) {
    const wanted = this.#with(pointers);
    this.#views.set(view, pointers);
    if (
      wanted.length !== this.#wanted.length ||
      !wanted.every((shown, k) => same(shown, this.#wanted[k]))
    ) {
      this.#shown = this.board.watchOrLater(wanted);
    }
    this.#wanted = wanted;
    return this.#shown;
  }

  /** @param {SharedBoard} view */
  leave(view) {
    this.#views.delete(view);
  }

  // Pointers that nobody shows any more are watched as long as there is room for it, so that no
  // slots are asked for anew.
  /** @param {readonly Shown[]} pointers */
  #with(pointers) {
    const shown = distinct([...this.#views.values(), pointers].flat());
    const both = distinct([...this.#wanted, ...shown]);
    return both.length <= SLOTS ? both : shown;
  }
}

/** @param {readonly Shown[]} all */
function distinct(all) {
  return all.filter((shown, k) => all.findIndex((other) => same(other, shown)) === k);
}

// The slots that one part of a page shows. Its edits, and what of them waits or is undone, are
// those of its connection.
class SharedBoard {
  #shared;
  #pointers;
  /** @type {{ slots: unknown, own: any }} */
  #seen = { slots: undefined, own: null };
  #places;

  /** @param {Shared} shared @param {readonly Shown[]} pointers */
  constructor(shared, pointers) {
    this.#shared = shared;
    this.#pointers = pointers;
    this.#places = new Places((shown) => new Place(this, shared.board, shown));
    this.ready = shared.join(this, pointers).then(() => this.slots);
    this.ready.catch(() => {});
    this.subscribe = this.subscribe.bind(this);
  }

  get view() {
    return this.#pointers;
  }

  /** One slot for each pointer; null until they are there. */
  get slots() {
    const { slots } = this.#shared.board;
    if (this.#seen.slots !== slots) {
      const own = this.#own(slots);
      this.#seen = { slots, own: own && this.#stable(own) };
    }
    return this.#seen.own;
  }

  /** The slots as the relay showed them. */
  get confirmed() {
    return this.#own(this.#shared.board.confirmed);
  }

  get rev() {
    return this.#shared.board.rev;
  }

  get epoch() {
    return this.#shared.board.epoch;
  }

  get state() {
    return this.#shared.board.state;
  }

  get pending() {
    return this.#shared.board.pending;
  }

  get undoable() {
    return this.#shared.board.undoable;
  }

  get redoable() {
    return this.#shared.board.redoable;
  }

  // Of the board's slots those of this view; null until the board shows all of them.
  /** @param {any} slots @returns {any} */
  #own(slots) {
    const { view } = this.#shared.board;
    const own =
      slots &&
      this.#pointers.map(
        (shown) => slots[view.findIndex((/** @type {Shown} */ other) => same(other, shown))],
      );
    return own === null || own.includes(undefined) ? null : Object.freeze(own);
  }

  // The same list as before where no slot of this view changed.
  /** @param {readonly unknown[]} own */
  #stable(own) {
    const before = this.#seen.own;
    return before !== null && own.every((slot, k) => slot === before[k]) ? before : own;
  }

  /** @param {(change: any) => void} listener Told of each change of these slots. Gives its end. */
  subscribe(listener) {
    let last = { slots: this.slots, pending: this.pending };
    return this.#shared.board.subscribe(({ rev, pending }) => {
      const { slots, confirmed } = this;
      if (slots === null || (slots === last.slots && pending === last.pending)) return;
      last = { slots, pending };
      listener({ slots, confirmed, rev, pending, patch: null });
    });
  }

  /** @param {(state: State) => void} listener Told of each new state. Gives its end. */
  states(listener) {
    return this.#shared.board.states(listener);
  }

  /** @param {Shown} shown */
  at(shown) {
    return this.#places.at(shown);
  }

  /** @param {readonly import("../relay.js").Operation[]} patch @param {any} [options] */
  edit(patch, options) {
    return this.#shared.board.edit(patch, options);
  }

  /** @param {(draft: any) => void} make @param {any} [options] */
  change(make, options) {
    return this.#shared.board.change(make, options);
  }

  end() {
    return this.#shared.board.end();
  }

  /** @param {readonly import("../relay.js").Operation[]} patch @param {unknown} [of] */
  will(patch, of = this) {
    return this.#shared.board.will(patch, of);
  }

  undo() {
    return this.#shared.board.undo();
  }

  redo() {
    return this.#shared.board.redo();
  }

  async sync() {
    await this.#shared.board.sync();
    return this.slots;
  }

  close() {
    this.#shared.leave(this);
  }
}

// A client's knowledge of the document by its slots, and of the documents to which its own patches
// lead: some values are known, some places are known to be empty, and of the rest nothing is known.
// What an operation means to a slot (docs/PROTOCOL.md, "What a change means to a slot") follows:
// the operation is done on what is known, and the slots are read again.
import { index, tokens } from "./pointer.mjs";
import { frozen, isContainer, same } from "./json.mjs";
import { Misfit, Owned, added, checkMove, has, removed, replaced } from "./patch.mjs";

/**
 * A part of the document: a value; nothing (`absent`); unknown; or a container of which only some
 * children, or the size, are known.
 *
 * @typedef {{ is: "value", value: any } | { is: "absent" } | { is: "unknown" } | Container} Part
 * @typedef {{ is: "container", children: Map<string, Part>, size: number | null }} Container
 * @typedef {import("../relay.js").Shown} Shown
 * @typedef {import("../relay.js").Operation} Operation
 * @typedef {readonly unknown[]} Slot
 */

/** @type {{ is: "unknown" }} */
const UNKNOWN = { is: "unknown" };
/** @type {{ is: "absent" }} */
const ABSENT = { is: "absent" };

/** @param {any} value @returns {{ is: "value", value: any }} */
const known = (value) => ({ is: "value", value });

/** @param {Shown} shown */
export function pathOf(shown) {
  return tokens(typeof shown === "string" ? shown : shown.size);
}

/**
 * Returns what slots tell of their document.
 * @param {readonly Shown[]} view
 * @param {readonly Slot[]} slots
 */
export function knownBy(view, slots) {
  const told = view.map((shown, k) => ({
    path: pathOf(shown),
    value: typeof shown === "string",
    slot: slots[k],
  }));
  // What an outer slot shows stands first, and values before sizes: what lies within a known value
  // tells nothing new.
  told.sort(
    (one, other) => one.path.length - other.path.length || Number(other.value) - Number(one.value),
  );
  return told.reduce(tell, UNKNOWN);
}

/** @param {Part} whole @param {{ path: string[], value: boolean, slot: Slot }} told */
function tell(whole, { path, value, slot }) {
  const before = read(whole, path);
  if (before.is === "value" || before.is === "absent") return whole;
  if (value) return laid(whole, path, () => (slot.length === 0 ? ABSENT : known(slot[0])));
  if (slot.length === 0) return whole;
  return laid(whole, path, (part) => ({ ...container(part), size: Number(slot[0]) }));
}

/** @param {Part} part @returns {Container} */
function container(part) {
  return part.is === "container" ? part : { is: "container", children: new Map(), size: null };
}

/** @param {Part} part @param {string} token @returns {Part} */
export function child(part, token) {
  if (part.is === "value") return has(part.value, token) ? known(part.value[token]) : ABSENT;
  if (part.is === "container") return part.children.get(token) ?? UNKNOWN;
  return part;
}

/** @param {Part} whole @param {readonly string[]} path */
export function read(whole, path) {
  return path.reduce(child, whole);
}

/**
 * Another part in a place, where nothing moves.
 * @param {Part} whole
 * @param {readonly string[]} path
 * @param {(part: Part) => Part} change
 * @returns {Part}
 */
function laid(whole, path, change) {
  if (path.length === 0) return change(whole);
  const [token, ...rest] = path;
  const { children, size } = container(whole);
  return {
    is: "container",
    children: new Map(children).set(token, laid(child(whole, token), rest, change)),
    size,
  };
}

/**
 * True if a part is a list, or null where that is not known.
 * @param {Part} part
 * @returns {boolean | null}
 */
function isList(part) {
  if (part.is === "value") return Array.isArray(part.value);
  if (part.is !== "container") return null;
  return [...part.children].some(([token, child]) => index(token) === null && isThere(child))
    ? false
    : null;
}

/**
 * True if a part is known to be there. A container of which only absent children are known may be
 * absent itself.
 * @param {Part} part
 * @returns {boolean}
 */
function isThere(part) {
  if (part.is === "container") {
    return part.size !== null || [...part.children.values()].some(isThere);
  }
  return part.is === "value";
}

/**
 * True if a part is known to have more behind an index, if it is a list.
 * @param {Part} part
 * @param {number} at
 */
export function goesOn(part, at) {
  if (part.is !== "container") return false;
  return (
    (part.size ?? 0) > at + 1 ||
    [...part.children].some(([token, child]) => (index(token) ?? 0) > at && isThere(child))
  );
}

/**
 * The place that a path names: the part that holds it, whether that is a list, and the index there;
 * null where that is not known.
 * @param {Part} whole
 * @param {readonly string[]} path
 */
export function placeOf(whole, path) {
  const [token] = path.slice(-1);
  if (token === undefined) return { path, holder: null, list: false, at: null };
  const holder = read(whole, path.slice(0, -1));
  const list = index(token) === null && token !== "-" ? false : isList(holder);
  const end = holder.is === "value" && list ? holder.value.length : null;
  const at = list === false ? null : token === "-" ? end : index(token);
  const canonical = list && at !== null ? [...path.slice(0, -1), String(at)] : path;
  return { path: canonical, holder, list, at };
}

/**
 * Returns what is known after one operation. Fails with `Misfit` where it is known to be refused.
 * @param {Part} whole
 * @param {Operation} operation
 */
export function after(whole, operation) {
  return afterAll(whole, [operation]);
}

/**
 * The same after a patch. Nobody can write to the values that are new.
 * @param {Part} whole @param {readonly Operation[]} patch
 */
export function afterAll(whole, patch) {
  const draft = new Draft(whole);
  for (const operation of patch) draft.do(operation);
  draft.freeze();
  return draft.whole;
}

/**
 * A value after a patch. Fails with `Misfit` where an operation does not fit.
 * @param {any} value
 * @param {readonly Operation[]} patch
 * @returns {any}
 */
export function applied(value, patch) {
  return /** @type {any} */ (afterAll(known(value), patch)).value;
}

/**
 * Holds what is known while a patch is done, operation by operation, on values that the draft alone
 * has: so it copies each container once.
 */
export class Draft {
  #owned = new Owned();

  /** @param {Part} whole */
  constructor(whole) {
    this.whole = whole;
  }

  /**
   * The value at a path, which no later operation writes to; undefined where it is not known.
   * @param {readonly string[]} path
   */
  kept(path) {
    const part = read(this.whole, path);
    if (part.is !== "value") return undefined;
    this.#owned.share(part.value);
    return part.value;
  }

  /**
   * Fails with `Misfit` where the operation is known to be refused.
   * @param {Operation} operation
   * @param {() => void} [puts] told before something is added, copied or moved to a place; of a
   *   move, when it was taken from where it was
   */
  do(operation, puts = () => {}) {
    const path = tokens(operation.path);
    switch (operation.op) {
      case "add":
        return this.#put(path, known(frozen(operation.value)), puts);
      case "remove":
        return this.#take(path);
      case "replace":
        this.whole = exchanged(this.whole, path, known(frozen(operation.value)), this.#owned);
        return;
      case "test":
        return tested(this.whole, path, operation.value);
      case "copy":
        return this.#put(path, this.#shared(source(this.whole, tokens(operation.from))), puts);
      case "move":
        return this.#move(operation, puts);
      default:
        throw new TypeError(`no operation: ${/** @type {any} */ (operation).op}`);
    }
  }

  /** The patch has ended. */
  freeze() {
    this.#owned.freeze();
  }

  /** @param {readonly string[]} path @param {Part} part @param {() => void} puts */
  #put(path, part, puts) {
    puts();
    this.whole = put(this.whole, path, part, this.#owned);
  }

  /** @param {readonly string[]} path */
  #take(path) {
    this.whole = taken(this.whole, path, this.#owned);
  }

  /** @param {{ from: string, path: string }} operation @param {() => void} puts */
  #move(operation, puts) {
    const [from, path] = [tokens(operation.from), tokens(operation.path)];
    const moved = source(this.whole, from);
    if (operation.path === operation.from) return;
    checkMove(from, path);
    this.#take(from);
    this.#put(path, moved, puts);
  }

  /** @param {Part} part */
  #shared(part) {
    if (part.is === "value") this.#owned.share(part.value);
    if (part.is === "container") part.children.forEach((inner) => this.#shared(inner));
    return part;
  }
}

/** @param {Part} whole @param {readonly string[]} from */
function source(whole, from) {
  const part = read(whole, from);
  if (part.is === "absent") throw new Misfit();
  return part;
}

/** @param {Part} whole @param {readonly string[]} path @param {any} value */
function tested(whole, path, value) {
  const part = read(whole, path);
  if (part.is === "absent" || (part.is === "value" && !same(part.value, value))) throw new Misfit();
}

/** @param {Part} whole @param {readonly string[]} path @param {Part} part @param {Owned} owned */
function put(whole, path, part, owned) {
  return changed(whole, path, () => part, {
    inValue: (value, rest) =>
      part.is === "value" ? known(added(value, rest, part.value, owned)) : UNKNOWN,
    inContainer: (holder, token) => inserted(holder, token, part),
  });
}

/** @param {Part} whole @param {readonly string[]} path @param {Owned} owned */
function taken(whole, path, owned) {
  const atRoot = () => {
    throw new Misfit();
  };
  return changed(whole, path, atRoot, {
    inValue: (value, rest) => known(removed(value, rest, owned)),
    inContainer: dropped,
  });
}

/**
 * @param {Part} whole
 * @param {readonly string[]} path
 * @param {{ is: "value", value: any }} part
 * @param {Owned} owned
 */
function exchanged(whole, path, part, owned) {
  return changed(whole, path, () => part, {
    inValue: (value, rest) => known(replaced(value, rest, part.value, owned)),
    inContainer: (holder, token) => {
      if (child(holder, token).is === "absent") throw new Misfit();
      return { ...holder, children: new Map(holder.children).set(token, part) };
    },
  });
}

/**
 * Goes along a path to where a value is known, or to the container that holds the last token, and
 * changes that.
 * @param {Part} whole
 * @param {readonly string[]} path
 * @param {() => Part} atRoot
 * @param {{
 *   inValue: (value: any, rest: readonly string[]) => Part,
 *   inContainer: (holder: Container, token: string) => Part,
 * }} change
 * @returns {Part}
 */
function changed(whole, path, atRoot, change) {
  if (path.length === 0) return atRoot();
  if (whole.is === "absent") throw new Misfit();
  if (whole.is === "value") return change.inValue(whole.value, path);
  const [token, ...rest] = path;
  const holder = container(whole);
  if (rest.length === 0) return change.inContainer(holder, token);
  const part = changed(child(holder, token), rest, atRoot, change);
  return { ...holder, children: new Map(holder.children).set(token, part) };
}

// In a container that may be a list, what stands behind an insertion or a removal may have moved,
// and is not known any more.

/** @param {Container} holder @param {string} token @returns {Map<string, Part>} */
function unmoved({ children }, token) {
  const from = index(token);
  const stays = (/** @type {string} */ name, /** @type {Part} */ part) => {
    const at = index(name);
    return at === null || (from === null ? isThere(part) : at < from);
  };
  return new Map([...children].filter(([name, part]) => name !== "-" && stays(name, part)));
}

/** @param {Container} holder @param {string} token @param {Part} part @returns {Part} */
function inserted(holder, token, part) {
  const { list } = placeOf(holder, [token]);
  if (list !== false) {
    const children = unmoved(holder, token);
    return {
      is: "container",
      children: token === "-" ? children : children.set(token, part),
      size: null,
    };
  }
  const before = child(holder, token);
  const isKnown = before.is === "absent" || isThere(before);
  const size =
    holder.size === null || !isKnown ? null : holder.size + Number(before.is === "absent");
  return { is: "container", children: new Map(holder.children).set(token, part), size };
}

/** @param {Container} holder @param {string} token @returns {Part} */
function dropped(holder, token) {
  if (child(holder, token).is === "absent") throw new Misfit();
  const size = holder.size === null ? null : holder.size - 1;
  const { list } = placeOf(holder, [token]);
  // Nothing is removed at the end of a list: `-` is a member here.
  const children =
    list === false || token === "-"
      ? new Map(holder.children).set(token, ABSENT)
      : unmoved(holder, token);
  return { is: "container", children, size };
}

/**
 * The slots of a view, each as it was where it is not known what it shows.
 * @template {Slot} S
 * @param {Part} whole
 * @param {readonly Shown[]} view
 * @param {readonly S[]} before
 * @returns {S[]}
 */
export function slotsOf(whole, view, before) {
  const slots = view.map((shown, k) => {
    const slot = slotOf(whole, shown);
    const isKept = slot === null || equal(slot, before[k]);
    return /** @type {any} */ (isKept ? before[k] : Object.freeze(slot));
  });
  return /** @type {S[]} */ (Object.freeze(slots));
}

/** @param {Slot} one @param {Slot} other */
function equal(one, other) {
  return one.length === other.length && one[0] === other[0];
}

/**
 * Returns what one slot shows; null where that is not known.
 * @param {Part} whole
 * @param {Shown} shown
 * @returns {Slot | null}
 */
export function slotOf(whole, shown) {
  const part = read(whole, pathOf(shown));
  if (part.is === "absent") return [];
  if (part.is === "value") return typeof shown === "string" ? [part.value] : sizeOf(part.value);
  if (part.is === "container" && typeof shown !== "string" && part.size !== null) {
    return [part.size];
  }
  return null;
}

/** @param {any} value @returns {Slot} */
function sizeOf(value) {
  if (!isContainer(value)) return [];
  return [Array.isArray(value) ? value.length : Object.keys(value).length];
}

// Operations on a list of a draft. What hangs on the whole list, as its length, has it noted as
// seen; what hangs on one element, that one.
import { put } from "./node.mjs";

/**
 * @typedef {import("./node.mjs").Node} Node
 * @typedef {import("./draft.mjs").Draft} Draft
 */

/**
 * @param {Draft} draft
 * @param {Node} node
 * @returns {any}
 */
export function methods(draft, node) {
  const list = () => node.list;
  const all = () => draft.see(node);
  const taken = (/** @type {any[]} */ values) => values.map((value) => put(value, draft.nodeOf));
  /** @type {any} */
  const own = {
    length: () => (all(), list().length),
    at(/** @type {number} */ at) {
      const kid = list()[at < 0 ? own.length() + at : at];
      return kid === undefined ? void all() : draft.read(kid);
    },
    set(/** @type {number} */ at, /** @type {any} */ value) {
      if (at >= list().length) all();
      if (at > list().length) throw new RangeError("a list has no holes");
      replaceAt(draft, node, at, 1, taken([value]));
    },
    cut(/** @type {number} */ length) {
      if (length > own.length()) throw new RangeError("a list has no holes");
      replaceAt(draft, node, length, list().length - length, []);
    },
    push(/** @type {any[]} */ ...values) {
      const made = taken(values);
      draft.change(node);
      list().push(...made);
      for (const kid of made) draft.pushed.set(kid, node);
    },
    unshift: (/** @type {any[]} */ ...values) => void replaceAt(draft, node, 0, 0, taken(values)),
    pop() {
      const last = own.length() - 1;
      return last < 0 ? undefined : replaceAt(draft, node, last, 1, [])[0];
    },
    shift: () => (list().length === 0 ? void all() : replaceAt(draft, node, 0, 1, [])[0]),
    splice(/** @type {any[]} */ ...asked) {
      const [start, count] = span(asked, list().length, all);
      return replaceAt(draft, node, start, count, taken(asked.slice(2)));
    },
    /** Only who comes to the end knows how long it is. */
    *values() {
      for (let at = 0; at < list().length; at += 1) yield draft.read(list()[at]);
      all();
    },
    ...orders(draft, node),
    ...searches(() => own),
  };
  return own;
}

/** @param {Draft} draft @param {Node} node */
function orders(draft, node) {
  return {
    reverse: () => reordered(draft, node, (kids) => kids.reverse()),
    sort(/** @type {(one: any, other: any) => number} */ compare = byText) {
      const order = (/** @type {Node} */ one, /** @type {Node} */ other) =>
        compare(draft.of(one), draft.of(other));
      return reordered(draft, node, (kids) => kids.sort(order));
    },
  };
}

/** @param {any} one @param {any} other */
function byText(one, other) {
  return String(one) < String(other) ? -1 : Number(String(one) > String(other));
}

// These end where they find something, and hang on nothing behind it.
/** @param {() => any} own */
function searches(own) {
  /** @param {(value: any, at: number) => unknown} holds */
  const first = (holds) => {
    let at = 0;
    for (const value of own().values()) {
      if (holds(value, at)) return [at, value];
      at += 1;
    }
    return [-1, undefined];
  };
  return {
    find: (/** @type {any} */ holds) => first(holds)[1],
    findIndex: (/** @type {any} */ holds) => first(holds)[0],
    indexOf: (/** @type {any} */ wanted) => first((value) => value === wanted)[0],
    includes: (/** @type {any} */ wanted) => first((value) => value === wanted)[0] >= 0,
  };
}

/**
 * The index at which `splice` begins, and the number that it takes, as `Array` has it.
 * @param {any[]} asked
 * @param {number} length
 * @param {() => void} all
 */
function span(asked, length, all) {
  const from = Math.trunc(Number(asked[0] ?? 0)) || 0;
  const wanted = asked.length === 1 ? Infinity : Math.max(Math.trunc(Number(asked[1])) || 0, 0);
  if (from < 0 || from + wanted > length) all();
  const start = from < 0 ? Math.max(length + from, 0) : Math.min(from, length);
  return [start, asked.length === 0 ? 0 : Math.min(wanted, length - start)];
}

/**
 * @param {Draft} draft @param {Node} node
 * @param {number} start @param {number} count @param {Node[]} made
 * @returns {any[]} what was taken away
 */
function replaceAt(draft, node, start, count, made) {
  const { list } = node;
  draft.change(node);
  const taken = list.slice(start, start + count);
  for (const kid of taken) draft.address(kid);
  if (made.length > count) neighbour(draft, node, start, start + count);
  list.splice(start, count, ...made);
  for (const kid of made) draft.pushed.delete(kid);
  return taken.map((kid) => draft.of(kid));
}

// Elements that are put in are put in front of one or behind one, but at the start.
/** @param {Draft} draft @param {Node} node @param {number} start @param {number} end */
function neighbour(draft, node, start, end) {
  const { list } = node;
  if (start === 0) return;
  const behind = list.slice(end).find(({ origin }) => origin !== null);
  draft.address(behind ?? list.slice(0, start).reverse().find(({ origin }) => origin !== null));
}

/** @param {Draft} draft @param {Node} node @param {(kids: Node[]) => Node[]} order */
function reordered(draft, node, order) {
  draft.see(node);
  draft.change(node);
  node.kids = order([...node.list]);
  return draft.of(node);
}

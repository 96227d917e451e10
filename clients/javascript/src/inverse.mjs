// Takes a patch back, as far as the slots tell: each operation backwards, behind tests that nobody
// changed since what it did.
import { spelled, startsWith, tokens } from "./pointer.mjs";
import { Draft, placeOf, read } from "./known.mjs";
import { Misfit } from "./patch.mjs";

/**
 * @typedef {import("./known.mjs").Part} Part
 * @typedef {import("../relay.js").Operation} Operation
 * @typedef {{ patch: Operation[], putsBack: boolean }} Inverse
 * A patch, and whether it puts a member back: no operation tests that none is there.
 */

// An edit has no more operations.
const LONGEST = 64;

/**
 * @param {Part} whole What is known before the patch.
 * @param {readonly Operation[]} patch
 * @returns {Inverse | null} null where the slots do not tell enough, or nothing is to be taken
 *   back.
 */
export function inverse(whole, patch) {
  const draft = new Draft(whole);
  /** @type {Operation[]} */
  let back = [];
  try {
    back = patch.map((operation) => backwards(draft, operation)).reverse().flat();
    if (back.length === 0 || back.length > LONGEST) return null;
    const free = newMembers(draft.whole, back);
    return free.includes(false) ? null : { patch: back, putsBack: free.length > 0 };
  } catch {
    return null;
  }
}

/**
 * True if an inverse can be done, and puts no member where one may stand.
 * @param {Part} whole What is known before it.
 * @param {readonly Operation[]} patch
 */
export function fits(whole, patch) {
  try {
    return !newMembers(whole, patch).includes(false);
  } catch {
    return false;
  }
}

/**
 * Of each operation that puts something elsewhere than in a list, whether nothing is known to stand
 * there. Fails where one does not fit.
 * @param {Part} whole
 * @param {readonly Operation[]} patch
 */
function newMembers(whole, patch) {
  const draft = new Draft(whole);
  return patch.flatMap((operation) => {
    const path = tokens(operation.path);
    const isFree = read(draft.whole, path).is === "absent";
    let isMember = false;
    draft.do(operation, () => (isMember = !placeOf(draft.whole, path).list));
    return isMember ? [isFree] : [];
  });
}

/**
 * The operations that take back an operation that is done.
 * @param {Draft} draft
 * @param {Operation} operation
 * @returns {Operation[]}
 */
function backwards(draft, operation) {
  if (operation.op === "move") return movedBack(draft, operation);
  const back = unmovedBack(draft, operation);
  draft.do(operation);
  return back;
}

/** @param {Draft} draft @param {Operation} operation @returns {Operation[]} */
function unmovedBack(draft, operation) {
  const path = tokens(operation.path);
  switch (operation.op) {
    case "test":
      return [];
    case "replace":
      return exchange(path, operation.value, valueAt(draft, path));
    case "add":
      return addedBack(draft, path, operation.value);
    case "copy":
      return addedBack(draft, path, valueAt(draft, tokens(operation.from)));
    case "remove":
      return removedBack(draft, path);
    default:
      throw new Misfit();
  }
}

/** @param {Draft} draft @param {readonly string[]} path */
function valueAt(draft, path) {
  const value = draft.kept(path);
  if (value === undefined) throw new Misfit();
  return value;
}

/**
 * @param {readonly string[]} path
 * @param {any} value What stands there.
 * @param {any} old What is to stand there.
 * @returns {Operation[]}
 */
function exchange(path, value, old) {
  const there = spelled(path);
  return [{ op: "test", path: there, value }, { op: "replace", path: there, value: old }];
}

/**
 * @param {Draft} draft
 * @param {readonly string[]} path
 * @param {any} value
 * @returns {Operation[]}
 */
function addedBack(draft, path, value) {
  const place = placeOf(draft.whole, path);
  if (place.list === null || (place.list && place.at === null)) throw new Misfit();
  if (!place.list && read(draft.whole, path).is !== "absent") {
    return exchange(path, value, valueAt(draft, path));
  }
  const there = spelled(place.path);
  return [{ op: "test", path: there, value }, { op: "remove", path: there }];
}

/** @param {Draft} draft @param {readonly string[]} path @returns {Operation[]} */
function removedBack(draft, path) {
  const place = placeOf(draft.whole, path);
  if (place.list === null) throw new Misfit();
  /** @type {Operation} */
  const add = { op: "add", path: spelled(place.path), value: valueAt(draft, path) };
  return place.list ? [...neighbours(draft, place), add] : [add];
}

// The place at which an element was removed from a list: between the same two, or in a list that is
// empty.
/**
 * @param {Draft} draft
 * @param {{ path: readonly string[], holder: Part | null, at: number | null }} place
 * @returns {Operation[]}
 */
function neighbours(draft, { path, holder, at }) {
  if (holder?.is !== "value" || at === null) throw new Misfit();
  const list = path.slice(0, -1);
  const { length } = holder.value;
  if (length === 1) return [{ op: "test", path: spelled(list), value: [] }];
  /** @type {(place: number, at: number) => Operation} */
  const test = (place, at) => {
    const value = valueAt(draft, [...list, String(at)]);
    return { op: "test", path: spelled([...list, place]), value };
  };
  return [
    ...(at > 0 ? [test(at - 1, at - 1)] : []),
    ...(at + 1 < length ? [test(at, at + 1)] : []),
  ];
}

/**
 * @param {Draft} draft
 * @param {{ op: "move" | "copy", from: string, path: string }} operation
 * @returns {Operation[]}
 */
function movedBack(draft, operation) {
  if (operation.path === operation.from) return [];
  const [from, path] = [tokens(operation.from), tokens(operation.path)];
  const moved = valueAt(draft, from);
  const origin = placeOf(draft.whole, from);
  if (origin.list === null) throw new Misfit();
  // It came in the place of what it was taken from.
  if (startsWith(from, path) && placeOf(draft.whole, path).list === false) {
    const back = exchange(path, moved, valueAt(draft, path));
    draft.do(operation);
    return back;
  }
  /** @type {Operation[]} */
  let back = [];
  draft.do(operation, () => (back = addedBack(draft, path, moved)));
  const [test, last] = back;
  const place = spelled(origin.path);
  // A move back would be one into itself where it came in front of what it was taken from, and may
  // shift a place that is put back.
  const isMove = !startsWith(from, path) && last.op === "remove";
  return isMove
    ? [test, { op: "move", from: last.path, path: place }]
    : [test, last, { op: "add", path: place, value: moved }];
}

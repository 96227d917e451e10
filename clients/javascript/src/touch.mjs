// Finds changes that surely touch a slot (docs/PROTOCOL.md, "What a change means to a slot"): of
// those the relay tells a watcher.
import { index, startsWith, tokens } from "./pointer.mjs";
import { Draft, goesOn, pathOf, placeOf, read } from "./known.mjs";

/**
 * @typedef {import("./known.mjs").Part} Part
 * @typedef {import("../relay.js").Shown} Shown
 * @typedef {import("../relay.js").Operation} Operation
 * @typedef {{
 *   path: readonly string[],
 *   list: boolean | null,
 *   at: number | null,
 *   set: boolean,
 * }} Place
 * @typedef {Place & { holder: Part | null }} Origin
 */

/**
 * True if a patch surely touches a slot of a view. Fails with `Misfit` where it is known to be
 * refused.
 * @param {Part} whole
 * @param {readonly Operation[]} patch
 * @param {readonly Shown[]} view
 */
export function touches(whole, patch, view) {
  const draft = new Draft(whole);
  return patch
    .flatMap((operation) => changed(draft, operation))
    .some((place) => view.some((shown) => touch(shown, place)));
}

/**
 * The places that an operation changes, which is done.
 * @param {Draft} draft
 * @param {Operation} operation
 */
function changed(draft, operation) {
  const from = fromPlaces(draft.whole, operation);
  /** @type {Place[]} */
  let to = [];
  draft.do(operation, () => (to = [target(draft.whole, tokens(operation.path))]));
  if (operation.op !== "move") return [...from, ...to];
  return to.length === 0 || mayStay(from[0], to[0]) ? [] : [from[0], to[0]];
}

// The places at which something is taken away or exchanged.
/** @param {Part} whole @param {Operation} operation @returns {Origin[]} */
function fromPlaces(whole, operation) {
  if (operation.op === "remove" || operation.op === "replace") {
    return [{ ...placeOf(whole, tokens(operation.path)), set: operation.op === "replace" }];
  }
  return operation.op === "move" ? [{ ...placeOf(whole, tokens(operation.from)), set: false }] : [];
}

// The place at which something is added. Of a member that may be there already it is not known
// whether it is merely set: then no size surely changes.
/** @param {Part} whole @param {readonly string[]} path @returns {Place} */
function target(whole, path) {
  const place = placeOf(whole, path);
  return { ...place, set: place.list !== true && read(whole, path).is !== "absent" };
}

// True if a move may lead to its own place, and so change nothing: the last element of a list to
// the end of it, which may not be known.
/** @param {Origin} from @param {Place} to */
function mayStay({ path, holder, at }, to) {
  if (to.path.length !== path.length) return false;
  if (startsWith(to.path, path)) return true;
  const isEnd =
    to.list === null && to.path[path.length - 1] === "-" && startsWith(to.path, path.slice(0, -1));
  return isEnd && holder !== null && at !== null && !goesOn(holder, at);
}

/** @param {Shown} shown @param {Place} place */
function touch(shown, { path, list, at, set }) {
  const slot = pathOf(shown);
  if (slot.length < path.length && startsWith(path, slot)) {
    return typeof shown === "string" || (path.length === slot.length + 1 && !set);
  }
  if (list === false) return startsWith(slot, path);
  const holder = path.slice(0, -1);
  if (slot.length < path.length || !startsWith(slot, holder)) return false;
  const place = index(slot[holder.length]);
  if (place === null || at === null) return false;
  return list ? place >= at : place === at;
}

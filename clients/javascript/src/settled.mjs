// In which container each part of what was seen stands in a draft. A part that an application put
// into several places stands in one of them, if it can where it stood, and is a value in the
// others.
import { Node, takeUp } from "./node.mjs";
import { same } from "./json.mjs";

/**
 * @typedef {import("./draft.mjs").Draft} Draft
 * @typedef {import("./node.mjs").Kids} Kids
 */

/** @param {Draft} draft @returns {Map<Node, Node>} */
export function settled(draft) {
  const containers = live(draft);
  /** @type {Map<Node, Node>} */
  const places = new Map();
  for (const node of containers) {
    const kids = new Set(node.kids.values());
    for (const kid of node.before.values()) if (kids.has(kid)) places.set(kid, node);
  }
  for (const node of containers) {
    /** @type {Set<Node>} */
    const here = new Set();
    node.kids = each(node.kids, (kid) => {
      if (kid.origin === null) return toldBy(draft, kid);
      if (!places.has(kid)) places.set(kid, node);
      if (places.get(kid) !== node || here.has(kid)) return copied(draft, kid);
      here.add(kid);
      return kid;
    });
  }
  return places;
}

/**
 * The containers of what was seen that are in the draft, and were looked into.
 * @param {Draft} draft
 */
function live(draft) {
  /** @type {Set<Node>} */
  const found = new Set();
  /** @type {[Node, string, Node][]} */
  const exchanged = [];
  const find = (/** @type {Node} */ node) => {
    if (found.has(node) || node.origin === null || !node.isOpen) return;
    found.add(node);
    for (const [name, kid] of node.kids.entries()) {
      takeUp(kid, draft.nodeOf, [...node.origin, name]);
      if (kid.origin !== null) find(kid);
      else if (!node.isList && kid.isOpen) exchanged.push([node, String(name), kid]);
    }
  };
  find(draft.root);
  for (const [node, name, kid] of exchanged) {
    const before = /** @type {Map<string, Node>} */ (node.before).get(name);
    if (before === undefined || found.has(before) || !isLike(before, kid)) continue;
    // A list that was made of one that stood there is that one, with other elements.
    draft.see(before);
    before.kids = kid.kids;
    node.members.set(name, before);
    find(before);
  }
  return found;
}

/**
 * True if at least half of it is the same.
 * @param {Node} before
 * @param {Node} kid
 */
function isLike(before, kid) {
  if (before.isPartial || !before.isContainer || before.isList !== kid.isList) return false;
  const [old, made] = [[...before.kids.values()], [...kid.kids.values()]];
  const parts = new Set(old);
  const isScalar = (/** @type {Node} */ part) => !part.isContainer;
  const values = new Set(old.filter(isScalar).map((part) => part.value));
  const isKept = (/** @type {Node} */ part) =>
    parts.has(part) || (isScalar(part) && values.has(part.value));
  return made.filter(isKept).length * 2 >= Math.max(old.length, made.length);
}

/** @param {Kids} kids @param {(kid: Node) => Node} make @returns {Kids} */
function each(kids, make) {
  if (Array.isArray(kids)) return kids.map(make);
  return new Map([...kids].map(([name, kid]) => [name, make(kid)]));
}

/** @param {Draft} draft @param {Node} kid */
function copied(draft, kid) {
  draft.see(kid);
  return new Node({ is: "value", value: kid.value }, null);
}

// Tells, with a value that was put in, what stands in it.
/** @param {Draft} draft @param {Node} kid @returns {Node} */
function toldBy(draft, kid) {
  if (!kid.isOpen) return kid;
  for (const part of kid.kids.values()) {
    if (part.origin !== null) draft.see(part);
    else toldBy(draft, part);
  }
  return kid;
}

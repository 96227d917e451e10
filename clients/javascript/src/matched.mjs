// The elements of a list that are those of another one: the same parts, and values that are equal.

/** @typedef {import("./node.mjs").Node} Node */

/**
 * @param {readonly Node[]} list what stands there
 * @param {readonly Node[]} goal what is to stand there
 * @param {(kid: Node) => boolean} isFree whether an element may stand for an equal value
 * @returns {Map<Node, Node>} by the goal
 */
export function matched(list, goal, isFree) {
  /** @type {Map<Node, Node>} */
  const by = new Map();
  const left = new Set(list);
  const match = (/** @type {Node} */ kid, /** @type {Node} */ there) => {
    by.set(kid, there);
    left.delete(there);
  };
  const isEqual = (/** @type {Node} */ kid, /** @type {Node} */ there) =>
    kid.origin === null && left.has(there) && isFree(there) && text(kid) === text(there);
  const isMatch = (/** @type {Node} */ kid, /** @type {Node} */ there) =>
    kid === there || isEqual(kid, there);
  for (const kid of goal) if (left.has(kid)) match(kid, kid);
  const backwards = [[...list].reverse(), [...goal].reverse()];
  for (const [there, kids] of [[list, goal], backwards]) {
    const end = Math.min(there.length, kids.length);
    for (let k = 0; k < end && isMatch(kids[k], there[k]); k += 1) match(kids[k], there[k]);
  }
  const equal = queues([...left].filter((there) => isFree(there)));
  for (const kid of goal) {
    const there = by.has(kid) || kid.origin !== null ? undefined : equal.get(text(kid))?.shift();
    if (there !== undefined) match(kid, there);
  }
  return by;
}

// A part that was looked into may have lost something by then, so it stands for no value.
/** @param {Node} kid */
function text(kid) {
  return kid.origin !== null && kid.isOpen ? null : JSON.stringify(kid.value);
}

/** @param {readonly Node[]} kids */
function queues(kids) {
  /** @type {Map<string | null, Node[]>} */
  const queues = new Map();
  for (const kid of kids) {
    const key = text(kid);
    queues.set(key, [...(queues.get(key) ?? []), kid]);
  }
  return queues;
}

// The patch of a draft with its guard: tests of what was read and addressed, or the revision.
import { coarse, difference } from "./difference.mjs";
import { spelled, startsWith } from "./pointer.mjs";

/**
 * @typedef {import("./draft.mjs").Draft} Draft
 * @typedef {import("./node.mjs").Node} Node
 * @typedef {import("../relay.js").Operation} Operation
 * @typedef {"values" | "base" | "none"} Guard
 */

// An edit has no more operations.
const OPERATIONS = 64;

// The revision is tested in place of tests that would take more characters.
const TESTS = 16_384;

/**
 * @param {Draft} draft
 * @param {Guard} guard
 * @returns {{ patch: Operation[], isByBase: boolean } | null} null where nothing is changed
 */
export function guarded(draft, guard) {
  const { operations, changed } = difference(draft);
  if (operations.length === 0) return null;
  const tests = guard === "values" && !draft.isGuardedByBase ? testsOf(draft, changed) : [];
  const patch = [...tests, ...operations];
  const isLight = patch.length <= OPERATIONS && JSON.stringify(tests).length <= TESTS;
  const isByBase = guard === "base" || (guard === "values" && (draft.isGuardedByBase || !isLight));
  if (!isByBase && isLight) return { patch, isByBase };
  return { patch: operations.length <= OPERATIONS ? operations : coarse(draft.root), isByBase };
}

/** @param {Draft} draft @param {Set<Node>} changed @returns {Operation[]} */
function testsOf(draft, changed) {
  const seen = new Set(draft.seen);
  const pathOf = (/** @type {Node} */ node) => node.origin ?? [];
  const known = [...seen, ...changed].map(pathOf);
  for (const node of draft.there) {
    const { origin } = node;
    if (origin === null || node.isPartial) continue;
    // What is tested or done within it says that it is there.
    if (!known.some((path) => startsWith(path, origin))) seen.add(node);
  }
  const paths = new Set([...seen].map((node) => spelled(pathOf(node))));
  const isOuter = (/** @type {Node} */ node) =>
    !pathOf(node).some((_, length, path) => paths.has(spelled(path.slice(0, length))));
  const outer = [...seen].filter(isOuter);
  return outer.map((node) => ({ op: "test", path: spelled(pathOf(node)), value: node.seen }));
}

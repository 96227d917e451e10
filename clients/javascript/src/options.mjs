// The options that an application gives a call, checked before anything is done with it: a name
// that nobody reads would change nothing, and nobody would hear of it.
import { isObject } from "./json.mjs";

/**
 * Fails with a `TypeError` where the call has no such option, and names the nearest one.
 * @param {string} call
 * @param {unknown} options
 * @param {readonly string[]} names
 * @param {readonly string[]} [own] what the client itself gives as well
 */
export function checkOptions(call, options, names, own = []) {
  if (!isObject(options)) {
    throw new TypeError(`the options of \`${call}\` are an object, not ${shown(options)}`);
  }
  const unknown = Object.keys(options).find((name) => ![...names, ...own].includes(name));
  if (unknown === undefined) return;
  const byDistance = (/** @type {string} */ one, /** @type {string} */ other) =>
    distance(unknown, one) - distance(unknown, other);
  const [nearest] = [...names].sort(byDistance);
  const isNear = distance(unknown, nearest) <= Math.max(2, unknown.length / 3);
  const advice = isNear ? `is "${nearest}" meant?` : `it has ${names.join(", ")}`;
  throw new TypeError(`\`${call}\` has no option "${unknown}": ${advice}`);
}

/**
 * @param {string} call
 * @param {unknown} patch
 */
export function checkPatch(call, patch) {
  if (Array.isArray(patch)) return;
  const example = '[{ op: "add", path: "/cards/-", value: "milk" }]';
  throw new TypeError(`\`${call}\` takes a list of operations, as ${example}, not ${shown(patch)}`);
}

/** @param {string} call @param {unknown} view */
export function checkView(call, view) {
  if (Array.isArray(view)) return;
  const not = view === undefined ? "" : `, not ${shown(view)}`;
  throw new TypeError(`\`${call}\` takes a view, a list of pointers as ["/cards"]${not}`);
}

/** @param {string} call @param {unknown} make */
export function checkFunction(call, make) {
  if (typeof make === "function") return;
  throw new TypeError(`\`${call}\` takes a function, not ${shown(make)}`);
}

/** @param {unknown} value */
function shown(value) {
  if (Array.isArray(value)) return "a list";
  return isObject(value) ? "an object" : String(value);
}

/**
 * The number of letters that are to be put in, taken out or exchanged.
 * @param {string} one
 * @param {string} other
 */
function distance(one, other) {
  let row = Array.from({ length: other.length + 1 }, (_, k) => k);
  for (const [at, letter] of [...one.toLowerCase()].entries()) {
    const next = [at + 1];
    for (const [k, wanted] of [...other.toLowerCase()].entries()) {
      const exchanged = row[k] + Number(letter !== wanted);
      next.push(Math.min(exchanged, row[k + 1] + 1, next[k] + 1));
    }
    row = next;
  }
  return row[other.length];
}

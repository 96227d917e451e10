// Values that the relay takes: JSON whose numbers are whole and exact in JavaScript.
import { spelled } from "./pointer.mjs";

/** @typedef {import("../relay.js").Json} Json */

// The relay's documents have at most 64 levels. A value past this is deeper than any, or in a
// cycle.
const DEEPEST = 128;

/**
 * A copy of a value, so that what is sent is what it was when it was asked for. A `TypeError` names
 * the path of what no JSON can say, or the relay would refuse.
 * @param {unknown} value
 * @param {readonly (string | number)[]} [path]
 * @returns {any}
 */
export function checked(value, path = []) {
  if (path.length > DEEPEST) throw wrong(path.slice(0, 8), "is too deep, or contains itself");
  if (value === null || typeof value === "boolean") return value;
  if (typeof value === "string") return wellFormed(value, path);
  if (typeof value === "number") return whole(value, path);
  if (Array.isArray(value)) return Array.from(value, (part, k) => checked(part, [...path, k]));
  if (typeof value === "object") return members(value, path);
  throw wrong(path, `is ${typeof value}, which JSON cannot say`);
}

/** @param {object} value @param {readonly (string | number)[]} path */
function members(value, path) {
  const { toJSON } = /** @type {any} */ (value);
  if (typeof toJSON === "function") return checked(toJSON.call(value), path);
  const kind = kindOf(value);
  if (kind !== "Object") throw wrong(path, `is a ${kind}, which JSON cannot say`);
  return Object.fromEntries(Object.entries(value).map(([name, part]) => {
    const at = [...path, name];
    return [wellFormed(name, at), checked(part, at)];
  }));
}

/**
 * The kind of an object, as "Map"; "Object" of a plain one, and of one of a class of one's own.
 * @param {object} value
 */
export function kindOf(value) {
  return Object.prototype.toString.call(value).slice(8, -1);
}

/** @param {number} value @param {readonly (string | number)[]} path */
function whole(value, path) {
  if (!Number.isSafeInteger(value)) {
    throw wrong(path, `is ${value}, no whole number within 2^53: scale it, or send a text`);
  }
  return value === 0 ? 0 : value;
}

/** @param {string} text @param {readonly (string | number)[]} path */
function wellFormed(text, path) {
  if (/\p{Surrogate}/u.test(text)) throw wrong(path, "has half a surrogate pair");
  return text;
}

/** @param {readonly (string | number)[]} path @param {string} words */
function wrong(path, words) {
  return new TypeError(`${spelled(path) || "the value"} ${words}`);
}

/**
 * The value that a text says; null where it is no JSON.
 * @param {string} text
 * @returns {any}
 */
export function parsed(text) {
  try {
    return JSON.parse(text);
  } catch {
    return null;
  }
}

/**
 * The value itself, to which nobody can write from then on. What is frozen already is so as deep as
 * it goes, so of a value that has new parts only those cost anything.
 * @template T
 * @param {T} value
 * @returns {T}
 */
export function frozen(value) {
  if (!isContainer(value) || Object.isFrozen(value)) return value;
  Object.freeze(value);
  const isList = Array.isArray(value);
  for (const part of isList ? value : Object.values(value)) {
    if (typeof part === "object") frozen(part);
  }
  return value;
}

/**
 * True if a value has members, and so is no list.
 * @param {unknown} value
 * @returns {value is Record<string, any>}
 */
export function isObject(value) {
  return isContainer(value) && !Array.isArray(value);
}

/**
 * True if a value is a list, or has members.
 * @param {unknown} value
 * @returns {value is object}
 */
export function isContainer(value) {
  return typeof value === "object" && value !== null;
}

/**
 * True if two values are equal as RFC 6902, section 4.6, says.
 * @param {Json} one
 * @param {Json} other
 * @returns {boolean}
 */
export function same(one, other) {
  if (one === other) return true;
  if (!isContainer(one) || !isContainer(other)) return false;
  if (Array.isArray(one) !== Array.isArray(other)) return false;
  const names = Object.keys(one);
  const [parts, others] = /** @type {Record<string, Json>[]} */ ([one, other]);
  return (
    names.length === Object.keys(other).length &&
    names.every((name) => Object.hasOwn(other, name) && same(parts[name], others[name]))
  );
}

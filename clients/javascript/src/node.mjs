// The parts of a draft: what was seen, each part by where it stood, and what is made of it. A part
// keeps what it is when it is moved, so that the patch can be a move. Containers are opened when
// they are looked into.
import { checked, isContainer, isObject, kindOf } from "./json.mjs";
import { child } from "./known.mjs";
import { index, spelled } from "./pointer.mjs";

/**
 * @typedef {import("./known.mjs").Part} Part
 * @typedef {Node[] | Map<string, Node>} Kids
 */

export class Node {
  /** @type {Kids | null} */
  #kids = null; // what stands in it now
  /** @type {Kids | null} */
  #before = null; // what stood in it
  /** @type {any} */
  #value; // of one that was not opened

  /**
   * @param {Part} part
   * @param {readonly string[] | null} origin where it stood; null for what was put into the draft
   * @param {Node | null} [element] the innermost element of a list that it is, or is within
   */
  constructor(part, origin, element = null) {
    this.part = part;
    this.origin = origin;
    this.element = element;
    this.#value = this.seen;
  }

  get isList() {
    return Array.isArray(this.#kids ?? this.#value);
  }

  /** Of which some members are known, and others are not. */
  get isPartial() {
    return this.part.is === "container";
  }

  get isContainer() {
    return this.#kids !== null || this.isPartial || isContainer(this.#value);
  }

  /** True if it was looked into, so that something in it may be another one. */
  get isOpen() {
    return this.#kids !== null;
  }

  /** The value that stood there. */
  get seen() {
    return this.part.is === "value" ? this.part.value : undefined;
  }

  get kids() {
    this.#open();
    return /** @type {Kids} */ (this.#kids);
  }

  set kids(kids) {
    this.#kids = kids;
  }

  /** The parts that stood in it; none, if it was put in. */
  get before() {
    return this.#before ?? (this.isList ? [] : new Map());
  }

  /**
   * The part that stood at a name.
   * @param {string} name
   */
  memberBefore(name) {
    this.#open();
    return /** @type {Map<string, Node>} */ (this.#before).get(name);
  }

  /** @returns {Node[]} */
  get list() {
    return /** @type {Node[]} */ (this.kids);
  }

  /** @returns {Map<string, Node>} */
  get members() {
    return /** @type {Map<string, Node>} */ (this.kids);
  }

  #open() {
    if (this.isOpen) return;
    const { part } = this;
    const isList = Array.isArray(this.#value);
    const parts = part.is === "container" ? part.children : partsOf(this.#value);
    const there = [...parts].filter(([, { is }]) => is === "value" || is === "container");
    const kids = there.map(([token, part]) => this.#kid(part, token, isList));
    this.#before = isList ? kids : new Map(there.map(([token], k) => [token, kids[k]]));
    this.#kids = isList ? [...kids] : new Map(/** @type {Map<string, Node>} */ (this.#before));
  }

  /** @param {Part} part @param {string} token @param {boolean} isList */
  #kid(part, token, isList) {
    const kid = new Node(part, [...(this.origin ?? []), token], this.element);
    // Of a container that is known in parts it is open whether it is a list.
    if (isList || (this.isPartial && index(token) !== null)) kid.element = kid;
    return kid;
  }

  /**
   * Of a partial one: fails where the view does not show what stands at a name.
   * @param {string} name
   */
  check(name) {
    if (!this.isPartial || this.members.has(name) || child(this.part, name).is === "absent") return;
    throw new RangeError(`${spelled([...(this.origin ?? []), name])} is not in the view`);
  }

  /**
   * The value that it is now, as JSON.
   * @returns {any}
   */
  get value() {
    if (this.#kids === null) return this.#value;
    if (Array.isArray(this.#kids)) return this.#kids.map(({ value }) => value);
    return Object.fromEntries([...this.#kids].map(([name, { value }]) => [name, value]));
  }
}

/** @param {any} value @returns {[string, Part][]} */
function partsOf(value) {
  return Object.entries(value).map(([token, value]) => [token, { is: "value", value }]);
}

/**
 * A part of what an application puts in: parts of the draft stay what they are.
 * @param {any} value
 * @param {(value: any) => Node | undefined} nodeOf
 * @param {readonly (string | number)[]} [path]
 */
export function put(value, nodeOf, path) {
  const isPlain =
    Array.isArray(value) ||
    (isObject(value) && kindOf(value) === "Object" && !("toJSON" in value));
  return (
    nodeOf(value) ??
    new Node({ is: "value", value: isPlain ? value : checked(value, path) }, null)
  );
}

/**
 * Takes up what stands in a value that was put in, which its owner may have changed since.
 * @param {Node} node
 * @param {(value: any) => Node | undefined} nodeOf
 * @param {readonly (string | number)[]} path
 */
export function takeUp(node, nodeOf, path) {
  if (node.origin !== null || !node.isContainer || node.isOpen) return;
  checked(null, path); // fails at a path that is too deep
  const kid = (/** @type {any} */ value, /** @type {string | number} */ name) => {
    const kid = put(value, nodeOf, [...path, name]);
    takeUp(kid, nodeOf, [...path, name]);
    return kid;
  };
  const { value } = node;
  if (Array.isArray(value)) node.kids = Array.from(value, kid);
  else node.kids = new Map(members(value).map(([name, part]) => [name, kid(part, name)]));
}

/**
 * @param {object} value
 * @returns {[string, any][]}
 */
function members(value) {
  checked(Object.fromEntries(Object.keys(value).map((name) => [name, 0])));
  return Object.entries(value);
}

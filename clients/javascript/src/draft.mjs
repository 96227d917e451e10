// A draft of what a board shows, which an application changes as any value. What it reads and what
// it addresses is noted, so that the patch can be guarded by tests of that.
import { Node, put } from "./node.mjs";
import { isContainer } from "./json.mjs";
import { index, spelled } from "./pointer.mjs";
import { methods } from "./list.mjs";

/** @typedef {import("./known.mjs").Part} Part */

export class Draft {
  #proxies = new WeakMap(); // by the node
  #nodes = new WeakMap(); // by the proxy
  /** @type {Set<Node>} */
  seen = new Set(); // parts whose values the outcome hangs on
  /** @type {Set<Node>} */
  there = new Set(); // containers that were looked for
  /** @type {Map<Node, Node>} */
  pushed = new Map(); // parts that were put at the end of a list, however long it is
  isGuardedByBase = false; // no test says what was read
  #keys;

  /**
   * @param {Part} whole what is known of the document
   * @param {Map<string, string>} [keys] the name of the member that tells the elements of a list
   * apart, by the list's pointer
   */
  constructor(whole, keys = new Map()) {
    this.root = new Node(whole, []);
    this.#keys = keys;
    if (!this.root.isContainer) throw new TypeError("the document is no container");
  }

  /**
   * The part that stands at a path.
   * @param {readonly string[]} path
   */
  at(path) {
    const value = path.reduce((part, token) => part?.[token], this.of(this.root));
    if (isContainer(value)) return value;
    throw new TypeError(`${spelled(path)} is no container`);
  }

  /**
   * Returns what the application is given of a node.
   * @param {Node} node
   */
  of(node) {
    // What the application put in is its own.
    if (!node.isContainer || node.origin === null) return node.value;
    const made = this.#proxies.get(node);
    if (made !== undefined) return made;
    const proxy = node.isList ? listProxy(this, node) : objectProxy(this, node);
    this.#proxies.set(node, proxy);
    this.#nodes.set(proxy, node);
    return proxy;
  }

  /** @param {any} value @returns {Node | undefined} */
  nodeOf = (value) => this.#nodes.get(value);

  /**
   * The value of a part is read.
   * @param {Node} node
   */
  read(node) {
    if (node.isContainer) this.there.add(node);
    else this.see(node);
    return this.of(node);
  }

  /**
   * The outcome hangs on all of a part, as on the length of a list.
   * @param {Node} node
   */
  see(node) {
    if (node.isPartial) this.isGuardedByBase = true;
    else if (node.origin !== null) this.seen.add(node);
  }

  /**
   * An element is addressed by its place in a list: what stands there has to be that one. Its key
   * says so where there is one.
   * @param {Node | null | undefined} element
   */
  address(element) {
    if (!element?.origin) return;
    const key = this.#keys.get(spelled(element.origin.slice(0, -1)));
    const holds = key !== undefined && element.isContainer && !element.isList;
    this.see((holds && element.memberBefore(key)) || element);
  }

  /**
   * Something in a container is changed.
   * @param {Node} node
   */
  change(node) {
    if (node.origin !== null) this.address(node.element);
  }
}

/** @param {Draft} draft @param {Node} node */
function listProxy(draft, node) {
  const own = methods(draft, node);
  /** @type {ProxyHandler<any>} */
  const traps = {
    ...SHUT,
    get(_, key, receiver) {
      if (key === "length") return own.length();
      if (key === Symbol.iterator) return own.values;
      const at = placeAt(key);
      if (at !== null) return own.at(at);
      return Object.hasOwn(own, key) ? own[key] : Reflect.get(Array.prototype, key, receiver);
    },
    set(_, key, value) {
      const at = placeAt(key);
      if (at !== null) own.set(at, value);
      else if (key === "length") own.cut(value);
      else throw new TypeError(`a list has no member ${String(key)}`);
      return true;
    },
    has(_, key) {
      const at = placeAt(key);
      return at === null ? Reflect.has(Array.prototype, key) : at < own.length();
    },
    deleteProperty() {
      throw new TypeError("a list has no holes: `splice` it");
    },
    ownKeys: () => Reflect.ownKeys(Array(own.length()).fill(0)),
    getOwnPropertyDescriptor(target, key) {
      if (key === "length") {
        return { ...Reflect.getOwnPropertyDescriptor(target, key), value: own.length() };
      }
      const at = placeAt(key);
      return at === null || at >= own.length() ? undefined : member(own.at(at));
    },
  };
  return new Proxy([], traps);
}

/** @param {Draft} draft @param {Node} node */
function objectProxy(draft, node) {
  const get = (/** @type {string} */ name) => {
    node.check(name);
    const kid = node.members.get(name);
    if (kid !== undefined) return draft.read(kid);
    if (!(/** @type {Map<string, Node>} */ (node.before).has(name))) draft.see(node);
    return undefined;
  };
  const has = (/** @type {string} */ name) => {
    get(name);
    return node.members.has(name);
  };
  /** @type {ProxyHandler<any>} */
  const traps = {
    ...SHUT,
    get(_, key, receiver) {
      const isOwn =
        typeof key !== "symbol" && (node.members.has(key) || !(key in Object.prototype));
      return isOwn ? get(key) : Reflect.get(Object.prototype, key, receiver);
    },
    set(_, key, value) {
      setMember(draft, node, String(key), value);
      return true;
    },
    has: (_, key) => (typeof key === "symbol" ? key in Object.prototype : has(key)),
    deleteProperty(_, key) {
      dropMember(draft, node, String(key));
      return true;
    },
    ownKeys() {
      if (node.isPartial) throw new RangeError("the view does not show all members");
      draft.see(node);
      return [...node.members.keys()];
    },
    getOwnPropertyDescriptor(_, key) {
      return typeof key === "string" && has(key) ? member(get(key)) : undefined;
    },
  };
  return new Proxy({}, traps);
}

/** @param {Draft} draft @param {Node} node @param {string} name @param {any} value */
function setMember(draft, node, name, value) {
  node.check(name);
  const before = node.members.get(name);
  checkPlace(node, name, before !== undefined);
  const made = put(value, draft.nodeOf, [.../** @type {readonly string[]} */ (node.origin), name]);
  draft.change(node);
  if (before?.element === before) draft.address(before);
  node.members.set(name, made);
}

/** @param {Draft} draft @param {Node} node @param {string} name */
function dropMember(draft, node, name) {
  node.check(name);
  checkPlace(node, name, false);
  // That nothing stood there: no operation says it, also where something was put there since.
  if (!(/** @type {Map<string, Node>} */ (node.before).has(name))) draft.see(node);
  if (!node.members.has(name)) return;
  draft.change(node);
  node.members.delete(name);
}

// Another place would stand for another element then, where it may be a list.
/** @param {Node} node @param {string} name @param {boolean} isReplaced */
function checkPlace(node, name, isReplaced) {
  if (!node.isPartial || isReplaced || (index(name) === null && name !== "-")) return;
  throw new RangeError("the view does not show all elements");
}

// A symbol names no element.
/** @param {string | symbol} key */
function placeAt(key) {
  return typeof key === "string" ? index(key) : null;
}

/** @param {any} value */
function member(value) {
  return { value, writable: true, enumerable: true, configurable: true };
}

/** @returns {never} */
function shut() {
  throw new TypeError("a draft is changed by assignments and `delete`");
}

const SHUT = { defineProperty: shut, setPrototypeOf: shut, preventExtensions: shut };

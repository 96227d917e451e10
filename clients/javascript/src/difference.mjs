// The patch that makes a draft of what was seen. The parts are led one by one to where they stand
// in the draft, from the root down, over a picture of where each stands by then: so a part that
// went elsewhere is moved, and each path is right when its operation is done.
import { Node } from "./node.mjs";
import { longestRising } from "./rising.mjs";
import { matched } from "./matched.mjs";
import { same } from "./json.mjs";
import { settled } from "./settled.mjs";
import { spelled } from "./pointer.mjs";

/**
 * @typedef {import("./draft.mjs").Draft} Draft
 * @typedef {import("./node.mjs").Kids} Kids
 * @typedef {import("../relay.js").Operation} Operation
 */

/**
 * @param {Draft} draft It is not to be changed any more.
 * @returns {{ operations: Operation[], changed: Set<Node> }} and the containers that they change
 */
export function difference(draft) {
  const difference = new Difference(draft);
  difference.lead(draft.root);
  return difference;
}

class Difference {
  /** @type {Operation[]} */
  operations = [];
  /** @type {Set<Node>} */
  changed = new Set();
  /** @type {Map<Node, Kids>} */
  #kids = new Map(); // what stands in a container by now
  /** @type {Map<Node, Node>} */
  #holders = new Map(); // in which container a part stands by now
  /** @type {Set<Node>} */
  #appended = new Set(); // parts at the end of a list, of which only the whole list tells the index
  #places; // in which container each part stands in the draft
  #draft;

  /** @param {Draft} draft */
  constructor(draft) {
    this.#draft = draft;
    this.#places = settled(draft);
    this.#picture(draft.root);
  }

  /** @param {Node} node */
  #picture(node) {
    if (!node.isOpen || node.origin === null) return;
    const { before } = node;
    this.#kids.set(node, Array.isArray(before) ? [...before] : new Map(before));
    for (const kid of before.values()) {
      this.#holders.set(kid, node);
      this.#picture(kid);
    }
  }

  /**
   * Leads what stands in a container to what stands in it in the draft.
   * @param {Node} node
   */
  lead(node) {
    if (!node.isOpen) return;
    if (node.isList) this.#leadList(node);
    else this.#leadMembers(node);
    for (const kid of node.kids.values()) {
      if (kid.origin !== null && this.#places.get(kid) === node) this.lead(kid);
    }
  }

  /** @param {Node} node */
  #leadMembers(node) {
    const members = /** @type {Map<string, Node>} */ (this.#kids.get(node));
    for (const [name, kid] of [...members]) {
      if (node.members.has(name) || this.#places.has(kid)) continue;
      this.#emit(node, { op: "remove", path: this.#pathTo(node, name) });
      this.#take(kid);
    }
    for (const [name, kid] of node.members) {
      if (members.get(name) !== kid) this.#putMember(node, members, name, kid);
    }
  }

  /**
   * @param {Node} node @param {Map<string, Node>} members
   * @param {string} name @param {Node} kid
   */
  #putMember(node, members, name, kid) {
    const from = this.#path(kid);
    const before = members.get(name);
    if (from !== null) {
      this.#move(node, from, name, kid);
    } else if (before !== undefined && !before.isOpen && same(before.value, kid.value)) {
      // What is set to what it is makes no change, so it has to be that.
      this.#draft.see(before);
    } else {
      this.#write(node, before === undefined ? "add" : "replace", name, kid);
    }
    if (before !== undefined) this.#holders.delete(before);
    members.set(name, kid);
    this.#holders.set(kid, node);
  }

  /** @param {Node} node */
  #leadList(node) {
    const list = /** @type {Node[]} */ (this.#kids.get(node));
    const end = this.#endOf(node);
    const { stays, by, isKept } = this.#matched(node, list, node.list.slice(0, end));
    const last = node.list.slice(end).map((kid) => this.#equalTo(node, list, kid, isKept));
    let at = 0;
    for (const kid of node.list.slice(0, end)) {
      while (at < list.length && this.#leaves(list[at], node)) at += 1;
      const there = by.get(kid);
      if (there !== undefined && stays.has(there)) at = this.#comeTo(node, list, at, there, isKept);
      else at = this.#putElement(node, list, at, there ?? kid, isKept);
    }
    this.#dropRest(node, list, at);
    for (const kid of last) this.#pushElement(node, list, kid);
  }

  // The end of the list: what was pushed comes there, also where others have made that longer by
  // then.
  /** @param {Node} node */
  #endOf(node) {
    const { pushed, seen } = this.#draft;
    if (seen.has(node)) return node.list.length;
    let end = node.list.length;
    while (end > 0 && pushed.get(node.list[end - 1]) === node) end -= 1;
    return end;
  }

  /**
   * A value that is taken away at one place and pushed is moved.
   * @param {Node} node @param {Node[]} list @param {Node} kid
   * @param {(kid: Node) => boolean} isKept
   */
  #equalTo(node, list, kid, isKept) {
    if (kid.origin !== null) return kid;
    const isEqual = (/** @type {Node} */ other) => !other.isOpen && same(other.value, kid.value);
    const equal = list.find((other) => !isKept(other) && isEqual(other));
    if (equal !== undefined) this.#places.set(equal, node);
    return equal ?? kid;
  }

  /** @param {Node} node @param {Node[]} list @param {readonly Node[]} goal */
  #matched(node, list, goal) {
    const by = matched(list, goal, (kid) => !this.#places.has(kid));
    // Which element stands for an equal value hangs on the whole list.
    if ([...by].some(([kid, there]) => kid !== there)) this.#draft.see(node);
    const places = goal.map((kid) => list.indexOf(/** @type {Node} */ (by.get(kid))));
    const rising = longestRising(places.filter((place) => place >= 0));
    const kept = new Set(by.values());
    const isKept = (/** @type {Node} */ kid) => kept.has(kid) || this.#places.has(kid);
    return { by, stays: new Set(rising.map((place) => list[place])), isKept };
  }

  /**
   * True if a part goes to another container.
   * @param {Node} kid
   * @param {Node} node
   */
  #leaves(kid, node) {
    return this.#places.has(kid) && this.#places.get(kid) !== node;
  }

  /**
   * Takes away what stands in front of an element that stays, and gives the place behind it.
   * @param {Node} node @param {Node[]} list @param {number} at @param {Node} there
   * @param {(kid: Node) => boolean} isKept
   */
  #comeTo(node, list, at, there, isKept) {
    for (let place = at; list[place] !== there; ) {
      if (isKept(list[place])) place += 1;
      else this.#removeAt(node, list, place);
    }
    return list.indexOf(there) + 1;
  }

  /**
   * Gives the place behind it.
   * @param {Node} node @param {Node[]} list @param {number} at @param {Node} kid
   * @param {(kid: Node) => boolean} isKept
   */
  #putElement(node, list, at, kid, isKept) {
    const from = this.#path(kid);
    const before = list[at];
    if (from !== null) {
      const was = list.indexOf(kid);
      const place = was >= 0 && was < at ? at - 1 : at;
      this.#move(node, from, place, kid);
      return this.#insert(node, list, place, kid);
    }
    const isAdded = before === undefined || isKept(before);
    this.#write(node, isAdded ? "add" : "replace", at, kid);
    if (!isAdded) this.#dropAt(list, at);
    return this.#insert(node, list, at, kid);
  }

  /** @param {Node} node @param {Node[]} list @param {Node} kid */
  #pushElement(node, list, kid) {
    const from = this.#path(kid);
    if (from === null) this.#write(node, "add", "-", kid);
    else this.#move(node, from, "-", kid);
    this.#insert(node, list, list.length, kid);
    this.#appended.add(kid);
  }

  /** @param {Node} node @param {Node[]} list @param {number} at @param {Node} kid */
  #insert(node, list, at, kid) {
    list.splice(at, 0, kid);
    this.#holders.set(kid, node);
    return at + 1;
  }

  /** @param {Node} node @param {Node[]} list @param {number} at */
  #dropRest(node, list, at) {
    for (let place = list.length - 1; place >= at; place -= 1) {
      if (!this.#places.has(list[place])) this.#removeAt(node, list, place);
    }
  }

  /** @param {Node} node @param {Node[]} list @param {number} at */
  #removeAt(node, list, at) {
    this.#emit(node, { op: "remove", path: this.#pathTo(node, at) });
    this.#dropAt(list, at);
  }

  /** @param {Node[]} list @param {number} at */
  #dropAt(list, at) {
    this.#holders.delete(list[at]);
    list.splice(at, 1);
  }

  /**
   * @param {Node} node @param {"add" | "replace"} op @param {string | number} token
   * @param {Node} kid
   */
  #write(node, op, token, kid) {
    const path = this.#pathTo(node, token);
    const value = this.#standing(kid);
    // Of a part of what was seen that is written as a value all of it is told. It stands where it
    // is written from then on, and no more in what was taken away with it.
    if (kid.origin !== null) this.#draft.see(kid);
    if (this.#holders.has(kid)) this.#take(kid);
    this.#emit(node, { op, path, value });
  }

  /**
   * The value that a part has by now. What it has besides in the draft is led to it later.
   * @param {Node} node
   * @returns {any}
   */
  #standing(node) {
    const kids = this.#kids.get(node);
    if (kids === undefined) return node.value;
    if (Array.isArray(kids)) return kids.map((kid) => this.#standing(kid));
    return Object.fromEntries([...kids].map(([name, kid]) => [name, this.#standing(kid)]));
  }

  /**
   * @param {Node} node @param {readonly string[]} from @param {string | number} token
   * @param {Node} kid
   */
  #move(node, from, token, kid) {
    this.#take(kid);
    const [place, path] = [spelled(from), this.#pathTo(node, token)];
    if (!path.startsWith(`${place}/`)) return this.#emit(node, { op: "move", from: place, path });
    // What stood behind it has its index by now, and a move into that would be one into itself.
    this.#draft.see(kid);
    this.#emit(node, { op: "remove", path: place });
    this.#emit(node, { op: "add", path, value: this.#standing(kid) });
  }

  /** @param {Node} kid */
  #take(kid) {
    const holder = /** @type {Node} */ (this.#holders.get(kid));
    const kids = /** @type {Kids} */ (this.#kids.get(holder));
    if (Array.isArray(kids)) kids.splice(kids.indexOf(kid), 1);
    else kids.delete(nameOf(kids, kid));
    this.#holders.delete(kid);
  }

  /**
   * The path at which a part stands by now; null where it stands nowhere.
   * @param {Node} kid
   * @returns {string[] | null}
   */
  #path(kid) {
    if (kid === this.#draft.root) return [];
    const holder = this.#holders.get(kid);
    const path = holder && this.#path(holder);
    if (!holder || !path) return null;
    const kids = /** @type {Kids} */ (this.#kids.get(holder));
    if (this.#appended.has(kid)) this.#draft.see(holder);
    return [...path, Array.isArray(kids) ? String(kids.indexOf(kid)) : nameOf(kids, kid)];
  }

  /** @param {Node} node @param {string | number} token */
  #pathTo(node, token) {
    return spelled([.../** @type {string[]} */ (this.#path(node)), token]);
  }

  /** @param {Node} node @param {Operation} operation */
  #emit(node, operation) {
    this.operations.push(operation);
    this.changed.add(node);
  }
}

/** @param {Map<string, Node>} kids @param {Node} kid */
function nameOf(kids, kid) {
  for (const [name, other] of kids) if (other === kid) return name;
  return "";
}

/**
 * A coarser patch: each value that the view shows is written anew where something in it is another
 * one.
 * @param {Node} node
 * @param {readonly string[]} [path]
 * @returns {Operation[]}
 */
export function coarse(node, path = []) {
  if (!node.isOpen) return [];
  if (!node.isPartial) {
    const { value } = node;
    return same(value, node.seen) ? [] : [{ op: "replace", path: spelled(path), value }];
  }
  const before = /** @type {Map<string, Node>} */ (node.before);
  return [...new Set([...before.keys(), ...node.members.keys()])].flatMap((name) => {
    const [was, is] = [before.get(name), node.members.get(name)];
    const place = spelled([...path, name]);
    if (is === undefined) return /** @type {Operation[]} */ ([{ op: "remove", path: place }]);
    if (is === was) return coarse(is, [...path, name]);
    const op = was === undefined ? "add" : "replace";
    return /** @type {Operation[]} */ ([{ op, path: place, value: is.value }]);
  });
}

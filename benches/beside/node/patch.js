// JSON Patch (RFC 6902) on a document of plain JavaScript values, changed in place. Whole or not at
// all: each change leaves what takes it back, and where an operation is refused the changes before
// it are taken back, the last one first. So an edit costs what it touches, and no document is
// copied.
"use strict";

class Refused extends Error {
  constructor(word) {
    super(word);
    this.word = word;
    this.at = null;
  }
}

function tokens(pointer) {
  if (typeof pointer !== "string") throw new Refused("shape");
  if (!/^(\/([^~]|~[01])*)?$/.test(pointer)) throw new Refused("pointer");
  return pointer.split("/").map((token) => token.replaceAll("~1", "/").replaceAll("~0", "~"));
}

// The document is the member "" of its holder, and a pointer split at its slashes begins with "":
// so the root has a parent too.
function held(document) {
  return { "": document };
}

function isIndex(token) {
  return /^(0|[1-9][0-9]*)$/.test(token);
}

function part(parent, token) {
  if (Array.isArray(parent)) {
    if (token !== "-" && !isIndex(token)) throw new Refused("not-index");
    if (token === "-" || Number(token) >= parent.length) throw new Refused("missing");
  } else if (parent === null || typeof parent !== "object") {
    throw new Refused("no-container");
  } else if (!Object.hasOwn(parent, token)) {
    throw new Refused("missing");
  }
  return parent[token];
}

function get(holder, pointer) {
  return tokens(pointer).reduce(part, holder);
}

function place(holder, pointer) {
  const path = tokens(pointer);
  const key = path.pop();
  return { parent: path.reduce(part, holder), key };
}

// A scalar is its own copy. What an operation brings is copied, so that no later one changes it in
// the patch, or in a second place.
function copied(value) {
  return value !== null && typeof value === "object" ? structuredClone(value) : value;
}

function setMember(parent, key, value, undo) {
  if (key === "__proto__") throw new Refused("shape"); // to JavaScript no name as others
  const had = Object.hasOwn(parent, key);
  const old = parent[key];
  parent[key] = value;
  undo.push(() => (had ? (parent[key] = old) : delete parent[key]));
}

function insert(list, token, value, undo) {
  if (token !== "-" && !isIndex(token)) throw new Refused("not-index");
  const index = token === "-" ? list.length : Number(token);
  if (index > list.length) throw new Refused("past-end");
  list.splice(index, 0, value);
  undo.push(() => list.splice(index, 1));
}

function put(holder, pointer, value, undo) {
  const { parent, key } = place(holder, pointer);
  if (Array.isArray(parent)) insert(parent, key, value, undo);
  else if (parent === null || typeof parent !== "object") throw new Refused("no-container");
  else setMember(parent, key, value, undo);
}

function exchange(holder, pointer, value, undo) {
  const { parent, key } = place(holder, pointer);
  const old = part(parent, key);
  parent[key] = value;
  undo.push(() => (parent[key] = old));
}

function take(holder, pointer, undo) {
  const { parent, key } = place(holder, pointer);
  const old = part(parent, key);
  if (Array.isArray(parent)) {
    parent.splice(key, 1);
    undo.push(() => parent.splice(key, 0, old));
  } else {
    delete parent[key];
    undo.push(() => (parent[key] = old));
  }
  return old;
}

// Numbers by their value, texts by their code points, lists by their elements, objects by their
// members in any order.
function same(a, b) {
  if (a === b) return true;
  if (a === null || b === null || typeof a !== "object" || typeof b !== "object") return false;
  if (Array.isArray(a) !== Array.isArray(b)) return false;
  const keys = Object.keys(a);
  return (
    keys.length === Object.keys(b).length &&
    keys.every((key) => Object.hasOwn(b, key) && same(a[key], b[key]))
  );
}

function given(op) {
  if (!Object.hasOwn(op, "value")) throw new Refused("shape");
  return op.value;
}

const OPERATIONS = new Map(
  Object.entries({
    add: (holder, op, undo) => put(holder, op.path, copied(given(op)), undo),
    remove: (holder, op, undo) => {
      if (op.path === "") throw new Refused("root");
      take(holder, op.path, undo);
    },
    replace: (holder, op, undo) => exchange(holder, op.path, copied(given(op)), undo),
    move: (holder, op, undo) => {
      get(holder, op.from);
      if (`${op.path}`.startsWith(`${op.from}/`)) throw new Refused("into-itself");
      put(holder, op.path, take(holder, op.from, undo), undo);
    },
    copy: (holder, op, undo) => put(holder, op.path, copied(get(holder, op.from)), undo),
    test: (holder, op) => {
      if (!same(get(holder, op.path), given(op))) throw new Refused("test-failed");
    },
  }),
);

function carryOut(holder, op, undo) {
  if (op === null || typeof op !== "object" || typeof op.op !== "string") {
    throw new Refused("shape");
  }
  if (!OPERATIONS.has(op.op)) throw new Refused("unknown-op");
  OPERATIONS.get(op.op)(holder, op, undo);
}

/**
 * Applies all operations to the held document, or throws a `Refused` that says which one is at
 * fault, and changes nothing.
 */
function apply(holder, patch) {
  if (!Array.isArray(patch)) throw new Refused("shape");
  const undo = [];
  patch.forEach((op, at) => {
    try {
      carryOut(holder, op, undo);
    } catch (fault) {
      while (undo.length > 0) undo.pop()();
      if (fault instanceof Refused) fault.at = at;
      throw fault;
    }
  });
}

module.exports = { Refused, apply, get, held, tokens };

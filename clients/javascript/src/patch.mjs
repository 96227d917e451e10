// JSON Patch (RFC 6902) on values that are never written to: what a patch leads to has new parts
// where it differs, so a value that was handed out stays what it was. A patch copies each container
// once, however many of its operations change it.
import { index, startsWith } from "./pointer.mjs";
import { isContainer, isObject } from "./json.mjs";

/** An operation does not fit the value. */
export class Misfit extends Error {
  message = "the patch does not fit";
}

/**
 * The containers that one patch made. Nobody else has them, and each stands in one place, so the
 * patch may write to them.
 */
export class Owned {
  /** @type {Set<object>} */
  #made = new Set();

  /**
   * The container itself if the patch made it, and else a copy that stands for it from now on.
   * @param {any} part
   */
  writable(part) {
    if (!isContainer(part)) throw new Misfit();
    if (this.#made.has(part)) return part;
    const copy = Array.isArray(part) ? [...part] : { ...part }; // of a frozen list `slice` is slow
    this.#made.add(copy);
    return copy;
  }

  /**
   * Before a value stands in a second place, or is kept: no later operation writes to it. What the
   * patch did not make holds nothing that it made, since a container is made with all those around
   * it.
   * @param {any} part
   */
  share(part) {
    if (!this.#made.delete(part)) return;
    Object.freeze(part);
    for (const inner of Object.values(part)) this.share(inner);
  }

  /** Nobody writes to what the patch made any more. */
  freeze() {
    for (const part of this.#made) Object.freeze(part);
    this.#made.clear();
  }
}

/** @param {readonly string[]} from @param {readonly string[]} path */
export function checkMove(from, path) {
  if (path.length > from.length && startsWith(path, from)) throw new Misfit();
}

/** @param {any} part @param {string} token */
export function has(part, token) {
  if (Array.isArray(part)) return (index(token) ?? part.length) < part.length;
  return isObject(part) && Object.hasOwn(part, token);
}

/** @param {any} whole @param {readonly string[]} path */
export function found(whole, path) {
  return path.reduce((part, token) => {
    if (!has(part, token)) throw new Misfit();
    return part[token];
  }, whole);
}

/** @param {any} whole @param {readonly string[]} path @param {any} value @param {Owned} owned */
export function added(whole, path, value, owned) {
  return changed(whole, path, owned, () => value, (part, token) => {
    if (!Array.isArray(part)) return put(part, token, value);
    const place = token === "-" ? part.length : index(token) ?? Infinity;
    if (place > part.length) throw new Misfit();
    part.splice(place, 0, value);
  });
}

/** @param {any} whole @param {readonly string[]} path @param {Owned} owned */
export function removed(whole, path, owned) {
  found(whole, path);
  const atRoot = () => {
    throw new Misfit();
  };
  return changed(whole, path, owned, atRoot, (part, token) => {
    if (Array.isArray(part)) part.splice(Number(token), 1);
    else delete part[token];
  });
}

/** @param {any} whole @param {readonly string[]} path @param {any} value @param {Owned} owned */
export function replaced(whole, path, value, owned) {
  found(whole, path);
  return changed(whole, path, owned, () => value, (part, token) => put(part, token, value));
}

// An assignment of `__proto__` would set no member.
/** @param {any} part @param {string} token @param {any} value */
function put(part, token, value) {
  const member = { value, writable: true, enumerable: true, configurable: true };
  Object.defineProperty(part, token, member);
}

/**
 * The whole, in which what holds the last token is changed.
 * @param {any} whole
 * @param {readonly string[]} path
 * @param {Owned} owned
 * @param {() => any} atRoot
 * @param {(part: any, token: string) => void} change writes to a container of the patch's own
 * @returns {any}
 */
function changed(whole, path, owned, atRoot, change) {
  if (path.length === 0) return atRoot();
  const [token, ...rest] = path;
  const part = owned.writable(whole);
  if (rest.length === 0) change(part, token);
  else put(part, token, changed(found(part, [token]), rest, owned, atRoot, change));
  return part;
}

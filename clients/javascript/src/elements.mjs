// Operations on the elements of one list: by their places, or by a member that tells them apart.
import { Refused } from "./errors.mjs";
import { isObject, same } from "./json.mjs";

/**
 * Finds where an element is by now: the one that stood at a place when it was asked for, as far as
 * its value tells. The nearest one, if there are several.
 * @param {() => unknown} list what is shown
 * @param {number} at
 */
export function followed(list, at) {
  const before = shown(list());
  if (!(Number.isSafeInteger(at) && at in before)) throw new RangeError(`no element ${at}`);
  const wanted = before[at];
  return () => {
    const places = shown(list()).flatMap((value, place) => (same(value, wanted) ? [place] : []));
    const [place] = places.sort((one, other) => Math.abs(one - at) - Math.abs(other - at));
    if (place !== undefined) return place;
    throw new Refused({ fault: "changed" }, `element ${at} is gone`);
  };
}

/** @param {unknown} list @returns {any[]} */
export function shown(list) {
  return Array.isArray(list) ? list : [];
}

/** The elements of a list, told apart by a member. */
export class Keyed {
  #place;
  #name;
  #change;

  /**
   * @param {{ value: any }} place of the list
   * @param {string} name of the member
   * @param {(make: (list: any[]) => void, options: object) => Promise<number>} change
   */
  constructor(place, name, change) {
    this.#place = place;
    this.#name = name;
    this.#change = change;
  }

  /**
   * The index of the element with a key; -1 where there is none.
   * @param {any} key
   */
  indexOf(key) {
    const name = this.#name;
    const has = (/** @type {any} */ element) => isObject(element) && same(element[name], key);
    return shown(this.#place.value).findIndex(has);
  }

  /**
   * The element with a key; undefined where there is none.
   * @param {any} key
   */
  get(key) {
    return shown(this.#place.value)[this.indexOf(key)];
  }

  /** @param {any} key @param {any} [options] @returns {Promise<number>} */
  remove(key, options) {
    return this.#change((list) => void list.splice(this.#at(key), 1), options);
  }

  /**
   * In front of the element with another key; to the end, where that is null.
   * @param {any} key @param {any} before @param {any} [options] @returns {Promise<number>}
   */
  move(key, before, options) {
    return this.#change((list) => {
      const [from, to] = [this.#at(key), this.#to(before)];
      if (from === to) return;
      const [element] = list.splice(from, 1);
      if (to === null) list.push(element);
      else list.splice(to > from ? to - 1 : to, 0, element);
    }, options);
  }

  /** @param {any} value @param {any} before @param {any} [options] @returns {Promise<number>} */
  insert(value, before, options) {
    return this.#change((list) => {
      const key = value?.[this.#name];
      if (key === undefined || this.indexOf(key) >= 0) {
        throw new Refused({ fault: "key" }, `${JSON.stringify(key)} is no new key`);
      }
      const to = this.#to(before);
      if (to === null) list.push(value);
      else list.splice(to, 0, value);
    }, options);
  }

  /**
   * @param {any} key @param {(element: any) => void} make @param {any} [options]
   * @returns {Promise<number>}
   */
  change(key, make, options) {
    return this.#change((list) => void make(list[this.#at(key)]), options);
  }

  /** @param {any} key */
  #at(key) {
    const at = this.indexOf(key);
    if (at >= 0) return at;
    throw new Refused({ fault: "missing" }, `no element has the key ${JSON.stringify(key)}`);
  }

  /** @param {any} before @returns {number | null} */
  #to(before) {
    return before === null || before === undefined ? null : this.#at(before);
  }
}

// JSON Pointers (RFC 6901).

/** @param {string} pointer */
export function tokens(pointer) {
  if (!/^(\/([^~/]|~[01])*)*$/.test(pointer)) {
    throw new RangeError(`"${pointer}" is no JSON Pointer`);
  }
  return pointer
    .split("/")
    .slice(1)
    .map((token) => token.replaceAll("~1", "/").replaceAll("~0", "~"));
}

/**
 * The pointer of keys: names of members and indexes in lists.
 * @param {...(string | number)} keys
 */
export function pointer(...keys) {
  for (const key of keys) {
    if (!isKey(key)) throw new TypeError(`${String(key)} is no name and no index`);
  }
  return spelled(keys);
}

/** @param {unknown} key */
function isKey(key) {
  return typeof key === "string" || (Number.isSafeInteger(key) && Number(key) >= 0);
}

/** @param {readonly (string | number)[]} path */
export function spelled(path) {
  return path
    .map((token) => `/${String(token).replaceAll("~", "~0").replaceAll("/", "~1")}`)
    .join("");
}

/**
 * The place in a list that a token names, or null where it names none.
 * @param {string} token
 */
export function index(token) {
  return /^(0|[1-9]\d*)$/.test(token) ? Number(token) : null;
}

/**
 * True if one of two pointers leads to the other's value or into it.
 * @param {string} one
 * @param {string} other
 */
export function overlap(one, other) {
  return `${one}/`.startsWith(`${other}/`) || `${other}/`.startsWith(`${one}/`);
}

/**
 * True if a path is another one, or leads into its value.
 * @param {readonly string[]} path
 * @param {readonly string[]} start
 */
export function startsWith(path, start) {
  return start.length <= path.length && start.every((token, k) => token === path[k]);
}

// The address of a room as it may be shown: a program logs messages, and a page shows them.

/**
 * The address with `***` in place of a password, or of a name that has none: that may be a token. A
 * password that is not escaped may have a slash, so it ends at the last `@`.
 * @param {string} url or its JSON text
 */
export function shownAddress(url) {
  return url.replace(/^("?[\w+.-]+:)?([/\\]*)([^:]*:)?.*@/s, "$1$2$3***@");
}

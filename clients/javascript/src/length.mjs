// The length of a text that is sent, as the relay counts it.

// Bytes of UTF-8. A longer text ends its connection without an answer, each time that it is sent.
const LONGEST = 1_056_768;

// A unit of a text takes three bytes at most: a character of four has two units.
const BYTES = 3;

/** @param {string} text */
export function endsConnection(text) {
  // Most texts are so short that their bytes need not be counted.
  return text.length * BYTES > LONGEST && new TextEncoder().encode(text).length > LONGEST;
}

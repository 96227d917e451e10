// The longest rising subsequence: which elements of a list stay where they are, when the others
// move.

/** @param {readonly number[]} places @returns {number[]} */
export function longestRising(places) {
  /** @type {number[]} */
  const ends = []; // by the length: where the lowest end of a rising sequence of it is
  /** @type {number[]} */
  const before = [];
  places.forEach((place, k) => {
    const length = firstNotBelow(ends, places, place);
    before[k] = length > 0 ? ends[length - 1] : -1;
    ends[length] = k;
  });
  const rising = [];
  for (let k = ends.at(-1) ?? -1; k >= 0; k = before[k]) rising.push(places[k]);
  return rising.reverse();
}

/** @param {readonly number[]} ends @param {readonly number[]} places @param {number} place */
function firstNotBelow(ends, places, place) {
  let [low, high] = [0, ends.length];
  while (low < high) {
    const middle = (low + high) >> 1;
    if (places[ends[middle]] < place) low = middle + 1;
    else high = middle;
  }
  return low;
}

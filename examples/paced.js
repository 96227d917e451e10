// A function that is called at most so many times a second, however often it is asked for.
"use strict";

/**
 * `soon` calls it at once, or as soon as it may be, with the newest value by then; `now` with what
 * waits.
 * @param rate calls a second @param act is given the value
 */
function paced(rate, act) {
  let next = 0; // when it may be called again
  let waiting = []; // one value, or none
  let timer = null;
  const now = () => {
    clearTimeout(timer);
    timer = null;
    for (const value of waiting.splice(0)) {
      next = performance.now() + 1000 / rate;
      act(value);
    }
  };
  const soon = (value) => {
    waiting = [value];
    const wait = next - performance.now();
    if (wait <= 0) now();
    else timer ??= setTimeout(now, wait);
  };
  return { soon, now };
}

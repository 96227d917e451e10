// Decisions that wait for somebody. Each stands in the page's `#offers` until it is taken.
"use strict";

const offers = new Map(); // from what it is about to its element

/**
 * Offers choices, functions by their words. An earlier offer about the same thing goes, unless it
 * says the same.
 */
function offer(about, words, choices) {
  if (offers.get(about)?.firstChild.textContent === words) return;
  withdraw(about);
  const item = document.createElement("li");
  const said = Object.assign(document.createElement("span"), { textContent: words });
  const buttons = Object.entries(choices).map(([words, act]) =>
    button(words, () => {
      withdraw(about);
      act();
    }),
  );
  item.append(said, ...buttons);
  offers.set(about, item);
  document.querySelector("#offers").append(item);
}

function button(textContent, onclick) {
  return Object.assign(document.createElement("button"), { type: "button", textContent, onclick });
}

function withdraw(about) {
  offers.get(about)?.remove();
  offers.delete(about);
}

/**
 * Tells what is gone since the relay was started anew without the document, and offers to put it
 * back, until it is there again or is let go. Of several such starts it tells together.
 * @param words gives those for a list of what is gone
 * @param gone gives a list of what was in slots of before and is not in those of now
 * @param putBack is given the slots of before
 */
function offerAfterRestart(board, { words, gone, putBack }) {
  let last = null; // the run, and what it showed
  let before = []; // what earlier runs showed, the newest first, as long as some of it is gone
  const putAllBack = async () => {
    for (const slots of before) await putBack(slots);
  };
  board.subscribe(() => {
    if (last !== null && last.epoch !== board.epoch) before.unshift(last.slots);
    last = { epoch: board.epoch, slots: board.confirmed };
    before = before.filter((slots) => gone(slots, board.confirmed).length > 0);
    const lost = before.flatMap((slots) => gone(slots, board.slots));
    if (lost.length === 0) return withdraw("restart");
    const why = "The relay was started anew, and has not kept the document";
    offer("restart", `${why}: ${words(lost)}.`, {
      "Put back": () => putAllBack().catch((cause) => say(failure(cause))),
      "Let go": () => (before = []),
    });
  });
}

// The cards of board.html on the page. A card keeps its element while it is shown, wherever it
// goes, so that it flies from where it was to where it is, and keeps the focus. Once it is gone,
// the card in its place has the focus. It is known by its value, mostly a text, and among equal
// ones by which of them it is. The element in which somebody writes stays when its card is gone.
"use strict";

const FLIGHT = { duration: 160, easing: "cubic-bezier(.2, .7, .3, 1)" };

class Cards {
  #lists; // elements, one for each list
  #make;
  #shown = new Map(); // from what a card is known by to its element
  #values = new WeakMap(); // of the elements that are cards

  /** @param lists elements that hold cards @param make gives the element of a value */
  constructor(lists, make) {
    this.#lists = lists;
    this.#make = make;
  }

  /** The place of an element's card: its list, its place there, and its value. */
  seen(element) {
    const list = this.#lists.indexOf(element.parentElement);
    return { list, place: this.of(list).indexOf(element), value: this.#values.get(element) };
  }

  /** The elements of the cards of a list. */
  of(list) {
    return [...this.#lists[list].children].filter((item) => this.#values.has(item));
  }

  /** The element of the card at a place of a list, or of the nearest one there. */
  near(list, place) {
    const there = this.of(list);
    return there[Math.max(0, Math.min(place, there.length - 1))];
  }

  /** The element of a value; of equal ones, the last. */
  find(value) {
    const wanted = JSON.stringify(value);
    return [...this.#shown.values()]
      .filter((element) => JSON.stringify(this.#values.get(element)) === wanted)
      .at(-1);
  }

  /** Tells whether the card of an element is in the lists that are shown. */
  has(element) {
    return this.#values.has(element);
  }

  /** Shows lists of values. The element that is `held` stays where it is if its card is gone. */
  show(lists, held = null) {
    const before = new Map(
      [...this.#shown.values()].map((element) => [element, element.getBoundingClientRect()]),
    );
    const kept = this.#shown;
    this.#shown = new Map();
    const counts = new Map();
    const wanted = lists.map((list) => list.map((value) => this.#element(value, counts, kept)));
    const focused = document.activeElement;
    const place = this.#values.has(focused) && this.seen(focused);
    const isWanted = new Set(wanted.flat());
    const caret = [focused.selectionStart, focused.selectionEnd];
    for (const gone of before.keys()) {
      if (gone === held && !isWanted.has(gone)) this.#keep(held);
      else if (!isWanted.has(gone)) gone.remove();
    }
    this.#lists.forEach((list, k) => this.#fill(k, list, wanted[k], focused.closest("li")));
    const next = place && !focused.isConnected ? this.#instead(place) : focused;
    if (next !== document.activeElement && next.isConnected) {
      next.focus();
      if (next === focused) next.setSelectionRange?.(...caret);
    }
    for (const [element, box] of before) fly(element, box);
  }

  /** Takes away an element whose card is gone. What is beside it has the focus then. */
  drop(element) {
    const isFocused = element.contains(document.activeElement);
    const { parentElement, nextElementSibling, previousElementSibling } = element;
    const next = nextElementSibling ?? previousElementSibling;
    element.remove();
    if (isFocused) (next ?? parentElement.parentElement.querySelector("input")).focus();
  }

  #keep(held) {
    this.#values.delete(held);
    held.classList.add("gone");
  }

  #element(value, counts, kept) {
    const written = JSON.stringify(value);
    const count = counts.get(written) ?? 0;
    counts.set(written, count + 1);
    const key = `${count} ${written}`;
    const element = kept.get(key) ?? this.#make(value);
    this.#values.set(element, value);
    this.#shown.set(key, element);
    return element;
  }

  // What has the focus once a card is gone: of a list without cards, where one is added.
  #instead({ list, place }) {
    return this.near(list, place) ?? this.#lists[list].parentElement.querySelector("input");
  }

  // An element that is moved loses the focus. So only what is not in its place is moved, and
  // within a list those before the one that has the focus, not that one.
  #fill(k, list, elements, focused) {
    elements.forEach((element, place) => {
      const isStill = element === focused && element.parentElement === list;
      while (isStill && this.of(k)[place] !== element) list.append(this.of(k)[place]);
      const there = this.of(k)[place];
      if (there !== element) list.insertBefore(element, there ?? null);
    });
  }
}

/** From a place of before to where it is now. */
function fly(element, { left, top }) {
  const now = element.getBoundingClientRect();
  const [x, y] = [left - now.left, top - now.top];
  if (
    (x === 0 && y === 0) ||
    !element.isConnected ||
    matchMedia("(prefers-reduced-motion: reduce)").matches
  ) {
    return;
  }
  element.animate([{ transform: `translate(${x}px, ${y}px)` }, { transform: "none" }], FLIGHT);
}

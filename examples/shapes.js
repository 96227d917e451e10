// The shapes of whiteboard.html on the page: an element for each, by its id. It stays as long as
// the shape is there, so it keeps the focus wherever it goes.
"use strict";

const KINDS = ["rectangle", "ellipse", "note"];

class Shapes {
  #plane;
  #make;
  #shown = new Map(); // by the id: an element and the value that it shows
  #held = null; // the element that follows the pointer, and is where this page has it

  /** @param plane the element that holds them @param make gives the element of an id */
  constructor(plane, make) {
    this.#plane = plane;
    this.#make = make;
  }

  /** @param shapes values by their ids; anyone may have written them */
  show(shapes) {
    for (const [id, { element }] of this.#shown) {
      if (!Object.hasOwn(shapes, id)) this.#drop(id, element);
    }
    for (const [id, value] of Object.entries(shapes)) {
      // What did not change is the same value as before.
      if (this.#shown.get(id)?.value !== value) this.#put(id, value);
    }
  }

  /** The element of an id. */
  of(id) {
    return this.#shown.get(id)?.element;
  }

  /** An element stays where this page puts it, wherever others do, until it is released. */
  hold(element) {
    this.#held = element;
  }

  release() {
    const held = this.#held;
    this.#held = null;
    for (const { element, value } of this.#shown.values()) {
      if (element === held) this.place(element, object(object(value).at));
    }
  }

  #drop(id, element) {
    const near = element.nextElementSibling ?? element.previousElementSibling;
    const hadFocus = element.contains(document.activeElement);
    this.#shown.delete(id);
    element.remove();
    if (hadFocus) near?.focus();
  }

  #put(id, value) {
    const element = this.of(id) ?? this.#add(id);
    this.#shown.set(id, { element, value });
    const { kind, at, text: written } = object(value);
    const words = kind === "note" ? text(written) : "";
    element.dataset.kind = KINDS.includes(kind) ? kind : KINDS[0];
    element.querySelector(".text").textContent = words;
    element.setAttribute("aria-label", words ? `note: ${words}` : element.dataset.kind);
    if (element !== this.#held) this.place(element, object(at));
  }

  // In the order of their ids, which is that in which they were made: a newer one lies above.
  #add(id) {
    const next = [...this.#shown.keys()].filter((other) => other > id).sort()[0];
    const element = this.#make(id);
    this.#plane.insertBefore(element, this.of(next) ?? null);
    return element;
  }

  /** Puts an element at a place, or as near as the plane goes. Gives where that is. */
  place(element, { x, y }) {
    const at = {
      x: within(x, this.#plane.offsetWidth - element.offsetWidth),
      y: within(y, this.#plane.offsetHeight - element.offsetHeight),
    };
    element.style.left = `${at.x}px`;
    element.style.top = `${at.y}px`;
    return at;
  }
}

function within(value, longest) {
  return Number.isFinite(value) ? Math.max(0, Math.min(Math.round(value), longest)) : 0;
}

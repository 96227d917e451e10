// Texts that somebody wrote and the relay does not have yet. They outlive the page: whoever comes
// back to the room, in this tab or in another one, finds them again.
"use strict";

class Unsaved {
  #key;
  #left; // drafts of pages that are gone
  #kept = new Set(); // drafts of this page

  /** @param room what tells one page and room from another */
  constructor(room) {
    this.#key = `unsaved ${room}`;
    this.#left = [sessionStorage, localStorage].flatMap((storage) => this.#take(storage));
    this.#store();
    addEventListener("pagehide", () => this.#leave());
    // A page that the browser kept has no connection, and its drafts are with the next page.
    addEventListener("pageshow", ({ persisted }) => persisted && location.reload());
  }

  /** Keeps a draft as it is now: an object with its `place`, which says what it is of. */
  keep(draft) {
    this.#kept.add(draft);
    this.#store();
    return draft;
  }

  drop(draft) {
    this.#kept.delete(draft);
    this.#store();
  }

  /** Tells of a place whether an earlier page left a draft of it. */
  has(place) {
    return this.#left.some((draft) => draft.place === place);
  }

  /** Takes over the first draft of a place that an earlier page left; undefined if none did. */
  left(place) {
    const at = this.#left.findIndex((draft) => draft.place === place);
    return at < 0 ? undefined : this.keep(this.#left.splice(at, 1)[0]);
  }

  /** Takes over all drafts that earlier pages left, of places that the function is true of. */
  allLeft(isWanted) {
    const places = this.#left.map(({ place }) => place).filter(isWanted);
    return places.map((place) => this.left(place));
  }

  get #all() {
    return [...this.#left, ...this.#kept];
  }

  #take(storage) {
    const written = storage.getItem(this.#key);
    storage.removeItem(this.#key);
    return list(JSON.parse(written)).filter(({ place }) => typeof place === "string");
  }

  // While the page is there they are its tab's, so that no other one takes them over.
  #store() {
    if (this.#all.length === 0) sessionStorage.removeItem(this.#key);
    else sessionStorage.setItem(this.#key, JSON.stringify(this.#all));
  }

  #leave() {
    const all = [...this.#take(localStorage), ...this.#all];
    sessionStorage.removeItem(this.#key);
    if (all.length > 0) localStorage.setItem(this.#key, JSON.stringify(all));
  }
}

// A text that somebody writes, saved as they write. It is saved over what they saw or wrote, and
// never over what somebody else wrote meanwhile: then the page offers both, also after a reload,
// until the writer has chosen.
"use strict";

const PAUSE = 400; // milliseconds without a key, after which a text is saved
const TRIES = 3;

/** The cause of a save that would have written over what somebody else did. */
class Meanwhile extends Error {}

class Writing {
  #board;
  #unsaved;
  #place;
  #field;
  // The text, until the relay has it, those that it may be saved over, and whether the writer has
  // to choose.
  #draft = null;
  #sent = null; // the newest text that has no answer yet
  #timer;

  /**
   * @param place a name for what is written
   * @param field functions: `now` gives the text that is shown there, `read` that of a draft of the
   * document, and `put` sets it there. `ended` is told that the relay has the text, or that it was
   * given up, `differs` that somebody else's stands there, or nothing that could have it, and
   * `failed` why it cannot be saved.
   */
  constructor(board, unsaved, place, field) {
    this.#board = board;
    this.#unsaved = unsaved;
    this.#place = place;
    this.#field = field;
    beforeLeaving(() => void this.save());
    document.addEventListener("visibilitychange", () => document.hidden && this.save());
  }

  /** The text that the relay does not have yet, or null. */
  get text() {
    return this.#draft?.text ?? null;
  }

  write(text) {
    this.#draft ??= { place: this.#place, seen: [this.#field.now()] };
    this.#draft.text = text;
    this.#unsaved.keep(this.#draft);
    clearTimeout(this.#timer);
    this.#timer = setTimeout(() => this.save(), PAUSE);
  }

  /** Goes on with what an earlier page left, if it did. */
  resume() {
    if (this.#draft !== null) return;
    this.#draft = this.#unsaved.left(this.#place) ?? null;
    this.look();
    this.save();
  }

  async save() {
    clearTimeout(this.#timer);
    if (this.#draft === null || this.#draft.differs) return;
    const draft = this.#draft;
    const { text } = draft;
    if (text === this.#sent) return;
    this.#sent = text;
    draft.seen.push(text);
    const make = (document) => this.#put(document, draft, text);
    const saved = this.#board.change(make, { tries: TRIES });
    const failed = await saved.then(() => null, (cause) => cause);
    if (this.#sent === text) this.#sent = null;
    if (this.#draft !== draft) return;
    if (failed !== null) await this.#failed(failed);
    else if (draft.text === text) this.drop();
  }

  /** Tells again what stands there, as long as the writer has to choose. */
  look() {
    if (!this.#draft?.differs) return;
    if (this.#field.now() === this.text) this.drop();
    else this.#field.differs(this.text);
  }

  /** Saves it over what stands there. */
  insist() {
    delete this.#draft.differs;
    this.#draft.seen.push(this.#field.now());
    this.#unsaved.keep(this.#draft);
    this.save();
  }

  /** Gives it up, or has saved it. */
  drop() {
    this.#unsaved.drop(this.#draft);
    this.#draft = null;
    this.#field.ended();
    this.resume();
  }

  #put(document, { seen }, text) {
    const there = this.#field.read(document);
    if (there === text) return;
    if (there !== "" && !seen.includes(there)) throw new Meanwhile();
    this.#field.put(document, text);
  }

  async #failed(cause) {
    if (cause instanceof relay.Unknown) {
      // It was done, or is saved now.
      await this.#board.sync().catch(() => {});
      this.save();
    } else if (!(cause instanceof Meanwhile)) {
      this.#field.failed(cause, this.text);
    } else {
      this.#draft.differs = true;
      this.#unsaved.keep(this.#draft);
      this.look();
    }
  }
}

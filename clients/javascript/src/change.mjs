// Changes of a document by a function that is given a draft of it. Where the patch is refused since
// the document is another one by then, the function is called again, on what is shown then.
import { Draft } from "./draft.mjs";
import { checkOptions } from "./options.mjs";
import { guarded } from "./guard.mjs";
import { knownBy } from "./known.mjs";
import { anew } from "./place.mjs";

/**
 * @typedef {import("./guard.mjs").Guard} Guard
 * @typedef {import("../relay.js").Operation} Operation
 * @typedef {import("../relay.js").ChangeOptions} ChangeOptions
 * @typedef {(draft: Draft) => void} Make
 * @typedef {{ patch: Operation[], isByBase: boolean }} Made
 */

const CHANGE = ["guard", "tries", "optimistic", "undo", "once"];

// The number of times that the function is called, if nothing is said.
const TRIES = 20;

// The faults by which a patch is refused that was made of another document.
const OUTDATED = [
  "stale",
  "test-failed",
  "missing",
  "key",
  "not-index",
  "past-end",
  "no-container",
  "into-itself",
];

/**
 * Gives the new revision; that of the slots where nothing is changed.
 * @param {any} board
 * @param {Make} make
 * @param {ChangeOptions & { keys?: Map<string, string> }} asked
 * @returns {Promise<number>}
 */
export async function change(board, make, asked) {
  checkOptions("change", asked, CHANGE, ["keys"]);
  const { guard = "values", tries = TRIES, keys, ...options } = asked;
  checkGuard(guard);
  const own = { optimistic: true, ...options, silent: true };
  if (board.slots === null) await board.ready;
  /** @type {Made | null} */
  let made = null;
  try {
    return await anew(board, tries, OUTDATED, async (sends) => {
      made = drafted(board, make, guard, keys);
      // A base is of what the relay showed, without the edits that wait.
      while (made?.isByBase && board.slots !== board.confirmed) {
        await board.quiet();
        made = drafted(board, make, guard, keys);
      }
      sends();
      if (made === null) return board.rev;
      return board.edit(made.patch, made.isByBase ? { ...own, ...based(board) } : own);
    });
  } catch (error) {
    const sent = /** @type {Made | null} */ (made);
    if (own.optimistic && sent !== null) board.takenBack(sent.patch, error);
    throw error;
  }
}

/** @param {any} board */
function based({ rev, epoch }) {
  return { base: rev, epoch, once: false };
}

/**
 * @param {any} board @param {Make} make
 * @param {Guard} guard @param {Map<string, string>} [keys]
 */
function drafted({ view, slots }, make, guard, keys) {
  const draft = new Draft(knownBy(view, slots), keys);
  make(draft);
  return guarded(draft, guard);
}

/** @param {string} guard */
function checkGuard(guard) {
  if (!["values", "base", "none"].includes(guard)) throw new RangeError(`no guard: ${guard}`);
}

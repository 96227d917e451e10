// A will: what the relay is to do when this client's session ends (docs/PROTOCOL.md, "Wills"). It
// goes with its session, so each connection leaves it again. A session has one: what the parts of a
// page leave is put together.
import { Closed, Refused } from "./errors.mjs";
import { checkPatch } from "./options.mjs";
import { checked } from "./json.mjs";

/** @typedef {import("../relay.js").Operation} Operation */
/** @typedef {import("./link.mjs").Asked} Asked */

/** @param {import("./link.mjs").Link} link */
export function wills(link) {
  /** @type {Map<unknown, Operation[]>} */
  let parts = new Map(); // by whose they are

  /**
   * In place of what was left before for the same part.
   * @param {readonly Operation[]} patch @param {unknown} of
   * @returns {Promise<void>}
   */
  return (patch, of) =>
    new Promise((resolve, reject) => {
      checkPatch("will", patch);
      const before = parts;
      const own = (parts = new Map(before).set(of, checked(patch)));
      /** @type {Asked} */
      const asked = {
        request: { do: "will", patch: [...own.values()].flat() },
        answered(reply) {
          if (reply.kind === "willing") {
            link.will = asked;
            resolve();
          } else {
            if (parts === own) parts = before;
            reject(new Refused(reply));
          }
        },
        lost: () => link.will !== asked,
        dropped: () => reject(new Closed()),
      };
      link.ask(asked);
    });
}

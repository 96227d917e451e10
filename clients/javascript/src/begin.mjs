// The document that a room begins with: each connection writes it before anything else, and the
// relay refuses that if the room has one.
import { Refused } from "./errors.mjs";
import { checked } from "./json.mjs";

/**
 * The request that does it.
 * @param {unknown} value
 * @param {(cause: Refused) => void} refused told of every refusal, but that there is a document
 */
export function beginning(value, refused) {
  const patch = [
    { op: "test", path: "", value: null },
    { op: "add", path: "", value: checked(value, ["begin"]) },
  ];
  const answered = (/** @type {any} */ reply) => {
    if (reply.kind !== "done" && reply.fault !== "test-failed") refused(new Refused(reply));
  };
  return { request: { do: "edit", patch }, answered };
}

// Warnings for an application that does not listen to states: why there is no connection, and why
// there will be none.
import { HandshakeFailed } from "./errors.mjs";

/** Warns once of each time in which no connection can be had, and of a board that is refused. */
export function warning() {
  let warned = false;
  return (/** @type {string} */ state, /** @type {Error | null} */ cause) => {
    if (state === "open") warned = false;
    const isOver = state === "closed" && cause !== null;
    if (!isOver && (warned || !(cause instanceof HandshakeFailed))) return;
    warned = true;
    console.warn(`relay: ${cause.message}; it is ${isOver ? "given up" : "tried again"}`);
  };
}

// Shows what a client says and hears, for whoever looks for a mistake: a class of sockets to
// connect with.

/**
 * @param {(told: { way: "sent" | "heard", message: any }) => void} tell of each text, in order
 * @param {any} [Sockets]
 */
export function inspected(tell, Sockets = globalThis.WebSocket) {
  return class extends Sockets {
    /** @param {string} url */
    constructor(url) {
      super(url);
      // Before the client's own, so that what it says of a message is told behind it.
      this.addEventListener("message", (/** @type {any} */ { data }) => {
        tell({ way: "heard", message: JSON.parse(data) });
      });
    }

    /** @param {string} text */
    send(text) {
      tell({ way: "sent", message: JSON.parse(text) });
      super.send(text);
    }
  };
}

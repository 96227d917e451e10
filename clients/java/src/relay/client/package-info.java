/**
 * A client of the relay (docs/PROTOCOL.md, "What a client does"): the slots of a view, kept right
 * over lost connections and restarts. {@link relay.client.Board} is where to begin.
 */
package relay.client;

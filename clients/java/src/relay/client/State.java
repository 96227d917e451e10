package relay.client;

/** The state of a board's connection. */
public enum State {
    /** There is a connection or soon will be, and the slots are on their way. */
    CONNECTING,
    /** The slots are those of the relay, but for what is on its way. */
    OPEN,
    /** The connection was lost, and the next try comes after a while. */
    WAITING,
    CLOSED
}

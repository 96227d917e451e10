package relay.client;

import java.net.URI;
import java.util.Map;

/** The failure of what was asked for, or the cause if there is no connection. */
public abstract class RelayException extends RuntimeException {
    private static final long serialVersionUID = 1;

    private RelayException(String words) {
        super(words);
    }

    static boolean isStale(Throwable failure) {
        return failure instanceof Refused refused && refused.fault.equals("stale");
    }

    /**
     * The relay refused a request, and nothing changed by it. Or the board did before it was sent:
     * as {@code stale} an edit with a base of another run, as {@code too-long} a text by which the
     * connection would end, as {@code away} an edit that is not guarded while the connection is
     * lost, as {@code changed} an undo, as {@code read-only} each edit of a board that only
     * watches.
     */
    public static final class Refused extends RelayException {
        private static final long serialVersionUID = 1;
        /** The word of the fault (docs/PROTOCOL.md, "Messages"). */
        public final String fault;
        /** The operation or pointer that is at fault, counted from 0; null if no single one is. */
        public final Integer at;
        /** The room's revision, if the fault is {@code stale}; else null. */
        public final Long rev;

        Refused(String fault, Integer at, Long rev) {
            super(
                    fault
                            + (at == null ? "" : " at " + at)
                            + (rev == null ? "" : ", the room is at revision " + rev)
                            + Advice.of(fault));
            this.fault = fault;
            this.at = at;
            this.rev = rev;
        }

        Refused(String fault) {
            this(fault, null, null);
        }

    }

    /** The connection was lost before the answer: the edit may have been done, or not. */
    public static final class Unknown extends RelayException {
        private static final long serialVersionUID = 1;
        /**
         * The room's revision, if the edit had a base and was sent again: it was done by then, or
         * never will be. The document tells which, if the edit left a mark there. If it is null,
         * the edit may still be done.
         */
        public final Long rev;

        Unknown(Long rev) {
            super("the connection was lost before the answer" + (rev == null ? "" : ", at " + rev));
            this.rev = rev;
        }
    }

    /** Another view was watched before the slots of this one came. */
    public static final class Superseded extends RelayException {
        private static final long serialVersionUID = 1;

        Superseded() {
            super("another view was watched before its slots came");
        }
    }

    /** The board was closed before what was asked for was sent. */
    public static final class Closed extends RelayException {
        private static final long serialVersionUID = 1;

        Closed() {
            super("the board is closed");
        }
    }

    /**
     * There is no connection. The board goes on trying, unless the first answer is a 404: then the
     * address is none of a room. One that only watches goes on also then: the room may begin later.
     */
    public static final class HandshakeFailed extends RelayException {
        private static final long serialVersionUID = 1;
        private static final String UNREACHABLE = "the relay cannot be reached";
        private static final String CHECK =
                "start the relay there, or check the address, the port and --per-peer";
        private static final String PLAIN = ", or take ws://: the relay itself has no TLS";
        private static final String NO_ROOMS =
                "what answers there has no rooms, or is the --admin port";
        private static final String NO_ROOM_YET =
                "there is no room of this name yet, or " + NO_ROOMS;
        private static final Map<Integer, String> CAUSES = Map.of(
                200, NO_ROOMS,
                401, "the name or the password is missing or wrong",
                403, "it lets no page of this origin in (--origin)",
                429, "too many requests or connections of this address",
                503, "it is full (--sessions, --rooms), --closed, or stopping");
        /** The status of the answer, as 503 of a relay without a place; null if none came. */
        public final Integer status;

        public HandshakeFailed(Integer status, Throwable cause) {
            this(status, cause, status == null ? UNREACHABLE : "refused with " + status);
        }

        private HandshakeFailed(Integer status, Throwable cause, String words) {
            super(words);
            this.status = status;
            if (cause != null) initCause(cause);
        }

        /** The same, with the address. */
        HandshakeFailed at(URI address) {
            return new HandshakeFailed(status, getCause(), words(address));
        }

        private String words(URI address) {
            if (status == null) return silence(address);
            String words = Address.shown(address) + " refuses the connection, with " + status;
            if (status == 404) return words + ": " + notFound(address);
            return CAUSES.containsKey(status) ? words + ": " + CAUSES.get(status) : words;
        }

        private static String silence(URI address) {
            String advice = "wss".equals(address.getScheme()) ? CHECK + PLAIN : CHECK;
            return "nothing answers at " + Address.shown(address) + ": " + advice;
        }

        /** Tells what is wrong with an address, as far as it shows. */
        private static String notFound(URI address) {
            String path = String.valueOf(address.getPath());
            if (path.matches(".*/rooms/[A-Za-z0-9_-]+/watch")) return NO_ROOM_YET;
            return path.matches("/rooms/[A-Za-z0-9_-]+")
                    ? NO_ROOMS
                    : "a room is at /rooms/NAME, and this path is " + Address.shown(path);
        }
    }
}

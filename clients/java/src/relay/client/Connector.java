package relay.client;

import java.net.URI;

/** Makes connections to a room. A test may play one; else it is {@link JdkConnector}. */
public interface Connector {
    /** Begins a handshake. The receiver is told what becomes of it, from any thread, in order. */
    void open(URI address, Receiver receiver);

    /** Hears a connection. */
    interface Receiver {
        void opened(Socket socket);

        void heard(String text);

        /** It was lost, with a cause if there never was one. Called again it does nothing. */
        void lost(RelayException.HandshakeFailed cause);
    }

    /** An open connection. No call waits for the peer. */
    interface Socket {
        void send(String text);

        void abort();
    }
}

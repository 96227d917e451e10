package relay.client;

import java.net.URI;
import java.net.http.HttpClient;
import java.net.http.WebSocket;
import java.net.http.WebSocketHandshakeException;
import java.time.Duration;
import java.util.concurrent.CompletableFuture;
import java.util.concurrent.CompletionException;
import java.util.concurrent.CompletionStage;

/**
 * The JDK's own WebSocket. It overlooks that a peer resets the connection unless its executor runs
 * its tasks at once and messages are asked for on its own thread: so both are so here. And it does
 * not send the name and the password of an address.
 */
public final class JdkConnector implements Connector {
    /** One for all boards, and one thread: none of them is ever ended. */
    private static final class Shared {
        static final HttpClient CLIENT = HttpClient.newBuilder().executor(Runnable::run).build();
    }

    private final Duration patience;

    /** A handshake may take that long. */
    public JdkConnector(Duration patience) {
        this.patience = patience;
    }

    @Override
    public void open(URI address, Receiver receiver) {
        WebSocket.Builder builder = Shared.CLIENT.newWebSocketBuilder().connectTimeout(patience);
        Address.authorization(address).ifPresent(user -> builder.header("Authorization", user));
        builder.buildAsync(address, new Line(receiver)).exceptionally(failure -> {
            receiver.lost(cause(failure));
            return null;
        });
    }

    private static RelayException.HandshakeFailed cause(Throwable failure) {
        Throwable cause = failure instanceof CompletionException ? failure.getCause() : failure;
        if (cause instanceof WebSocketHandshakeException refused) {
            return new RelayException.HandshakeFailed(refused.getResponse().statusCode(), cause);
        }
        return new RelayException.HandshakeFailed(null, cause);
    }

    /** A connection. The JDK calls its listener by one thread at a time. */
    private static final class Line implements WebSocket.Listener, Socket {
        private final Receiver receiver;
        private final StringBuilder parts = new StringBuilder();
        private WebSocket socket;
        /** The JDK sends one text at a time: what was handed in last, and its predecessors. */
        private CompletableFuture<WebSocket> sending;

        Line(Receiver receiver) {
            this.receiver = receiver;
        }

        @Override
        public void onOpen(WebSocket opened) {
            socket = opened;
            sending = CompletableFuture.completedFuture(opened);
            receiver.opened(this);
            opened.request(1);
        }

        @Override
        public CompletionStage<?> onText(WebSocket from, CharSequence part, boolean isLast) {
            parts.append(part);
            if (isLast) {
                String text = parts.toString();
                parts.setLength(0);
                receiver.heard(text);
            }
            from.request(1);
            return null;
        }

        @Override
        public CompletionStage<?> onClose(WebSocket from, int status, String reason) {
            receiver.lost(null);
            return null;
        }

        @Override
        public void onError(WebSocket from, Throwable error) {
            receiver.lost(null);
        }

        @Override
        public synchronized void send(String text) {
            sending = sending.thenCompose(ready -> ready.sendText(text, true));
            sending.exceptionally(failure -> {
                receiver.lost(null);
                return null;
            });
        }

        @Override
        public void abort() {
            socket.abort();
        }
    }
}

package relay.client;

import static relay.client.ValuesTest.json;

import com.fasterxml.jackson.databind.JsonNode;
import java.net.URI;
import java.time.Duration;
import java.util.concurrent.BlockingQueue;
import java.util.concurrent.LinkedBlockingQueue;
import java.util.concurrent.TimeUnit;

/** A relay that is played to a board, message by message. */
final class Played implements Connector {
    private final BlockingQueue<Receiver> opened = new LinkedBlockingQueue<>();
    private final BlockingQueue<JsonNode> said = new LinkedBlockingQueue<>();
    volatile boolean isLeft;
    volatile URI address; // of the newest handshake
    private Receiver receiver;

    /** Options of a board that is played: what follows has followed when a call returns. */
    Options options() {
        Duration soon = Duration.ofMillis(1);
        return new Options().connector(this).executor(Runnable::run).waits(soon, soon);
    }

    /** A board that shows one view, whose slots have come. */
    Board begun(Options options, String pointer, String slots) {
        Board board = Board.connect("ws://127.0.0.1:1/rooms/a", options, pointer);
        accept(7, 1);
        reply("'kind':'watching'");
        hear("{'kind':'snapshot','rev':1,'view':" + slots + "}");
        return board;
    }

    @Override
    public void open(URI room, Receiver hears) {
        address = room;
        opened.add(hears);
    }

    void accept(long epoch, long rev) {
        receiver = next(opened);
        isLeft = false;
        receiver.opened(new Socket() {
            @Override
            public void send(String text) {
                said.add(json(text));
            }

            @Override
            public void abort() {
                isLeft = true;
            }
        });
        hear("{'epoch':" + epoch + ",'kind':'welcome','rev':" + rev + ",'session':1}");
    }

    /** Answers the client's next handshake with a status; if it is null, not at all. */
    void refuse(Integer status) {
        next(opened).lost(new RelayException.HandshakeFailed(status, null));
    }

    void cut() {
        receiver.lost(null);
    }

    void hear(String text) {
        receiver.heard(text.replace('\'', '"'));
    }

    /** The client's next request. */
    JsonNode request() {
        return next(said);
    }

    boolean hasSaid() {
        return !said.isEmpty();
    }

    /** Answers the client's next request, and gives it. */
    JsonNode reply(String members) {
        JsonNode request = request();
        hear("{'id':" + request.get("id") + "," + members + "}");
        return request;
    }

    private static <T> T next(BlockingQueue<T> queue) {
        try {
            T one = queue.poll(20, TimeUnit.SECONDS);
            if (one == null) throw new AssertionError("nothing came");
            return one;
        } catch (InterruptedException error) {
            throw new AssertionError(error);
        }
    }
}

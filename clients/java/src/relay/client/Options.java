package relay.client;

import com.fasterxml.jackson.databind.JsonNode;
import java.time.Duration;
import java.util.concurrent.Executor;
import java.util.concurrent.LinkedBlockingQueue;
import java.util.concurrent.ThreadPoolExecutor;
import java.util.concurrent.TimeUnit;
import java.util.function.BiConsumer;
import java.util.function.Consumer;

/**
 * Options for how a board behaves; each has a default. Functions are called by the board's
 * {@link #executor}, one after the other. Options are not to be changed once a board has them.
 */
public final class Options {
    /** The edits made while the connection is lost that are sent later. */
    public enum Queue {
        ALL,
        /** Those with a base or with a {@code test} first. Others are refused, as {@code away}. */
        GUARDED
    }

    Consumer<Change> onChange = change -> {};
    BiConsumer<State, RelayException> onState = (state, cause) -> {};
    BiConsumer<Patch, RelayException> onTakenBack = (patch, cause) -> {};
    JsonNode begin;
    boolean isReadOnly;
    Queue queue = Queue.ALL;
    Duration firstWait = Duration.ofMillis(200);
    Duration longestWait = Duration.ofSeconds(10);
    Duration quiet = Duration.ofSeconds(20);
    Duration patience = Duration.ofSeconds(10);
    Executor executor;
    Connector connector;

    /** Told of each change of what is shown. */
    public Options onChange(Consumer<Change> listener) {
        onChange = listener;
        return this;
    }

    /** Told of each new state, with its cause if there is one. */
    public Options onState(BiConsumer<State, RelayException> listener) {
        onState = listener;
        return this;
    }

    /** Told of each optimistic edit that failed, with the cause: what it showed is taken back. */
    public Options onTakenBack(BiConsumer<Patch, RelayException> listener) {
        onTakenBack = listener;
        return this;
    }

    /**
     * The document that the room is given if it has none: the board adds it, if {@code null} stands
     * there, on each connection before anything else. If that is refused for another reason than
     * that the room has a document, the board ends.
     */
    public Options begin(Object document) {
        begin = document == null ? null : Json.of(document);
        return this;
    }

    /**
     * Enters the room only to watch it, by its address with {@code /watch} behind the name. Each
     * edit fails at once with {@code Refused}, as {@code read-only}, and nothing is sent: so do
     * {@code change}, {@code end}, {@code undo} and {@code redo}. The document of {@link #begin} is
     * not added. If there is no room of the name yet, the relay answers 404, and the board is
     * {@code WAITING} until there is one.
     */
    public Options readOnly(boolean chosen) {
        isReadOnly = chosen;
        return this;
    }

    public Options queue(Queue kept) {
        queue = kept;
        return this;
    }

    /** The first try after a loss waits at most that long, each further one twice as long. */
    public Options waits(Duration first, Duration longest) {
        firstWait = first;
        longestWait = longest;
        return this;
    }

    /**
     * After {@code quiet} without a message the relay is asked whether it is there. A connection is
     * given up if its oldest request has no answer after {@code patience}. While slots are on their
     * way it is not asked, and is given up after both together. Each connection in a row that is
     * given up doubles the patience, at most 32 times, until slots come.
     */
    public Options patience(Duration quiet, Duration patience) {
        this.quiet = quiet;
        this.patience = patience;
        return this;
    }

    /** Runs listeners and completes futures, in order; by default a daemon thread of the board. */
    public Options executor(Executor chosen) {
        executor = chosen;
        return this;
    }

    /** Another kind of connection. */
    public Options connector(Connector chosen) {
        connector = chosen;
        return this;
    }

    static Executor ownThread() {
        LinkedBlockingQueue<Runnable> works = new LinkedBlockingQueue<>();
        ThreadPoolExecutor one = new ThreadPoolExecutor(1, 1, 5, TimeUnit.SECONDS, works, work -> {
            Thread thread = new Thread(work, "relay board");
            thread.setDaemon(true);
            return thread;
        });
        one.allowCoreThreadTimeOut(true);
        return one;
    }
}

package relay.client;

import com.fasterxml.jackson.core.JsonProcessingException;
import com.fasterxml.jackson.databind.JsonNode;
import com.fasterxml.jackson.databind.node.ArrayNode;
import com.fasterxml.jackson.databind.node.ObjectNode;
import java.net.URI;
import java.nio.charset.StandardCharsets;
import java.util.ArrayDeque;
import java.util.ArrayList;
import java.util.Deque;
import java.util.List;
import java.util.Objects;
import java.util.concurrent.Executors;
import java.util.concurrent.ScheduledExecutorService;
import java.util.concurrent.ScheduledFuture;
import java.util.concurrent.ThreadLocalRandom;
import java.util.concurrent.TimeUnit;

/**
 * A room's slots, kept right over connections that are lost and runs of the relay that end
 * (docs/PROTOCOL.md, "What a client does"). Each call and each field is guarded by one lock.
 */
final class Session {
    /** With one request more on the way the relay might stop reading what this client sends. */
    private static final int ON_THE_WAY = 31;

    /** Bytes of a text. A longer one ends its connection, each time that it is sent. */
    private static final int LONGEST = 1_056_768;

    /** As what answers says that there is no room at the address. */
    private static final int NO_ROOM = 404;

    private static final int DOUBLINGS = 5;
    private static final JsonNode TOO_LONG =
            Json.NODES.objectNode().put("kind", "refused").put("fault", "too-long");
    private static final ScheduledExecutorService TIMERS =
            Executors.newSingleThreadScheduledExecutor(work -> {
                Thread thread = new Thread(work, "relay timers");
                thread.setDaemon(true);
                return thread;
            });

    /** A view that was asked for, each time another one. */
    static final class Asking {
        final int number;
        final List<Shown> view;

        Asking(int number, List<Shown> view) {
            this.number = number;
            this.view = view;
        }
    }

    /**
     * The slots that the relay has shown.
     *
     * @param of what the slots are of; its view is null if it cannot be resumed
     */
    record Held(Asking of, List<Shown> view, JsonNode slots, long rev, long epoch) {}

    /** A listener that is told of a session, with the lock held. */
    interface Hearer {
        /** Something else is held: by a patch, of one revision if it is {@code single}. */
        void held(Held before, Held now, Patch patch, boolean single);

        /** After a loss nothing was missed. */
        void missedNothing();

        void entered(State state, RelayException cause);

        /** The slots of a watch are there, or those of a later one; or it has failed. */
        void shown(int number, RelayException.Refused cause);
    }

    private final URI address;
    private final Options options;
    private final Connector connector;
    private final Object lock;
    private final Hearer hearer;
    private final Deque<Request> sent = new ArrayDeque<>();
    private Deque<Request> unsent = new ArrayDeque<>();
    private Held held;
    private State state;
    private Asking wanted;
    /** The request that the newest `watching` or `resumed` of this connection answers. */
    private Asking taken;
    /** The next patch is of all that was missed. */
    private boolean isResumedByPatch;
    /** Slots were promised, and are on their way. */
    private boolean isDue;
    /** The will that the relay took last. */
    private Will left;
    private Line line;
    private JsonNode welcome;
    /** A connection was lost, and no other one is there. */
    private boolean isAway;
    /** By any connection. Once it was, a 404 may be that of a proxy that is being set up anew. */
    private boolean wasEntered;
    private long ids;
    private int failures;
    /** Connections in a row that were given up, since slots came. */
    private int givenUp;
    private long slotsCameAt;
    private ScheduledFuture<?> timer;

    Session(URI address, List<Shown> view, Options options, Object lock, Hearer hearer) {
        this.address = address;
        this.options = options;
        JdkConnector usual = new JdkConnector(options.patience);
        connector = options.connector != null ? options.connector : usual;
        this.lock = lock;
        this.hearer = hearer;
        wanted = new Asking(0, view);
    }

    Held held() {
        return held;
    }

    State state() {
        return state;
    }

    List<Shown> wanted() {
        return wanted.view;
    }

    boolean isClosed() {
        return state == State.CLOSED;
    }

    // What a board asks.

    /** {@link Hearer#shown} is told of that number, or of a higher one. */
    void watch(int number, List<Shown> view) {
        wanted = new Asking(number, view);
        if (welcome != null) ask(watching());
    }

    void edit(Edit edit) {
        boolean isKept = options.queue == Options.Queue.ALL || edit.isGuarded();
        if (isClosed()) edit.drop();
        else if (isAway && !isKept) edit.fail(new RelayException.Refused("away"));
        else ask(edit);
    }

    void will(Will will) {
        if (isClosed()) will.drop();
        else ask(will);
    }

    void close(RelayException cause) {
        if (isClosed()) return;
        Line last = line;
        enter(State.CLOSED, cause);
        leave();
        for (Request request : dropAll()) {
            if (request instanceof Edit edit) edit.drop();
            if (request instanceof Will will) will.drop();
        }
        if (last != null) last.abort();
    }

    private Deque<Request> dropAll() {
        Deque<Request> all = unsent;
        unsent = new ArrayDeque<>();
        return all;
    }

    // Connections.

    /** One connection. What comes of one that was left is not heard. */
    private final class Line implements Connector.Receiver {
        Connector.Socket socket;

        @Override
        public void opened(Connector.Socket opened) {
            synchronized (lock) {
                socket = opened;
                if (line != this) opened.abort();
            }
        }

        @Override
        public void heard(String text) {
            synchronized (lock) {
                if (line == this) hear(text);
            }
        }

        @Override
        public void lost(RelayException.HandshakeFailed cause) {
            synchronized (lock) {
                if (line == this) lose(cause == null ? null : cause.at(address));
            }
        }

        void abort() {
            if (socket != null) socket.abort();
        }
    }

    void connect() {
        if (isClosed()) return;
        enter(State.CONNECTING, null);
        line = new Line();
        listen();
        connector.open(address, line);
    }

    private void lose(RelayException.HandshakeFailed cause) {
        if (cause != null && isFinal(cause)) {
            close(cause);
            return;
        }
        leave();
        if (isClosed()) return;
        long longest = options.longestWait.toMillis();
        long wait = Math.min(options.firstWait.toMillis() << Math.min(failures++, 20), longest);
        long chosen = ThreadLocalRandom.current().nextLong(wait / 2, wait + 1);
        timer = TIMERS.schedule(() -> locked(this::connect), chosen, TimeUnit.MILLISECONDS);
        enter(State.WAITING, cause);
    }

    /**
     * The address is none of a room. One that is only watched may begin later, since
     * {@link Board#connect} takes no address that is wrong by itself.
     */
    private boolean isFinal(RelayException.HandshakeFailed cause) {
        return Objects.equals(cause.status, NO_ROOM) && !wasEntered && !options.isReadOnly;
    }

    private void locked(Runnable act) {
        synchronized (lock) {
            act.run();
        }
    }

    /**
     * Requests that were sent have no answer any more, and only edits wait for the next connection.
     */
    private void leave() {
        if (timer != null) timer.cancel(false);
        isAway = isAway || welcome != null;
        line = null;
        welcome = null;
        taken = null;
        isResumedByPatch = false;
        isDue = false;
        List<Request> lost = new ArrayList<>(sent);
        sent.clear();
        Deque<Request> waiting = dropAll();
        lost.removeIf(one -> !isSentAgain(one));
        unsent.addAll(lost);
        for (Request one : waiting) {
            if (one instanceof Edit edit) edit(edit);
            if (one instanceof Will && one != left) unsent.add(one);
        }
    }

    /** A will that was taken is left again anyhow. */
    private boolean isSentAgain(Request one) {
        if (one instanceof Will) return one != left;
        return one instanceof Edit edit && edit.isSentAgain();
    }

    /** The slots that are held may be wrong: the next connection asks for them anew. */
    private void goAstray() {
        if (held != null) held = new Held(null, held.view, held.slots, held.rev, held.epoch);
        abandon();
    }

    private void abandon() {
        Line left = line;
        lose(null);
        left.abort();
    }

    // Whether the relay is there: the oldest request says it, or one that does nothing.

    private void listen() {
        if (timer != null) timer.cancel(false);
        long patience = options.patience.toNanos() << Math.min(givenUp, DOUBLINGS);
        long quiet = options.quiet.toNanos();
        if (isDue) {
            after(patience + (quiet << Math.min(givenUp, DOUBLINGS)), this::giveUp);
        } else if (!sent.isEmpty()) {
            long since = System.nanoTime() - Math.max(sent.getFirst().sentAt, slotsCameAt);
            after(patience - since, this::giveUp);
        } else if (welcome == null) {
            after(patience, this::giveUp);
        } else {
            after(quiet, () -> ask(new Request(Json.NODES.objectNode(), reply -> {})));
        }
    }

    private void after(long nanos, Runnable act) {
        Line present = line;
        Runnable due = () -> {
            if (line == present) act.run();
        };
        timer = TIMERS.schedule(() -> locked(due), nanos, TimeUnit.NANOSECONDS);
    }

    private void giveUp() {
        givenUp++;
        abandon();
    }

    // Requests.

    private void ask(Request request) {
        unsent.add(request);
        send();
    }

    private void send() {
        while (welcome != null && sent.size() < ON_THE_WAY && !unsent.isEmpty()) {
            Request next = unsent.poll();
            if (next instanceof Edit edit && !edit.goesTo(welcome)) continue;
            String text = next.body.put("id", ids + 1).toString();
            if (isTooLong(text)) {
                next.answered(TOO_LONG);
                continue;
            }
            next.id = ++ids;
            next.sentAt = System.nanoTime();
            sent.add(next);
            if (sent.size() == 1) listen();
            line.socket.send(text);
        }
    }

    private static boolean isTooLong(String text) {
        // Most texts are so short that their bytes need not be counted.
        return text.length() * 3L > LONGEST
                && text.getBytes(StandardCharsets.UTF_8).length > LONGEST;
    }

    private Request beginning() {
        Patch patch = Patch.of().test("", null).add("", options.begin);
        return new Request(Request.body("edit").set("patch", patch.asJson()), reply -> {
            boolean isBegun = kindOf(reply).equals("done");
            if (!isBegun && !reply.path("fault").asText().equals("test-failed")) {
                close(Request.refusal(reply));
            }
        });
    }

    private static ArrayNode asJson(List<Shown> view) {
        ArrayNode list = Json.NODES.arrayNode();
        for (Shown shown : view) list.add(shown.asJson());
        return list;
    }

    private Request watching() {
        Asking asking = wanted;
        return new Request(Request.body("watch").set("view", asJson(asking.view)), reply -> {
            if (kindOf(reply).equals("watching")) {
                taken = asking;
                isDue = true;
            } else {
                refuse(asking, Request.refusal(reply));
            }
        });
    }

    private Request resuming() {
        Asking of = held.of;
        ObjectNode body = Request.body("resume").put("epoch", held.epoch).put("rev", held.rev);
        return new Request(body.set("view", asJson(of.view)), reply -> {
            if (!kindOf(reply).equals("resumed")) {
                ask(watching()); // `future`: an epoch was given to two runs, and this is another
                return;
            }
            String how = reply.path("how").asText();
            taken = of;
            isResumedByPatch = how.equals("patch");
            isDue = !how.equals("nothing");
            if (isDue) return;
            givenUp = 0;
            hearer.missedNothing();
            enter(State.OPEN, null);
        });
    }

    /** The view before one that the relay does not take stays. Without any the board ends. */
    private void refuse(Asking refused, RelayException.Refused cause) {
        hearer.shown(refused.number, cause);
        if (wanted != refused) return;
        if (held == null) {
            close(cause);
        } else if (taken != null) {
            wanted = taken;
        } else {
            wanted = new Asking(refused.number, held.view);
            ask(watching());
        }
    }

    // Messages.

    private void hear(String text) {
        try {
            take(Json.read(text));
        } catch (JsonProcessingException | Misfit wrong) {
            goAstray();
        }
        if (line == null) return;
        send();
        listen();
    }

    private static String kindOf(JsonNode message) {
        return message.path("kind").asText();
    }

    private void take(JsonNode message) {
        String kind = kindOf(message);
        if (kind.equals("welcome") && welcome == null) enterRoom(message);
        else if (welcome == null) throw new Misfit("before the welcome");
        else if (kind.equals("snapshot")) takeSnapshot(message);
        else if (kind.equals("patch")) takePatch(message);
        else answer(message);
    }

    /**
     * Sends what begins the room first, then what asks for the slots, then the will that each
     * connection leaves again, then what waits.
     */
    private void enterRoom(JsonNode message) {
        count(message, "epoch");
        count(message, "rev");
        welcome = message;
        wasEntered = true;
        failures = 0;
        isAway = false;
        if (left != null) unsent.addFirst(left);
        unsent.addFirst(held != null && held.of == wanted ? resuming() : watching());
        if (options.begin != null && !options.isReadOnly) unsent.addFirst(beginning());
    }

    private static long count(JsonNode message, String name) {
        if (!message.path(name).isLong()) throw new Misfit("no count: " + name);
        return message.get(name).longValue();
    }

    /** Replies come in the order of the requests. The id says so, if the relay could read it. */
    private void answer(JsonNode reply) {
        Request oldest = sent.peek();
        JsonNode id = reply.path("id");
        if (oldest == null || !(id.isNull() || (id.isLong() && id.longValue() == oldest.id))) {
            throw new Misfit("a reply to no request");
        }
        if (!oldest.isAnsweredBy(kindOf(reply))) throw new Misfit("a reply of another kind");
        if (kindOf(reply).equals("done")) count(reply, "rev");
        sent.poll();
        oldest.answered(reply);
        if (oldest instanceof Will will && will.cause == null) left = will;
    }

    private void takeSnapshot(JsonNode message) {
        JsonNode slots = message.path("view");
        if (taken == null || !slots.isArray() || slots.size() != taken.view.size()) {
            throw new Misfit("slots of no view");
        }
        long epoch = welcome.get("epoch").longValue();
        show(new Held(taken, taken.view, slots, count(message, "rev"), epoch), null);
    }

    private void takePatch(JsonNode message) {
        long rev = count(message, "rev");
        if (held == null || rev <= held.rev || taken == null || taken != held.of) {
            throw new Misfit("a patch that does not follow from what is held");
        }
        Patch patch = Patch.read(message.path("patch"));
        JsonNode slots = Draft.applied(held.slots, patch);
        show(new Held(held.of, held.view, slots, rev, held.epoch), patch);
    }

    private void show(Held now, Patch patch) {
        Held before = held;
        boolean single = patch != null && !isResumedByPatch;
        held = now;
        isResumedByPatch = false;
        givenUp = 0;
        if (isDue) slotsCameAt = System.nanoTime();
        isDue = false;
        enter(State.OPEN, null);
        hearer.held(before, now, patch, single);
        hearer.shown(now.of.number, null);
    }

    private void enter(State next, RelayException cause) {
        if (state == next || isClosed()) return;
        state = next;
        hearer.entered(next, cause);
    }
}

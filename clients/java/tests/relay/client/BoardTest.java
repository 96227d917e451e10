package relay.client;

import static java.nio.charset.StandardCharsets.UTF_8;
import static relay.client.Tests.equal;
import static relay.client.Tests.fails;
import static relay.client.ValuesTest.json;

import com.fasterxml.jackson.databind.JsonNode;
import com.sun.net.httpserver.HttpServer;
import java.io.IOException;
import java.net.InetSocketAddress;
import java.time.Duration;
import java.util.ArrayList;
import java.util.Base64;
import java.util.Collections;
import java.util.List;
import java.util.Map;
import java.util.Optional;
import java.util.concurrent.CompletableFuture;
import java.util.concurrent.Flow;

/** Tests of what a board does beside what the conformance suite plays to it. */
final class BoardTest {
    private static final String CARDS = "[[['a','b']]]";
    private static final String FOLLOWS = "{'kind':'patch','rev':%d,'patch':[%s]}";

    private BoardTest() {}

    static void anAddressIsOneOfARoom() {
        Options options = new Played().options();
        for (String wrong : List.of("http://h/rooms/a", "ws://h/rooms/", "ws://h/rooms/a?b", "a")) {
            fails(IllegalArgumentException.class, () -> Board.connect(wrong, options, ""));
        }
    }

    static void aRoomBeginsBeforeAnythingElse() {
        Played relay = new Played();
        Options options = relay.options().begin(Map.of("cards", List.of()));
        Board board = Board.connect("ws://h/rooms/a", options, "/cards");
        board.edit(Patch.of().add("/cards/-", "c"));
        relay.accept(7, 0);
        JsonNode begins = relay.reply("'kind':'refused','fault':'test-failed','at':0");
        equal(json("[{'op':'test','path':'','value':null},"
                + "{'op':'add','path':'','value':{'cards':[]}}]"), begins.get("patch"));
        equal("watch", relay.request().get("do").textValue());
        equal("edit", relay.request().get("do").textValue());
        equal(State.CONNECTING, board.state());
        board.close();
    }

    static void aRoomThatCannotBeginEndsTheBoard() {
        Played relay = new Played();
        Options options = relay.options().begin(1);
        Board board = Board.connect("ws://h/rooms/a", options, "");
        relay.accept(7, 0);
        relay.reply("'kind':'refused','fault':'too-heavy','at':1");
        equal(State.CLOSED, board.state());
        equal(true, relay.isLeft);
        fails(RelayException.Refused.class, () -> board.ready().join());
    }

    static void aMissingRoomEndsABoardThatWasNeverInIt() {
        String refuses = " refuses the connection, with 404: ";
        String path = "a room is at /rooms/NAME, and this path is /b/rooms/a";
        equal("ws://h/b/rooms/a" + refuses + path, whyItEnds("ws://h/b/rooms/a"));
        String noRooms = "what answers there has no rooms, or is the --admin port";
        equal("ws://h/rooms/a" + refuses + noRooms, whyItEnds("ws://h/rooms/a"));
        Played relay = new Played();
        Runnable toWatch = () -> Board.connect("ws://h/rooms/a/watch", relay.options(), "");
        fails(IllegalArgumentException.class, toWatch);
        // Once it was there, it comes back.
        Board other = relay.begun(relay.options(), "/n", "[[0]]");
        relay.cut();
        relay.refuse(404);
        relay.accept(7, 1);
        relay.reply("'kind':'resumed','how':'nothing'");
        equal(State.OPEN, other.state());
        other.close();
    }

    private static String whyItEnds(String address) {
        Played relay = new Played();
        Board board = Board.connect(address, relay.options(), "");
        relay.refuse(404);
        equal(State.CLOSED, board.state());
        fails(RelayException.HandshakeFailed.class, () -> board.ready().join());
        return board.ready().handle((slots, failure) -> failure.getMessage()).join();
    }

    static void eachStatusThatIsTriedAgainSaysItsOwnThing() {
        String refuses = "ws://h/rooms/a refuses the connection, with ";
        String noRooms = ": what answers there has no rooms, or is the --admin port";
        equal(refuses + 200 + noRooms, whyItWaits(200));
        equal(refuses + 401 + ": the name or the password is missing or wrong", whyItWaits(401));
        String foreign = ": it lets no page of this origin in (--origin)";
        equal(refuses + 403 + foreign, whyItWaits(403));
        String often = ": too many requests or connections of this address";
        equal(refuses + 429 + often, whyItWaits(429));
        equal(refuses + 502, whyItWaits(502));
        String full = ": it is full (--sessions, --rooms), --closed, or stopping";
        equal(refuses + 503 + full, whyItWaits(503));
        String silent = "nothing answers at ws://h/rooms/a: start the relay there, or check the "
                + "address, the port and --per-peer";
        equal(silent, whyItWaits(null));
        String plain = ", or take ws://: the relay itself has no TLS";
        equal(silent.replace("ws:", "wss:") + plain, whyItWaits(null, "wss://h/rooms/a"));
    }

    static void noMessageHasThePasswordOfAnAddress() {
        Map<String, String> shown = Map.of(
                "ws://anna:secret@127.0.0.1:1/rooms/a", "ws://anna:***@127.0.0.1:1/rooms/a",
                "wss://anna:s:cr%40secret@h/rooms/a", "wss://anna:***@h/rooms/a",
                "ws://secret@h:8080/rooms/a", "ws://***@h:8080/rooms/a",
                "ws://h:8080/rooms/a", "ws://h:8080/rooms/a");
        shown.forEach((address, words) -> {
            String refuses = words + " refuses the connection, with ";
            equal(true, whyItWaits(503, address).startsWith(refuses + "503: "));
            equal(true, whyItEnds(address).startsWith(refuses + "404: "));
            equal(true, whyItWaits(null, address).startsWith("nothing answers at " + words + ": "));
        });
        Options options = new Played().options();
        for (String wrong : List.of(
                "ws://anna:secret@h/a",
                "ws://anna:secret@h/rooms/a/watch",
                "ws://anna:secret/1@h/rooms/a",
                "ws://anna:secret 1@h/rooms/a",
                "anna:secret@h/rooms/a")) {
            try {
                Board.connect(wrong, options, "");
            } catch (IllegalArgumentException failure) {
                equal(false, (failure + " " + failure.getCause()).contains("secret"));
                continue;
            }
            throw new AssertionError(wrong);
        }
    }

    static void aNameAndAPasswordAreSent() throws IOException {
        HttpServer proxy = HttpServer.create(new InetSocketAddress("127.0.0.1", 0), 0);
        byte[] user = "anna:sec/ret".getBytes(UTF_8);
        String basic = "Basic " + Base64.getEncoder().encodeToString(user);
        proxy.createContext("/", asked -> {
            boolean isNamed = basic.equals(asked.getRequestHeaders().getFirst("Authorization"));
            asked.sendResponseHeaders(isNamed ? 418 : 401, -1);
        });
        proxy.start();
        try {
            String host = "127.0.0.1:" + proxy.getAddress().getPort();
            equal(418, statusOf("ws://anna:sec%2Fret@" + host + "/rooms/a"));
            equal(401, statusOf("ws://anna:other@" + host + "/rooms/a"));
            equal(401, statusOf("ws://" + host + "/rooms/a"));
        } finally {
            proxy.stop(0);
        }
    }

    private static Integer statusOf(String address) {
        CompletableFuture<RelayException.HandshakeFailed> first = new CompletableFuture<>();
        Options options = new Options().onState((state, cause) -> {
            if (cause instanceof RelayException.HandshakeFailed failed) first.complete(failed);
        });
        Board board = Board.connect(address, options, "");
        try {
            return first.join().status;
        } finally {
            board.close();
        }
    }

    private static String whyItWaits(Integer status) {
        return whyItWaits(status, "ws://h/rooms/a");
    }

    private static String whyItWaits(Integer status, String address) {
        Played relay = new Played();
        List<String> causes = new ArrayList<>();
        Options options = relay.options().onState((state, cause) -> {
            if (cause != null) causes.add(cause.getMessage());
        });
        Board board = Board.connect(address, options, "");
        relay.refuse(status);
        board.close();
        return causes.get(0);
    }

    static void whoOnlyWatchesWaitsUntilTheRoomIsThere() {
        String yet = " refuses the connection, with 404: there is no room of this name yet, "
                + "or what answers there has no rooms, or is the --admin port";
        for (String address : List.of("ws://h/rooms/a", "ws://h/b/rooms/a")) {
            Played relay = new Played();
            List<State> states = new ArrayList<>();
            List<String> causes = new ArrayList<>();
            Options options = relay.options().readOnly(true).onState((state, cause) -> {
                states.add(state);
                if (cause != null) causes.add(cause.getMessage());
            });
            Board board = Board.connect(address, options, "/n");
            for (int tries = 0; tries < 3; tries++) relay.refuse(404);
            relay.accept(7, 1);
            relay.reply("'kind':'watching'");
            relay.hear("{'kind':'snapshot','rev':1,'view':[[5]]}");
            equal("[5]", shown(board));
            List<State> wanted = new ArrayList<>();
            for (int tries = 0; tries < 3; tries++) {
                wanted.addAll(List.of(State.CONNECTING, State.WAITING));
            }
            wanted.addAll(List.of(State.CONNECTING, State.OPEN));
            equal(wanted, states);
            equal(Collections.nCopies(3, address + "/watch" + yet), causes);
            board.close();
        }
    }

    static void itsPausesAreThoseOfALostConnection() {
        Played relay = new Played();
        Duration first = Duration.ofMillis(20);
        Options options = relay.options().readOnly(true).waits(first, first.multipliedBy(2));
        long begun = System.nanoTime();
        Board board = Board.connect("ws://h/rooms/a", options, "/n");
        for (int tries = 0; tries < 8; tries++) relay.refuse(404);
        relay.accept(7, 1);
        // Of 20 and 7 of 40 ms each is half at least.
        equal(true, System.nanoTime() - begun > 150_000_000);
        board.close();
    }

    static void whatIsUnguardedIsRefusedWhileAway() {
        Played relay = new Played();
        Options options = relay.options().queue(Options.Queue.GUARDED);
        Board board = relay.begun(options, "/cards", CARDS);
        relay.cut();
        fails(RelayException.Refused.class, () -> board.at("/cards/0").set("x").join());
        CompletableFuture<Long> guarded = board.at("/cards/0").remove();
        equal("[[\"b\"]]", shown(board));
        relay.accept(7, 1);
        relay.reply("'kind':'resumed','how':'nothing'");
        relay.reply("'kind':'done','rev':2");
        equal(2L, guarded.join());
        board.close();
    }

    static void whoOnlyWatchesEditsNothing() {
        Played relay = new Played();
        List<String> told = new ArrayList<>();
        Options options = relay.options()
                .readOnly(true)
                .begin(Map.of("cards", List.of()))
                .onChange(change -> told.add(change.slots().toString()));
        Board board = Board.connect("ws://h/rooms/a", options, "/cards");
        Patch push = Patch.of().add("/cards/-", "c");
        isReadOnly(board.edit(push));
        isReadOnly(board.change(seen -> push));
        isReadOnly(board.end());
        relay.accept(7, 1);
        equal("ws://h/rooms/a/watch", relay.address.toString());
        equal("watch", relay.reply("'kind':'watching'").get("do").textValue());
        relay.hear("{'kind':'snapshot','rev':1,'view':" + CARDS + "}");
        isReadOnly(board.edit(push, EditOptions.OPTIMISTIC.on(1, 7)));
        isReadOnly(board.at("/cards").push("c"));
        isReadOnly(board.at("/cards").update(before -> before));
        isReadOnly(board.undo());
        isReadOnly(board.redo());
        relay.hear(FOLLOWS.formatted(2, "{'op':'remove','path':'/0/0/0'}"));
        equal("[[\"b\"]]", shown(board));
        equal(2, told.size());
        equal(false, relay.hasSaid());
        board.close();
    }

    private static void isReadOnly(CompletableFuture<?> edit) {
        equal(true, edit.isDone());
        Throwable failure = edit.handle((made, cause) -> cause).join();
        equal("read-only", ((RelayException.Refused) failure).fault);
    }

    static void aRoomIsEndedAtTheRevisionThatIsShown() {
        Played relay = new Played();
        Board board = Board.connect("ws://h/rooms/a", relay.options(), "/cards");
        CompletableFuture<Long> first = board.end();
        relay.accept(7, 1);
        relay.reply("'kind':'watching'");
        equal(false, relay.hasSaid());
        relay.hear("{'kind':'snapshot','rev':1,'view':" + CARDS + "}");
        JsonNode ends = relay.reply("'kind':'refused','fault':'stale','at':null,'rev':2");
        equal(1L, ends.get("base").longValue());
        equal(json("[{'op':'replace','path':'','value':null}]"), ends.get("patch"));
        fails(RelayException.Refused.class, first::join);
        relay.hear(FOLLOWS.formatted(2, "{'op':'remove','path':'/0/0/0'}"));
        CompletableFuture<Long> second = board.end();
        equal(2L, relay.reply("'kind':'done','rev':3").get("base").longValue());
        equal(3L, second.join());
        board.close();
    }

    static void aWillOfABoardThatIsClosedFails() {
        Played relay = new Played();
        Board board = relay.begun(relay.options(), "/cards", CARDS);
        CompletableFuture<Void> left = board.will(Patch.of());
        JsonNode request = relay.request();
        equal("will", request.get("do").textValue());
        equal(json("[]"), request.get("patch"));
        board.close();
        fails(RelayException.Closed.class, left::join);
        fails(RelayException.Closed.class, () -> board.will(Patch.of()).join());
    }

    static void aWillIsLeftAgainBehindWhatAsksForTheSlots() {
        Played relay = new Played();
        Board board = relay.begun(relay.options(), "/cards", CARDS);
        CompletableFuture<Void> left = board.will(Patch.of().remove("/cards/0"));
        relay.reply("'kind':'willing'");
        left.join();
        relay.cut();
        relay.accept(7, 1);
        equal("resume", relay.request().get("do").textValue());
        equal("will", relay.request().get("do").textValue());
        board.close();
    }

    private static String shown(Board board) {
        List<JsonNode> slots = new ArrayList<>();
        board.shown().orElseThrow().slots().forEach(slot -> slot.ifPresent(slots::add));
        return slots.toString();
    }

    static void aRefusedEditIsTakenBack() {
        Played relay = new Played();
        List<String> told = new ArrayList<>();
        Options options = relay.options()
                .onTakenBack((patch, cause) -> told.add(cause.getMessage()))
                .onChange(change -> told.add(change.pending() + " " + change.slots()));
        Board board = relay.begun(options, "/cards", CARDS);
        board.at("/cards").push("c");
        relay.reply("'kind':'refused','fault':'missing','at':0");
        equal(List.of(
                "0 [Optional[[\"a\",\"b\"]]]",
                "1 [Optional[[\"a\",\"b\",\"c\"]]]",
                "0 [Optional[[\"a\",\"b\"]]]",
                "missing at 0: nothing stands there: look again, or add what is around it first"),
                told);
        board.close();
    }

    static void aListenerThatThrowsHoldsUpNobody() {
        Played relay = new Played();
        Thread here = Thread.currentThread();
        List<String> told = new ArrayList<>();
        here.setUncaughtExceptionHandler((thread, error) -> told.add(error.getMessage()));
        Options options = relay.options().onChange(change -> {
            throw new IllegalStateException("at " + change.rev());
        });
        Board board = relay.begun(options, "/n", "[[0]]");
        board.subscribe(change -> told.add("second"));
        relay.hear(FOLLOWS.formatted(2, "{'op':'replace','path':'/0','value':[1]}"));
        equal(List.of("at 1", "at 2", "second"), told);
        here.setUncaughtExceptionHandler(null);
        board.close();
    }

    static void whatMayTouchNoSlotIsNotWaitedFor() {
        Played relay = new Played();
        Board board = relay.begun(relay.options(), "/cards", CARDS);
        board.edit(Patch.of().move("/cards/0", "/cards/-"), EditOptions.OPTIMISTIC);
        relay.reply("'kind':'done','rev':2");
        equal(1, board.shown().orElseThrow().pending());
        JsonNode asks = relay.reply("'kind':'watching'");
        equal(json("['/cards']"), asks.get("view"));
        relay.hear("{'kind':'snapshot','rev':2,'view':[[['b','a']]]}");
        equal(0, board.shown().orElseThrow().pending());
        equal(false, relay.hasSaid());
        board.close();
    }

    static void aWatchThatAnotherOneReplacesIsSuperseded() {
        Played relay = new Played();
        Board board = relay.begun(relay.options(), "/a", "[['a']]");
        List<CompletableFuture<Change>> watches = new ArrayList<>();
        for (String pointer : List.of("/b", "/c", "/c")) {
            watches.add(board.watch(List.of(Shown.value(pointer))));
            relay.reply("'kind':'watching'");
        }
        CompletableFuture<Change> synced = board.sync();
        relay.reply("'kind':'watching'");
        relay.hear("{'kind':'snapshot','rev':1,'view':[['c']]}");
        fails(RelayException.Superseded.class, () -> watches.get(0).join());
        List<Shown> view = List.of(Shown.value("/c"));
        for (CompletableFuture<Change> shown : List.of(watches.get(1), watches.get(2), synced)) {
            equal(view, shown.join().view());
        }
        board.close();
    }

    static void anEditWhoseAnswerWasLostIsSentAgain() {
        Played relay = new Played();
        Board board = relay.begun(relay.options(), "/n", "[[0]]");
        Patch raise = Patch.of().replace("/n", 1);
        CompletableFuture<Long> based = board.edit(raise, EditOptions.PLAIN.on(1, 7));
        CompletableFuture<Long> plain = board.edit(raise);
        relay.request();
        relay.request();
        relay.cut();
        equal(null, unknown(plain).rev);
        relay.accept(7, 2);
        relay.reply("'kind':'resumed','how':'nothing'");
        JsonNode again = relay.reply("'kind':'refused','fault':'stale','at':null,'rev':2");
        equal(1L, again.get("base").longValue());
        equal(2L, unknown(based).rev);
        board.close();
    }

    private static RelayException.Unknown unknown(CompletableFuture<Long> edit) {
        return (RelayException.Unknown) edit.handle((rev, failure) -> failure).join();
    }

    static void undoAndRedo() {
        Played relay = new Played();
        Board board = relay.begun(relay.options(), "/cards", CARDS);
        board.edit(Patch.of().remove("/cards/0"));
        relay.reply("'kind':'done','rev':2");
        CompletableFuture<Optional<Long>> undone = board.undo();
        equal(false, relay.hasSaid()); // the slots do not show it yet
        relay.hear(FOLLOWS.formatted(2, "{'op':'remove','path':'/0/0/0'}"));
        equal("[[\"a\",\"b\"]]", shown(board));
        JsonNode undoes = relay.reply("'kind':'done','rev':3");
        equal(2L, undoes.get("base").longValue());
        equal(json("[{'op':'test','path':'/cards/0','value':'b'},"
                + "{'op':'add','path':'/cards/0','value':'a'}]"), undoes.get("patch"));
        equal(Optional.of(3L), undone.join());
        board.redo();
        relay.hear(FOLLOWS.formatted(3, "{'op':'add','path':'/0/0/0','value':'a'}"));
        JsonNode again = relay.reply("'kind':'done','rev':4");
        equal(json("[{'op':'test','path':'/cards/0','value':'a'},"
                + "{'op':'remove','path':'/cards/0'}]"), again.get("patch"));
        relay.hear(FOLLOWS.formatted(4, "{'op':'remove','path':'/0/0/0'}"));
        relay.hear(FOLLOWS.formatted(5, "{'op':'replace','path':'/0/0/0','value':'c'}"));
        fails(RelayException.Refused.class, () -> board.undo().join());
        equal(Optional.empty(), board.undo().join());
        board.close();
    }

    static void anUpdateIsMadeAgainIfOthersWereFaster() {
        Played relay = new Played();
        Board board = relay.begun(relay.options(), "/n", "[[3]]");
        CompletableFuture<Long> raised =
                board.at("/n").update(before -> before.orElseThrow().longValue() + 1);
        JsonNode first = relay.reply("'kind':'refused','fault':'stale','at':null,'rev':2");
        equal(1L, first.get("base").longValue());
        relay.reply("'kind':'watching'");
        relay.hear("{'kind':'snapshot','rev':2,'view':[[7]]}");
        JsonNode again = relay.reply("'kind':'done','rev':3");
        equal(2L, again.get("base").longValue());
        equal(json("[{'op':'replace','path':'/n','value':8}]"), again.get("patch"));
        equal(3L, raised.join());
        equal(Optional.of(7), board.at("/n").value(Integer.class));
        fails(IllegalStateException.class, () -> board.at("/m").value());
        board.close();
    }

    /** The oldest request is what says that the relay is there. */
    static void aSilentRelayIsLeft() {
        Played relay = new Played();
        Options options = relay.options().patience(Duration.ofMillis(20), Duration.ofMillis(60));
        Board board = relay.begun(options, "/n", "[[3]]");
        JsonNode asks = relay.reply("'kind':'refused','fault':'shape','at':null");
        equal(false, asks.has("do"));
        relay.request(); // and this one has no answer
        relay.accept(7, 1);
        equal("resume", relay.request().get("do").textValue());
        board.close();
    }

    static void aSlowSubscriberIsGivenTheNewest() {
        Played relay = new Played();
        Board board = relay.begun(relay.options(), "/n", "[[0]]");
        List<Long> told = new ArrayList<>();
        Flow.Subscription[] own = new Flow.Subscription[1];
        board.changes().subscribe(new Flow.Subscriber<>() {
            @Override
            public void onSubscribe(Flow.Subscription subscription) {
                own[0] = subscription;
            }

            @Override
            public void onNext(Change change) {
                told.add(change.rev());
            }

            @Override
            public void onError(Throwable error) {
                told.add(-1L);
            }

            @Override
            public void onComplete() {
                told.add(0L);
            }
        });
        for (int rev = 2; rev < 9; rev++) {
            if (rev == 4) own[0].request(1);
            relay.hear(FOLLOWS.formatted(rev, "{'op':'replace','path':'/0','value':[1]}"));
        }
        own[0].request(5);
        board.close();
        equal(List.of(3L, 8L, 0L), told);
    }
}

import com.fasterxml.jackson.databind.JsonNode;
import com.fasterxml.jackson.databind.json.JsonMapper;
import com.fasterxml.jackson.databind.node.ArrayNode;
import com.fasterxml.jackson.databind.node.JsonNodeFactory;
import com.fasterxml.jackson.databind.node.ObjectNode;
import java.io.BufferedReader;
import java.io.IOException;
import java.io.InputStreamReader;
import java.io.PrintStream;
import java.net.URI;
import java.nio.charset.StandardCharsets;
import java.time.Duration;
import java.util.ArrayDeque;
import java.util.ArrayList;
import java.util.Deque;
import java.util.List;
import java.util.Optional;
import java.util.concurrent.CompletableFuture;
import relay.client.Board;
import relay.client.Change;
import relay.client.Connector;
import relay.client.EditOptions;
import relay.client.JdkConnector;
import relay.client.Options;
import relay.client.Patch;
import relay.client.RelayException;
import relay.client.Shown;

/**
 * The Java client, played by lines as tests/clients/player.js is: each is a JSON object with `id`
 * and `do`, and has one answer with that `id`. All of it holds one lock, so that what is written
 * down of a change is of that moment.
 */
public final class Player {
    private static final JsonMapper MAPPER = new JsonMapper();
    private static final JsonNodeFactory NODES = JsonNodeFactory.instance;
    private static final PrintStream OUT =
            new PrintStream(System.out, true, StandardCharsets.UTF_8);
    private static final Duration SOON = Duration.ofMillis(10);
    private static final Duration LATER = Duration.ofMillis(100);

    /** An edit that shows at once, and what it came to. */
    private static final class Asked {
        final JsonNode patch;
        boolean isBack;
        Long done;
        long epoch;

        Asked(JsonNode patch) {
            this.patch = patch;
        }

        JsonNode tag() {
            return patch.get(patch.size() - 1).get("value");
        }
    }

    /** Slots that were handed out, and what they were then. */
    private record Handed(JsonNode slots, String text) {}

    private final String url;
    private final List<Shown> view;
    private final boolean isReadOnly;
    private final Board board;
    private final Board counter;
    private final Board changer;
    private Board showing;
    private final Deque<Handed> handed = new ArrayDeque<>();
    private ArrayNode lines = NODES.arrayNode();
    private final List<Asked> asked = new ArrayList<>();
    /** The run of the relay to which the newest connection leads. */
    private long run;

    private Player(String url, List<Shown> view, boolean isReadOnly) {
        this.url = url;
        this.view = view;
        this.isReadOnly = isReadOnly;
        board = Board.connect(url, options().onChange(this::keep), view);
        counter = Board.connect(url, options(), "/count");
        changer = Board.connect(url, options(), "/changed");
    }

    private Options options() {
        return new Options().executor(Runnable::run).waits(SOON, LATER).readOnly(isReadOnly);
    }

    public static void main(String[] words) throws IOException {
        boolean watches = words.length > 2 && words[2].equals("watch");
        Player player = new Player(words[0], view(MAPPER.readTree(words[1])), watches);
        InputStreamReader input = new InputStreamReader(System.in, StandardCharsets.UTF_8);
        BufferedReader lines = new BufferedReader(input);
        for (String text = lines.readLine(); text != null; text = lines.readLine()) {
            JsonNode asked = MAPPER.readTree(text);
            player.act(asked).whenComplete((answer, failure) -> {
                ObjectNode told = failure == null ? answer : fault(failure);
                synchronized (OUT) {
                    OUT.println(told.set("id", asked.get("id")).toString());
                }
            });
        }
        System.exit(0);
    }

    private synchronized CompletableFuture<ObjectNode> act(JsonNode asked) {
        return switch (asked.get("do").asText()) {
            case "edit" -> board.ready().thenCompose(ready -> edit(asked));
            case "count" -> counter.ready().thenCompose(ready -> count(asked.get("logged")));
            case "change" -> change(asked.get("tag"));
            case "watch" ->
                board.watch(view(asked.get("view"))).thenApply(ignored -> NODES.objectNode());
            case "look" -> CompletableFuture.completedFuture(look());
            case "show" -> showing().ready().thenCompose(ready -> show(asked));
            case "lines" -> CompletableFuture.completedFuture(lines());
            default -> throw new IllegalArgumentException("no such line: " + asked);
        };
    }

    private static ObjectNode fault(Throwable failure) {
        Throwable cause = failure.getCause() == null ? failure : failure.getCause();
        ObjectNode told = NODES.objectNode().put("fails", cause.getClass().getSimpleName());
        if (cause instanceof RelayException.Unknown unknown) told.put("known", unknown.rev);
        if (cause instanceof RelayException.Refused refused) told.put("fault", refused.fault);
        return told;
    }

    // What a client edits.

    private CompletableFuture<ObjectNode> edit(JsonNode asked) {
        Patch patch = Patch.of(asked.get("patch"));
        if (asked.path("based").asBoolean() || asked.path("how").asText().equals("based")) {
            return answer(board, patch, board.shown().orElseThrow());
        }
        return board.edit(patch).handle(Player::told);
    }

    private static ObjectNode told(Long rev, Throwable failure) {
        return failure == null ? NODES.objectNode().put("rev", rev) : fault(failure);
    }

    /** The outcome of an edit that is made of what was seen, and done to that alone. */
    private static CompletableFuture<ObjectNode> answer(Board board, Patch patch, Change seen) {
        EditOptions how = EditOptions.PLAIN.on(seen.rev(), seen.epoch());
        return board.edit(patch, how).handle((rev, failure) ->
                told(rev, failure).put("base", seen.rev()).put("of", seen.epoch()));
    }

    /** Reads the count and writes the next one, until nobody was faster. */
    private CompletableFuture<ObjectNode> count(JsonNode logged) {
        Change seen = counter.shown().orElseThrow();
        long count = seen.confirmed().get(0).orElseThrow().longValue();
        Patch patch = Patch.of().replace("/count", count + 1).add("/log/-", logged.get("value"));
        return answer(counter, patch, seen).thenCompose(answered -> {
            boolean isStale = answered.path("fault").asText().equals("stale");
            if (!isStale) return CompletableFuture.completedFuture(answered);
            return counter.sync().thenCompose(slots -> count(logged));
        });
    }

    /** Raises a number and leaves a tag, by an edit that is made anew if others were faster. */
    private CompletableFuture<ObjectNode> change(JsonNode tag) {
        return changer.change(seen -> {
            long changed = seen.confirmed().get(0).orElseThrow().longValue();
            return Patch.of().replace("/changed", changed + 1).add("/log/-", tag);
        }).handle(Player::told);
    }

    // What it holds.

    private void keep(Change change) {
        synchronized (handed) {
            JsonNode slots = list(change.slots());
            handed.addLast(new Handed(slots, slots.toString()));
            if (handed.size() > 20) handed.removeFirst();
        }
    }

    private ObjectNode look() {
        Optional<Change> shown = board.shown();
        boolean isSpoiled;
        synchronized (handed) {
            isSpoiled = handed.stream().anyMatch(one -> !one.slots.toString().equals(one.text));
        }
        ObjectNode told = NODES.objectNode();
        told.set("view", json(shown.map(Change::view).orElse(view)));
        told.set("slots", shown.map(change -> (JsonNode) list(change.slots())).orElse(null));
        told.put("rev", shown.map(Change::rev).orElse(null));
        return told.put("state", board.state().name().toLowerCase()).put("spoiled", isSpoiled);
    }

    // What is shown over time, beside the edits that were asked for.

    private Board showing() {
        if (showing != null) return showing;
        Options options = options()
                .connector(new Noting())
                .onChange(change -> lines.add(line(change)))
                .onTakenBack((patch, cause) -> takeBack(patch));
        showing = Board.connect(url, options, view);
        return showing;
    }

    private ObjectNode line(Change change) {
        ObjectNode line = NODES.objectNode().put("rev", change.rev()).put("epoch", change.epoch());
        line.set("view", json(change.view()));
        line.set("slots", list(change.slots()));
        line.set("confirmed", list(change.confirmed()));
        line.put("pending", change.pending()).put("asked", asked.size());
        ArrayNode back = line.putArray("back");
        for (int k = 0; k < asked.size(); k++) if (asked.get(k).isBack) back.add(k);
        return line;
    }

    private void takeBack(Patch patch) {
        JsonNode tag = patch.operations().get(patch.operations().size() - 1).value();
        for (int k = 0; k < asked.size(); k++) {
            if (!asked.get(k).tag().equals(tag)) continue;
            asked.get(k).isBack = true;
            // The last line was written without it.
            if (!lines.isEmpty()) ((ArrayNode) lines.get(lines.size() - 1).get("back")).add(k);
        }
    }

    /** An edit that shows at once, whose last operation leaves a tag. */
    private synchronized CompletableFuture<ObjectNode> show(JsonNode words) {
        Asked one = new Asked(words.get("patch"));
        asked.add(one);
        Change seen = showing.shown().orElseThrow();
        EditOptions how = EditOptions.OPTIMISTIC;
        if (words.get("based").booleanValue()) how = how.on(seen.rev(), seen.epoch());
        return showing.edit(Patch.of(one.patch), how).handle((rev, failure) -> {
            if (failure != null) return fault(failure);
            one.done = rev;
            one.epoch = run;
            return NODES.objectNode().put("rev", rev);
        });
    }

    /** All lines so far, and what the edits came to. */
    private ObjectNode lines() {
        ObjectNode told = NODES.objectNode();
        told.set("lines", lines);
        lines = NODES.arrayNode();
        ArrayNode edits = told.putArray("edits");
        for (Asked one : asked) {
            ObjectNode edit = edits.addObject().put("back", one.isBack).put("done", one.done);
            edit.put("epoch", one.epoch).set("patch", one.patch);
        }
        ObjectNode last = told.putObject("last");
        showing().shown().ifPresent(shown -> {
            last.set("slots", list(shown.slots()));
            last.set("confirmed", list(shown.confirmed()));
            last.put("pending", shown.pending());
        });
        last.put("state", showing.state().name().toLowerCase());
        return told;
    }

    /** Connections that note to which run of the relay they lead, and hold the player's lock. */
    private final class Noting implements Connector {
        private final Connector usual = new JdkConnector(Duration.ofSeconds(10));

        @Override
        public void open(URI address, Receiver receiver) {
            usual.open(address, new Receiver() {
                @Override
                public void opened(Socket socket) {
                    synchronized (Player.this) {
                        receiver.opened(socket);
                    }
                }

                @Override
                public void heard(String text) {
                    synchronized (Player.this) {
                        note(text);
                        receiver.heard(text);
                    }
                }

                @Override
                public void lost(RelayException.HandshakeFailed cause) {
                    synchronized (Player.this) {
                        receiver.lost(cause);
                    }
                }
            });
        }

        private void note(String text) {
            try {
                JsonNode message = MAPPER.readTree(text);
                if (message.path("kind").asText().equals("welcome")) {
                    run = message.get("epoch").longValue();
                }
            } catch (IOException wrong) {
                throw new IllegalStateException(wrong);
            }
        }
    }

    // JSON.

    private static List<Shown> view(JsonNode list) {
        List<Shown> view = new ArrayList<>();
        for (JsonNode one : list) view.add(Shown.of(one));
        return view;
    }

    private static ArrayNode json(List<Shown> view) {
        ArrayNode list = NODES.arrayNode();
        for (Shown shown : view) {
            if (!shown.isSize()) list.add(shown.pointer());
            else list.add(NODES.objectNode().put("size", shown.pointer()));
        }
        return list;
    }

    private static ArrayNode list(List<Optional<JsonNode>> slots) {
        ArrayNode list = NODES.arrayNode();
        for (Optional<JsonNode> slot : slots) {
            ArrayNode one = list.addArray();
            slot.ifPresent(one::add);
        }
        return list;
    }
}

import com.fasterxml.jackson.databind.JsonNode;
import com.fasterxml.jackson.databind.json.JsonMapper;
import com.fasterxml.jackson.databind.node.ArrayNode;
import com.fasterxml.jackson.databind.node.JsonNodeFactory;
import com.fasterxml.jackson.databind.node.ObjectNode;
import java.io.BufferedReader;
import java.io.InputStreamReader;
import java.io.PrintStream;
import java.net.URI;
import java.nio.charset.StandardCharsets;
import java.time.Duration;
import java.util.ArrayList;
import java.util.List;
import java.util.Optional;
import java.util.concurrent.CompletableFuture;
import java.util.concurrent.CompletionException;
import relay.client.Board;
import relay.client.Change;
import relay.client.Connector;
import relay.client.EditOptions;
import relay.client.Options;
import relay.client.Patch;
import relay.client.RelayException;
import relay.client.Shown;

/** The Java client, driven by the lines of docs/CONFORMANCE.md. */
public final class Driver implements Connector {
    private static final JsonMapper MAPPER = new JsonMapper();
    private static final JsonNodeFactory NODES = JsonNodeFactory.instance;
    private static final PrintStream OUT =
            new PrintStream(System.out, true, StandardCharsets.UTF_8);

    private Board board;
    private List<Shown> firstView;
    private Line line;
    private Line former; // the connection that was lost or left last

    /** A connection that is played. */
    private final class Line implements Socket {
        final Receiver receiver;
        boolean isLeft;

        Line(Receiver receiver) {
            this.receiver = receiver;
        }

        @Override
        public void send(String text) {
            tell(NODES.objectNode().put("says", text));
        }

        @Override
        public void abort() {
            if (isLeft) return;
            isLeft = true;
            former = this;
            tell(NODES.objectNode().put("leaves", true));
        }
    }

    public static void main(String[] words) throws Exception {
        ArrayNode traits = NODES.arrayNode();
        List.of("optimistic", "late", "read-only", "end-room", "wills").forEach(traits::add);
        tell(NODES.objectNode().set("traits", traits));
        Driver driver = new Driver();
        InputStreamReader input = new InputStreamReader(System.in, StandardCharsets.UTF_8);
        BufferedReader lines = new BufferedReader(input);
        for (String text = lines.readLine(); text != null; text = lines.readLine()) {
            driver.act(MAPPER.readTree(text));
        }
    }

    private static void tell(JsonNode line) {
        synchronized (OUT) {
            OUT.println(line);
        }
    }

    @Override
    public void open(URI address, Receiver receiver) {
        line = new Line(receiver);
        tell(NODES.objectNode().put("opens", address.toString()));
    }

    private void act(JsonNode words) {
        switch (words.get("do").asText()) {
            case "connect" -> connect(words);
            case "accept" -> line.receiver.opened(line);
            case "fail" -> fail(words);
            case "hear" -> line.receiver.heard(words.get("text").textValue());
            case "late" -> former.receiver.heard(words.get("text").textValue());
            case "cut" -> cut();
            case "edit" -> edit(words);
            case "endRoom" -> ends(words, "done", board.end().thenApply(NODES::numberNode));
            case "will" -> will(words);
            case "watch" -> ends(words, "shown", board.watch(view(words)).thenApply(Driver::slots));
            case "look" -> look();
            case "end" -> board.close();
            default -> throw new IllegalArgumentException("no such line: " + words);
        }
    }

    private void connect(JsonNode words) {
        Duration hour = Duration.ofHours(1); // no time is played, so none may pass
        Options options = new Options()
                .connector(this)
                .readOnly(words.path("readOnly").asBoolean())
                .executor(Runnable::run)
                .waits(Duration.ofMillis(1), Duration.ofMillis(1))
                .patience(hour, hour);
        firstView = view(words);
        board = Board.connect(words.get("url").textValue(), options, firstView);
    }

    private void fail(JsonNode words) {
        Integer status = words.has("status") ? (Integer) words.get("status").intValue() : null;
        line.receiver.lost(new RelayException.HandshakeFailed(status, null));
    }

    private void cut() {
        former = line;
        former.isLeft = true;
        former.receiver.lost(null);
    }

    private void edit(JsonNode words) {
        Patch patch;
        try {
            patch = Patch.of(words.get("patch"));
        } catch (IllegalArgumentException wrong) {
            tell(ending(words).put("invalid", wrong.getMessage()));
            return;
        }
        boolean isOptimistic = words.path("optimistic").asBoolean();
        EditOptions how = isOptimistic ? EditOptions.OPTIMISTIC : EditOptions.PLAIN;
        if (words.path("base").isNumber()) {
            how = new EditOptions(isOptimistic, words.get("base").longValue(), null, true);
        }
        ends(words, "done", board.edit(patch, how).thenApply(NODES::numberNode));
    }

    private void will(JsonNode words) {
        CompletableFuture<Void> left = board.will(Patch.of(words.get("patch")));
        ends(words, "willing", left.thenApply(none -> NODES.booleanNode(true)));
    }

    private static List<Shown> view(JsonNode words) {
        List<Shown> view = new ArrayList<>();
        for (JsonNode one : words.get("view")) view.add(Shown.of(one));
        return view;
    }

    private static ObjectNode ending(JsonNode words) {
        return NODES.objectNode().set("ends", words.get("key"));
    }

    private static void ends(
            JsonNode words, String word, CompletableFuture<? extends JsonNode> end) {
        end.whenComplete((value, failure) -> {
            ObjectNode told = ending(words);
            boolean isWrapped = failure instanceof CompletionException;
            Throwable cause = isWrapped ? failure.getCause() : failure;
            if (cause == null) told.set(word, value);
            else if (cause instanceof RelayException.Refused refused) {
                told.put("refused", refused.fault).put("at", refused.at).put("rev", refused.rev);
            } else if (cause instanceof RelayException.Unknown) {
                told.put("unknown", true);
            } else {
                boolean isLate = cause instanceof RelayException.Superseded;
                told.put(isLate ? "superseded" : "closed", true);
            }
            tell(told);
        });
    }

    private void look() {
        ObjectNode held = NODES.objectNode();
        Optional<Change> shown = board.shown();
        held.set("view", view(shown.map(Change::view).orElse(firstView)));
        held.set("slots", shown.map(change -> (JsonNode) list(change.confirmed())).orElse(null));
        held.set("shown", shown.map(change -> (JsonNode) list(change.slots())).orElse(null));
        held.put("rev", shown.map(Change::rev).orElse(null));
        held.put("epoch", shown.map(Change::epoch).orElse(null));
        tell(NODES.objectNode().set("held", held));
    }

    private static ArrayNode view(List<Shown> view) {
        ArrayNode list = NODES.arrayNode();
        for (Shown shown : view) {
            if (!shown.isSize()) list.add(shown.pointer());
            else list.add(NODES.objectNode().put("size", shown.pointer()));
        }
        return list;
    }

    private static ArrayNode slots(Change change) {
        return list(change.confirmed());
    }

    private static ArrayNode list(List<Optional<JsonNode>> slots) {
        ArrayNode list = NODES.arrayNode();
        for (Optional<JsonNode> slot : slots) {
            ArrayNode one = list.addArray();
            slot.ifPresent(one::add);
        }
        return list;
    }
}

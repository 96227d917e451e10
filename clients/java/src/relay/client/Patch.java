package relay.client;

import com.fasterxml.jackson.databind.JsonNode;
import com.fasterxml.jackson.databind.node.ArrayNode;
import com.fasterxml.jackson.databind.node.ObjectNode;
import java.util.ArrayList;
import java.util.List;

/**
 * A JSON Patch (RFC 6902), of a document or, as the relay tells it, of slots.
 *
 * <pre>{@code
 * Patch.of().test("/cards/0/name", "milk").remove("/cards/0")
 * }</pre>
 *
 * <p>A value may be a {@link JsonNode} or whatever Jackson makes one of. Its numbers are whole and
 * have 64 bits, else it is an {@link IllegalArgumentException}.
 */
public record Patch(List<Operation> operations) {
    /** {@code from} and {@code value} are null in an operation that has none. */
    public record Operation(String op, String path, String from, JsonNode value) {}

    public Patch {
        operations = List.copyOf(operations);
    }

    public static Patch of() {
        return new Patch(List.of());
    }

    /** A patch that is JSON. It is an {@link IllegalArgumentException} if that is none. */
    public static Patch of(JsonNode list) {
        try {
            return read(Json.of(list));
        } catch (Misfit none) {
            throw new IllegalArgumentException(none.getMessage());
        }
    }

    public Patch add(String path, Object value) {
        return with(new Operation("add", path, null, Json.of(value)));
    }

    public Patch replace(String path, Object value) {
        return with(new Operation("replace", path, null, Json.of(value)));
    }

    public Patch test(String path, Object value) {
        return with(new Operation("test", path, null, Json.of(value)));
    }

    public Patch remove(String path) {
        return with(new Operation("remove", path, null, null));
    }

    public Patch move(String from, String path) {
        return with(new Operation("move", path, from, null));
    }

    public Patch copy(String from, String path) {
        return with(new Operation("copy", path, from, null));
    }

    private Patch with(Operation operation) {
        List<Operation> longer = new ArrayList<>(operations);
        longer.add(operation);
        return new Patch(longer);
    }

    /** True if it is refused if something else stands there than when it was made. */
    boolean isGuarded() {
        return !operations.isEmpty() && operations.get(0).op().equals("test");
    }

    JsonNode asJson() {
        ArrayNode list = Json.NODES.arrayNode();
        for (Operation one : operations) {
            ObjectNode object = list.addObject().put("op", one.op()).put("path", one.path());
            if (one.from() != null) object.put("from", one.from());
            if (one.value() != null) object.set("value", one.value());
        }
        return list;
    }

    /** Fails with {@link Misfit} if it is none. */
    static Patch read(JsonNode list) {
        if (!list.isArray()) throw new Misfit("no list of operations");
        List<Operation> operations = new ArrayList<>();
        for (JsonNode one : list) {
            String from = one.path("from").textValue();
            JsonNode value = one.get("value");
            operations.add(new Operation(text(one, "op"), text(one, "path"), from, value));
        }
        return new Patch(operations);
    }

    private static String text(JsonNode operation, String name) {
        if (!operation.path(name).isTextual()) throw new Misfit("no text: " + name);
        return operation.get(name).textValue();
    }
}

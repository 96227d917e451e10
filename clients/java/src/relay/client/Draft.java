package relay.client;

import com.fasterxml.jackson.databind.JsonNode;
import com.fasterxml.jackson.databind.node.ArrayNode;
import com.fasterxml.jackson.databind.node.ObjectNode;
import java.util.Collections;
import java.util.IdentityHashMap;
import java.util.List;
import java.util.Set;
import java.util.function.BiConsumer;

/**
 * Values while one patch is applied to them. No value that was handed out is written to: what a
 * patch leaves alone is shared with the values before, and each container that it changes is copied
 * once. The copies are the draft's own, and each stands in one place, within others that are.
 */
final class Draft {
    private final Set<JsonNode> own = Collections.newSetFromMap(new IdentityHashMap<>());

    /** The value after a patch. Fails with {@link Misfit} if an operation does not fit. */
    static JsonNode applied(JsonNode value, Patch patch) {
        Draft draft = new Draft();
        for (Patch.Operation operation : patch.operations()) value = draft.after(value, operation);
        return value;
    }

    private JsonNode after(JsonNode value, Patch.Operation one) {
        List<String> path = tokens(one.path());
        switch (one.op()) {
            case "add":
                return added(value, path, required(one.value()));
            case "remove":
                return removed(value, path);
            case "replace":
                return replaced(value, path, required(one.value()));
            case "move":
                JsonNode moved = found(value, tokens(one.from()));
                checkMove(tokens(one.from()), path);
                return added(removed(value, tokens(one.from())), path, moved);
            case "copy":
                JsonNode copied = found(value, tokens(one.from()));
                share(copied);
                return added(value, path, copied);
            default:
                throw new Misfit("no operation of a watcher's patch: " + one.op());
        }
    }

    static List<String> tokens(String pointer) {
        try {
            return Pointer.tokens(required(pointer));
        } catch (IllegalArgumentException wrong) {
            throw new Misfit(wrong.getMessage());
        }
    }

    static <T> T required(T member) {
        if (member == null) throw new Misfit("an operation without a member that it needs");
        return member;
    }

    static void checkMove(List<String> from, List<String> path) {
        if (path.size() > from.size() && Pointer.startsWith(path, from)) {
            throw new Misfit("a move into itself");
        }
    }

    /** The part at a token; null if nothing stands there. */
    static JsonNode child(JsonNode value, String token) {
        return value.isArray() ? value.get(Pointer.index(token)) : value.get(token);
    }

    static JsonNode found(JsonNode value, List<String> path) {
        for (String token : path) {
            value = child(value, token);
            if (value == null) throw new Misfit("nothing at " + token);
        }
        return value;
    }

    /** It comes to stand in a second place, or is kept: nothing of it is written to any more. */
    void share(JsonNode value) {
        if (own.remove(value)) value.forEach(this::share);
    }

    JsonNode added(JsonNode value, List<String> path, JsonNode part) {
        return changed(value, path, part, (holder, token) -> {
            if (holder instanceof ArrayNode list) {
                int place = token.equals("-") ? list.size() : Pointer.index(token);
                if (place < 0 || place > list.size()) throw new Misfit("no place " + token);
                list.insert(place, part);
            } else {
                ((ObjectNode) holder).set(token, part);
            }
        });
    }

    JsonNode removed(JsonNode value, List<String> path) {
        found(value, path);
        if (path.isEmpty()) throw new Misfit("the whole cannot be removed");
        return changed(value, path, value, (holder, token) -> {
            if (holder instanceof ArrayNode list) list.remove(Pointer.index(token));
            else ((ObjectNode) holder).remove(token);
        });
    }

    JsonNode replaced(JsonNode value, List<String> path, JsonNode part) {
        found(value, path);
        return changed(value, path, part, (holder, token) -> put(holder, token, part));
    }

    private static void put(JsonNode holder, String token, JsonNode part) {
        if (holder instanceof ArrayNode list) list.set(Pointer.index(token), part);
        else ((ObjectNode) holder).set(token, part);
    }

    /** The value, in which what holds the last token is changed. */
    private JsonNode changed(
            JsonNode value,
            List<String> path,
            JsonNode atRoot,
            BiConsumer<JsonNode, String> change) {
        if (path.isEmpty()) return atRoot;
        String token = path.get(0);
        List<String> rest = path.subList(1, path.size());
        JsonNode holder = writable(value);
        if (rest.isEmpty()) {
            change.accept(holder, token);
        } else {
            put(holder, token, changed(found(holder, path.subList(0, 1)), rest, atRoot, change));
        }
        return holder;
    }

    private JsonNode writable(JsonNode value) {
        if (own.contains(value)) return value;
        JsonNode copy;
        if (value instanceof ArrayNode list) copy = Json.NODES.arrayNode().addAll(list);
        else if (value instanceof ObjectNode object) copy = Json.NODES.objectNode().setAll(object);
        else throw new Misfit("no list and no object");
        own.add(copy);
        return copy;
    }
}

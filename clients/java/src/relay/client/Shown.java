package relay.client;

import com.fasterxml.jackson.databind.JsonNode;
import java.util.List;

/**
 * Names what a slot of a view shows: the value at a pointer, or how many elements or members that
 * has.
 *
 * @param pointer a JSON Pointer into the document
 * @param isSize whether it is the size
 */
public record Shown(String pointer, boolean isSize) {
    public static Shown value(String pointer) {
        return new Shown(pointer, false);
    }

    public static Shown size(String pointer) {
        return new Shown(pointer, true);
    }

    /** A pointer of a view that is JSON; an {@link IllegalArgumentException} if it is none. */
    public static Shown of(JsonNode pointer) {
        boolean isSize = pointer.isObject();
        String text = (isSize ? pointer.path("size") : pointer).textValue();
        if (text == null) throw new IllegalArgumentException("no pointer of a view: " + pointer);
        return new Shown(text, isSize);
    }

    List<String> path() {
        return Pointer.tokens(pointer);
    }

    JsonNode asJson() {
        if (!isSize) return Json.NODES.textNode(pointer);
        return Json.NODES.objectNode().put("size", pointer);
    }
}

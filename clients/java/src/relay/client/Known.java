package relay.client;

import com.fasterxml.jackson.databind.JsonNode;
import com.fasterxml.jackson.databind.node.MissingNode;
import java.util.ArrayList;
import java.util.Comparator;
import java.util.List;
import java.util.Optional;

/**
 * Holds what the slots of a view tell of their document, and of those to which patches lead: the
 * values at some paths of which none leads into another. A value is missing if nothing stands
 * there, and null if it is not known any more. Of what no value slot shows nothing is known.
 */
final class Known {
    private record Root(List<String> path, JsonNode value) {}

    private static final JsonNode ABSENT = MissingNode.getInstance();

    private final List<Root> roots;

    private Known(List<Root> roots) {
        this.roots = roots;
    }

    static Known by(List<Shown> view, List<Optional<JsonNode>> slots) {
        List<Root> roots = new ArrayList<>();
        for (int k = 0; k < view.size(); k++) {
            if (view.get(k).isSize()) continue;
            roots.add(new Root(view.get(k).path(), slots.get(k).orElse(ABSENT)));
        }
        roots.sort(Comparator.comparing(root -> root.path.size()));
        List<Root> outer = new ArrayList<>();
        for (Root root : roots) if (covering(outer, root.path) == null) outer.add(root);
        return new Known(outer);
    }

    private static Root covering(List<Root> roots, List<String> path) {
        for (Root root : roots) if (Pointer.startsWith(path, root.path)) return root;
        return null;
    }

    /** The value at a path; missing if nothing stands there, and null if that is not known. */
    JsonNode at(List<String> path) {
        Root root = covering(roots, path);
        return root == null ? null : at(root.value, path.subList(root.path.size(), path.size()));
    }

    private static JsonNode at(JsonNode value, List<String> path) {
        for (String token : path) {
            if (value == null || value == ABSENT) return value;
            JsonNode part = Draft.child(value, token);
            value = part == null ? ABSENT : part;
        }
        return value;
    }

    boolean isAbsent(List<String> path) {
        return at(path) == ABSENT;
    }

    /** The value at a path. Fails with {@link Misfit} if none is known to stand there. */
    JsonNode value(List<String> path) {
        JsonNode value = at(path);
        if (value == null || value == ABSENT) throw new Misfit("no value is known there");
        return value;
    }

    // What patches make of it.

    /**
     * Returns what is known after a patch. Fails with {@link Misfit} if it is known to be refused.
     */
    Known after(Patch patch) {
        Draft draft = new Draft();
        Known known = this;
        for (Patch.Operation operation : patch.operations()) known = known.after(operation, draft);
        return known;
    }

    Known after(Patch.Operation one, Draft draft) {
        List<String> path = Draft.tokens(one.path());
        switch (one.op()) {
            case "add":
                return added(path, Draft.required(one.value()), draft);
            case "remove":
                there(path);
                if (path.isEmpty()) throw new Misfit("the whole cannot be removed");
                return removed(path, draft);
            case "replace":
                there(path);
                return replaced(path, Draft.required(one.value()), draft);
            case "test":
                JsonNode there = there(path);
                if (there != null && !there.equals(one.value())) throw new Misfit("another value");
                return this;
            case "copy":
                JsonNode copied = there(Draft.tokens(one.from()));
                if (copied != null) draft.share(copied);
                return added(path, copied, draft);
            case "move":
                List<String> from = Draft.tokens(one.from());
                JsonNode moved = there(from);
                if (from.equals(path)) return this;
                Draft.checkMove(from, path);
                return removed(from, draft).added(path, moved, draft);
            default:
                throw new Misfit("no operation: " + one.op());
        }
    }

    private JsonNode there(List<String> path) {
        if (isAbsent(path)) throw new Misfit("nothing there");
        return at(path);
    }

    /** A change within a root's value, which makes another one of it. */
    private interface Within {
        JsonNode value(JsonNode whole, List<String> rest);
    }

    /** A change at a path, which makes another value of a root at it or below it. */
    private interface Above {
        JsonNode value(Root root, List<String> rest);
    }

    private Known changed(List<String> path, Within within, Above above, boolean moves) {
        List<Root> changed = new ArrayList<>();
        for (Root root : roots) {
            JsonNode value = root.value;
            if (Pointer.startsWith(root.path, path)) {
                value = above.value(root, root.path.subList(path.size(), root.path.size()));
            } else if (Pointer.startsWith(path, root.path)) {
                if (value == ABSENT) throw new Misfit("nothing there");
                List<String> rest = path.subList(root.path.size(), path.size());
                value = value == null ? null : within.value(value, rest);
            } else if (moves && mayMove(root, path)) {
                value = null;
            }
            changed.add(new Root(root.path, value));
        }
        return new Known(changed);
    }

    /** True if a root may be moved by what comes or goes at a path, if that is one in a list. */
    private static boolean mayMove(Root root, List<String> path) {
        int last = path.size() - 1;
        boolean isBeside = Pointer.startsWith(root.path, path.subList(0, last));
        if (!isBeside || root.path.size() <= last) return false;
        int place = Pointer.index(root.path.get(last));
        if (isEnd(path)) return place >= 0 && root.value == ABSENT;
        return mayBePlace(path) && place >= Pointer.index(path.get(last));
    }

    private static boolean isEnd(List<String> path) {
        return !path.isEmpty() && path.get(path.size() - 1).equals("-");
    }

    static boolean mayBePlace(List<String> path) {
        return isEnd(path) || (!path.isEmpty() && Pointer.index(path.get(path.size() - 1)) >= 0);
    }

    /** The part is null if it is not known. */
    private Known added(List<String> path, JsonNode part, Draft draft) {
        Within within = (whole, rest) -> part == null ? null : draft.added(whole, rest, part);
        // Below a place in what may be a list, or at the end of one, something else may stand.
        Above above = (root, rest) -> {
            boolean isSure = !mayBePlace(path) || (rest.isEmpty() && !isEnd(path));
            return isSure ? at(part, rest) : null;
        };
        return changed(path, within, above, true);
    }

    private Known removed(List<String> path, Draft draft) {
        Above above = (root, rest) -> mayBePlace(path) ? null : ABSENT;
        return changed(path, draft::removed, above, true);
    }

    private Known replaced(List<String> path, JsonNode part, Draft draft) {
        Within within = (whole, rest) -> draft.replaced(whole, rest, part);
        return changed(path, within, (root, rest) -> at(part, rest), false);
    }

    // What slots show of it.

    /** The slots of a view, each as it was if it is not known what it shows. */
    List<Optional<JsonNode>> slots(List<Shown> view, List<Optional<JsonNode>> before) {
        List<Optional<JsonNode>> slots = new ArrayList<>();
        for (int k = 0; k < view.size(); k++) {
            JsonNode value = at(view.get(k).path());
            slots.add(value == null ? before.get(k) : slot(view.get(k), value));
        }
        return List.copyOf(slots);
    }

    private static Optional<JsonNode> slot(Shown shown, JsonNode value) {
        if (!shown.isSize()) return value == ABSENT ? Optional.empty() : Optional.of(value);
        if (!value.isContainerNode()) return Optional.empty();
        return Optional.of(Json.NODES.numberNode((long) value.size()));
    }
}

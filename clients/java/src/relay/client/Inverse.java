package relay.client;

import com.fasterxml.jackson.databind.JsonNode;
import java.util.ArrayDeque;
import java.util.ArrayList;
import java.util.Deque;
import java.util.List;

/**
 * Takes a patch back, as far as the slots tell: each operation backwards, behind tests that nobody
 * changed since what it did.
 */
final class Inverse {
    /** An edit has no more operations. */
    private static final int LONGEST = 64;

    private final Draft draft = new Draft();
    private final Deque<List<Patch.Operation>> backwards = new ArrayDeque<>();
    private Known known;

    private Inverse(Known before) {
        known = before;
    }

    /** The inverse of a patch of which this is known before it; null if that is too little. */
    static Patch of(Known before, Patch patch) {
        Inverse inverse = new Inverse(before);
        try {
            for (Patch.Operation operation : patch.operations()) inverse.follow(operation);
        } catch (Misfit unknown) {
            return null;
        }
        List<Patch.Operation> back = new ArrayList<>();
        inverse.backwards.forEach(back::addAll);
        Patch whole = new Patch(back);
        boolean isShort = !back.isEmpty() && back.size() <= LONGEST;
        return isShort && fits(inverse.known, whole) ? whole : null;
    }

    /** True if an inverse can be done to this, and puts no member where one may stand. */
    static boolean fits(Known known, Patch patch) {
        Draft draft = new Draft();
        try {
            for (Patch.Operation one : patch.operations()) {
                List<String> path = Pointer.tokens(one.path());
                boolean isMember = one.op().equals("add") && !isInList(known, path);
                if (isMember && !known.isAbsent(path)) return false;
                known = known.after(one, draft);
            }
            return true;
        } catch (Misfit changed) {
            return false;
        }
    }

    private static boolean isInList(Known known, List<String> path) {
        return Known.mayBePlace(path) && known.value(path.subList(0, path.size() - 1)).isArray();
    }

    private void follow(Patch.Operation one) {
        List<String> path = Draft.tokens(one.path());
        switch (one.op()) {
            case "add":
                add(path, one.value());
                break;
            case "remove":
                remove(path);
                break;
            case "replace":
                exchange(path, one.value(), kept(path));
                break;
            case "copy":
                add(path, kept(Draft.tokens(one.from())));
                break;
            case "move":
                List<String> from = Draft.tokens(one.from());
                JsonNode moved = kept(from);
                if (from.equals(path)) return;
                Draft.checkMove(from, path);
                remove(from);
                add(path, moved);
                break;
            default:
                known.after(one, draft); // a test
        }
    }

    /** The value there now, which no later operation writes to. */
    private JsonNode kept(List<String> path) {
        JsonNode value = known.value(path);
        draft.share(value);
        return value;
    }

    private void back(Patch undoing, Patch.Operation doing) {
        backwards.addFirst(undoing.operations());
        known = known.after(doing, draft);
    }

    private void exchange(List<String> path, JsonNode part, JsonNode old) {
        String there = Pointer.of(path.toArray());
        Patch undoing = Patch.of().test(there, part).replace(there, old);
        back(undoing, Patch.of().replace(there, part).operations().get(0));
    }

    private void add(List<String> path, JsonNode part) {
        boolean isMember = !isInList(known, path);
        if (isMember && !known.isAbsent(path)) {
            exchange(path, part, kept(path));
            return;
        }
        String there = Pointer.of(canonical(path).toArray());
        Patch undoing = Patch.of().test(there, part).remove(there);
        back(undoing, Patch.of().add(there, part).operations().get(0));
    }

    private List<String> canonical(List<String> path) {
        int last = path.size() - 1;
        List<String> holder = path.subList(0, last);
        if (!path.get(last).equals("-") || !known.value(holder).isArray()) return path;
        List<String> canonical = new ArrayList<>(holder);
        canonical.add(String.valueOf(known.value(holder).size()));
        return canonical;
    }

    private void remove(List<String> path) {
        JsonNode old = kept(path);
        String there = Pointer.of(path.toArray());
        Patch undoing = isInList(known, path) ? around(path) : Patch.of();
        back(undoing.add(there, old), Patch.of().remove(there).operations().get(0));
    }

    /** That an element comes back between the same two, or to a list that is empty. */
    private Patch around(List<String> path) {
        List<String> holder = path.subList(0, path.size() - 1);
        JsonNode list = kept(holder);
        String there = Pointer.of(holder.toArray());
        int place = Pointer.index(path.get(path.size() - 1));
        if (list.size() == 1) return Patch.of().test(there, Json.NODES.arrayNode());
        Patch tests = Patch.of();
        if (place > 0) tests = tests.test(there + "/" + (place - 1), list.get(place - 1));
        boolean isLast = place + 1 == list.size();
        return isLast ? tests : tests.test(there + "/" + place, list.get(place + 1));
    }
}

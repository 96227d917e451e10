package relay.client;

import com.fasterxml.jackson.databind.JsonNode;
import java.util.ArrayList;
import java.util.List;
import java.util.Optional;

/**
 * This client's edits that the slots do not show yet, in the order in which they were made. Those
 * that are optimistic are laid over the slots. A patch is done whole or not at all, so an edit of
 * which an operation is known not to fit shows nothing.
 */
final class Overlay {
    private List<Edit> edits = new ArrayList<>();

    boolean isEmpty() {
        return edits.isEmpty();
    }

    int pending() {
        return (int) edits.stream().filter(edit -> edit.isOptimistic).count();
    }

    void add(Edit edit) {
        edits.add(edit);
    }

    void drop(Edit edit) {
        edits.remove(edit);
    }

    /** Other slots came: takes and gives those edits that they show, or whose run has ended. */
    List<Edit> leave(Session.Held held) {
        List<Edit> left = new ArrayList<>(edits);
        left.removeIf(edit -> edit.rev == 0 || (edit.run == held.epoch() && edit.rev > held.rev()));
        edits.removeAll(left);
        return left;
    }

    /** An edit was done: takes those that the slots show. Slots of another run show none. */
    void leaveShown(Session.Held held) {
        edits.removeIf(edit -> edit.rev > 0 && edit.run == held.epoch() && edit.rev <= held.rev());
    }

    /** The slots are those of the room's revision: what was done touched none of them. */
    void leaveDone() {
        edits.removeIf(edit -> edit.rev > 0);
    }

    /**
     * Takes those that are done and may touch no slot, for which no message may come. Gives whether
     * one of them is laid over the slots: that stays until slots are asked for anew.
     */
    boolean mayWaitForNothing(Session.Held held) {
        List<Edit> traceless = new ArrayList<>(edits);
        traceless.removeIf(edit -> edit.rev == 0
                || edit.run != held.epoch()
                || touches(edit.patch, held.view()));
        for (Edit edit : traceless) if (!edit.isOptimistic) edits.remove(edit);
        return traceless.stream().anyMatch(edit -> edit.isOptimistic);
    }

    List<Optional<JsonNode>> shown(Session.Held held) {
        List<Optional<JsonNode>> slots = Change.slots(held.slots());
        Known known = Known.by(held.view(), slots);
        for (Edit edit : edits) {
            if (!edit.isOptimistic) continue;
            try {
                known = known.after(edit.patch);
                slots = known.slots(held.view(), slots);
            } catch (Misfit refused) {
                continue;
            }
        }
        return slots;
    }

    /** True if a patch surely touches a slot of a view, so that the relay tells a watcher of it. */
    static boolean touches(Patch patch, List<Shown> view) {
        return patch.operations().stream().anyMatch(operation ->
                view.stream().anyMatch(shown -> !shown.isSize() && touches(operation, shown)));
    }

    private static boolean touches(Patch.Operation one, Shown shown) {
        List<String> path = Pointer.tokens(one.path());
        boolean isInside = Pointer.startsWith(path, shown.path());
        if (one.op().equals("test")) return false;
        if (!one.op().equals("move")) return isInside;
        // The last element of a list may be moved to the end of it, which changes nothing.
        boolean mayStay = one.from().equals(one.path()) || one.path().endsWith("/-");
        boolean isFrom = Pointer.startsWith(Pointer.tokens(one.from()), shown.path());
        return !mayStay && (isInside || isFrom);
    }
}

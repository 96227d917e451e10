package relay.client;

import com.fasterxml.jackson.databind.JsonNode;
import java.util.ArrayList;
import java.util.List;
import java.util.Optional;

/**
 * The state that a board shows. Nobody writes to its values, and nobody may: change a
 * {@code deepCopy}.
 *
 * @param slots one for each pointer of the view: its value, or nothing if it leads to none; what
 *     the relay has shown, with the optimistic edits that wait laid over it
 * @param confirmed the same without these edits
 * @param view the pointers of which they are
 * @param rev the revision of {@code confirmed}
 * @param epoch the run of the relay to which that belongs
 * @param pending how many optimistic edits wait
 * @param patch what led to {@code confirmed} from the slots before, the value of slot k at
 *     {@code /k/0}; null if all came anew, or only what waits changed
 */
public record Change(
        List<Optional<JsonNode>> slots,
        List<Optional<JsonNode>> confirmed,
        List<Shown> view,
        long rev,
        long epoch,
        int pending,
        Patch patch) {
    /** Slots as the relay sends them: {@code [value]}, or {@code []} for none. */
    static List<Optional<JsonNode>> slots(JsonNode told) {
        List<Optional<JsonNode>> slots = new ArrayList<>();
        for (JsonNode slot : told) slots.add(Optional.ofNullable(slot.get(0)));
        return List.copyOf(slots);
    }
}

package relay.client;

/**
 * Options for how an edit is made.
 *
 * @param isOptimistic whether it shows at once, and is taken back if it fails
 * @param base the one revision on which it is done; null if any will do
 * @param epoch the run of the relay to which the base belongs; null for that of the slots
 * @param isUndone whether {@link Board#undo} takes it back; else it passes it over
 */
public record EditOptions(boolean isOptimistic, Long base, Long epoch, boolean isUndone) {
    public static final EditOptions PLAIN = new EditOptions(false, null, null, true);
    public static final EditOptions OPTIMISTIC = new EditOptions(true, null, null, true);

    public EditOptions on(long base, long epoch) {
        return new EditOptions(isOptimistic, base, epoch, isUndone);
    }

    public EditOptions withoutUndo() {
        return new EditOptions(isOptimistic, base, epoch, false);
    }
}

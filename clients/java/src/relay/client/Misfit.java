package relay.client;

/** A patch does not fit the values that it is applied to. */
final class Misfit extends RuntimeException {
    private static final long serialVersionUID = 1;

    Misfit(String words) {
        super(words, null, false, false);
    }
}

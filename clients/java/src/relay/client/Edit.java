package relay.client;

import com.fasterxml.jackson.databind.JsonNode;
import com.fasterxml.jackson.databind.node.ObjectNode;
import java.util.concurrent.CompletableFuture;
import java.util.function.Consumer;

/**
 * An edit, until the slots show it. One with a base belongs to one run of the relay, and is sent to
 * it again if its answer was lost: revisions only rise, so of all edits with one base at most one
 * is done.
 */
final class Edit extends Request {
    /** The reason for which it was made, for undo. */
    enum Role {
        EDIT,
        UNDO,
        REDO,
        /** It is not undone. */
        NONE
    }

    /** One that ends its connection each time has to come to an end. */
    private static final int SENDINGS = 5;

    final Patch patch;
    final boolean isOptimistic;
    final Role role;
    final CompletableFuture<Long> answer = new CompletableFuture<>();
    /** The revision that it made; 0 if it was not done yet. */
    long rev;
    /** The run to which it was sent last. */
    long run;
    /** The cause of its failure; null if it did not fail. */
    RelayException cause;

    private final boolean hasBase;
    /** The run of which its base is a revision; null until it is sent if none was held. */
    private Long epoch;

    private int sendings;
    private final Consumer<Edit> ended;

    /** Its base, if it has one, is of that run; null if that is not known yet. */
    Edit(Patch patch, EditOptions how, Long epoch, Role role, Consumer<Edit> ended) {
        super(body(patch, how.base()), reply -> {});
        this.patch = patch;
        this.hasBase = how.base() != null;
        this.epoch = epoch;
        this.isOptimistic = how.isOptimistic();
        this.role = role;
        this.ended = ended;
    }

    private static ObjectNode body(Patch patch, Long base) {
        ObjectNode body = body("edit");
        if (base != null) body.put("base", base);
        return body.set("patch", patch.asJson());
    }

    boolean isGuarded() {
        return hasBase || patch.isGuarded();
    }

    /** Before each sending: whether it goes to that run. Else it has ended. */
    boolean goesTo(JsonNode welcome) {
        run = welcome.get("epoch").longValue();
        if (epoch == null) epoch = run;
        if (hasBase && epoch != run) {
            long rev = welcome.get("rev").longValue();
            RelayException stale = new RelayException.Refused("stale", null, rev);
            fail(sendings > 0 ? new RelayException.Unknown(null) : stale);
            return false;
        }
        sendings++;
        return true;
    }

    @Override
    void answered(JsonNode reply) {
        if (!reply.path("kind").asText().equals("done")) {
            RelayException.Refused refused = refusal(reply);
            // It was done the first time, or it never will be.
            boolean isUnknown = RelayException.isStale(refused) && sendings > 1;
            fail(isUnknown ? new RelayException.Unknown(refused.rev) : refused);
            return;
        }
        rev = reply.get("rev").longValue();
        ended.accept(this);
    }

    /** Its connection was lost: whether it is to be sent again. Else it has ended. */
    boolean isSentAgain() {
        boolean again = hasBase && sendings < SENDINGS;
        if (!again) fail(new RelayException.Unknown(null));
        return again;
    }

    void drop() {
        fail(sendings > 0 ? new RelayException.Unknown(null) : new RelayException.Closed());
    }

    void fail(RelayException failure) {
        cause = failure;
        ended.accept(this);
    }
}

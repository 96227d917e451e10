package relay.client;

import com.fasterxml.jackson.databind.JsonNode;
import java.util.concurrent.CompletableFuture;
import java.util.function.Consumer;

/**
 * A will: what the relay is to do when this session ends (docs/PROTOCOL.md, "Wills"). It goes with
 * its session, so each connection leaves it again, and waits for its answer over as many as it
 * takes.
 */
final class Will extends Request {
    final CompletableFuture<Void> answer = new CompletableFuture<>();
    /** The cause if the relay does not have it; null if it does. */
    RelayException cause;

    private final Consumer<Will> ended;

    Will(Patch patch, Consumer<Will> ended) {
        super(body("will").set("patch", patch.asJson()), reply -> {});
        this.ended = ended;
    }

    @Override
    void answered(JsonNode reply) {
        boolean isLeft = reply.path("kind").asText().equals("willing");
        end(isLeft ? null : refusal(reply));
    }

    /** It was not left before the board was closed. */
    void drop() {
        end(new RelayException.Closed());
    }

    private void end(RelayException failure) {
        cause = failure;
        ended.accept(this);
    }
}

package relay.client;

import com.fasterxml.jackson.databind.JsonNode;
import com.fasterxml.jackson.databind.node.ObjectNode;
import java.util.Map;
import java.util.function.Consumer;

/** A request from its asking to its answer. One that is no {@link Edit} is of one connection. */
class Request {
    /** The messages that answer a request if it is not refused, by what it does. */
    private static final Map<String, String> REPLIES = Map.of(
            "edit", "done", "watch", "watching", "resume", "resumed", "will", "willing");

    final ObjectNode body;
    private final Consumer<JsonNode> answered;
    long id;
    /** The time at which it was sent, by {@link System#nanoTime}. */
    long sentAt;

    Request(ObjectNode body, Consumer<JsonNode> answered) {
        this.body = body;
        this.answered = answered;
    }

    /** None of another kind comes that was not asked for by something new. */
    boolean isAnsweredBy(String kind) {
        return kind.equals("refused") || kind.equals(REPLIES.get(body.path("do").asText()));
    }

    void answered(JsonNode reply) {
        answered.accept(reply);
    }

    static ObjectNode body(String word) {
        return Json.NODES.objectNode().put("do", word);
    }

    static RelayException.Refused refusal(JsonNode reply) {
        Integer at = reply.path("at").isLong() ? reply.get("at").intValue() : null;
        Long rev = reply.path("rev").isLong() ? reply.get("rev").longValue() : null;
        return new RelayException.Refused(reply.path("fault").asText(), at, rev);
    }
}

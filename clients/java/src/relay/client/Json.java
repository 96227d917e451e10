package relay.client;

import com.fasterxml.jackson.core.JsonProcessingException;
import com.fasterxml.jackson.databind.DeserializationFeature;
import com.fasterxml.jackson.databind.JsonNode;
import com.fasterxml.jackson.databind.json.JsonMapper;
import com.fasterxml.jackson.databind.node.JsonNodeFactory;
import com.fasterxml.jackson.databind.node.NumericNode;
import com.fasterxml.jackson.databind.node.ValueNode;
import java.math.BigInteger;

/** JSON values whose equality is that of RFC 6902, section 4.6, by {@code equals}. */
final class Json {
    /** Each number of 64 bits is of one class: Jackson has others for few and for many digits. */
    private static final class Numbers extends JsonNodeFactory {
        private static final long serialVersionUID = 1;

        @Override
        public NumericNode numberNode(int number) {
            return numberNode((long) number);
        }

        @Override
        public ValueNode numberNode(BigInteger number) {
            boolean fits = number != null && number.bitLength() < Long.SIZE;
            return fits ? numberNode(number.longValue()) : super.numberNode(number);
        }
    }

    static final JsonNodeFactory NODES = new Numbers();
    static final JsonMapper MAPPER = JsonMapper.builder()
            .nodeFactory(NODES)
            .enable(DeserializationFeature.FAIL_ON_TRAILING_TOKENS)
            .build();

    /** A value nests at most so many containers: the relay reads 127, three around it. */
    private static final int DEEPEST = 124;

    private Json() {}

    static JsonNode read(String text) throws JsonProcessingException {
        return MAPPER.readTree(text);
    }

    /**
     * A copy of a value as JSON, so that what is sent is what it was when it was asked for.
     *
     * @throws IllegalArgumentException what JSON cannot say or the relay does not take, by its path
     */
    static JsonNode of(Object value) {
        JsonNode copy = MAPPER.valueToTree(value);
        check(copy, "", 0);
        return copy;
    }

    private static void check(JsonNode value, String path, int depth) {
        if (value.isNumber() && !value.isLong()) {
            throw wrong(path, value + " is no whole number of 64 bits: scale it, or send a text");
        }
        if (value.isTextual()) checkText(value.textValue(), path);
        if (value.isBinary() || value.isPojo()) throw wrong(path, "is no JSON");
        if (depth >= DEEPEST && value.isContainerNode()) throw wrong(path, "is nested too deep");
        for (int place = 0; value.isArray() && place < value.size(); place++) {
            check(value.get(place), path + "/" + place, depth + 1);
        }
        if (value.isObject()) {
            value.fields().forEachRemaining(member -> {
                String at = path + Pointer.of(member.getKey());
                checkText(member.getKey(), at);
                check(member.getValue(), at, depth + 1);
            });
        }
    }

    private static void checkText(String text, String path) {
        if (text.codePoints().anyMatch(point -> point >= 0xD800 && point <= 0xDFFF)) {
            throw wrong(path, "has half of a surrogate pair");
        }
    }

    private static IllegalArgumentException wrong(String path, String words) {
        return new IllegalArgumentException((path.isEmpty() ? "the value" : path) + ": " + words);
    }
}

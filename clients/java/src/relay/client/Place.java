package relay.client;

import com.fasterxml.jackson.core.JsonProcessingException;
import com.fasterxml.jackson.databind.JsonNode;
import java.util.List;
import java.util.Optional;
import java.util.concurrent.CompletableFuture;
import java.util.function.Consumer;
import java.util.function.Function;

/**
 * One value of a board's view, or within it. Each call fails with {@link IllegalStateException} if
 * the view does not show it, or if there are no slots yet.
 */
public final class Place {
    private final Board board;
    private final String pointer;
    private final List<String> path;

    Place(Board board, String pointer) {
        this.board = board;
        this.pointer = pointer;
        path = Pointer.tokens(pointer);
    }

    /** The value that is shown there; empty if nothing is. A JSON null is a value. */
    public Optional<JsonNode> value() {
        Change shown = shown();
        return in(shown.view(), shown.slots());
    }

    /** The same as another class, by Jackson. */
    public <T> Optional<T> value(Class<T> type) {
        return value().map(value -> {
            try {
                return Json.MAPPER.treeToValue(value, type);
            } catch (JsonProcessingException wrong) {
                throw new IllegalStateException(pointer + " is no " + type.getName(), wrong);
            }
        });
    }

    /** The value that the relay has shown there, without edits that wait. */
    public Optional<JsonNode> confirmed() {
        Change shown = shown();
        return in(shown.view(), shown.confirmed());
    }

    /** Tells a listener of each other value. Gives what ends that. */
    public Runnable subscribe(Consumer<Optional<JsonNode>> listener) {
        return board.subscribe(new Consumer<>() {
            private Optional<JsonNode> before = board.shown().flatMap(Place.this::read);

            @Override
            public void accept(Change change) {
                Optional<JsonNode> now = read(change);
                if (now.equals(before)) return;
                before = now;
                listener.accept(now);
            }
        });
    }

    private Optional<JsonNode> read(Change change) {
        return in(change.view(), change.slots());
    }

    /** Puts a value there, whatever stands there now. It shows at once. */
    public CompletableFuture<Long> set(Object value) {
        return board.edit(setting(value(), value), EditOptions.OPTIMISTIC);
    }

    /** Adds a value at the end of the list that stands there. It shows at once. */
    public CompletableFuture<Long> push(Object value) {
        return board.edit(Patch.of().add(pointer + "/-", value), EditOptions.OPTIMISTIC);
    }

    /**
     * Removes what is shown there, and nothing else: it is refused, as {@code test-failed}, if
     * another value has come to stand there meanwhile. It shows at once.
     */
    public CompletableFuture<Long> remove() {
        JsonNode seen = value().orElse(null);
        if (seen == null) throw new IllegalStateException("nothing stands at " + pointer);
        return board.edit(Patch.of().test(pointer, seen).remove(pointer), EditOptions.OPTIMISTIC);
    }

    /**
     * Puts there what a function makes of the value that the relay has shown. No other edit comes
     * in between: if others are faster, the function is called again.
     */
    public CompletableFuture<Long> update(Function<Optional<JsonNode>, ?> make) {
        return board.change(seen -> {
            Optional<JsonNode> before = in(seen.view(), seen.confirmed());
            return setting(before, make.apply(before));
        });
    }

    private Patch setting(Optional<JsonNode> before, Object value) {
        Patch patch = Patch.of();
        return before.isPresent() ? patch.replace(pointer, value) : patch.add(pointer, value);
    }

    private Change shown() {
        return board.shown().orElseThrow(() -> new IllegalStateException("there are no slots yet"));
    }

    private Optional<JsonNode> in(List<Shown> view, List<Optional<JsonNode>> slots) {
        Known known = Known.by(view, slots);
        JsonNode value = known.at(path);
        if (value == null) throw new IllegalStateException(pointer + " is not in the view " + view);
        return known.isAbsent(path) ? Optional.empty() : Optional.of(value);
    }
}

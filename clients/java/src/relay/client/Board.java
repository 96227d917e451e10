package relay.client;

import com.fasterxml.jackson.databind.JsonNode;
import java.net.URI;
import java.util.ArrayDeque;
import java.util.ArrayList;
import java.util.Deque;
import java.util.List;
import java.util.Map;
import java.util.Optional;
import java.util.TreeMap;
import java.util.concurrent.CompletableFuture;
import java.util.concurrent.CopyOnWriteArrayList;
import java.util.concurrent.Executor;
import java.util.concurrent.Flow;
import java.util.concurrent.ThreadLocalRandom;
import java.util.concurrent.TimeUnit;
import java.util.function.Consumer;
import java.util.function.Function;
import java.util.regex.Pattern;

/**
 * A room, seen through a view. It comes back to the room whenever the connection is lost, until it
 * is closed. All calls may be made from any thread, and none waits for the relay.
 *
 * <pre>{@code
 * Options options = new Options().begin(Map.of("cards", List.of()));
 * try (Board board = Board.connect("ws://127.0.0.1:8080/rooms/demo", options, "/cards")) {
 *     board.ready().join();
 *     board.at("/cards").push("milk").join();
 *     System.out.println(board.at("/cards").value().get());
 * }
 * }</pre>
 */
public final class Board implements AutoCloseable {
    private static final Pattern ROOM =
            Pattern.compile("wss?://[^/?#]+/(?:[^?#]*/)?rooms/[A-Za-z0-9_-]{1,64}");

    /** The number of times that an edit is made anew at most when others are faster. */
    private static final int TRIES = 20;

    private static final long PAUSE = 10;
    private static final long LONGEST_PAUSE = 500;

    /** Older edits are not undone. */
    private static final int KEPT = 100;

    private final Object lock = new Object();
    private final Options options;
    private final Executor executor;
    private final Session session;
    private final Overlay overlay = new Overlay();
    private final Newest newest;
    private final List<Consumer<Change>> listeners = new CopyOnWriteArrayList<>();
    /** Each waits for the slots of the view that was asked for by its number, or of a later one. */
    private final TreeMap<Integer, Waiter> waiters = new TreeMap<>();
    private final CompletableFuture<Change> ready = new CompletableFuture<>();
    private final Deque<Patch> undoing = new ArrayDeque<>();
    private final Deque<Patch> redoing = new ArrayDeque<>();
    private final List<CompletableFuture<Void>> quiet = new ArrayList<>();
    private CompletableFuture<?> stepping = CompletableFuture.completedFuture(null);
    private int asked;
    /** Slots were asked for anew, to see whether they have all that was done. */
    private boolean isAsking;
    private Change shown;
    /** The fault that closed it; null if nothing did but {@link #close}. */
    private RelayException closedBy;

    private Board(URI address, List<Shown> view, Options options) {
        this.options = options;
        executor = options.executor != null ? options.executor : Options.ownThread();
        newest = new Newest(executor);
        listeners.add(options.onChange);
        waiters.put(0, new Waiter(ready, null));
        session = new Session(address, view, options, lock, new Hearer());
        synchronized (lock) {
            session.connect();
        }
    }

    /**
     * Connects to a room, as {@code ws://127.0.0.1:8080/rooms/demo}.
     *
     * @throws IllegalArgumentException if the address is none of a room, or a pointer is none
     */
    public static Board connect(String address, Options options, List<Shown> view) {
        String shown = Address.shown(address);
        if (!ROOM.matcher(address).matches()) {
            if (address.matches("wss?://.+/rooms/[A-Za-z0-9_-]+/watch")) {
                String advice = ": leave out `/watch`, and use Options.readOnly(true)";
                throw new IllegalArgumentException(shown + advice);
            }
            throw new IllegalArgumentException(shown + " is not ws://HOST/rooms/NAME");
        }
        String target = options.isReadOnly ? address + "/watch" : address;
        return new Board(Address.of(target), List.copyOf(view), options);
    }

    /** The same for a view that shows values alone. */
    public static Board connect(String address, Options options, String... pointers) {
        List<Shown> view = new ArrayList<>();
        for (String pointer : pointers) view.add(Shown.value(pointer));
        return connect(address, options, view);
    }

    // What is shown.

    /** The first slots. Fails with the refusal of the view, or with {@code Closed}. */
    public CompletableFuture<Change> ready() {
        return ready;
    }

    /** Returns what is shown; empty before the first slots. */
    public Optional<Change> shown() {
        synchronized (lock) {
            return Optional.ofNullable(shown);
        }
    }

    public State state() {
        synchronized (lock) {
            return session.state();
        }
    }

    /** One value of the view, or within it. */
    public Place at(String pointer) {
        return new Place(this, pointer);
    }

    /** Tells a listener of each change from now on. Gives what ends that. */
    public Runnable subscribe(Consumer<Change> listener) {
        Consumer<Change> own = listener::accept; // the same one may be told twice
        listeners.add(own);
        return () -> listeners.remove(own);
    }

    /**
     * Publishes what is shown, and then each change until the board is closed; a slow one misses
     * some.
     */
    public Flow.Publisher<Change> changes() {
        return newest;
    }

    /**
     * Shows another view from now on. Gives its slots. Fails with {@code Refused}, and the view
     * before stays; with {@code Superseded}, if another view was watched and its slots came in
     * their place; with {@code Closed}.
     */
    public CompletableFuture<Change> watch(List<Shown> view) {
        List<Shown> own = List.copyOf(view);
        synchronized (lock) {
            return watch(own, own);
        }
    }

    /** Slots that have every edit which was accepted before. It costs a snapshot. */
    public CompletableFuture<Change> sync() {
        synchronized (lock) {
            return watch(session.wanted(), null);
        }
    }

    private CompletableFuture<Change> watch(List<Shown> view, List<Shown> only) {
        if (session.isClosed()) return CompletableFuture.failedFuture(whyClosed());
        CompletableFuture<Change> answer = new CompletableFuture<>();
        waiters.put(++asked, new Waiter(answer, only));
        session.watch(asked, view);
        return answer;
    }

    // Edits.

    /** Edits the document, all of it or nothing, as {@link #edit(Patch, EditOptions)} does. */
    public CompletableFuture<Long> edit(Patch patch) {
        return edit(patch, EditOptions.PLAIN);
    }

    /**
     * Gives the new revision, which the slots may still be on their way to. Fails with
     * {@code Refused}, and nothing changed; with {@code Unknown}, if the connection was lost before
     * the answer; with {@code Closed}. At most 31 requests are on their way at once. Others wait
     * here, also for a connection, and are sent in order.
     *
     * <p>With a base it is done only on that revision of that run of the relay; else it is refused,
     * as {@code stale}. If its answer was lost it is sent again, five times at most, and is never
     * done twice.
     */
    public CompletableFuture<Long> edit(Patch patch, EditOptions how) {
        return edit(patch, how, how.isUndone() ? Edit.Role.EDIT : Edit.Role.NONE);
    }

    private CompletableFuture<Long> edit(Patch patch, EditOptions how, Edit.Role role) {
        if (options.isReadOnly) return readOnly();
        synchronized (lock) {
            Session.Held held = session.held();
            Long seen = held == null ? null : (Long) held.epoch();
            Long epoch = how.epoch() != null ? how.epoch() : seen;
            Edit edit = new Edit(patch, how, epoch, role, this::ended);
            overlay.add(edit);
            session.edit(edit);
            if (edit.isOptimistic && edit.cause == null) publish(null);
            return edit.answer;
        }
    }

    /**
     * An edit that a function makes of what the relay has shown, and that is done to that alone. If
     * others are faster, the function is called again, 20 times at most. If it gives null, nothing
     * is done. Fails as an edit with a base does.
     */
    public CompletableFuture<Long> change(Function<Change, Patch> make) {
        if (options.isReadOnly) return readOnly();
        return ready.thenCompose(first -> attempt(make, EditOptions.PLAIN, Edit.Role.EDIT, 1));
    }

    private static <T> CompletableFuture<T> readOnly() {
        return CompletableFuture.failedFuture(new RelayException.Refused("read-only"));
    }

    private CompletableFuture<Long> attempt(
            Function<Change, Patch> make, EditOptions how, Edit.Role role, int tried) {
        Change seen = shown().orElseThrow();
        Patch patch = make.apply(seen);
        if (patch == null) return CompletableFuture.completedFuture(seen.rev());
        return edit(patch, how.on(seen.rev(), seen.epoch()), role).exceptionallyCompose(failure -> {
            if (!RelayException.isStale(failure) || tried >= TRIES) {
                return CompletableFuture.failedFuture(failure);
            }
            // An edit elsewhere leaves the slots' revision behind the room's.
            return pause(tried)
                    .thenCompose(ignored -> sync())
                    .thenCompose(ignored -> attempt(make, how, role, tried + 1));
        });
    }

    /** Up to twice as long each time, so that many who count take turns. */
    private CompletableFuture<Void> pause(int tried) {
        if (tried == 1) return CompletableFuture.completedFuture(null);
        long longest = Math.min(PAUSE << tried, LONGEST_PAUSE);
        long chosen = ThreadLocalRandom.current().nextLong(longest);
        Executor later = CompletableFuture.delayedExecutor(chosen, TimeUnit.MILLISECONDS, executor);
        return CompletableFuture.runAsync(() -> {}, later);
    }

    /**
     * Ends the room: replaces the whole document by {@code null}. It is an edit with a base, the
     * revision of what is shown, so it is refused, as {@code stale}, if anybody edited since.
     * Before the first slots it waits for them. Once everybody has left, the room makes place for a
     * new name if the relay has no other.
     */
    public CompletableFuture<Long> end() {
        if (options.isReadOnly) return readOnly();
        return ready.thenCompose(first -> {
            Change seen = shown().orElseThrow();
            Patch patch = Patch.of().replace("", null);
            return edit(patch, EditOptions.PLAIN.on(seen.rev(), seen.epoch()));
        });
    }

    /**
     * Leaves a will: a patch that the relay does when this session ends, however it ends, by
     * {@link #close}, by the end of the program, or by a lost connection. It is done as an edit
     * without a base that nobody is answered: if it is refused, nothing happens. A later will
     * replaces it, and an empty patch withdraws it.
     *
     * <p>Each new connection leaves it again, before the edits that wait. The session that was lost
     * has done its own by then, or does it once the relay finds out: so guard by a {@code test}
     * what a later session may have written anew.
     *
     * <p>The future completes when the relay has it; without a connection, once there is one. It
     * fails with {@code Refused}, and the will before stays: as {@code shape} by a relay that knows
     * no wills, as {@code too-heavy} if it weighs more than 65,536; and with {@code Closed}.
     */
    public CompletableFuture<Void> will(Patch patch) {
        if (options.isReadOnly) return readOnly();
        synchronized (lock) {
            Will will = new Will(patch, this::ended);
            session.will(will);
            return will.answer;
        }
    }

    /**
     * Undoes the newest edit of this client that the slots showed and that is not undone. It shows
     * at once. Gives the new revision; empty if there is no such edit. Fails as an edit does, and
     * with {@code Refused}, as {@code changed}, if somebody changed what it left: then it is passed
     * over.
     */
    public CompletableFuture<Optional<Long>> undo() {
        return step(undoing, Edit.Role.UNDO);
    }

    /** Does again what was undone last, unless there was another edit since. */
    public CompletableFuture<Optional<Long>> redo() {
        return step(redoing, Edit.Role.REDO);
    }

    /** One after the other, each when all edits before it are shown. */
    private CompletableFuture<Optional<Long>> step(Deque<Patch> from, Edit.Role role) {
        if (options.isReadOnly) return readOnly();
        synchronized (lock) {
            CompletableFuture<Optional<Long>> step = stepping
                    .handle((ignored, failure) -> null)
                    .thenCompose(ignored -> whenQuiet())
                    .thenCompose(ignored -> takeBack(from, role));
            stepping = step;
            return step;
        }
    }

    private CompletableFuture<Optional<Long>> takeBack(Deque<Patch> from, Edit.Role role) {
        Patch inverse;
        synchronized (lock) {
            inverse = from.pollLast();
        }
        if (inverse == null) return CompletableFuture.completedFuture(Optional.empty());
        Function<Change, Patch> make = seen -> {
            boolean fits = Inverse.fits(Known.by(seen.view(), seen.confirmed()), inverse);
            if (!fits) throw new RelayException.Refused("changed");
            return inverse;
        };
        return attempt(make, EditOptions.OPTIMISTIC, role, 1).thenApply(Optional::of);
    }

    private CompletableFuture<Void> whenQuiet() {
        synchronized (lock) {
            CompletableFuture<Void> future = new CompletableFuture<>();
            quiet.add(future);
            becomeQuiet();
            return future;
        }
    }

    @Override
    public void close() {
        synchronized (lock) {
            session.close(null);
        }
    }

    // What becomes of them. All that follows is called with the lock held.

    /** Runs an application's function. What it throws is not the board's: its thread reports it. */
    private void tell(Runnable what) {
        executor.execute(() -> {
            try {
                what.run();
            } catch (RuntimeException error) {
                Thread here = Thread.currentThread();
                here.getUncaughtExceptionHandler().uncaughtException(here, error);
            }
        });
    }

    private void ended(Edit edit) {
        if (edit.cause == null) {
            tell(() -> edit.answer.complete(edit.rev));
            settle();
            return;
        }
        RelayException cause = edit.cause;
        overlay.drop(edit);
        tell(() -> edit.answer.completeExceptionally(cause));
        if (edit.isOptimistic) {
            publish(null);
            tell(() -> options.onTakenBack.accept(edit.patch, cause));
        }
        becomeQuiet();
    }

    private void ended(Will will) {
        RelayException cause = will.cause;
        if (cause == null) tell(() -> will.answer.complete(null));
        else tell(() -> will.answer.completeExceptionally(cause));
    }

    /** Edits that are done and may touch no slot are not waited for. */
    private void settle() {
        Session.Held held = session.held();
        if (held == null) return;
        int before = overlay.pending();
        overlay.leaveShown(held);
        if (overlay.mayWaitForNothing(held) && !isAsking && session.state() == State.OPEN) {
            isAsking = true;
            session.watch(++asked, session.wanted());
        }
        if (overlay.pending() != before) publish(null);
        becomeQuiet();
    }

    private void becomeQuiet() {
        if (!overlay.isEmpty() && !session.isClosed()) return;
        for (CompletableFuture<Void> one : quiet) tell(() -> one.complete(null));
        quiet.clear();
    }

    private void record(Edit edit, Patch inverse) {
        if (inverse == null || edit.role == Edit.Role.NONE) return;
        if (edit.role == Edit.Role.EDIT) redoing.clear();
        Deque<Patch> kept = edit.role == Edit.Role.UNDO ? redoing : undoing;
        kept.addLast(inverse);
        if (kept.size() > KEPT) kept.removeFirst();
    }

    private void publish(Patch patch) {
        Session.Held held = session.held();
        if (held == null) return;
        List<Optional<JsonNode>> confirmed = Change.slots(held.slots());
        List<Optional<JsonNode>> slots = overlay.shown(held);
        int pending = overlay.pending();
        Change change = new Change(
                slots, confirmed, held.view(), held.rev(), held.epoch(), pending, patch);
        shown = change;
        tell(() -> newest.tell(change));
        for (Consumer<Change> listener : listeners) tell(() -> listener.accept(change));
    }

    private RelayException whyClosed() {
        return closedBy != null ? closedBy : new RelayException.Closed();
    }

    /**
     * Waits for the slots of a view, or of any that is watched later.
     *
     * @param only the view of which the slots have to be; null if those of a later one will do
     */
    private record Waiter(CompletableFuture<Change> answer, List<Shown> only) {
        void come(Change change) {
            if (only == null || only.equals(change.view())) answer.complete(change);
            else answer.completeExceptionally(new RelayException.Superseded());
        }
    }

    private final class Hearer implements Session.Hearer {
        @Override
        public void held(Session.Held before, Session.Held now, Patch patch, boolean single) {
            if (before != null && before.epoch() != now.epoch()) {
                undoing.clear(); // what was done was done to a document that is gone
                redoing.clear();
            }
            for (Edit edit : overlay.leave(now)) {
                boolean isTold = single && edit.rev == now.rev() && edit.run == now.epoch();
                record(edit, isTold ? inverse(before, edit) : null);
            }
            isAsking = isAsking && patch != null;
            publish(patch);
            settle();
        }

        private Patch inverse(Session.Held before, Edit edit) {
            return Inverse.of(Known.by(before.view(), Change.slots(before.slots())), edit.patch);
        }

        @Override
        public void missedNothing() {
            int before = overlay.pending();
            overlay.leaveDone();
            if (overlay.pending() != before) publish(null);
            becomeQuiet();
        }

        @Override
        public void entered(State state, RelayException cause) {
            isAsking = isAsking && state == State.OPEN;
            tell(() -> options.onState.accept(state, cause));
            if (state != State.CLOSED) return;
            closedBy = cause;
            RelayException why = whyClosed();
            for (Waiter one : waiters.values()) {
                tell(() -> one.answer.completeExceptionally(why));
            }
            waiters.clear();
            becomeQuiet();
            tell(() -> newest.end(cause));
        }

        @Override
        public void shown(int number, RelayException.Refused cause) {
            if (cause != null) {
                Waiter refused = waiters.remove(number);
                if (refused != null) tell(() -> refused.answer.completeExceptionally(cause));
                return;
            }
            Map<Integer, Waiter> told = waiters.headMap(number, true);
            Change change = shown;
            for (Waiter one : told.values()) tell(() -> one.come(change));
            told.clear();
        }
    }
}

package relay.client;

import java.util.List;
import java.util.concurrent.CopyOnWriteArrayList;
import java.util.concurrent.Executor;
import java.util.concurrent.Flow;

/** Publishes changes. A subscriber that is slow misses those between, and never the newest one. */
final class Newest implements Flow.Publisher<Change> {
    private final Executor executor;
    private final List<Subscription> subscriptions = new CopyOnWriteArrayList<>();
    private Change last;
    private boolean isEnded;
    private Throwable cause;

    Newest(Executor executor) {
        this.executor = executor;
    }

    @Override
    public void subscribe(Flow.Subscriber<? super Change> subscriber) {
        Subscription made = new Subscription(subscriber);
        executor.execute(() -> {
            subscriber.onSubscribe(made);
            made.untold = last;
            subscriptions.add(made);
            made.tell();
        });
    }

    // What follows is called by the executor alone.

    void tell(Change change) {
        last = change;
        for (Subscription one : subscriptions) {
            one.untold = change;
            one.tell();
        }
    }

    void end(Throwable why) {
        isEnded = true;
        cause = why;
        subscriptions.forEach(Subscription::tell);
    }

    private final class Subscription implements Flow.Subscription {
        private final Flow.Subscriber<? super Change> subscriber;
        private Change untold;
        private long wanted;

        Subscription(Flow.Subscriber<? super Change> subscriber) {
            this.subscriber = subscriber;
        }

        @Override
        public void request(long count) {
            executor.execute(() -> {
                if (count <= 0) {
                    cancel();
                    subscriber.onError(new IllegalArgumentException("asked for " + count));
                }
                wanted = wanted + count < 0 ? Long.MAX_VALUE : wanted + count;
                tell();
            });
        }

        @Override
        public void cancel() {
            subscriptions.remove(this);
        }

        private void tell() {
            if (!subscriptions.contains(this)) return;
            if (untold != null && wanted > 0) {
                Change next = untold;
                untold = null;
                wanted--;
                subscriber.onNext(next);
            }
            if (!isEnded || !subscriptions.remove(this)) return;
            if (cause == null) subscriber.onComplete();
            else subscriber.onError(cause);
        }
    }
}

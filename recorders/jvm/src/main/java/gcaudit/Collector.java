package gcaudit;

import java.lang.management.ManagementFactory;
import java.lang.ref.ReferenceQueue;
import java.lang.ref.WeakReference;

/** Full collections of the runtime's own collector. */
final class Collector {
    private static final int MOST_TRIES = 5;
    private static final int FINALIZER_ROUNDS = 2;      // the finalizer that runs during the first is over after the second
    private static final long FINALIZER_NANOS = 5_000_000_000L;     // how long no finalizer must end until they count as stuck
    private static final long QUEUE_NANOS = 200_000_000L;           // how long nothing must come from the queue

    private Collector() { }

    /**
     * Collects. Where an object that must be dead is left, waits for finalizers and collects again, since what waits for its
     * finalizer is freed by the next collection only. It doesn't run them itself: where they are stuck, that is a leak.
     */
    static void collectFor(Assertions assertions, ReferenceQueue<Object> queue) {
        for (int round = 0; collect(); round++) {
            takeGone(assertions, queue);
            if (!assertions.wantsDeath() || round == FINALIZER_ROUNDS || !waitForFinalizers()) {
                return;
            }
        }
    }

    /** A full collection; whether it ran is told by an object that nothing holds. By {@code -XX:+DisableExplicitGC} none does. */
    private static boolean collect() {
        WeakReference<Object> probe = new WeakReference<>(new Probe());
        for (int tries = 0; tries < MOST_TRIES; tries++) {
            System.gc();
            if (probe.get() == null) {
                return true;
            }
        }
        return false;
    }

    /** Takes what the queue has. Where only the queue tells what is gone, waits until nothing more comes. */
    private static void takeGone(Assertions assertions, ReferenceQueue<Object> queue) {
        long last = System.nanoTime();
        do {
            if (Mark.takeGone(queue)) {
                last = System.nanoTime();
            }
            assertions.dropMet();
        } while (!Mark.isExact() && assertions.wantsDeath() && System.nanoTime() - last < QUEUE_NANOS && sleeps());
    }

    /** Waits until no finalizer is pending; false where they don't come to an end. */
    private static boolean waitForFinalizers() {
        FinalizerProbe.hasRun = false;
        FinalizerProbe.leaveOne();
        System.gc();
        int pending = Integer.MAX_VALUE;
        for (long last = System.nanoTime(); System.nanoTime() - last < FINALIZER_NANOS;) {
            int now = ManagementFactory.getMemoryMXBean().getObjectPendingFinalizationCount();
            if (now == 0 && FinalizerProbe.hasRun) {
                return true;
            }
            if (now < pending) {
                pending = now;
                last = System.nanoTime();
            }
            if (!sleeps()) {
                return false;
            }
        }
        return false;
    }

    private static boolean sleeps() {
        try {
            Thread.sleep(1);
            return true;
        } catch (InterruptedException interrupted) {
            Thread.currentThread().interrupt();
            return false;
        }
    }

    private static final class Probe { }

    /** Says that finalizers run. */
    private static final class FinalizerProbe {
        static volatile boolean hasRun;

        static void leaveOne() {
            new FinalizerProbe();
        }

        @Override
        @SuppressWarnings({"deprecation", "removal"})
        protected void finalize() {
            hasRun = true;
        }
    }
}

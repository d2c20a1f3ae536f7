import java.lang.ref.Cleaner;
import java.lang.reflect.InvocationHandler;
import java.lang.reflect.Proxy;
import java.util.ArrayDeque;
import java.util.ArrayList;
import java.util.EnumMap;
import java.util.IdentityHashMap;
import java.util.LinkedHashMap;
import java.util.List;
import java.util.Map;
import java.util.Optional;
import java.util.WeakHashMap;
import java.util.concurrent.CompletableFuture;
import java.util.concurrent.ConcurrentHashMap;
import java.util.concurrent.CountDownLatch;
import java.util.concurrent.ExecutorService;
import java.util.concurrent.Executors;
import java.util.concurrent.ScheduledThreadPoolExecutor;
import java.util.concurrent.TimeUnit;
import java.util.concurrent.atomic.AtomicReference;

/** More ways to hold an object too long, each with a twin that was let go. It says "ready" and waits until its input ends. */
public class MoreLeaks {
    static class Held { }

    static class InScheduledTask extends Held { }
    static class InThreadLocalOfPool extends Held { }
    static class InInheritedThreadLocal extends Held { }
    static class InOptional extends Held { }
    static class InRecord extends Held { }
    static class InConcurrentMap extends Held { }
    static class InCacheThatNeverForgets extends Held { }
    static class InIdentityMap extends Held { }
    static class InEnumMap extends Held { }
    static class InAtomicReference extends Held { }
    static class OfPendingFuture extends Held { }
    static class OfCleaner extends Held { }
    static class OfProxy extends Held { }
    static class OfUncaughtHandler extends Held { }
    static class OfException extends Held { }
    static class OfSubList extends Held { }
    static class OfIterator extends Held { }
    static class OfLocalClass extends Held { Object local() { class Local { Held outer() { return OfLocalClass.this; } } return new Local(); } }
    static class OfMethodReference extends Held { void run() { } }
    static class InWeakMapByValue extends Held { }
    static class OfDueFinalizer extends Held { @Override @SuppressWarnings("removal") protected void finalize() { use(this); } }

    // The twins.
    static class ReleasedInScheduledTask extends Held { }
    static class ReleasedInThreadLocalOfPool extends Held { }
    static class ReleasedInInheritedThreadLocal extends Held { }
    static class ReleasedInOptional extends Held { }
    static class ReleasedInRecord extends Held { }
    static class ReleasedInConcurrentMap extends Held { }
    static class ReleasedInCache extends Held { }
    static class ReleasedInIdentityMap extends Held { }
    static class ReleasedInEnumMap extends Held { }
    static class ReleasedInAtomicReference extends Held { }
    static class ReleasedOfFuture extends Held { }
    static class ReleasedOfCleaner extends Held { }
    static class ReleasedOfProxy extends Held { }
    static class ReleasedOfUncaughtHandler extends Held { }
    static class ReleasedOfException extends Held { }
    static class ReleasedOfSubList extends Held { }
    static class ReleasedOfIterator extends Held { }
    static class ReleasedOfLocalClass extends OfLocalClass { }
    static class ReleasedOfMethodReference extends OfMethodReference { }
    static class ReleasedInWeakMap extends Held { }
    static class ReleasedWithFinalizer extends Held { @Override @SuppressWarnings("removal") protected void finalize() { use(this); } }

    record Entry(String name, Object held) { }
    enum Kind { ONE, TWO }
    static class Carrier extends Exception {
        final transient Object held;
        Carrier(Object held) { this.held = held; }
    }

    /** An object whose finalizer doesn't come to its end, so that all others wait. */
    static class Blocker {
        @Override @SuppressWarnings("removal")
        protected void finalize() throws Exception { BLOCKED.countDown(); NEVER.await(); }
    }

    static final CountDownLatch NEVER = new CountDownLatch(1), BLOCKED = new CountDownLatch(1);
    static final ScheduledThreadPoolExecutor SCHEDULED = new ScheduledThreadPoolExecutor(1, MoreLeaks::daemon);
    static final ExecutorService POOL = Executors.newFixedThreadPool(1, MoreLeaks::daemon);
    static final ThreadLocal<Object> LOCAL = new ThreadLocal<>();
    static final InheritableThreadLocal<Object> INHERITED = new InheritableThreadLocal<>();
    static final List<Object> KEPT = new ArrayList<>(), PASSING = new ArrayList<>();
    static final Map<Object, Object> CONCURRENT = new ConcurrentHashMap<>(), IDENTITY = new IdentityHashMap<>(), CACHE = new LinkedHashMap<>();
    static final Map<Kind, Object> BY_KIND = new EnumMap<>(Kind.class);
    static final AtomicReference<Object> ATOMIC = new AtomicReference<>();
    static final Cleaner CLEANER = Cleaner.create(MoreLeaks::daemon);
    static final Object CLEANED = new Object();
    static final WeakHashMap<Object, Object> WEAK = new WeakHashMap<>();
    static final Object KEY = new Object(), PASSING_KEY = new Object();

    static Thread daemon(Runnable work) {
        Thread thread = new Thread(work);
        thread.setDaemon(true);
        return thread;
    }

    static void use(Object used) { }

    static void await() {
        try {
            NEVER.await();
        } catch (InterruptedException end) {
            use(end);
        }
    }

    static Runnable proxyOf(Object held) {
        InvocationHandler handler = (proxy, method, words) -> held;
        return (Runnable) Proxy.newProxyInstance(MoreLeaks.class.getClassLoader(), new Class<?>[] {Runnable.class}, handler);
    }

    static Thread waiting(Object held) {
        Thread thread = daemon(MoreLeaks::await);
        thread.setUncaughtExceptionHandler((of, error) -> use(held));
        thread.start();
        return thread;
    }

    static Runnable usesOf(Object held) { return () -> use(held); }

    static void leak() throws Exception {
        SCHEDULED.schedule(usesOf(new InScheduledTask()), 10, TimeUnit.DAYS);
        POOL.submit(() -> LOCAL.set(new InThreadLocalOfPool())).get();
        INHERITED.set(new InInheritedThreadLocal());
        daemon(MoreLeaks::await).start();
        INHERITED.remove();
        KEPT.add(Optional.of(new InOptional()));
        KEPT.add(new Entry("x", new InRecord()));
        CONCURRENT.put("key", new InConcurrentMap());
        CACHE.put("key", new InCacheThatNeverForgets());
        IDENTITY.put(new InIdentityMap(), 1);
        BY_KIND.put(Kind.ONE, new InEnumMap());
        ATOMIC.set(new InAtomicReference());
        CompletableFuture<Object> future = new CompletableFuture<>();
        Held pending = new OfPendingFuture();
        future.thenAccept(result -> use(pending));
        KEPT.add(future);
        CLEANER.register(CLEANED, usesOf(new OfCleaner()));
        KEPT.add(proxyOf(new OfProxy()));
        waiting(new OfUncaughtHandler());
        KEPT.add(new IllegalStateException(new Carrier(new OfException())));
        KEPT.add(new ArrayList<>(List.of(new OfSubList(), 1)).subList(1, 2));
        KEPT.add(new ArrayDeque<>(List.of(new OfIterator())).iterator());
        KEPT.add(new OfLocalClass().local());
        KEPT.add((Runnable) new OfMethodReference()::run);
        Held weak = new InWeakMapByValue();
        WEAK.put(KEY, weak);
    }

    static void release() throws Exception {
        SCHEDULED.setRemoveOnCancelPolicy(true);
        SCHEDULED.schedule(usesOf(new ReleasedInScheduledTask()), 10, TimeUnit.DAYS).cancel(false);
        POOL.submit(() -> { LOCAL.set(new ReleasedInThreadLocalOfPool()); LOCAL.remove(); }).get();
        INHERITED.set(new ReleasedInInheritedThreadLocal());
        Thread thread = daemon(() -> use(1));
        thread.start();
        thread.join();
        INHERITED.remove();
        PASSING.add(Optional.of(new ReleasedInOptional()));
        PASSING.add(new Entry("x", new ReleasedInRecord()));
        CONCURRENT.put("key", new ReleasedInConcurrentMap());
        CONCURRENT.clear();
        CACHE.put("key", new ReleasedInCache());
        CACHE.clear();
        IDENTITY.put(new ReleasedInIdentityMap(), 1);
        IDENTITY.clear();
        BY_KIND.put(Kind.ONE, new ReleasedInEnumMap());
        BY_KIND.clear();
        ATOMIC.set(new ReleasedInAtomicReference());
        CompletableFuture<Object> future = new CompletableFuture<>();
        Held pending = new ReleasedOfFuture();
        future.thenAccept(result -> use(pending));
        future.complete(1);
        KEPT.add(future);
        CLEANER.register(CLEANED, usesOf(new ReleasedOfCleaner())).clean();
        PASSING.add(proxyOf(new ReleasedOfProxy()));
        Thread handled = waiting(new ReleasedOfUncaughtHandler());
        handled.interrupt();
        handled.join();
        PASSING.add(new IllegalStateException(new Carrier(new ReleasedOfException())));
        PASSING.add(new ArrayList<>(List.of(new ReleasedOfSubList(), 1)).subList(1, 2));
        PASSING.add(new ArrayDeque<>(List.of(new ReleasedOfIterator())).iterator());
        PASSING.add(new ReleasedOfLocalClass().local());
        PASSING.add((Runnable) new ReleasedOfMethodReference()::run);
        PASSING.clear();
        WEAK.put(PASSING_KEY, new ReleasedInWeakMap());
        WEAK.remove(PASSING_KEY);
    }

    static void leaveUnfinalized(boolean waits) {
        use(waits ? new OfDueFinalizer() : new ReleasedWithFinalizer());
    }

    /** The finalizer of one object doesn't end, so that of another, which is garbage, stays due. */
    static void blockFinalizers() throws Exception {
        leaveUnfinalized(false);
        for (int round = 0; round < 3; round++) {
            System.gc();
            System.runFinalization();
        }
        use(new Blocker());
        do {
            System.gc();
        } while (!BLOCKED.await(100, TimeUnit.MILLISECONDS));
        leaveUnfinalized(true);
        System.gc();
        Thread.sleep(300);
    }

    public static void main(String[] words) throws Exception {
        release();
        leak();
        blockFinalizers();
        System.out.println("ready");
        System.in.read();
        Runtime.getRuntime().halt(0);
    }
}

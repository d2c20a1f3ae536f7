import java.util.ArrayList;
import java.util.HashMap;
import java.util.List;
import java.util.Map;
import java.util.Timer;
import java.util.TimerTask;
import java.util.WeakHashMap;
import java.util.concurrent.CountDownLatch;
import java.util.concurrent.LinkedBlockingQueue;
import java.util.concurrent.ThreadPoolExecutor;
import java.util.concurrent.TimeUnit;

/** Twelve ways to hold an object too long, each with a twin that was let go. It says "ready" and waits until its input ends. */
public class Leaks {
    static class Held { }

    static class InStaticField extends Held { }
    static class InMapByLostKey extends Held { }
    static class OfListener extends Held { }
    static class OfInnerClass extends Held { Runnable inner() { return new Runnable() { public void run() { Leaks.use(OfInnerClass.this); } }; } }
    static class OfLambda extends Held { }
    static class InThreadLocal extends Held { }
    static class OfRunningThread extends Held { }
    static class OfTimerTask extends Held { }
    static class InExecutorQueue extends Held { }
    static class InWeakMapOfItself extends Held { }
    static class OfShutdownHook extends Held { }
    static class OnStack extends Held { }

    // The twins.
    static class ReleasedInStaticField extends Held { }
    static class ReleasedInMap extends Held { }
    static class ReleasedOfListener extends Held { }
    static class ReleasedOfInnerClass extends OfInnerClass { }
    static class ReleasedOfLambda extends Held { }
    static class ReleasedInThreadLocal extends Held { }
    static class ReleasedOfRunningThread extends Held { }
    static class ReleasedOfTimerTask extends Held { }
    static class ReleasedInExecutorQueue extends Held { }
    static class ReleasedInWeakMap extends Held { }
    static class ReleasedOfShutdownHook extends Held { }
    static class ReleasedOnStack extends Held { }

    static class Key {
        int number;
        @Override public int hashCode() { return number; }
        @Override public boolean equals(Object other) { return other instanceof Key && ((Key) other).number == number; }
    }

    interface Listener { void on(Object event); }

    static Held field;
    static final Map<Key, Held> BY_KEY = new HashMap<>();
    static final List<Listener> LISTENERS = new ArrayList<>();
    static final List<Runnable> INNER = new ArrayList<>(), LAMBDAS = new ArrayList<>();
    static final ThreadLocal<Held> LOCAL = new ThreadLocal<>(), OTHER_LOCAL = new ThreadLocal<>();
    static final Timer TIMER = new Timer(true);
    static final CountDownLatch NEVER = new CountDownLatch(1);
    static final ThreadPoolExecutor POOL = new ThreadPoolExecutor(1, 1, 1, TimeUnit.DAYS, new LinkedBlockingQueue<>());
    static final WeakHashMap<Held, Object> WEAK = new WeakHashMap<>();

    static void use(Object used) { }

    static void await(Object held) {
        try {
            NEVER.await();
        } catch (InterruptedException end) {
            use(held);
        }
        use(held);
    }

    static Thread daemon(Runnable work) {
        Thread thread = new Thread(work);
        thread.setDaemon(true);
        thread.start();
        return thread;
    }

    static TimerTask task(Held held) {
        return new TimerTask() { @Override public void run() { use(held); } };
    }

    static void leak() {
        field = new InStaticField();
        Key key = new Key();
        BY_KEY.put(key, new InMapByLostKey());
        key.number = 7;
        BY_KEY.remove(key);
        OfListener listened = new OfListener();
        LISTENERS.add(event -> use(listened));
        INNER.add(new OfInnerClass().inner());
        OfLambda captured = new OfLambda();
        LAMBDAS.add(() -> use(captured));
        LOCAL.set(new InThreadLocal());
        OfRunningThread running = new OfRunningThread();
        daemon(() -> await(running));
        TIMER.schedule(task(new OfTimerTask()), 1000000000L);
        POOL.execute(() -> await(null));
        InExecutorQueue queued = new InExecutorQueue();
        POOL.execute(() -> use(queued));
        InWeakMapOfItself weak = new InWeakMapOfItself();
        WEAK.put(weak, new Object[] {weak});
        OfShutdownHook hooked = new OfShutdownHook();
        Runtime.getRuntime().addShutdownHook(new Thread(() -> use(hooked)));
        daemon(() -> { OnStack held = new OnStack(); await(held); use(held); });
    }

    static void release() throws Exception {
        field = new ReleasedInStaticField();
        field = null;
        Key key = new Key();
        BY_KEY.put(key, new ReleasedInMap());
        BY_KEY.remove(key);
        ReleasedOfListener listened = new ReleasedOfListener();
        Listener listener = event -> use(listened);
        LISTENERS.add(listener);
        LISTENERS.remove(listener);
        INNER.add(new ReleasedOfInnerClass().inner());
        INNER.clear();
        ReleasedOfLambda captured = new ReleasedOfLambda();
        LAMBDAS.add(() -> use(captured));
        LAMBDAS.clear();
        OTHER_LOCAL.set(new ReleasedInThreadLocal());
        OTHER_LOCAL.remove();
        ReleasedOfRunningThread running = new ReleasedOfRunningThread();
        daemon(() -> use(running)).join();
        TimerTask task = task(new ReleasedOfTimerTask());
        TIMER.schedule(task, 1000000000L);
        task.cancel();
        TIMER.purge();
        ReleasedInExecutorQueue queued = new ReleasedInExecutorQueue();
        Runnable work = () -> use(queued);
        ThreadPoolExecutor pool = new ThreadPoolExecutor(1, 1, 1, TimeUnit.DAYS, new LinkedBlockingQueue<>());
        pool.execute(work);
        pool.shutdown();
        pool.awaitTermination(1, TimeUnit.MINUTES);
        ReleasedInWeakMap weak = new ReleasedInWeakMap();
        WEAK.put(weak, new Object[] {1});
        ReleasedOfShutdownHook hooked = new ReleasedOfShutdownHook();
        Thread hook = new Thread(() -> use(hooked));
        Runtime.getRuntime().addShutdownHook(hook);
        Runtime.getRuntime().removeShutdownHook(hook);
        use(new ReleasedOnStack());
    }

    public static void main(String[] words) throws Exception {
        release();
        leak();
        Thread.sleep(200);
        System.out.println("ready");
        System.in.read();
        Runtime.getRuntime().halt(0);
    }
}

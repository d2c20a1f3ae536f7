import gcaudit.HeapAudit;
import gcaudit.HeapViolation;
import java.io.InputStream;
import java.util.ArrayList;
import java.util.HashMap;
import java.util.LinkedHashMap;
import java.util.List;
import java.util.Locale;
import java.util.Map;
import java.util.Optional;
import java.util.Timer;
import java.util.TimerTask;
import java.util.WeakHashMap;
import java.util.concurrent.CountDownLatch;
import java.util.concurrent.Executors;
import java.util.concurrent.ScheduledFuture;
import java.util.concurrent.ScheduledThreadPoolExecutor;
import java.util.concurrent.ExecutorService;
import java.util.concurrent.TimeUnit;

/** Twelve leaks that services have, and for each the mended twin. Each scenario answers the object that must be gone after it. */
public class ServiceLeaks {
    interface Scenario {
        Object run(boolean leaks) throws Exception;
    }

    static final Map<String, Scenario> SCENARIOS = new LinkedHashMap<>();

    // ---- a job that was replaced, and whose schedule goes on

    static final class Job {
        int runs;

        void refresh() { runs++; }
    }

    static final ScheduledThreadPoolExecutor SCHEDULER = new ScheduledThreadPoolExecutor(1);

    static Object executor(boolean leaks) {
        Job job = new Job();
        SCHEDULER.setRemoveOnCancelPolicy(true);
        ScheduledFuture<?> schedule = SCHEDULER.scheduleAtFixedRate(job::refresh, 1, 1, TimeUnit.HOURS);
        if (!leaks) {
            schedule.cancel(false);
        }
        return job;
    }

    // ---- what a request puts into a variable of its worker thread

    static final class RequestContext { }

    static final ThreadLocal<RequestContext> CONTEXT = new ThreadLocal<>();
    static final ExecutorService WORKERS = Executors.newFixedThreadPool(1, work -> {
        Thread worker = new Thread(work, "worker");
        worker.setDaemon(true);
        return worker;
    });

    static Object threadLocal(boolean leaks) throws Exception {
        return WORKERS.submit(() -> {
            RequestContext context = new RequestContext();
            CONTEXT.set(context);
            if (!leaks) {
                CONTEXT.remove();
            }
            return context;
        }).get();
    }

    // ---- a plugin that was unloaded, and is still registered

    public static final class Plugin { }

    static final class PluginLoader extends ClassLoader {
        PluginLoader() { super(ServiceLeaks.class.getClassLoader()); }

        Object load() throws Exception {
            try (InputStream file = ServiceLeaks.class.getResourceAsStream("ServiceLeaks$Plugin.class")) {
                byte[] bytes = new byte[10000];
                int size = 0;
                for (int read = file.read(bytes); read > 0; read = file.read(bytes, size, bytes.length - size)) {
                    size += read;
                }
                return defineClass("ServiceLeaks$Plugin", bytes, 0, size).getDeclaredConstructor().newInstance();
            }
        }
    }

    static final List<Object> PLUGINS = new ArrayList<>();

    static Object classLoader(boolean leaks) throws Exception {
        PluginLoader loader = new PluginLoader();
        PLUGINS.add(loader.load());
        if (!leaks) {
            PLUGINS.clear();
        }
        return loader;
    }

    // ---- a session that is stored under one name and taken away under another

    static final class Session { }

    static final Map<String, Session> SESSIONS = new HashMap<>();

    static Object staticMap(boolean leaks) {
        Session session = new Session();
        String user = "Bob";
        SESSIONS.put(user, session);
        SESSIONS.remove(leaks ? user.toLowerCase(Locale.ROOT) : user);
        return session;
    }

    // ---- a window that was closed, one of whose inner objects is still registered

    static final class Window {
        int closed;
        final Runnable onQuit = new Runnable() {
            @Override
            public void run() { closed++; }
        };
    }

    static final List<Runnable> ON_QUIT = new ArrayList<>();

    static Object innerClass(boolean leaks) {
        Window window = new Window();
        ON_QUIT.add(window.onQuit);
        ON_QUIT.add(() -> window.closed++);
        if (!leaks) {
            ON_QUIT.clear();
        }
        return window;
    }

    // ---- a listener that is never taken away

    interface Listener {
        void on(String event);
    }

    static final class Cart implements Listener {
        @Override
        public void on(String event) { }
    }

    static final class EventBus {
        final List<Listener> listeners = new ArrayList<>();
    }

    static final EventBus BUS = new EventBus();

    static Object listener(boolean leaks) {
        Cart cart = new Cart();
        BUS.listeners.add(cart);
        if (!leaks) {
            BUS.listeners.remove(cart);
        }
        return cart;
    }

    // ---- a weak map whose values hold their keys

    static final class Document { }

    static final class Index {
        final Document of;

        Index(Document of) { this.of = of; }
    }

    static final Map<Document, Index> INDEXES = new WeakHashMap<>();

    static Object weakHashMap(boolean leaks) {
        Document document = new Document();
        INDEXES.put(document, new Index(leaks ? document : null));
        return document;
    }

    // ---- a connection that its finalizer saves

    static final class Connection {
        final boolean isKept;

        Connection(boolean isKept) { this.isKept = isKept; }

        @Override
        @SuppressWarnings({"deprecation", "removal"})
        protected void finalize() {
            if (isKept) {
                POOL.add(this);
            }
        }
    }

    static final List<Connection> POOL = new ArrayList<>();

    static Object finalizer(boolean leaks) {
        return new Connection(leaks);
    }

    // ---- a watch whose timer task isn't cancelled

    static final class Watch extends TimerTask {
        @Override
        public void run() { }
    }

    static final Timer TIMER = new Timer("watches", true);

    static Object timer(boolean leaks) throws Exception {
        Watch watch = new Watch();
        TIMER.schedule(watch, 3_600_000);
        if (!leaks) {
            watch.cancel();
            TIMER.purge();
            awaitTimer();
        }
        return watch;
    }

    /** The thread of a timer has the task for which it waits in a variable, until another one wakes it. */
    static void awaitTimer() throws InterruptedException {
        CountDownLatch hasRun = new CountDownLatch(1);
        TIMER.schedule(new TimerTask() {
            @Override
            public void run() { hasRun.countDown(); }
        }, 0);
        hasRun.await();
    }

    // ---- a cache without a limit

    static final class Page { }

    static final class Cache extends LinkedHashMap<Integer, Page> {
        final int most;

        Cache(int most) { this.most = most; }

        @Override
        protected boolean removeEldestEntry(Map.Entry<Integer, Page> eldest) { return size() > most; }
    }

    static final Map<Boolean, Cache> CACHES = new HashMap<>();

    static Object cache(boolean leaks) {
        Cache cache = new Cache(leaks ? Integer.MAX_VALUE : 10);
        CACHES.put(leaks, cache);
        Page first = new Page();
        cache.put(0, first);
        for (int number = 1; number < 20; number++) {
            cache.put(number, new Page());
        }
        return first;
    }

    // ---- a reference of native code that isn't deleted

    static final class Image { }

    static native long newGlobal(Object object);

    static native void deleteGlobal(long reference);

    static Object jniGlobal(boolean leaks) {
        Image image = new Image();
        long reference = newGlobal(image);
        if (!leaks) {
            deleteGlobal(reference);
        }
        return image;
    }

    // ---- the last state, which is never replaced

    static final class Customer { }

    record State(String step, Optional<Customer> customer) { }

    static State state = new State("start", Optional.empty());

    static Object recordField(boolean leaks) {
        Customer customer = new Customer();
        state = new State("paid", Optional.of(customer));
        if (!leaks) {
            state = new State("done", Optional.empty());
        }
        return customer;
    }

    static {
        SCENARIOS.put("executor", ServiceLeaks::executor);
        SCENARIOS.put("thread local", ServiceLeaks::threadLocal);
        SCENARIOS.put("class loader", ServiceLeaks::classLoader);
        SCENARIOS.put("static map", ServiceLeaks::staticMap);
        SCENARIOS.put("inner class", ServiceLeaks::innerClass);
        SCENARIOS.put("listener", ServiceLeaks::listener);
        SCENARIOS.put("weak hash map", ServiceLeaks::weakHashMap);
        SCENARIOS.put("finalizer", ServiceLeaks::finalizer);
        SCENARIOS.put("timer", ServiceLeaks::timer);
        SCENARIOS.put("cache", ServiceLeaks::cache);
        SCENARIOS.put("jni global", ServiceLeaks::jniGlobal);
        SCENARIOS.put("record field", ServiceLeaks::recordField);
    }

    static void assertDead(HeapAudit audit, String name, boolean leaks) throws Exception {
        audit.assertDead(SCENARIOS.get(name).run(leaks));
    }

    /** Runs the twins and then the leaks of the scenarios that are named, and prints what each check says: of each, and of a dump. */
    public static void main(String[] names) {
        try {
            String library = System.getProperty("jni");
            if (library != null) {
                System.load(library);
            }
            for (boolean leaks : new boolean[] {false, true}) {
                check(names, leaks);
            }
            System.exit(0);
        } catch (Throwable error) {
            error.printStackTrace();
            System.exit(1);     // though threads of the scenarios go on
        }
    }

    static void check(String[] names, boolean leaks) throws Exception {
        try (HeapAudit audit = HeapAudit.start()) {
            for (String name : names) {
                assertDead(audit, name, leaks);
            }
            audit.check();
            System.out.println("no violation");
            audit.assertInstances(EventBus.class, 1);
            audit.check();
            System.out.println("no violation");
        } catch (HeapViolation violation) {
            System.out.println(violation.getMessage());
        }
    }
}

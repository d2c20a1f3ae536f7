import gcaudit.HeapAudit;
import gcaudit.HeapViolation;
import java.beans.PropertyChangeSupport;
import java.lang.invoke.MethodHandle;
import java.lang.invoke.MethodHandles;
import java.lang.invoke.MethodType;
import java.lang.ref.PhantomReference;
import java.lang.ref.ReferenceQueue;
import java.lang.ref.WeakReference;
import java.lang.reflect.Proxy;
import java.util.AbstractMap;
import java.util.ArrayDeque;
import java.util.ArrayList;
import java.util.Arrays;
import java.util.Collections;
import java.util.EnumMap;
import java.util.HashMap;
import java.util.HashSet;
import java.util.IdentityHashMap;
import java.util.Iterator;
import java.util.LinkedHashMap;
import java.util.LinkedList;
import java.util.List;
import java.util.Map;
import java.util.Optional;
import java.util.PriorityQueue;
import java.util.Properties;
import java.util.Timer;
import java.util.TimerTask;
import java.util.TreeMap;
import java.util.WeakHashMap;
import java.util.concurrent.ArrayBlockingQueue;
import java.util.concurrent.CompletableFuture;
import java.util.concurrent.ConcurrentHashMap;
import java.util.concurrent.ConcurrentLinkedQueue;
import java.util.concurrent.ConcurrentSkipListMap;
import java.util.concurrent.CopyOnWriteArrayList;
import java.util.concurrent.CountDownLatch;
import java.util.concurrent.ExecutorService;
import java.util.concurrent.Executors;
import java.util.concurrent.LinkedBlockingQueue;
import java.util.concurrent.ThreadPoolExecutor;
import java.util.concurrent.TimeUnit;
import java.util.concurrent.atomic.AtomicReference;
import java.util.concurrent.atomic.AtomicReferenceArray;
import java.util.function.BiConsumer;
import java.util.function.Function;
import java.util.function.Supplier;
import java.util.logging.Handler;
import java.util.logging.LogRecord;
import java.util.logging.Logger;
import java.util.stream.Stream;

/** Kinds of holder of a Java object: each makes one hold the object, and answers what ends it. */
public class Holders {
    /** An object that a holder holds; of a class of its own for each kind, so that a report tells which. */
    static class Held { }

    interface Undo {
        void run() throws Exception;
    }

    interface Holder {
        Undo hold(Held held) throws Exception;
    }

    static final Map<String, Holder> HOLDERS = new LinkedHashMap<>();
    static final Map<String, Held> OBJECTS = new LinkedHashMap<>();
    static final List<Object> PLACE = new ArrayList<>();

    static void kind(String name, Held held, Holder holder) {
        HOLDERS.put(name, holder);
        OBJECTS.put(name, held);
    }

    /** A kind whose holder stands in a static list. */
    static void placed(String name, Held held, Function<Held, Object> holder) {
        kind(name, held, object -> {
            Object made = holder.apply(object);
            PLACE.add(made);
            return () -> PLACE.removeIf(one -> one == made);
        });
    }

    // ---- what holds

    static Object inStatic;

    enum Place { HERE; Object held; }

    static class Plain {
        Object held;

        Plain(Object held) { this.held = held; }
    }

    static class Derived extends Plain {
        Derived(Object held) { super(held); }
    }

    static class Outer {
        final Object held;

        Outer(Object held) { this.held = held; }

        class Inner { Object outer() { return held; } }
    }

    record Pair(Object first, Object second) { }

    static class Bean {
        final PropertyChangeSupport changes = new PropertyChangeSupport(this);
    }

    static class StrongWeakReference extends WeakReference<Object> {
        final Object beside;

        StrongWeakReference(Object beside) {
            super(new Object());
            this.beside = beside;
        }
    }

    static class Cause extends RuntimeException {
        final transient Object held;

        Cause(Object held) { this.held = held; }
    }

    static final ThreadLocal<Object> LOCAL = new ThreadLocal<>();
    static final InheritableThreadLocal<Object> INHERITED = new InheritableThreadLocal<>();
    static final ClassValue<AtomicReference<Object>> OF_CLASS = new ClassValue<AtomicReference<Object>>() {
        @Override
        protected AtomicReference<Object> computeValue(Class<?> type) { return new AtomicReference<>(); }
    };

    static native long newGlobal(Object object);

    static native void deleteGlobal(long reference);

    static class Loader extends ClassLoader {
        Object held;
    }

    /** Runs what is given on a thread that stays in it until the answer is run. It takes the object out of what it is given. */
    static Undo thread(Object held, BiConsumer<AtomicReference<Object>, Runnable> work) throws Exception {
        CountDownLatch entered = new CountDownLatch(1);
        CountDownLatch leave = new CountDownLatch(1);
        AtomicReference<Object> given = new AtomicReference<>(held);
        Thread thread = new Thread(() -> work.accept(given, () -> {
            entered.countDown();
            try {
                leave.await();
            } catch (InterruptedException interrupted) {
                Thread.currentThread().interrupt();
            }
        }), "holder");
        thread.setDaemon(true);
        thread.start();
        entered.await();
        return () -> {
            leave.countDown();
            thread.join();
        };
    }

    static void keepsInFrame(AtomicReference<Object> given, Runnable waits) {
        Object held = given.getAndSet(null);
        waits.run();
        held.hashCode();
    }

    static void keepsInMonitor(AtomicReference<Object> given, Runnable waits) {
        synchronized (given.getAndSet(null)) {
            waits.run();
        }
    }

    static void keepsInHandler(AtomicReference<Object> given, Runnable waits) {
        Thread.currentThread().setUncaughtExceptionHandler(handlerWith(given.getAndSet(null)));
        waits.run();
    }

    static Thread.UncaughtExceptionHandler handlerWith(Object held) { return (thread, error) -> held.hashCode(); }

    /** An object whose finalizer waits, so that the finalizers of all others wait too. */
    static class Stuck {
        final CountDownLatch leave;
        final CountDownLatch entered;

        Stuck(CountDownLatch entered, CountDownLatch leave) {
            this.entered = entered;
            this.leave = leave;
        }

        @Override
        @SuppressWarnings({"deprecation", "removal"})
        protected void finalize() throws InterruptedException {
            entered.countDown();
            leave.await();
        }
    }

    static class Finalized {
        Object held;

        @Override
        @SuppressWarnings({"deprecation", "removal"})
        protected void finalize() { held = null; }
    }

    static void newStuck(CountDownLatch entered, CountDownLatch leave) { new Stuck(entered, leave); }

    static void newFinalized(Object held) { new Finalized().held = held; }

    static {
        kind("static_field", new Held() { }, held -> {
            inStatic = held;
            return () -> inStatic = null;
        });
        kind("field_of_an_enum", new Held() { }, held -> {
            Place.HERE.held = held;
            return () -> Place.HERE.held = null;
        });
        placed("field", new Held() { }, Plain::new);
        placed("field_of_a_superclass", new Held() { }, Derived::new);
        placed("field_of_a_record", new Held() { }, held -> new Pair("", held));
        placed("inner_class", new Held() { }, held -> new Outer(held).new Inner());
        placed("anonymous_class", new Held() { }, held -> new Object() {
            @Override
            public String toString() { return held.toString(); }
        });
        placed("lambda", new Held() { }, held -> (Supplier<Object>) () -> held);
        placed("bound_method", new Held() { }, held -> (Supplier<String>) held::toString);
        placed("method_handle", new Held() { }, held -> {
            try {
                MethodHandle bound = MethodHandles.lookup().findVirtual(Object.class, "hashCode", MethodType.methodType(int.class)).bindTo(held);
                return bound;
            } catch (ReflectiveOperationException error) {
                throw new IllegalStateException(error);
            }
        });
        placed("proxy", new Held() { }, held -> Proxy.newProxyInstance(Holders.class.getClassLoader(), new Class<?>[] {Runnable.class},
                (proxy, method, words) -> held));
        placed("array", new Held() { }, held -> new Object[][] {{null, held}});
        placed("array_list", new Held() { }, held -> new ArrayList<>(Collections.singletonList(held)));
        placed("linked_list", new Held() { }, held -> new LinkedList<>(Collections.singletonList(held)));
        placed("array_deque", new Held() { }, held -> new ArrayDeque<>(Collections.singletonList(held)));
        placed("priority_queue", new Held() { }, held -> {
            PriorityQueue<Object> queue = new PriorityQueue<>((a, b) -> 0);
            queue.add(held);
            return queue;
        });
        placed("view_of_a_list", new Held() { }, held -> Arrays.asList(1, held).subList(1, 2));
        placed("iterator", new Held() { }, held -> Arrays.asList(1, held).iterator());
        placed("unmodifiable_list", new Held() { }, held -> Collections.unmodifiableList(Arrays.asList(held)));
        placed("list_of", new Held() { }, held -> List.of(1, held));
        placed("key_of_a_map", new Held() { }, held -> new HashMap<>(Collections.singletonMap(held, 1)));
        placed("value_of_a_map", new Held() { }, held -> new HashMap<>(Collections.singletonMap(1, held)));
        placed("value_of_a_linked_map", new Held() { }, held -> new LinkedHashMap<>(Collections.singletonMap(1, held)));
        placed("value_of_a_tree_map", new Held() { }, held -> new TreeMap<>(Collections.singletonMap(1, held)));
        placed("value_of_an_enum_map", new Held() { }, held -> new EnumMap<>(Collections.singletonMap(Place.HERE, held)));
        placed("key_of_an_identity_map", new Held() { }, held -> new IdentityHashMap<>(Collections.singletonMap(held, 1)));
        placed("value_of_a_concurrent_map", new Held() { }, held -> new ConcurrentHashMap<>(Collections.singletonMap(1, held)));
        placed("value_of_a_skip_list", new Held() { }, held -> new ConcurrentSkipListMap<>(Collections.singletonMap(1, held)));
        placed("entry_of_a_map", new Held() { }, held -> new AbstractMap.SimpleEntry<>(1, held));
        placed("value_of_properties", new Held() { }, held -> {
            Properties properties = new Properties();
            properties.put("held", held);
            return properties;
        });
        placed("element_of_a_set", new Held() { }, held -> new HashSet<>(Collections.singleton(held)));
        placed("copy_on_write_list", new Held() { }, held -> new CopyOnWriteArrayList<>(Collections.singletonList(held)));
        placed("concurrent_queue", new Held() { }, held -> new ConcurrentLinkedQueue<>(Collections.singletonList(held)));
        placed("blocking_queue", new Held() { }, held -> new ArrayBlockingQueue<>(2, false, Collections.singletonList(held)));
        placed("linked_blocking_queue", new Held() { }, held -> new LinkedBlockingQueue<>(Collections.singletonList(held)));
        placed("optional", new Held() { }, Optional::of);
        placed("atomic_reference", new Held() { }, AtomicReference::new);
        placed("atomic_array", new Held() { }, held -> new AtomicReferenceArray<>(new Object[] {held}));
        placed("stream", new Held() { }, held -> Stream.of(1, held).filter(one -> true));
        placed("completed_future", new Held() { }, CompletableFuture::completedFuture);
        placed("pending_future", new Held() { }, held -> {
            CompletableFuture<Object> pending = new CompletableFuture<>();
            pending.thenRun(() -> held.hashCode());
            return pending;
        });
        placed("exception", new Held() { }, Cause::new);
        placed("cause_of_an_exception", new Held() { }, held -> new IllegalStateException(new Cause(held)));
        placed("suppressed_exception", new Held() { }, held -> {
            Exception exception = new Exception();
            exception.addSuppressed(new Cause(held));
            return exception;
        });
        placed("field_of_a_weak_reference", new Held() { }, StrongWeakReference::new);
        placed("value_of_a_weak_map", new Held() { }, held -> {
            Map<Object, Object> map = new WeakHashMap<>();
            map.put(held, new Plain(held));
            return map;
        });
        placed("listener_of_a_bean", new Held() { }, held -> {
            Bean bean = new Bean();
            bean.changes.addPropertyChangeListener(event -> held.hashCode());
            return bean;
        });
        placed("class_loader", new Held() { }, held -> {
            Loader loader = new Loader();
            loader.held = held;
            return loader;
        });
        placed("thread_that_never_starts", new Held() { }, held -> new Thread(() -> held.hashCode()));
        kind("class_value", new Held() { }, held -> {
            OF_CLASS.get(Holders.class).set(held);
            return () -> OF_CLASS.get(Holders.class).set(null);
        });
        kind("thread_local", new Held() { }, held -> {
            LOCAL.set(held);
            return LOCAL::remove;
        });
        kind("inherited_thread_local", new Held() { }, held -> {
            INHERITED.set(held);
            Undo undo = thread(null, (nothing, waits) -> waits.run());
            INHERITED.remove();
            return undo;
        });
        kind("frame", new Held() { }, held -> thread(held, Holders::keepsInFrame));
        kind("monitor", new Held() { }, held -> thread(held, Holders::keepsInMonitor));
        kind("handler_of_a_thread", new Held() { }, held -> thread(held, Holders::keepsInHandler));
        kind("queue_of_an_executor", new Held() { }, held -> {
            ThreadPoolExecutor executor = (ThreadPoolExecutor) Executors.newFixedThreadPool(1);
            CountDownLatch leave = new CountDownLatch(1);
            executor.execute(() -> {
                try {
                    leave.await();
                } catch (InterruptedException interrupted) {
                    Thread.currentThread().interrupt();
                }
            });
            executor.execute(() -> held.hashCode());
            return () -> {
                leave.countDown();
                executor.shutdown();
                executor.awaitTermination(1, TimeUnit.MINUTES);
            };
        });
        kind("timer", new Held() { }, held -> {
            Timer timer = new Timer(true);
            timer.schedule(new TimerTask() {
                @Override
                public void run() { held.hashCode(); }
            }, 3_600_000);
            return timer::cancel;
        });
        kind("shutdown_hook", new Held() { }, held -> {
            Thread hook = new Thread(() -> held.hashCode());
            Runtime.getRuntime().addShutdownHook(hook);
            return () -> Runtime.getRuntime().removeShutdownHook(hook);
        });
        kind("handler_of_a_logger", new Held() { }, held -> {
            Logger logger = Logger.getLogger("");
            Handler handler = new Handler() {
                @Override
                public void publish(LogRecord line) { held.hashCode(); }

                @Override
                public void flush() { }

                @Override
                public void close() { }
            };
            logger.addHandler(handler);
            return () -> logger.removeHandler(handler);
        });
        kind("system_property", new Held() { }, held -> {
            System.getProperties().put("held by Holders", held);
            return () -> System.getProperties().remove("held by Holders");
        });
        kind("jni_global", new Held() { }, held -> {
            long reference = newGlobal(held);
            return () -> deleteGlobal(reference);
        });
        kind("finalizer_that_waits", new Held() { }, held -> {
            CountDownLatch entered = new CountDownLatch(1);
            CountDownLatch leave = new CountDownLatch(1);
            newStuck(entered, leave);
            while (!entered.await(10, TimeUnit.MILLISECONDS)) {
                System.gc();
            }
            newFinalized(held);
            return leave::countDown;
        });
    }

    /** Takes the objects out of the table, so that it holds none of them any longer, and says which class each kind has. */
    static void assertDead(HeapAudit audit, List<Undo> undo) throws Exception {
        for (Iterator<Map.Entry<String, Held>> left = OBJECTS.entrySet().iterator(); left.hasNext();) {
            Map.Entry<String, Held> one = left.next();
            left.remove();
            Held held = one.getValue();
            one.setValue(null);
            System.out.println("kind " + one.getKey() + " " + held.getClass().getName());
            undo.add(HOLDERS.remove(one.getKey()).hold(held));
            audit.assertDead(held);
        }
    }

    public static void main(String[] words) {
        try {
            check();
            System.exit(0);
        } catch (Throwable error) {
            error.printStackTrace();
            System.exit(1);     // though threads of the kinds go on
        }
    }

    static void check() throws Exception {
        String library = System.getProperty("jni");
        if (library == null) {
            HOLDERS.remove("jni_global");
            OBJECTS.remove("jni_global");
        } else {
            System.load(library);
        }
        List<Undo> undo = new ArrayList<>();
        try (HeapAudit audit = HeapAudit.start()) {
            assertDead(audit, undo);
            try {
                audit.check();
            } catch (HeapViolation violation) {
                System.out.println(violation.getMessage());
            }
            for (Undo one : undo) {
                one.run();
            }
            undo.clear();
            audit.check();
        }
        System.out.println("all are gone");
    }
}

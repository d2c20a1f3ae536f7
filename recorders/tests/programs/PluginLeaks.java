import java.io.IOException;
import java.io.InputStream;
import java.lang.invoke.MethodHandles;
import java.lang.reflect.Array;
import java.lang.reflect.Field;
import java.util.ArrayList;
import java.util.List;
import java.util.concurrent.ExecutorService;
import java.util.concurrent.Executors;
import java.util.concurrent.TimeUnit;
import java.util.function.Supplier;

/** Objects that a class holds which only an object, an array, a loader or a thread keeps alive, each with a twin. It says "ready" and waits until its input ends. */
public class PluginLeaks {
    static class Held { }

    static class OfInstance extends Held { }
    static class OfArray extends Held { }
    static class OfSubclass extends Held { }
    static class OfLoader extends Held { }
    static class OfOtherClass extends Held { }
    static class OfThreadOfPlugin extends Held { }
    static class OfHiddenClass extends Held { }
    static class OfClassValue extends Held { }
    static class OfClassData extends Held { }
    static class OfListInClassData extends Held { }
    static class OfCircleInClassData extends Held { final Object[] own = {this}; }

    // The twins.
    static class ReleasedOfInstance extends Held { }
    static class ReleasedOfArray extends Held { }
    static class ReleasedOfSubclass extends Held { }
    static class ReleasedOfLoader extends Held { }
    static class ReleasedOfOtherClass extends Held { }
    static class ReleasedOfThreadOfPlugin extends Held { }
    static class ReleasedOfHiddenClass extends Held { }
    static class ReleasedOfClassValue extends Held { }
    static class ReleasedOfClassData extends Held { }
    static class ReleasedOfListInClassData extends Held { }
    static class ReleasedOfCircleInClassData extends Held { final Object[] own = {this}; }

    /** What a loader of its own defines anew for each plugin. */
    public static class Plugin implements Runnable {
        static final List<Object> sessions = new ArrayList<>();
        public Object own;
        @Override public void run() { }
    }

    /** A class of the same plugin without a field. */
    public static class SubPlugin extends Plugin { }

    static class Loader extends ClassLoader {
        Loader() { super("plugins", PluginLeaks.class.getClassLoader()); }

        @Override
        protected Class<?> loadClass(String name, boolean resolves) throws ClassNotFoundException {
            if (!name.endsWith("Plugin")) {
                return super.loadClass(name, resolves);
            }
            Class<?> known = findLoadedClass(name);
            byte[] code = codeOf(name);
            return known != null ? known : defineClass(name, code, 0, code.length);
        }
    }

    static byte[] codeOf(String name) {
        try (InputStream file = PluginLeaks.class.getResourceAsStream(name + ".class")) {
            return file.readAllBytes();
        } catch (IOException error) {
            throw new IllegalStateException(error);
        }
    }

    static final List<Object> KEPT = new ArrayList<>();
    static final List<Object> PASSING = new ArrayList<>();
    static ClassValue<Object> values = valueOf(OfClassValue::new), passingValues = valueOf(ReleasedOfClassValue::new);

    static ClassValue<Object> valueOf(Supplier<Object> made) {
        return new ClassValue<Object>() {
            @Override protected Object computeValue(Class<?> type) { return made.get(); }
        };
    }

    @SuppressWarnings("unchecked")
    static Class<?> pluginThatHolds(Held held) throws Exception {
        Class<?> plugin = new Loader().loadClass("PluginLeaks$SubPlugin").getSuperclass();
        Field sessions = plugin.getDeclaredField("sessions");
        sessions.setAccessible(true);
        ((List<Object>) sessions.get(null)).add(held);
        return plugin;
    }

    static Object instanceOf(Class<?> plugin) throws Exception {
        return plugin.getDeclaredConstructor().newInstance();
    }

    static Class<?> subclassOf(Class<?> plugin) throws Exception {
        return plugin.getClassLoader().loadClass("PluginLeaks$SubPlugin");
    }

    static Object hiddenThatHolds(Held held) throws Exception {
        Class<?> hidden = MethodHandles.lookup().defineHiddenClass(codeOf("PluginLeaks$Plugin"), true).lookupClass();
        Field sessions = hidden.getDeclaredField("sessions");
        sessions.setAccessible(true);
        ((List<Object>) sessions.get(null)).add(held);
        return instanceOf(hidden);
    }

    /** An object of a hidden class that was given these data, which the JVM holds for the class. */
    static Object hiddenWithData(Object data) throws Exception {
        return instanceOf(MethodHandles.lookup().defineHiddenClassWithClassData(codeOf("PluginLeaks$Plugin"), data, true).lookupClass());
    }

    /** A thread of a pool that goes on with the loader of the plugin that asked it first. */
    static ExecutorService poolOf(Class<?> plugin) throws Exception {
        ExecutorService pool = Executors.newFixedThreadPool(1, work -> {
            Thread thread = new Thread(work, "pool of a plugin");
            thread.setDaemon(true);
            thread.setContextClassLoader(plugin.getClassLoader());
            return thread;
        });
        pool.submit((Runnable) instanceOf(plugin)).get();
        return pool;
    }

    static void leak() throws Exception {
        KEPT.add(instanceOf(pluginThatHolds(new OfInstance())));
        KEPT.add(Array.newInstance(pluginThatHolds(new OfArray()), 2));
        KEPT.add(instanceOf(subclassOf(pluginThatHolds(new OfSubclass()))));
        KEPT.add(pluginThatHolds(new OfLoader()).getClassLoader());
        KEPT.add(Array.newInstance(subclassOf(pluginThatHolds(new OfOtherClass())), 0));
        poolOf(pluginThatHolds(new OfThreadOfPlugin()));
        KEPT.add(hiddenThatHolds(new OfHiddenClass()));
        values.get(PluginLeaks.class);
        KEPT.add(hiddenWithData(new OfClassData()));
        KEPT.add(hiddenWithData(List.of(new OfListInClassData())));
        KEPT.add(hiddenWithData(new OfCircleInClassData()));
    }

    static void release() throws Exception {
        PASSING.add(instanceOf(pluginThatHolds(new ReleasedOfInstance())));
        PASSING.add(Array.newInstance(pluginThatHolds(new ReleasedOfArray()), 2));
        PASSING.add(instanceOf(subclassOf(pluginThatHolds(new ReleasedOfSubclass()))));
        PASSING.add(pluginThatHolds(new ReleasedOfLoader()).getClassLoader());
        PASSING.add(Array.newInstance(subclassOf(pluginThatHolds(new ReleasedOfOtherClass())), 0));
        ExecutorService pool = poolOf(pluginThatHolds(new ReleasedOfThreadOfPlugin()));
        pool.shutdown();
        while (!pool.awaitTermination(1, TimeUnit.MINUTES)) { }
        PASSING.add(hiddenThatHolds(new ReleasedOfHiddenClass()));
        passingValues.get(PluginLeaks.class);
        passingValues.remove(PluginLeaks.class);
        passingValues = null;
        PASSING.add(hiddenWithData(new ReleasedOfClassData()));
        PASSING.add(hiddenWithData(List.of(new ReleasedOfListInClassData())));
        PASSING.add(hiddenWithData(new ReleasedOfCircleInClassData()));
        PASSING.clear();
    }

    public static void main(String[] words) throws Exception {
        release();
        leak();
        Thread.sleep(200);
        System.out.println("ready");
        System.in.read();
        Runtime.getRuntime().halt(0);
    }
}

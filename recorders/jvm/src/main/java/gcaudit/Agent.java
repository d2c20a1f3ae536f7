package gcaudit;

import java.io.File;
import java.io.IOException;
import java.nio.file.Path;

/** The agent in C, which tags objects: what has no tag was allocated since, and a tag can be an object's number. */
final class Agent {
    /** The property with the path of the agent's library. */
    static final String PROPERTY = "gcaudit.agent";

    private static Agent loaded;

    private Agent() { }

    static synchronized Agent get() {
        if (loaded == null) {
            load();
            loaded = new Agent();
        }
        return loaded;
    }

    /** Tags all objects that have no tag. The answer is the tag. */
    synchronized long begin() {
        return beginRegion();
    }

    /** The objects that were allocated after the region with this tag began. */
    synchronized Object[] end(long epoch) {
        return endRegion(epoch);
    }

    /** From now on until {@link #endNumbers} objects keep their numbers. */
    synchronized void beginNumbers() {
        beginNumbering();
    }

    synchronized void endNumbers() {
        endNumbering();
    }

    /** All objects that are there. */
    synchronized Object[] objects() {
        return findObjects();
    }

    /** The number of each of these objects: one that it has already, or a new one. */
    synchronized long[] numbersOf(Object[] objects) {
        return findNumbers(objects);
    }

    private static native void beginNumbering();

    private static native void endNumbering();

    private static native Object[] findObjects();

    private static native long[] findNumbers(Object[] objects);

    private static native long beginRegion();

    private static native Object[] endRegion(long epoch);

    private static void load() {
        String path = System.getProperty(PROPERTY);
        try {
            if (path != null) {
                System.load(new File(path).getAbsolutePath());
            } else if (!loadFromJar()) {
                System.loadLibrary("gcaudit");
            }
        } catch (UnsatisfiedLinkError | IOException error) {
            throw new HeapAuditException("region() needs the agent libgcaudit, which recorders/jvm/build makes: put its path into"
                    + " the property " + PROPERTY + " (" + error.getMessage() + ")", error);
        }
    }

    /** Loads the library that the jar has for this system; false where it has none. */
    private static boolean loadFromJar() throws IOException {
        Path copy = Bundled.unpackAgent();
        if (copy == null) {
            return false;
        }
        System.load(copy.toString());
        return true;
    }
}

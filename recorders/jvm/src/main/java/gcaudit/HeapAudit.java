package gcaudit;

import java.lang.ref.ReferenceQueue;

/**
 * Assertions about objects of the running program, checked when it is closed.
 *
 * <pre>{@code
 * try (HeapAudit audit = HeapAudit.start()) {
 *     Session session = shop.login("ada");
 *     shop.logout(session);
 *     audit.assertDead(session);
 *     session = null;
 * }
 * }</pre>
 *
 * <p>A violation is a {@link HeapViolation} with the path that keeps the object alive. Where no verdict is reached, as
 * where nothing was asserted or the program gcaudit isn't found, that is a {@link HeapAuditException}.
 *
 * <p>Objects are held by phantom references alone, so an assertion keeps nothing alive. A local variable does: set it to
 * {@code null}, or leave its method, before the check.
 *
 * <p>All methods may be called by any thread.
 */
public final class HeapAudit implements AutoCloseable {
    private final ReferenceQueue<Object> queue = new Queue();
    private final Assertions assertions = new Assertions();
    private final Checker checker = new Checker();
    private boolean mayBeEmpty;
    private boolean isUnchecked;    // something was asserted since the last check
    private boolean wasAsserted;
    private boolean isClosed;
    private int openRegions;

    private HeapAudit() { }

    /**
     * An audit that has no assertion yet.
     *
     * @return the audit, to be closed
     */
    public static HeapAudit start() {
        HeapAudit audit = new HeapAudit();
        Unchecked.add(audit);
        return audit;
    }

    /**
     * The object must be gone at the check: nothing leads to it but weak, soft and phantom references.
     *
     * @param object not null
     */
    public synchronized void assertDead(Object object) {
        add(Assertion.Kind.DEAD, object, null, 0);
    }

    /**
     * One reference at most leads to the object. A local variable is one too.
     *
     * @param object not null
     */
    public synchronized void assertUnshared(Object object) {
        add(Assertion.Kind.UNSHARED, object, null, 0);
    }

    /**
     * The object doesn't outlive its owner's hold on it: where a root leads to it past the owner, the owner leads to it too.
     *
     * @param owner not null
     * @param object not null, and another object than the owner
     */
    public synchronized void assertOwnedBy(Object owner, Object object) {
        if (owner == null || owner == object) {
            throw new IllegalArgumentException(owner == null ? "an owner is wanted, not null" : "an object can't own itself");
        }
        add(Assertion.Kind.OWNEDBY, object, owner, 0);
    }

    /**
     * At most so many objects of exactly this class are reached.
     *
     * @param type a class that has objects, so neither an interface nor a primitive type nor an abstract class
     * @param limit from 0 on
     */
    public synchronized void assertInstances(Class<?> type, int limit) {
        if (limit < 0) {
            throw new IllegalArgumentException("a limit is 0 or more, not " + limit);
        }
        if (type.isPrimitive() || (!type.isArray() && java.lang.reflect.Modifier.isAbstract(type.getModifiers()))) {
            throw new IllegalArgumentException(type.getName() + " has no objects of its own: name a class that has");
        }
        if (type.isArray() && type.getComponentType().isPrimitive()) {
            throw new IllegalArgumentException("arrays of " + type.getComponentType() + " are not counted");
        }
        if (type == Class.class) {
            throw new IllegalArgumentException("objects of java.lang.Class are not counted");
        }
        add(Assertion.Kind.INSTANCES, type, null, limit);
    }

    /**
     * What is allocated from now on until the region is closed, by any thread, must be gone at the check. It needs the agent.
     *
     * <p>What the first run of a piece of code sets up, as classes and caches, counts too: run it once before.
     *
     * @param ignored how the names of classes begin whose objects may stay
     * @return the region, to be closed
     */
    public synchronized Region region(String... ignored) {
        needOpen();
        Region region = new Region(this, Agent.get(), ignored);
        openRegions++;
        return region;
    }

    /**
     * It is no mistake where nothing was asserted.
     *
     * @return this audit
     */
    public synchronized HeapAudit mayBeEmpty() {
        mayBeEmpty = true;
        return this;
    }

    /**
     * Collects, and checks all that was asserted so far. An assertion holds as long as its object lives, so each later
     * check looks at it again.
     *
     * <p>With the agent the checks of an audit have one trace, with a collection for each check that made a heap dump, and an
     * object keeps its id from check to check. Without the agent each check has a trace of its own.
     */
    public synchronized void check() {
        check(false);
    }

    private void check(boolean isLast) {
        needOpen();
        if (openRegions > 0) {
            throw new HeapAuditException("a region is open: close it before the check");
        }
        if (!wasAsserted && !mayBeEmpty) {
            throw new HeapAuditException("nothing was asserted, so this check would pass whatever the program does");
        }
        isUnchecked = false;
        Collector.collectFor(assertions, queue);
        while (assertions.size() > 0) {
            int left = assertions.size();
            try {
                checker.check(assertions, isLast);
                return;
            } catch (HeapViolation violation) {
                if (!checker.mayBeGone(violation)) {
                    throw violation;
                }
                Collector.collectFor(assertions, queue);
                if (assertions.size() == left) {
                    throw violation;
                }
            }
        }
    }

    /** Checks what was asserted since the last check, or whatever was asserted where there was none, and ends the audit. */
    @Override
    public synchronized void close() {
        if (isClosed) {
            return;
        }
        try {
            if (isUnchecked || !wasAsserted || openRegions > 0) {
                check(true);
            }
        } finally {
            abandon();
        }
    }

    /** Ends the audit without a check, as where the program failed before it. */
    public synchronized void abandon() {
        if (!isClosed) {
            isClosed = true;
            checker.close();
            Unchecked.remove(this);
        }
    }

    /** The JVM ends: nothing of this audit stays but what is kept. */
    synchronized void deleteTraces() {
        checker.deleteTraces();
    }

    /** How many assertions wait for a check. */
    synchronized int unchecked() {
        return isUnchecked ? assertions.size() : 0;
    }

    /** The objects that a region leaves behind must be dead. */
    synchronized void endRegion(Object[] left) {
        openRegions--;
        for (Object object : left) {
            if (object != null) {
                add(Assertion.Kind.REGION, object, null, 0);
            }
        }
        isUnchecked = true;
        wasAsserted = true;
    }

    private void add(Assertion.Kind kind, Object object, Object owner, int limit) {
        needOpen();
        if (object == null) {
            throw new IllegalArgumentException("an object is wanted, not null");
        }
        Mark mark = new Mark(object, queue);
        assertions.add(new Assertion(kind, mark, owner == null ? null : new Mark(owner, queue), limit));
        isUnchecked = true;
        wasAsserted = true;
    }

    private void needOpen() {
        if (isClosed) {
            throw new HeapAuditException("the audit is closed");
        }
    }

    /** Where the collector tells what is gone. A class of its own is no {@code ReferenceQueue} that a program may count. */
    private static final class Queue extends ReferenceQueue<Object> { }

    /** A part of a program all of whose objects must be gone at the check. */
    public static final class Region implements AutoCloseable {
        private static final String[] OF_THE_JVM = {"gcaudit.", "class ", "java.lang.Class", "java.lang.Module",
            "java.lang.NamedPackage", "java.lang.Package", "java.lang.invoke.", "java.lang.reflect.", "java.lang.ref.",
            "java.security.", "jdk.internal.", "sun.", "com.sun."};

        private final HeapAudit audit;
        private final Agent agent;
        private final String[] ignored;
        private final long epoch;
        private boolean isClosed;

        Region(HeapAudit audit, Agent agent, String[] ignored) {
            this.audit = audit;
            this.agent = agent;
            this.ignored = ignored.clone();
            epoch = agent.begin();
        }

        /** What was allocated since the region began, and is still there after a collection, must be gone at the check. */
        @Override
        public void close() {
            if (isClosed) {
                return;
            }
            isClosed = true;
            Object[] left = agent.end(epoch);
            for (int at = 0; at < left.length; at++) {
                String name = TypeNames.of(left[at]);
                if (beginsWithOneOf(name, OF_THE_JVM) || beginsWithOneOf(name, ignored)) {
                    left[at] = null;
                }
            }
            audit.endRegion(left);
        }

        private static boolean beginsWithOneOf(String name, String[] beginnings) {
            for (String beginning : beginnings) {
                if (name.startsWith(beginning)) {
                    return true;
                }
            }
            return false;
        }
    }
}

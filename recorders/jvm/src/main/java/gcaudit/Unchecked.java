package gcaudit;

import java.security.AccessController;
import java.security.PrivilegedAction;

/** Audits that weren't closed. At the end of the JVM their traces are deleted, each unchecked assertion is told, and the status is 1. */
final class Unchecked extends Thread {
    private static Link first;
    private static boolean isHooked;

    private Unchecked() {
        super("gcaudit, at the end");
    }

    static synchronized void add(HeapAudit audit) {
        if (!isHooked) {
            isHooked = true;
            addHook();
        }
        first = new Link(audit, first);
    }

    /**
     * A thread keeps what it inherits from the thread that makes it: the loader of classes, variables, and the classes on the
     * stack. So the hook is made by a thread that has nothing of the program's.
     */
    private static void addHook() {
        Thread maker = AccessController.doPrivileged(new PrivilegedAction<Thread>() {
            @Override
            public Thread run() {
                return withoutVariables(new Runnable() {
                    @Override
                    public void run() {
                        Runtime.getRuntime().addShutdownHook(new Unchecked());
                    }
                });
            }
        });
        maker.setContextClassLoader(null);
        maker.start();
        boolean isInterrupted = false;
        while (maker.isAlive()) {
            try {
                maker.join();
            } catch (InterruptedException interrupted) {
                isInterrupted = true;
            }
        }
        if (isInterrupted) {
            Thread.currentThread().interrupt();
        }
    }

    /** A thread without inherited variables, which Java has from version 9 on. */
    private static Thread withoutVariables(Runnable work) {
        try {
            return Thread.class.getConstructor(ThreadGroup.class, Runnable.class, String.class, long.class, boolean.class)
                    .newInstance(null, work, "gcaudit", 0L, false);
        } catch (ReflectiveOperationException missing) {
            return new Thread(work, "gcaudit");
        }
    }

    static synchronized void remove(HeapAudit audit) {
        Link kept = null;
        for (Link at = first; at != null; at = at.next) {
            if (at.audit != audit) {
                kept = new Link(at.audit, kept);
            }
        }
        first = kept;
    }

    /** Halts, since the status of a JVM that ends can't be changed in another way. */
    @Override
    public void run() {
        int unchecked = endAll();
        if (unchecked > 0) {
            System.err.println("gcaudit: " + unchecked + " assertions were never checked: close each HeapAudit, or call check()");
            System.err.flush();
            Runtime.getRuntime().halt(1);
        }
    }

    /** Ends the audits; the answer is how many of their assertions were never checked. */
    private static synchronized int endAll() {
        int found = 0;
        for (Link at = first; at != null; at = at.next) {
            found += at.audit.unchecked();
            at.audit.deleteTraces();
        }
        return found;
    }

    private static final class Link {
        final HeapAudit audit;
        final Link next;

        Link(HeapAudit audit, Link next) {
            this.audit = audit;
            this.next = next;
        }
    }
}

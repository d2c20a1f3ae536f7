import gcaudit.HeapAudit;
import gcaudit.HeapViolation;

/** A heap of more objects than gcaudit takes. A session is held by one of them; when it is let go, nothing is violated. */
public class LargeHeap {
    static final class Entry {
        Object attached;
    }

    static final class Session { }

    static final class Config { }

    static final int ENTRIES = 1_100_000;
    static final Object[] LOG = new Object[ENTRIES];
    static final Config CONFIG = new Config();

    static void visit(HeapAudit audit) {
        Session session = new Session();
        ((Entry) LOG[500_000]).attached = session;
        audit.assertDead(session);
        audit.assertUnshared(CONFIG);
    }

    static void check(HeapAudit audit) {
        try {
            audit.check();
            System.out.println("clean");
        } catch (HeapViolation violation) {
            System.out.println(violation.getMessage());
        }
    }

    public static void main(String[] words) {
        for (int place = 0; place < ENTRIES; place++) {
            LOG[place] = new Entry();
        }
        try (HeapAudit audit = HeapAudit.start()) {
            visit(audit);
            check(audit);
            ((Entry) LOG[500_000]).attached = null;
            check(audit);
        }
    }
}

import gcaudit.HeapAudit;
import gcaudit.HeapViolation;
import java.util.ArrayList;
import java.util.List;

/** Audits with several checks. Each prints the violations of each of its checks, or that it is clean. */
public class Checks {
    static final class Node { }

    static final class Session { }

    static final class Owner {
        Object item;
    }

    static final class Item { }

    static final class Entry { }

    static final List<Object> LEFT = new ArrayList<>();
    static final List<Object> RECENT = new ArrayList<>();
    static final Object[] PLACES = new Object[50];

    static void check(HeapAudit audit) {
        try {
            audit.check();
            System.out.println("clean");
        } catch (HeapViolation violation) {
            System.out.println(violation.report());
        }
        System.out.println("----");
    }

    static void makeNode(HeapAudit audit) {
        Node node = new Node();
        LEFT.add(node);
        audit.assertUnshared(node);
    }

    /** The node is shared between the two checks; by `mended` it isn't for long. */
    static void lateLeak(boolean mended) {
        try (HeapAudit audit = HeapAudit.start()) {
            makeNode(audit);
            check(audit);
            RECENT.add(LEFT.get(0));
            if (mended) {
                RECENT.clear();
            }
            check(audit);
        }
    }

    static void makeSession(HeapAudit audit) {
        Session session = new Session();
        PLACES[0] = session;
        audit.assertDead(session);
    }

    /** A session is there at two checks, the second of which finds it in an array that has become full, and gone at the third. */
    static void gone() {
        try (HeapAudit audit = HeapAudit.start()) {
            makeNode(audit);
            makeSession(audit);
            check(audit);
            System.gc();
            for (int place = PLACES.length - 1; place > 0; place--) {
                PLACES[place] = new Entry();
            }
            PLACES[PLACES.length - 1] = PLACES[0];
            PLACES[0] = null;
            check(audit);
            PLACES[PLACES.length - 1] = null;
            check(audit);
        }
    }

    static void makeOwner(HeapAudit audit) {
        Owner owner = new Owner();
        owner.item = new Item();
        LEFT.add(owner);
        RECENT.add(owner.item);
        audit.assertOwnedBy(owner, owner.item);
    }

    /** An owner that is gone at the second check. */
    static void owner() {
        try (HeapAudit audit = HeapAudit.start()) {
            makeOwner(audit);
            check(audit);
            LEFT.clear();
            check(audit);
            check(audit);
        }
    }

    public static void main(String[] words) {
        switch (words[0]) {
            case "late":
                lateLeak(false);
                break;
            case "mended":
                lateLeak(true);
                break;
            case "gone":
                gone();
                break;
            case "owner":
                owner();
                break;
            default:    // an audit that is never closed
                HeapAudit audit = HeapAudit.start();
                makeNode(audit);
                check(audit);
        }
    }
}

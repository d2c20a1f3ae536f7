import gcaudit.HeapAudit;
import gcaudit.HeapViolation;
import java.util.ArrayList;
import java.util.List;

/** Each kind of assertion, violated and met, and ways in which a check may reach no verdict. */
public class Asserting {
    static final class Config { }

    static final class Node { }

    static final class Item { }

    static final class Orphan { }

    static final class Box {
        Object item;

        Box(Object item) { this.item = item; }
    }

    static final List<Object> LEFT = new ArrayList<>();
    static final List<Object> RECENT = new ArrayList<>();

    /** By `more` each is violated. The objects are those of static lists alone when it ends. */
    static void kinds(HeapAudit audit, boolean more) {
        byte[] bytes = new byte[10];
        Node node = new Node();
        Item item = new Item();
        Orphan orphan = new Orphan();
        Box box = new Box(item);
        Box gone = new Box(orphan);
        LEFT.add(new Config());
        LEFT.add(node);
        LEFT.add(box);
        RECENT.add(item);
        audit.assertDead(bytes);
        audit.assertInstances(Config.class, 1);
        audit.assertUnshared(node);
        audit.assertOwnedBy(box, item);
        audit.assertOwnedBy(gone, orphan);
        if (more) {
            LEFT.add(bytes);
            LEFT.add(new Config());
            RECENT.add(node);
            RECENT.add(orphan);
            box.item = null;
        }
    }

    static void leak(HeapAudit audit, boolean leaks) {
        Node node = new Node();
        audit.assertDead(node);
        if (leaks) {
            LEFT.add(node);
        }
    }

    public static void main(String[] words) {
        switch (words[0]) {
            case "kinds":
                try (HeapAudit audit = HeapAudit.start()) {
                    kinds(audit, true);
                } catch (HeapViolation violation) {
                    System.out.println(violation.report());
                }
                LEFT.clear();
                RECENT.clear();
                try (HeapAudit audit = HeapAudit.start()) {
                    kinds(audit, false);
                }
                System.out.println("clean");
                break;
            case "empty":
                HeapAudit.start().close();
                break;
            case "unchecked":
                leak(HeapAudit.start(), true);
                leak(HeapAudit.start(), true);
                break;
            default:
                try (HeapAudit audit = HeapAudit.start()) {
                    leak(audit, words[0].equals("leak"));
                }
                System.out.println("clean");
        }
    }
}

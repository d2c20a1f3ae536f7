import gcaudit.HeapAudit;
import gcaudit.HeapViolation;
import java.nio.charset.StandardCharsets;
import java.nio.file.Files;
import java.nio.file.Paths;
import java.util.ArrayList;
import java.util.List;

/** Prints what the library for Java costs in a process of so many objects: Costs OBJECTS. Each line is a name and seconds. */
public class Costs {
    static final class Item {
        Object next;
    }

    static final class Session { }

    static final int ROUNDS = 5;
    static final double TICKS = 100;    // of the clock by which Linux counts processor time, in a second
    static final int[] REGIONS = {0, 1_000, 100_000, 1_000_000};
    static Item items;
    static final List<Object> LEFT = new ArrayList<>(1_000_001);

    /** The processor time of this process and of those that it waited for. */
    static double seconds() {
        try {
            String stat = new String(Files.readAllBytes(Paths.get("/proc/self/stat")), StandardCharsets.UTF_8);
            String[] fields = stat.substring(stat.lastIndexOf(')') + 2).split(" ");
            long ticks = 0;
            for (int field = 11; field < 15; field++) {
                ticks += Long.parseLong(fields[field]);
            }
            return ticks / TICKS;
        } catch (java.io.IOException error) {
            throw new IllegalStateException(error);
        }
    }

    static void print(String name, Runnable work) {
        double before = seconds();
        work.run();
        System.out.printf("%s %.2f%n", name, seconds() - before);
    }

    static void assertDead(HeapAudit audit, boolean leaks) {
        Session session = new Session();
        if (leaks) {
            LEFT.add(session);
        }
        audit.assertDead(session);
    }

    static void well() {
        try (HeapAudit audit = HeapAudit.start()) {
            assertDead(audit, false);
        }
    }

    static void find() {
        try (HeapAudit audit = HeapAudit.start()) {
            assertDead(audit, true);
        } catch (HeapViolation violation) {
            return;
        }
        throw new IllegalStateException("the leak was not found");
    }

    static void region(int objects) {
        HeapAudit audit = HeapAudit.start();
        HeapAudit.Region[] region = new HeapAudit.Region[1];
        print("region of " + objects + " begins", () -> region[0] = audit.region());
        for (int number = 0; number < objects; number++) {
            LEFT.add(new Session());
        }
        print("region of " + objects + " ends", region[0]::close);
        audit.abandon();
        LEFT.clear();
    }

    public static void main(String[] words) {
        for (int number = Integer.parseInt(words[0]); number > 0; number--) {
            Item item = new Item();
            item.next = items;
            items = item;
        }
        for (int round = 0; round < ROUNDS; round++) {
            print("collection", System::gc);
            print("well", Costs::well);
        }
        print("finds", Costs::find);
        LEFT.clear();
        for (int objects : REGIONS) {
            region(objects);
        }
    }
}

import gcaudit.HeapAudit;
import gcaudit.HeapViolation;
import java.util.ArrayList;
import java.util.List;

/** Regions: of requests that leave nothing, of one that leaves entries in a log, nested ones, and with what may stay. */
public class Regions {
    static final class Entry { }

    static final class Outer { }

    static final class Scratch { }

    static final List<Object> LOG = new ArrayList<>(100);
    static final int MANY = 70_000;     // more than JNI is asked to make references for

    static void handle(int entries) {
        Scratch scratch = new Scratch();
        for (int number = 0; number < entries; number++) {
            LOG.add(new Entry());
        }
        scratch.hashCode();
    }

    static void print(HeapAudit audit) {
        try {
            audit.check();
            System.out.println("clean");
        } catch (HeapViolation violation) {
            System.out.println(violation.report());
        }
    }

    static void leaveMany() {
        LOG.clear();
        try (HeapAudit audit = HeapAudit.start()) {
            try (HeapAudit.Region region = audit.region("java.lang.Object[]")) {
                handle(MANY);
            }
            print(audit);
        }
    }

    /** With the argument few the first of the regions alone, and with many one that leaves many objects. */
    public static void main(String[] words) {
        handle(1);
        LOG.add(new Outer());
        try (HeapAudit audit = HeapAudit.start(); HeapAudit.Region warm = audit.region()) { }
        if (words.length > 0 && words[0].equals("many")) {
            leaveMany();
            return;
        }
        try (HeapAudit audit = HeapAudit.start()) {
            try (HeapAudit.Region region = audit.region()) {
                handle(0);
            }
            print(audit);
        }
        if (words.length > 0) {
            return;
        }
        System.out.println("----");
        try (HeapAudit audit = HeapAudit.start()) {
            try (HeapAudit.Region region = audit.region()) {
                handle(3);
            }
            print(audit);
        }
        System.out.println("----");
        try (HeapAudit audit = HeapAudit.start()) {
            try (HeapAudit.Region outer = audit.region("Regions$Entry")) {
                LOG.add(new Outer());
                try (HeapAudit.Region inner = audit.region("Regions$Entry")) {
                    handle(3);
                }
            }
            print(audit);
        }
        System.out.println("----");
        LOG.clear();
        try (HeapAudit audit = HeapAudit.start()) {
            try (HeapAudit.Region region = audit.region()) {
                handle(3);
            }
            LOG.clear();
            print(audit);
        }
    }
}

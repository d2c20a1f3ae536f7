package gcaudit;

/** A list of assertions that doesn't appear in the program's heap: it is made of objects of this package alone. */
final class Assertions {
    private Assertion first;
    private int size;

    void add(Assertion assertion) {
        assertion.next = first;
        first = assertion;
        size++;
    }

    int size() {
        return size;
    }

    Assertion first() {
        return first;
    }

    /** Drops those of which nothing is left to be asked. */
    void dropMet() {
        Assertion kept = null;
        size = 0;
        for (Assertion at = first; at != null;) {
            Assertion next = at.next;
            if (!at.isMet()) {
                at.next = kept;
                kept = at;
                size++;
            }
            at = next;
        }
        first = kept;
    }

    /** Whether an object that must be dead isn't gone. */
    boolean wantsDeath() {
        for (Assertion at = first; at != null; at = at.next) {
            if ((at.kind == Assertion.Kind.DEAD || at.kind == Assertion.Kind.REGION) && !at.isMet()) {
                return true;
            }
        }
        return false;
    }
}

package gcaudit;

/** An assertion about the heap is violated. The message has the report, with a path for each group of violations. */
public final class HeapViolation extends AssertionError {
    private static final long serialVersionUID = 1L;

    private final String report;

    HeapViolation(String message, String report) {
        super(message);
        this.report = report;
    }

    /**
     * The report of gcaudit, in groups and with fields named.
     *
     * @return the lines from the first collection to the line {@code end gcs N violations M}
     */
    public String report() {
        return report;
    }
}

package gcaudit;

/** The heap could not be audited, or nothing was asserted: no verdict was reached. The message is a sentence for the user. */
public final class HeapAuditException extends RuntimeException {
    private static final long serialVersionUID = 1L;

    HeapAuditException(String message) {
        super(message);
    }

    HeapAuditException(String message, Throwable cause) {
        super(message, cause);
    }
}

package gcaudit;

/** What is asserted of an object. A line of it tells the reader of heap dumps. */
final class Assertion {
    enum Kind { DEAD, REGION, UNSHARED, OWNEDBY, INSTANCES }

    final Kind kind;
    final Mark mark;
    final Mark owner;       // of OWNEDBY alone
    final int limit;        // of INSTANCES alone, whose mark is of the class
    Assertion next;         // a list of the JDK's would be an object of the program's heap

    Assertion(Kind kind, Mark mark, Mark owner, int limit) {
        this.kind = kind;
        this.mark = mark;
        this.owner = owner;
        this.limit = limit;
    }

    /** Whether nothing is left to be asked: the object is gone, or the class with all its instances. */
    boolean isMet() {
        return mark.isGone();
    }

    /** A line of JSON. */
    String line() {
        StringBuilder line = new StringBuilder("{\"assert\":\"").append(kind.name().toLowerCase(java.util.Locale.ROOT))
                .append("\",\"mark\":").append(mark.number).append(",\"type\":");
        quote(line, mark.typeName);
        if (owner != null) {
            line.append(",\"owner\":").append(owner.number).append(",\"owner type\":");
            quote(line, owner.typeName);
        }
        if (kind == Kind.REGION && mark.isOfRuntime) {
            line.append(",\"of runtime\":true");
        }
        if (kind == Kind.INSTANCES) {
            line.append(",\"limit\":").append(limit);
        }
        return line.append("}").toString();
    }

    private static void quote(StringBuilder line, String text) {
        line.append('"');
        for (int at = 0; at < text.length(); at++) {
            char sign = text.charAt(at);
            if (sign < 0x20 || sign > 0x7e || sign == '"' || sign == '\\') {
                line.append(String.format("\\u%04x", (int) sign));
            } else {
                line.append(sign);
            }
        }
        line.append('"');
    }
}

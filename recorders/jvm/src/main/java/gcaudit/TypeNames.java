package gcaudit;

/** The names of classes as the reader of heap dumps writes them. */
final class TypeNames {
    private TypeNames() { }

    /** The type of an object; of a class, the word {@code class} and its name. */
    static String of(Object object) {
        return object instanceof Class ? "class " + ofClass((Class<?>) object) : ofClass(object.getClass());
    }

    /** Whether a class, or that of an array's elements, is loaded by the JVM itself. */
    static boolean isOfRuntime(Class<?> type) {
        return type.isArray() ? isOfRuntime(type.getComponentType()) : type.getClassLoader() == null;
    }

    /** A class's name, as {@code java.lang.Object[]} for an array. */
    static String ofClass(Class<?> type) {
        return type.isArray() ? ofClass(type.getComponentType()) + "[]" : type.getName();
    }
}

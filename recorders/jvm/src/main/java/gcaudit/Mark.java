package gcaudit;

import java.lang.invoke.MethodHandle;
import java.lang.invoke.MethodHandles;
import java.lang.invoke.MethodType;
import java.lang.ref.PhantomReference;
import java.lang.ref.Reference;
import java.lang.ref.ReferenceQueue;
import java.security.SecureRandom;
import java.util.concurrent.atomic.AtomicLong;

/**
 * An object of which something is asserted, under a number that no other mark has.
 *
 * <p>The reader of heap dumps finds marks by the name of this class and of its fields, so these names are part of the
 * format. A phantom reference is the weakest there is: a weak one would be cleared before the finalizers run, so an
 * object that its finalizer saves, or that waits for it, would count as gone.
 */
final class Mark extends PhantomReference<Object> {
    private static final AtomicLong LAST = new AtomicLong(new SecureRandom().nextLong() >>> 2);
    private static final MethodHandle REFERS_TO = refersTo();

    final long number;
    final String typeName;
    final boolean isOfRuntime;  // its class is Java's own
    private volatile boolean isGone;

    Mark(Object object, ReferenceQueue<Object> queue) {
        super(object, queue);
        number = LAST.incrementAndGet();
        typeName = TypeNames.of(object);
        isOfRuntime = TypeNames.isOfRuntime(object.getClass());
    }

    /** Whether the object was freed. Where Java can't say it at once (before Java 16), it is what the queue told. */
    boolean isGone() {
        return isGone || (REFERS_TO != null && refersToNothing());
    }

    private boolean refersToNothing() {
        try {
            return (boolean) REFERS_TO.invokeExact((Reference<Object>) this, (Object) null);
        } catch (Throwable error) {
            throw new IllegalStateException(error);
        }
    }

    /** Takes from a queue the marks whose objects are gone. The answer is whether there were any. */
    static boolean takeGone(ReferenceQueue<Object> queue) {
        boolean found = false;
        for (Reference<?> polled = queue.poll(); polled != null; polled = queue.poll()) {
            Mark mark = (Mark) polled;
            mark.isGone = true;
            mark.clear();   // before Java 9 the object is kept until then
            found = true;
        }
        return found;
    }

    /** Whether {@link #isGone} is exact right after a collection. */
    static boolean isExact() {
        return REFERS_TO != null;
    }

    private static MethodHandle refersTo() {
        try {
            return MethodHandles.publicLookup()
                    .findVirtual(Reference.class, "refersTo", MethodType.methodType(boolean.class, Object.class));
        } catch (ReflectiveOperationException missing) {
            return null;
        }
    }
}

package gcaudit;

import java.io.BufferedOutputStream;
import java.io.DataOutputStream;
import java.io.File;
import java.io.FileOutputStream;
import java.io.IOException;

/**
 * Numbers that objects keep from check to check, wherever the collector moves them: so one trace has all checks of an audit. They
 * are tags of the agent.
 *
 * <p>The reader of heap dumps finds the numbered objects by the name of this class and of its field {@code objects}, so these names
 * are part of the format.
 */
final class Numbering {
    private static Object[] objects;    // all that are there, while a dump is written

    private final Agent agent;

    private Numbering(Agent agent) {
        this.agent = agent;
    }

    /** Numbers for an audit, to be ended; null where there is no agent, or the JVM lets it tag nothing. */
    static Numbering begin() {
        try {
            Agent agent = Agent.get();
            agent.beginNumbers();
            return new Numbering(agent);
        } catch (HeapAuditException missing) {
            return null;
        }
    }

    void end() {
        agent.endNumbers();
    }

    /** Has a dump written in which all objects are listed, and writes their numbers into a file in the same order. */
    void write(File numbers, Runnable dump) {
        synchronized (Numbering.class) {
            objects = agent.objects();
            try {
                writeNumbers(numbers, agent.numbersOf(objects));
                dump.run();
            } finally {
                objects = null;
            }
        }
    }

    private static void writeNumbers(File file, long[] numbers) {
        try (DataOutputStream out = new DataOutputStream(new BufferedOutputStream(new FileOutputStream(file), 1 << 16))) {
            for (long number : numbers) {
                out.writeLong(number);
            }
        } catch (IOException error) {
            throw new HeapAuditException("the numbers of the objects can't be written: " + error, error);
        }
    }
}

package gcaudit;

import java.io.File;
import java.io.IOException;
import java.lang.management.ManagementFactory;
import java.nio.charset.StandardCharsets;
import java.nio.file.FileVisitResult;
import java.nio.file.Files;
import java.nio.file.Path;
import java.nio.file.Paths;
import java.nio.file.SimpleFileVisitor;
import java.nio.file.attribute.BasicFileAttributes;
import java.util.Collections;
import java.util.concurrent.TimeUnit;
import java.util.regex.Matcher;
import java.util.regex.Pattern;
import javax.management.JMException;
import javax.management.ObjectName;

/**
 * Dumps the heap for the checks of an audit, and has the dumps read and audited by processes of their own.
 *
 * <p>Where a check may follow on another one, objects are numbered, and the trace of the checks before is kept for the next one.
 */
final class Checker {
    private static final String KEEP = "gcaudit.keep";
    private static final String PROGRAM = "gcaudit.program";
    private static final String PYTHON = "gcaudit.python";
    private static final String RECORDERS = "gcaudit.recorders";
    private static final String SECONDS = "gcaudit.seconds";
    private static final int MOST_SECONDS = 1800;
    private static final Pattern HEAD = Pattern.compile("checked (\\d+) assertions at collection (\\d+): (\\d+) violations\n");
    private static final Pattern LAST = Pattern.compile("end gcs (\\d+) violations \\d+");
    private static final Pattern LEFT_OUT = Pattern.compile("the heap has more objects than gcaudit takes.*");
    private static final String UNREACHED = "(alive, and no root of the dump leads to it)";
    private static final String TRACE = "heap.jsonl";

    private final String keep = System.getProperty(KEEP);
    private Numbering numbering;
    private boolean isNumberingTried;
    private String earlier;     // the folder with the trace of the checks before; null where there is none

    /**
     * Checks what is left of the assertions. A {@link HeapViolation} tells what is violated.
     *
     * @param isLast whether no check follows, so that the objects need no numbers for its sake
     */
    void check(Assertions assertions, boolean isLast) {
        if (!isLast && !isNumberingTried) {
            isNumberingTried = true;
            numbering = Numbering.begin();
        }
        Path folder = newFolder();
        boolean isChecked = false;
        try {
            audit(assertions, folder);
            isChecked = true;
        } catch (HeapViolation violation) {
            isChecked = true;
            throw violation;
        } finally {
            end(folder, isChecked && numbering != null);
        }
    }

    /** Whether what a violation tells may be gone: what dies while objects are numbered is in the dump, and nothing leads to it. */
    boolean mayBeGone(HeapViolation violation) {
        return numbering != null && violation.report().contains(UNREACHED);
    }

    /** No check follows. */
    void close() {
        if (numbering != null) {
            numbering.end();
            numbering = null;
        }
        deleteTraces();
    }

    /** Deletes the trace of the checks before, where it isn't kept. */
    void deleteTraces() {
        if (earlier != null && keep == null) {
            delete(Paths.get(earlier));
        }
        earlier = null;
    }

    private Path newFolder() {
        try {
            if (keep == null) {
                return Files.createTempDirectory("gcaudit-");
            }
            return Files.createTempDirectory(Files.createDirectories(Paths.get(keep).toAbsolutePath()), "audit-");
        } catch (IOException error) {
            throw new HeapAuditException("no folder for the heap dump can be made: " + error, error);
        }
    }

    /** Of a folder that isn't kept the trace alone stays, where a later check needs it. */
    private void end(Path folder, boolean isNeeded) {
        if (isNeeded) {
            deleteTraces();
            earlier = folder.toString();
        }
        if (keep == null) {
            deleteBut(folder, isNeeded ? folder.resolve(TRACE) : null);
        }
    }

    private void audit(Assertions assertions, Path folder) {
        dump(folder);
        write(assertions, folder.resolve("marks.jsonl"));
        int status = run(folder);
        String said = read(folder.resolve("report.txt"));
        String where = keep == null ? "" : "\nThe dump, its trace and the report are in " + folder;
        Matcher head = HEAD.matcher(said);
        Matcher last = LAST.matcher(lastLine(said));
        boolean isWhole = head.lookingAt() && last.matches() && last.group(1).equals(head.group(2))
                && Integer.parseInt(head.group(1)) == assertions.size();
        if (!isWhole || status < 0 || status > 1 || (status == 0) != head.group(3).equals("0")) {
            throw new HeapAuditException("the heap could not be audited (status " + status + "): " + reason(folder) + where);
        }
        if (status == 1) {
            String report = said.substring(head.end());
            throw new HeapViolation("gcaudit found a violation:\n" + report.trim() + leftOut(folder) + where, report);
        }
    }

    /** What the reader said of classes that it left out, as a line; empty where the heap isn't too large. */
    private static String leftOut(Path folder) {
        Matcher found = LEFT_OUT.matcher(read(folder.resolve("errors.txt")));
        return found.find() ? "\n" + found.group() : "";
    }

    /** What the processes said last on standard error. */
    private static String reason(Path folder) {
        String last = lastLine(read(folder.resolve("errors.txt")));
        return last.isEmpty() ? "nothing was said" : last;
    }

    private static String lastLine(String text) {
        String trimmed = text.trim();
        return trimmed.substring(trimmed.lastIndexOf('\n') + 1);
    }

    /** Writes a dump of what is alive, where objects are numbered with a file of their numbers. */
    private void dump(Path folder) {
        String dump = folder.resolve("heap.hprof").toString();
        if (numbering == null) {
            dump(dump);
        } else {
            numbering.write(folder.resolve("numbers").toFile(), new Runnable() {
                @Override
                public void run() {
                    Checker.dump(dump);
                }
            });
        }
    }

    /** Writes a dump by the bean that HotSpot has for it. */
    private static void dump(String dump) {
        try {
            ManagementFactory.getPlatformMBeanServer().invoke(new ObjectName("com.sun.management:type=HotSpotDiagnostic"), "dumpHeap",
                    new Object[] {dump, Boolean.TRUE}, new String[] {"java.lang.String", "boolean"});
        } catch (JMException | RuntimeException error) {
            throw new HeapAuditException("this JVM wrote no heap dump: " + error, error);
        }
    }

    private static void write(Assertions assertions, Path file) {
        StringBuilder lines = new StringBuilder();
        for (Assertion at = assertions.first(); at != null; at = at.next) {
            lines.append(at.line()).append('\n');
        }
        try {
            Files.write(file, lines.toString().getBytes(StandardCharsets.UTF_8));
        } catch (IOException error) {
            throw new HeapAuditException("the assertions can't be written: " + error, error);
        }
    }

    /** Runs the reader of dumps, which runs gcaudit. The answer is its status. */
    private int run(Path folder) {
        ProcessBuilder builder = new ProcessBuilder(System.getProperty(PYTHON, "python3"), "-B", "-m", "hprof_to_trace.marked",
                "heap.hprof", "marks.jsonl", TRACE);
        if (numbering != null) {
            Collections.addAll(builder.command(), "--numbers", "numbers");
        }
        if (earlier != null) {
            Collections.addAll(builder.command(), "--after", Paths.get(earlier, TRACE).toString());
        }
        builder.directory(folder.toFile());
        builder.redirectOutput(folder.resolve("report.txt").toFile());
        builder.redirectError(folder.resolve("errors.txt").toFile());
        addRecorders(builder, folder);
        addProgram(builder, folder);
        int seconds = Integer.getInteger(SECONDS, MOST_SECONDS);
        Process process;
        try {
            process = builder.start();
        } catch (IOException error) {
            throw new HeapAuditException("Python could not be run, which reads the heap dump: put its path into the property "
                    + PYTHON + " (" + error.getMessage() + ")", error);
        }
        try {
            process.getOutputStream().close();
            if (!process.waitFor(seconds, TimeUnit.SECONDS)) {
                throw new HeapAuditException("the heap was not audited within " + seconds + " seconds; the property " + SECONDS
                        + " allows more");
            }
            return process.exitValue();
        } catch (IOException error) {
            throw new HeapAuditException("the reader of the heap dump ended at once: " + error, error);
        } catch (InterruptedException interrupted) {
            Thread.currentThread().interrupt();
            throw new HeapAuditException("the audit was interrupted", interrupted);
        } finally {
            process.destroyForcibly();
        }
    }

    /** The program gcaudit: the one that a property names, else that of the variable GCAUDIT, else the one that the jar has, else that on the path. */
    private static void addProgram(ProcessBuilder builder, Path folder) {
        String program = System.getProperty(PROGRAM);
        if (program != null) {
            builder.environment().put("GCAUDIT", new File(program).getAbsolutePath());
        } else if (!builder.environment().containsKey("GCAUDIT")) {
            Path unpacked = Bundled.unpackProgram(folder);
            if (unpacked != null) {
                builder.environment().put("GCAUDIT", unpacked.toString());
            }
        }
    }

    /** The recorders in Python: those that a property names, else those that the jar carries, else what Python has installed. */
    private static void addRecorders(ProcessBuilder builder, Path folder) {
        String place = System.getProperty(RECORDERS);
        if (place == null) {
            Path unpacked = Bundled.unpackRecorders(folder);
            place = unpacked == null ? null : unpacked.toString();
        } else {
            place = new File(place).getAbsolutePath();
        }
        if (place != null) {
            String before = builder.environment().get("PYTHONPATH");
            builder.environment().put("PYTHONPATH", before == null || before.isEmpty() ? place : place + File.pathSeparator + before);
        }
    }

    private static String read(Path file) {
        try {
            return new String(Files.readAllBytes(file), StandardCharsets.UTF_8);
        } catch (IOException error) {
            throw new HeapAuditException("the report can't be read: " + error, error);
        }
    }

    private static void delete(Path folder) {
        deleteBut(folder, null);
    }

    /** Deletes a folder with all that is in it, but for this file. */
    private static void deleteBut(Path folder, Path kept) {
        try {
            Files.walkFileTree(folder, new SimpleFileVisitor<Path>() {
                @Override
                public FileVisitResult visitFile(Path file, BasicFileAttributes attributes) throws IOException {
                    if (!file.equals(kept)) {
                        Files.delete(file);
                    }
                    return FileVisitResult.CONTINUE;
                }

                @Override
                public FileVisitResult postVisitDirectory(Path visited, IOException error) throws IOException {
                    if (kept == null) {
                        Files.delete(visited);
                    }
                    return FileVisitResult.CONTINUE;
                }
            });
        } catch (IOException error) {
            System.err.println("gcaudit: the heap dump in " + folder + " could not be deleted: " + error);
        }
    }
}

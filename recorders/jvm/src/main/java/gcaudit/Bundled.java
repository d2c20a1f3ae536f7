package gcaudit;

import java.io.IOException;
import java.io.InputStream;
import java.nio.file.Files;
import java.nio.file.Path;
import java.nio.file.StandardCopyOption;
import java.util.Locale;

/** What the jar has beside the classes: the recorders in Python and, for some systems, the agent and the program gcaudit. */
final class Bundled {
    private static final String[] PROGRAM = {"gcaudit", "fits_system", "needs", "run_bundled"};

    private Bundled() { }

    /** The recorders in a folder; null where the jar has none. */
    static Path unpackRecorders(Path folder) {
        return unpack("recorders.zip", folder.resolve("recorders.zip"));
    }

    /** The program gcaudit in a folder, as a script that runs it where this system's C library allows it; null where the jar has none. */
    static Path unpackProgram(Path folder) {
        Path unpacked = null;
        for (String name : PROGRAM) {
            unpacked = unpack(ofSystem(name), folder.resolve(name));
            if (unpacked == null) {
                return null;
            }
            unpacked.toFile().setExecutable(true);
        }
        return unpacked;
    }

    /** The agent as a file that is deleted when the JVM ends; null where the jar has none for this system. */
    static Path unpackAgent() throws IOException {
        String name = ofSystem(System.mapLibraryName("gcaudit"));
        if (Bundled.class.getResource(name) == null) {
            return null;
        }
        Path copy = Files.createTempFile("gcaudit-", ".agent");
        copy.toFile().deleteOnExit();
        return unpack(name, copy);
    }

    private static String ofSystem(String name) {
        return "native/" + System.getProperty("os.name").toLowerCase(Locale.ROOT).replace(' ', '-') + "-" + System.getProperty("os.arch")
                + "/" + name;
    }

    private static Path unpack(String name, Path to) {
        try (InputStream found = Bundled.class.getResourceAsStream(name)) {
            if (found == null) {
                return null;
            }
            Files.copy(found, to, StandardCopyOption.REPLACE_EXISTING);
            return to;
        } catch (IOException error) {
            throw new HeapAuditException("the jar's " + name + " can't be unpacked: " + error, error);
        }
    }
}

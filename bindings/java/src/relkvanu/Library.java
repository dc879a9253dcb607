package relkvanu;

import java.io.IOException;
import java.io.InputStream;
import java.nio.file.Files;
import java.nio.file.Path;
import java.util.Locale;

/**
 * The native library: the file that the property {@code relkvanu.library} names, otherwise the one in the jar, otherwise that of {@code
 * java.library.path}.
 */
final class Library {
    private static final String NAME = "relkvanu_jni";
    private static final String PROPERTY = "relkvanu.library";
    /** What was wrong when it was loaded. Null: it is there. */
    private static final String FAULT = loaded();

    private Library() {}

    /** Each call that needs no handle begins so: no function is called in a library that is missing or of another version. */
    static void need() {
        if (FAULT != null) {
            throw new CoordinatorException.NoLibrary(FAULT);
        }
    }

    /** This class is always initialized whole, so each call tells the first fault. */
    private static String loaded() {
        try {
            load(NAME, PROPERTY);
            String found = Native.version();
            return fits(found) ? null : "the native library is of version " + found + ", and relkvanu.jar needs version " + Header.VERSION;
        } catch (IOException | RuntimeException | UnsatisfiedLinkError fault) {
            return "the native library of version " + Header.VERSION + " can't be loaded: " + fault + "; give -D" + PROPERTY + "=FILE, or another -Djava.io.tmpdir";
        }
    }

    /** A library fits if its first two numbers are those of the header, and its third is not less: such a one has all functions. */
    static boolean fits(String version) {
        String[] found = version.split("\\.");
        try {
            return found.length == 3 && Integer.parseInt(found[0]) == Header.VERSION_MAJOR && Integer.parseInt(found[1]) == Header.VERSION_MINOR
                && Integer.parseInt(found[2]) >= Header.VERSION_PATCH;
        } catch (NumberFormatException fault) {
            return false;
        }
    }

    /** Loads a library of the jar, or the file that the property names. */
    static void load(String name, String property) throws IOException {
        String given = System.getProperty(property);
        if (given != null) {
            System.load(Path.of(given).toAbsolutePath().toString());
            return;
        }
        try (InputStream in = Library.class.getResourceAsStream(inJar(name))) {
            if (in == null) {
                System.loadLibrary(name);
            } else {
                loadCopy(in, name);
            }
        }
    }

    /** Where the jar has a library for this system, if it has one. */
    private static String inJar(String name) {
        String system = System.getProperty("os.name").toLowerCase(Locale.ROOT) + "-" + System.getProperty("os.arch");
        return "native/" + system + "/lib" + name + ".so";
    }

    /** Nobody else can write to the folder. Linux keeps what is mapped when the file is gone. */
    private static void loadCopy(InputStream in, String name) throws IOException {
        Path folder = Files.createTempDirectory("relkvanu");
        Path file = folder.resolve("lib" + name + ".so");
        try {
            Files.copy(in, file);
            System.load(file.toString());
        } finally {
            Files.deleteIfExists(file);
            Files.delete(folder);
        }
    }
}

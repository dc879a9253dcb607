package relkvanu;

import static org.junit.jupiter.api.Assertions.assertEquals;
import static org.junit.jupiter.api.Assertions.assertThrows;
import static org.junit.jupiter.api.Assertions.assertTrue;

import java.util.List;
import java.util.regex.Pattern;
import org.junit.jupiter.api.Tag;
import org.junit.jupiter.api.Test;
import org.junit.jupiter.api.function.Executable;

/** Over a library that is missing or of another version: each way in says so, also the second time. The property told has the words. */
@Tag("missing")
class LibraryTest {
    @Test
    void eachWayInSaysWhatIsWrong() {
        Pattern told = Pattern.compile(System.getProperty("told"));
        List<Executable> ways = List.of(Coordinator::version, () -> Coordinator.open(Settings.every(1000), new long[] {1}, 0), () -> Coordinator.openFenced(Settings.every(1000), new long[] {1}, 0, 1, 1),
            () -> Coordinator.openSaved(new byte[] {1}), () -> Lines.says(new byte[] {}),
            () -> Lines.tick(1), () -> Lines.opening(Settings.every(1000), new long[] {1}, 0),
            Coordinator::version);
        String first = assertThrows(CoordinatorException.NoLibrary.class, ways.get(0)).getMessage();
        assertTrue(told.matcher(first).find(), first);
        assertTrue(first.contains(Header.VERSION), first);
        for (Executable way : ways) {
            assertEquals(first, assertThrows(CoordinatorException.NoLibrary.class, way).getMessage());
        }
    }
}

package relkvanu;

import static org.junit.jupiter.api.Assertions.assertEquals;
import static org.junit.jupiter.api.Assertions.assertFalse;
import static org.junit.jupiter.api.Assertions.assertThrows;
import static org.junit.jupiter.api.Assertions.assertTrue;

import java.util.List;
import org.junit.jupiter.api.Test;
import org.junit.jupiter.api.function.Executable;

/** What the package throws. */
class ExceptionsTest {
    @Test
    void aRefusalNamesTheFile() {
        try (Coordinator job = Jobs.opened(Settings.every(1000), 2)) {
            job.tick(1000);
            CoordinatorException.Refused gone = assertThrows(CoordinatorException.Refused.class, () -> job.ack(1000, 1, 0, 0, Jobs.files(), 8, 7));
            assertEquals(Refusal.FILE_GONE, gone.refusal());
            assertEquals(7, gone.file());
            CoordinatorException.Refused not = assertThrows(CoordinatorException.Refused.class, () -> job.deleted(7));
            assertEquals(Refusal.NOT_TAKEN, not.refusal());
            assertEquals(0, not.file());
            assertEquals(0, not.getStackTrace().length);
            assertTrue(assertThrows(CoordinatorException.BadLine.class, () -> job.line(Jobs.line("x"))).getStackTrace().length > 0);
        }
    }

    @Test
    void numbersThatNobodyKnows() {
        long[] code = {99, 0, 0, 0}, refusal = {Header.REFUSED, 99, 0, 0}, argument = {Header.BAD_ARGUMENT, 99, 0, 0}, fault = {Header.BAD_LINE, 99, 0, 0}, fenced = {Header.FENCED, 99, 0, 0};
        List<Executable> all = List.of(() -> Answers.check(code), () -> Answers.check(refusal), () -> Answers.check(argument), () -> Answers.check(fault), () -> Answers.check(fenced),
            () -> Answers.reply(999, 0, 0), () -> Answers.is(999, Header.TERM), () -> Mode.of(999), () -> Standing.of(999), () -> Live.of(999, 0, 0), () -> Chosen.of(999, 0));
        all.forEach(it -> assertThrows(CoordinatorException.Unknown.class, it));
    }

    @Test
    void whichLibrariesFit() {
        int major = Header.VERSION_MAJOR, minor = Header.VERSION_MINOR, patch = Header.VERSION_PATCH;
        String series = major + "." + minor;
        assertTrue(Library.fits(Header.VERSION) && Library.fits(series + "." + (patch + 1)));
        for (String other : List.of("", major + "", series, series + ".x", series + "." + (patch - 1), Header.VERSION + ".0", major + "." + (minor - 1) + ".0", major + "." + (minor + 1) + ".0",
                (major + 1) + "." + minor + ".0", "0.99.0", "9.8.7")) {
            assertFalse(Library.fits(other), other);
        }
    }

    @Test
    void theVersionIsThatOfTheHeader() {
        assertEquals(Header.VERSION, Coordinator.version());
    }
}

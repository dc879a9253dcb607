package relkvanu;

import static org.junit.jupiter.api.Assertions.assertArrayEquals;
import static org.junit.jupiter.api.Assertions.assertEquals;
import static org.junit.jupiter.api.Assertions.assertThrows;

import java.util.List;
import org.junit.jupiter.api.Test;
import org.junit.jupiter.api.function.Executable;

/** What the package adds to the calls: openings, numbers that do not fit, moments that are ahead, closing. */
class CoordinatorTest {
    private static final long DAY = 24 * 60 * 60 * 1000;
    private static final Settings SETTINGS = Settings.every(1000);

    private static void isNotOpened(Argument argument, Settings settings, long[] shape, long now, long first) {
        assertEquals(argument, assertThrows(CoordinatorException.BadArgument.class, () -> Coordinator.open(settings, shape, now, first)).argument());
    }

    @Test
    void whatACoordinatorIsNotOpenedWith() {
        isNotOpened(Argument.BAD_CONFIG, Settings.every(9), new long[] {1}, 0, 1);
        isNotOpened(Argument.BAD_CONFIG, Settings.every(-1), new long[] {1}, 0, 1);
        isNotOpened(Argument.BAD_SHAPE, SETTINGS, new long[] {}, 0, 1);
        isNotOpened(Argument.BAD_SHAPE, SETTINGS, new long[] {4097}, 0, 1);
        isNotOpened(Argument.BAD_MOMENT, SETTINGS, new long[] {1}, 1L << 62, 1);
        isNotOpened(Argument.BAD_FIRST, SETTINGS, new long[] {1}, 0, 0);
        Coordinator.open(SETTINGS, new long[] {1}, (1L << 62) - 1, (1L << 62) - 1).close();
    }

    /** Each value of the settings reaches its place: the other places have their least value, which one above their limit is not. */
    @Test
    void eachSettingHasItsPlace() {
        long[] least = {10, 0, 1, 1, 0, 1}, most = {1L << 40, 1L << 40, 64, 1L << 40, 1000, 1000};
        for (int place = 0; place < least.length; place++) {
            long[] numbers = {least[0], least[1], least[2], least[3], least[4], least[5], 0};
            numbers[place] = most[place];
            Coordinator.open(Settings.of(numbers), new long[] {1}, 0).close();
            numbers[place] = most[place] + 1;
            isNotOpened(Argument.BAD_CONFIG, Settings.of(numbers), new long[] {1}, 0, 1);
        }
        Settings all = SETTINGS.withPause(2).withAtOnce(3).withTimeout(4).withTolerable(5).withRetained(6).withKeepOnCancel(true);
        assertEquals(new Settings(1000, 2, 3, 4, 5, 6, true), all);
        try (Coordinator job = Jobs.opened(SETTINGS.withKeepOnCancel(true), 1)) {
            job.tick(1000);
            job.ack(1000, 1, 0, 0, Jobs.files(1));
            assertEquals(new Reply.Cancelled(0, 0), job.cancel(1000));
        }
    }

    private static void isTooLarge(Executable call) {
        assertEquals(Refusal.MOMENT_TOO_LARGE, assertThrows(CoordinatorException.Refused.class, call).refusal());
    }

    @Test
    void aMomentThatIsFarAheadIsRefused() {
        try (Coordinator job = Jobs.opened(SETTINGS, 1)) {
            job.tick(1000);
            long late = 1000 + SETTINGS.timeout() + DAY + 1; // a timer may wait until checkpoint 1 expires
            byte[] image = job.save();
            List<Executable> calls = List.of(() -> job.tick(late), () -> job.savepoint(late), () -> job.ack(late, 1, 0, 0, Jobs.files(1)), () -> job.decline(late, 1, 0, 0),
                () -> job.restoreLatest(late), () -> job.restoreLatest(late, new long[] {1}), () -> job.restoreSavepoint(late, 1), () -> job.cancel(late),
                () -> job.tick((1L << 62) - 1), () -> job.tick(1L << 62), () -> job.tick(-1));
            calls.forEach(CoordinatorTest::isTooLarge);
            assertArrayEquals(image, job.save());
            assertEquals(DAY, job.mostAhead());
            job.ack(late - 1, 1, 0, 0, Jobs.files(1));
            job.setMostAhead(2 * DAY);
            job.tick(late + DAY);
            assertEquals(late + DAY, job.moment());
            assertThrows(CoordinatorException.OutOfRange.class, () -> job.setMostAhead(-1));
        }
    }

    @Test
    void aNumberThatDoesNotFitIsNotCut() {
        try (Coordinator job = Jobs.opened(SETTINGS, 2)) {
            job.tick(1000);
            byte[] image = job.save();
            List<Executable> calls = List.of(() -> job.ack(1000, 1, 65536, 0, Jobs.files(1)), () -> job.ack(1000, 1, 0, 65536, Jobs.files(1)), () -> job.ack(1000, 1, -1, 0, Jobs.files(1)),
                () -> job.decline(1000, 1, 65536, 0), () -> job.decline(1000, 1, 0, -65536), () -> job.filesOf(1, 65536, 0), () -> job.filesOf(1, 0, -1), () -> job.take(-1),
                () -> job.line(Jobs.line("take 1"), -1), () -> job.restoreSavepoint(1000, 0));
            calls.forEach(it -> assertThrows(CoordinatorException.OutOfRange.class, it));
            assertThrows(CoordinatorException.Refused.class, () -> job.ack(1000, 1, 65535, 0, Jobs.files(1)));
            for (Executable call : List.<Executable>of(() -> job.restoreLatest(1000, new long[] {}), () -> job.restoreSavepoint(1000, 1, new long[] {}))) {
                assertEquals(Argument.BAD_SHAPE, assertThrows(CoordinatorException.BadArgument.class, call).argument());
            }
            assertArrayEquals(image, job.save());
            assertEquals(new Reply.AckPending(1), job.ack(1000, 1, 0, 0, Jobs.files(-1)));
            assertEquals("Counted[file=18446744073709551615, uses=1]", job.count(-1).toString());
        }
    }

    @Test
    void nullIsNoArgument() {
        try (Coordinator job = Jobs.opened(SETTINGS, 1)) {
            List<Executable> calls = List.of(() -> job.ack(0, 1, 0, 0, null), () -> job.ack(0, 1, 0, 0, Jobs.files(), (long[]) null), () -> job.line(null), () -> job.restoreLatest(0, null),
                () -> Coordinator.open(null, new long[] {1}, 0), () -> Coordinator.open(SETTINGS, null, 0), () -> Coordinator.openSaved(null), () -> Lines.says(null),
                () -> Lines.opening(SETTINGS, null, 0), () -> Lines.ack(0, 1, 0, 0, null));
            calls.forEach(it -> assertThrows(NullPointerException.class, it));
        }
    }

    @Test
    void aClosedOneStaysClosed() {
        Coordinator job = Jobs.opened(SETTINGS, 1);
        job.close();
        job.close();
        List<Executable> calls = List.of(() -> job.tick(1000), () -> job.savepoint(1000), () -> job.ack(1000, 1, 0, 0, Jobs.files(1)), () -> job.decline(1000, 1, 0, 0), () -> job.dispose(1),
            () -> job.restoreLatest(1000), () -> job.restoreLatest(1000, new long[] {2}), () -> job.restoreSavepoint(1000, 1), () -> job.cancel(1000), () -> job.take(1), () -> job.deleted(1),
            () -> job.undeleted(1), () -> job.show(1), () -> job.count(1), job::save, () -> job.line(Jobs.line("tick 1000")), job::mode, job::moment, job::due, job::oldestExpiry, job::choice,
            () -> job.live(0), () -> job.missing(1), job::fileCounts, () -> job.liveFrom(0), () -> job.standing(1), () -> job.filesOf(1, 0, 0), () -> job.pinsOf(1), () -> job.waitingFile(0),
            job::takenFiles, () -> job.nextTick(null), () -> job.waitForCall(100));
        calls.forEach(it -> assertThrows(CoordinatorException.Closed.class, it));
    }
}

package relkvanu;

import static org.junit.jupiter.api.Assertions.assertArrayEquals;
import static org.junit.jupiter.api.Assertions.assertEquals;
import static org.junit.jupiter.api.Assertions.assertThrows;

import java.util.List;
import java.util.stream.LongStream;
import org.junit.jupiter.api.Test;

/** Bytes that are no image, and reads of long lists. RowsTest has what the other reads return, and MemoryTest saved coordinators that go on. */
class ReadsTest {
    @Test
    void bytesThatAreNoImageOpenNothing() {
        String image;
        try (Coordinator job = Jobs.withCheckpoint3()) {
            image = Lines.text(job.save());
        }
        for (String it : List.of("", "{}", "\u00ff", image.substring(1), image + "x")) {
            assertEquals(Argument.BAD_IMAGE, assertThrows(CoordinatorException.BadArgument.class, () -> Coordinator.openSaved(Jobs.line(it)).close()).argument());
        }
    }

    /** More files than the stack has places for, in each call that has a list. */
    @Test
    void longLists() {
        long[] files = LongStream.range(0, 3000).map(it -> it - 3000).toArray(); // the greatest unsigned numbers
        try (Coordinator job = Jobs.opened(Settings.every(1000), 1)) {
            job.tick(1000);
            job.ack(1000, 1, 0, 0, files);
            assertArrayEquals(files, job.filesOf(1, 0, 0).orElseThrow());
            assertArrayEquals(files, job.show(1).files().get(new Subtask(0, 0)));
            job.tick(2000);
            assertArrayEquals(files, job.pinsOf(2));
            job.ack(2000, 2, 0, 0, Jobs.files(), files);
            try (Coordinator again = Coordinator.openSaved(job.save())) {
                assertEquals(new Reply.Cancelled(1, 3000), again.cancel(2000));
                assertArrayEquals(files, again.take(Integer.MAX_VALUE).files());
                assertArrayEquals(files, again.takenFiles());
            }
            job.cancel(2000);
            assertArrayEquals(files, ((Reply.Taken) job.line(Jobs.line("take 4000")).orElseThrow()).files());
        }
    }
}

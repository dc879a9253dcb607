package relkvanu;

import static org.junit.jupiter.api.Assertions.assertArrayEquals;
import static org.junit.jupiter.api.Assertions.assertEquals;
import static org.junit.jupiter.api.Assertions.assertTrue;

import java.util.Arrays;
import java.util.List;
import java.util.function.Function;
import java.util.function.Supplier;
import java.util.stream.LongStream;
import org.junit.jupiter.api.Tag;
import org.junit.jupiter.api.Test;

/**
 * Memory that runs out, over a library whose heap refuses one request after the other (bindings/c/tests/refusing_heap.c): a call that fails for that
 * reason says so and has changed nothing, and is made again. The copies of long arrays are of that heap, too.
 */
@Tag("refusing")
class MemoryTest {
    private static final long[] MANY = LongStream.rangeClosed(100, 400).toArray();
    private int faults;

    private static String text(Object told) {
        return told instanceof long[] files ? FileNumbers.toString(files) : told.toString();
    }

    /** Makes a call with a request refused, and once more if it ran out of memory. Before that it has changed nothing. */
    private <T> T withRefusal(long nth, Supplier<T> call, Runnable unchanged) {
        Heap.refuse(nth);
        try {
            return call.get();
        } catch (CoordinatorException.NoMemory fault) {
            faults++;
            Heap.refuse(0);
            unchanged.run();
            return call.get();
        } finally {
            Heap.refuse(0);
        }
    }

    /** Makes the call of a coordinator; and of copies of it, each with another request refused. A call may reuse room that an earlier one left, and a copy has none. */
    private <T> T told(Coordinator job, Function<Coordinator, T> call) {
        byte[] image = job.save();
        long requests;
        try (Coordinator copy = Coordinator.openSaved(image)) {
            Heap.refuse(0);
            call.apply(copy);
            requests = Heap.requests();
        }
        T answer = call.apply(job);
        faults = 0;
        for (long nth = 1; nth <= requests; nth++) {
            try (Coordinator copy = Coordinator.openSaved(image)) {
                T again = withRefusal(nth, () -> call.apply(copy), () -> assertArrayEquals(image, copy.save()));
                assertEquals(text(answer), text(again));
                assertArrayEquals(job.save(), copy.save());
            }
        }
        assertTrue(faults > 0);
        return answer;
    }

    /** Long arrays are copied. */
    @Test
    void longListsOfNames() {
        try (Coordinator job = Coordinator.openFenced(Jobs.SETTINGS, new long[] {1}, 0, 1, 5)) {
            job.reserve(1, 1000);
            job.tick(1000);
            assertEquals(new Garbage(Jobs.files(), Jobs.files()), told(job, it -> it.garbage(MANY)));
            assertEquals(new Reply.AckCompleted(0, 0), told(job, it -> it.ackIn(1, 1000, 1, 0, 0, MANY)));
            assertEquals(new Reply.Forfeited(), told(job, it -> it.forfeit(1, LongStream.rangeClosed(401, 700).toArray())));
        }
    }

    @Test
    void longLists() {
        try (Coordinator job = Jobs.opened(Settings.every(1000), 1)) {
            job.tick(1000);
            assertEquals(new Reply.AckCompleted(0, 0), told(job, it -> it.ack(1100, 1, 0, 0, MANY)));
            job.tick(2100);
            assertEquals(new Reply.AckCompleted(1, 0), told(job, it -> it.ack(2200, 2, 0, 0, Jobs.files(1), MANY)));
            long[] files = told(job, it -> it.filesOf(2, 0, 0).orElseThrow());
            assertArrayEquals(MANY, Arrays.copyOfRange(files, 1, files.length));
            job.tick(3300);
            assertEquals(MANY.length + 1, told(job, it -> it.pinsOf(3)).length);
            job.cancel(3400);
            assertEquals(MANY.length, told(job, it -> it.take(MANY.length)).files().length);
            assertEquals(MANY.length, told(job, Reads::takenFiles).length);
        }
    }

    /** Opens a coordinator, with each request refused. Closes what it has opened. */
    private void opens(Supplier<Coordinator> make) {
        Heap.refuse(0);
        Coordinator job = make.get();
        long requests = Heap.requests();
        byte[] image = job.save();
        job.close();
        faults = 0;
        for (long nth = 1; nth <= requests; nth++) {
            try (Coordinator again = withRefusal(nth, make, () -> {})) {
                assertArrayEquals(image, again.save());
            }
        }
        assertTrue(faults > 1, "the handle, and what the library wants");
    }

    @Test
    void openings() {
        opens(() -> Jobs.opened(Jobs.SETTINGS, 2));
        opens(() -> Coordinator.open(Jobs.SETTINGS, LongStream.range(0, 200).map(it -> 1).toArray(), 0));
        opens(() -> Coordinator.openFenced(Jobs.SETTINGS, new long[] {2}, 0, 1, 5));
        Coordinator named = Coordinator.openFenced(Jobs.SETTINGS, new long[] {2}, 0, 1, 5);
        named.reserve(1, 3);
        for (Coordinator job : List.of(Jobs.withCheckpoint3(), named)) {
            byte[] image = job.save();
            job.close();
            opens(() -> Coordinator.openSaved(image));
        }
    }
}

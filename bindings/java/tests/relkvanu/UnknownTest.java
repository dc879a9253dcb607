package relkvanu;

import static org.junit.jupiter.api.Assertions.assertThrows;

import java.util.List;
import org.junit.jupiter.api.Tag;
import org.junit.jupiter.api.Test;
import org.junit.jupiter.api.function.Executable;

/** Over a library with answers that no header has (bindings/build_odd_libraries), as a later version may give: each is an exception, and none is taken for another. */
@Tag("unknown")
class UnknownTest {
    @Test
    void answersThatNobodyKnows() {
        try (Coordinator job = Jobs.opened(Jobs.SETTINGS, 1)) {
            List<Executable> all = List.of(() -> job.tick(0), () -> job.ack(0, 1, 0, 0, Jobs.files()), () -> job.decline(0, 1, 0, 0), () -> job.restoreLatest(0), job::mode, job::choice,
                () -> job.live(0), () -> job.standing(1), () -> job.line(Jobs.line("")), () -> job.line(Jobs.line("x")), () -> Lines.says(Jobs.line("")), job::term, () -> job.reserve(1, 1),
                () -> job.savepoint(0), () -> job.dispose(1), () -> job.cancel(0), () -> job.take(1), () -> job.deleted(1), () -> job.undeleted(1), () -> job.count(1));
            all.forEach(it -> assertThrows(CoordinatorException.Unknown.class, it));
            assertThrows(CoordinatorException.NoMemory.class, job::save);
        }
    }
}

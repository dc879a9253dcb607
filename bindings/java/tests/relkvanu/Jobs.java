package relkvanu;

import java.nio.charset.StandardCharsets;
import java.util.ArrayList;
import java.util.List;

/** Jobs that several tests begin with. */
final class Jobs {
    static final Settings SETTINGS = Settings.every(1000).withAtOnce(2).withTimeout(5000);

    private Jobs() {}

    static long[] files(long... files) {
        return files;
    }

    static byte[] line(String text) {
        return text.getBytes(StandardCharsets.ISO_8859_1);
    }

    static Coordinator opened(Settings settings, long... shape) {
        return Coordinator.open(settings, shape, 0);
    }

    /** Checkpoint 1 is completed, savepoint 2 is pending, and checkpoint 3 replaces checkpoint 1. */
    static Coordinator withCheckpoint3() {
        Coordinator job = opened(SETTINGS, 2);
        job.tick(1000);
        job.ack(1100, 1, 0, 0, files(1, 2));
        job.savepoint(1200);
        job.ack(1300, 1, 0, 1, files(3));
        job.tick(2000);
        job.ack(2100, 3, 0, 0, files(4), 1);
        job.ack(2100, 3, 0, 1, files(5));
        return job;
    }

    /** A cancelled job: its files 1 to 20 wait for deletion. */
    static Coordinator cancelled() {
        Coordinator job = opened(Settings.every(1000).withTimeout(5000), 1);
        job.tick(1000);
        job.ack(1000, 1, 0, 0, java.util.stream.LongStream.rangeClosed(1, 20).toArray());
        job.cancel(1000);
        return job;
    }

    static List<Live> records(Coordinator job) {
        List<Live> found = new ArrayList<>();
        while (job.live(found.size()).isPresent()) {
            found.add(job.live(found.size()).orElseThrow());
        }
        return found;
    }
}

import java.io.ByteArrayOutputStream;
import java.io.IOException;
import java.nio.ByteBuffer;
import java.nio.channels.FileChannel;
import java.nio.charset.StandardCharsets;
import java.nio.file.Path;
import java.nio.file.StandardOpenOption;
import java.util.ArrayList;
import java.util.Arrays;
import java.util.EnumSet;
import java.util.List;
import relkvanu.*;

/**
 * Small.java LOG [new]: a coordinator that goes on from its log, a file of lines. Each run makes a checkpoint of one subtask, which has no files. The word
 * new makes the job. A crash cuts at most the line of a call that nobody had acted on.
 */
class Small implements AutoCloseable {
    private final FileChannel log;
    private final Coordinator core;
    private final int calls; // that the log has

    /** Makes the calls of the log again: the state is that of the last process. Then it cuts off what follows the last whole line. */
    private Small(FileChannel log, byte[] text) throws IOException {
        this.log = log;
        List<byte[]> lines = new ArrayList<>();
        int whole = 0;
        for (int place = 0; place < text.length; place++) {
            if (text[place] == '\n') {
                lines.add(Arrays.copyOfRange(text, whole, place));
                whole = place + 1;
            }
        }
        if (lines.size() < 3 || !(Lines.says(lines.get(0)) instanceof Line.Config config && Lines.says(lines.get(1)) instanceof Line.Job job
            && Lines.says(lines.get(2)) instanceof Line.Start start)) {
            throw new IOException("the file is no log");
        }
        core = Coordinator.open(config.settings(), job.shape(), start.now());
        calls = lines.size() - 3;
        lines.stream().skip(3).forEach(core::line);
        log.truncate(whole);
        log.position(whole);
    }

    /** Makes the call of a line, and writes the line. Only after that anybody acts on the reply. */
    private Reply call(String line) throws IOException {
        Reply reply = core.line(line.getBytes(StandardCharsets.UTF_8)).orElseThrow(); // a call that is refused needs no line
        write(log, line + "\n");
        return reply;
    }

    private static void write(FileChannel to, String text) throws IOException {
        ByteBuffer bytes = ByteBuffer.wrap(text.getBytes(StandardCharsets.UTF_8));
        while (bytes.hasRemaining()) {
            to.write(bytes);
        }
        to.force(true);
    }

    private static byte[] read(FileChannel from) throws IOException {
        ByteArrayOutputStream text = new ByteArrayOutputStream();
        ByteBuffer buffer = ByteBuffer.allocate(1 << 16);
        while (from.read(buffer.clear()) >= 0) {
            text.write(buffer.array(), 0, buffer.position());
        }
        return text.toByteArray();
    }

    /** Writes what a new log lacks of its first lines: a crash may have cut them. */
    private static byte[] begun(Path path, FileChannel log, byte[] text) throws IOException {
        String opening = Lines.opening(Settings.every(1000), new long[] {1}, 0);
        String found = new String(text, StandardCharsets.ISO_8859_1);
        if (!opening.startsWith(found)) {
            return text;
        }
        write(log, opening.substring(found.length()));
        try (FileChannel folder = FileChannel.open(path.toAbsolutePath().getParent())) {
            folder.force(true);
        }
        return opening.getBytes(StandardCharsets.UTF_8);
    }

    private void takeCheckpoint() throws IOException {
        call(Lines.restoreLatest(core.due())); // a record that was pending when the last process ended would never complete
        long now = core.due(); // the moment of the next tick, in ms: an engine has a clock
        long record = ((Reply.Triggered) call(Lines.tick(now))).id();
        call(Lines.ack(now + 100, record, 0, 0, new long[0]));
        System.out.println(calls + " calls were made again, and record " + record + " is complete");
    }

    @Override
    public void close() {
        core.close();
    }

    public static void main(String[] given) throws IOException {
        boolean isNew = given.length > 1 && given[1].equals("new");
        Path path = Path.of(given[0]);
        EnumSet<StandardOpenOption> options = EnumSet.of(StandardOpenOption.READ, StandardOpenOption.WRITE);
        if (isNew) {
            options.add(StandardOpenOption.CREATE);
        }
        try (FileChannel log = FileChannel.open(path, options)) {
            if (log.tryLock() == null) {
                throw new IOException("another process has the log");
            }
            byte[] text = read(log);
            try (Small small = new Small(log, isNew ? begun(path, log, text) : text)) {
                small.takeCheckpoint();
            }
        }
    }
}

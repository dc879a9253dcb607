package relkvanu;

import java.io.IOException;
import java.io.UncheckedIOException;
import java.lang.reflect.RecordComponent;
import java.nio.charset.StandardCharsets;
import java.nio.file.Files;
import java.nio.file.Path;
import java.util.ArrayList;
import java.util.Arrays;
import java.util.List;
import java.util.Locale;
import java.util.Map;
import java.util.Optional;
import java.util.function.Function;

/** The script of a row, and what its lines print. */
final class Script {
    /** What a reply prints, by its class, if that is not its name and its numbers. */
    private static final Map<Class<?>, Function<Reply, String>> TEXTS = new java.util.HashMap<>();

    final List<byte[]> lines;

    Script(List<byte[]> lines) {
        this.lines = lines;
    }

    private static <T extends Reply> void prints(Class<T> reply, Function<T, String> text) {
        TEXTS.put(reply, it -> text.apply(reply.cast(it)));
    }

    static {
        prints(Reply.Triggered.class, it -> "tick expired " + it.expired() + " triggered " + it.id());
        prints(Reply.HeldInterval.class, it -> "tick expired " + it.expired() + " held interval");
        prints(Reply.HeldAtOnce.class, it -> "tick expired " + it.expired() + " held at-once");
        prints(Reply.HeldPause.class, it -> "tick expired " + it.expired() + " held pause");
        prints(Reply.Failed.class, it -> "tick expired " + it.expired() + " failed");
        prints(Reply.Taken.class, it -> it.files().length == 0 ? "take none" : "take" + spaced(it.files()));
        prints(Reply.Shown.class, Reply.Shown::json);
        prints(Reply.Counted.class, it -> "count " + FileNumbers.toString(it.file()) + " " + it.uses());
        prints(Reply.Reserved.class, it -> "reserved " + it.first());
        prints(Reply.Named.class, it -> "term 1");
    }

    /** The name of a reply and its numbers, as in "ack completed 1 2". */
    private static String plain(Reply reply) {
        StringBuilder text = new StringBuilder(reply.getClass().getSimpleName().replaceAll("(?<=.)([A-Z])", " $1").toLowerCase(Locale.ROOT));
        try {
            for (RecordComponent it : reply.getClass().getRecordComponents()) {
                text.append(' ').append(FileNumbers.toString((long) it.getAccessor().invoke(reply)));
            }
        } catch (ReflectiveOperationException fault) {
            throw new AssertionError(reply.toString(), fault);
        }
        return text.toString();
    }

    private static String spaced(long[] files) {
        StringBuilder text = new StringBuilder();
        for (long file : files) {
            text.append(' ').append(FileNumbers.toString(file));
        }
        return text.toString();
    }

    static Script of(Path path) {
        try {
            String text = Files.readString(path, StandardCharsets.ISO_8859_1);
            String ended = text.endsWith("\n") ? text.substring(0, text.length() - 1) : text;
            return new Script(Arrays.stream(ended.split("\n", -1)).map(Jobs::line).toList());
        } catch (IOException fault) {
            throw new UncheckedIOException(fault);
        }
    }

    /** What a line is; a fault is a call, which then has the fault. */
    private static Line says(byte[] line) {
        try {
            return Lines.says(line);
        } catch (CoordinatorException.BadLine fault) {
            return new Line.Skip();
        }
    }

    /** Opens the job as the config, job and start lines say; empty if there is not one of each and then only calls. */
    Optional<Coordinator> opened() {
        List<Line> says = lines.stream().map(Script::says).filter(it -> !(it instanceof Line.Skip)).toList();
        if (says.size() < 3 || !says.stream().skip(3).allMatch(it -> it instanceof Line.Call)) {
            return Optional.empty();
        }
        boolean isConfigFirst = says.get(0) instanceof Line.Config;
        if (says.get(isConfigFirst ? 0 : 1) instanceof Line.Config config && says.get(isConfigFirst ? 1 : 0) instanceof Line.Job job && says.get(2) instanceof Line.Start start) {
            return Optional.of(Coordinator.open(config.settings(), job.shape(), start.now()));
        }
        return Optional.empty();
    }

    /** What the lines print, if each is made so. */
    List<String> printed(Function<byte[], Optional<Reply>> make) {
        List<String> output = new ArrayList<>();
        for (int place = 0; place < lines.size(); place++) {
            printed(make, place).ifPresent(output::add);
        }
        return output;
    }

    /** What a line prints. */
    Optional<String> printed(Function<byte[], Optional<Reply>> make, int place) {
        try {
            return make.apply(lines.get(place)).map(it -> TEXTS.getOrDefault(it.getClass(), Script::plain).apply(it));
        } catch (CoordinatorException.BadLine fault) {
            return fault.fault() == LineFault.NO_CALL ? Optional.empty() : Optional.of("line " + (place + 1) + " fault " + fault.getMessage());
        } catch (CoordinatorException.Refused | CoordinatorException.BadArgument fault) {
            return Optional.of("refused " + fault.getMessage());
        } catch (CoordinatorException.Fenced fault) {
            return Optional.of("fenced " + fault.getMessage());
        }
    }
}

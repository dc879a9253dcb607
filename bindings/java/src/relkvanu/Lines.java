package relkvanu;

import java.nio.charset.StandardCharsets;
import java.util.Objects;
import java.util.OptionalLong;

/**
 * Lines of a script (docs/SCRIPT.md) and of a log with names (docs/LOGS.md): a log of calls, which the library writes and reads. {@link
 * Coordinator#line} makes the call of one.
 *
 * <p>A line that is written has no newline. It reads back as its call. If it would be too long, it throws {@code BadLine}: none is cut.
 */
public final class Lines {
    private static final long[] NONE = {};
    private static final long NO_TERM = 0;

    private Lines() {}

    static String text(byte[] utf8) {
        return new String(utf8, StandardCharsets.UTF_8);
    }

    /** Reads which line it is. Throws {@code BadLine}. Checks no number against the limits of a job. */
    public static Line says(byte[] line) {
        Objects.requireNonNull(line, "line");
        Library.need();
        long[] out = new long[Native.ANSWER];
        long[] numbers = Answers.numbers(0, out, (at, buffer, to) -> Native.lineSays(line, buffer, to));
        return switch ((int) out[1]) {
            case Header.LINE_SKIP -> new Line.Skip();
            case Header.LINE_CONFIG -> new Line.Config(Settings.of(numbers));
            case Header.LINE_JOB -> new Line.Job(numbers);
            case Header.LINE_START -> new Line.Start(numbers[0]);
            case Header.LINE_CALL -> new Line.Call();
            case Header.LINE_ALL -> new Line.All(numbers[0], numbers[1], numbers[2], numbers[3]);
            default -> throw new CoordinatorException.Unknown("line", out[1]);
        };
    }

    /** The record of a show line; empty for another line. */
    static OptionalLong shown(byte[] line) {
        long[] call = new long[Native.CALL];
        Native.lineCall(line, call, NONE, NONE, new long[Native.ANSWER]);
        return call[0] == Header.CALL_SHOW ? OptionalLong.of(call[4]) : OptionalLong.empty();
    }

    /**
     * Writes the lines config, job and start of a coordinator whose first record has the number 1, each with its newline. Throws {@code
     * BadArgument} if none could be opened so.
     */
    public static String opening(Settings settings, long[] shape, long now) {
        long[] numbers = settings.numbers();
        Objects.requireNonNull(shape, "shape");
        Library.need();
        return text(Answers.bytes(0, new long[Native.ANSWER], (at, lines, out) -> Native.openingLines(numbers, shape, now, lines, out)));
    }

    private static String line(int kind, int vertex, int index, long now, long number, long term, long[] first, long[] second) {
        long[] call = {kind, Checks.u16(vertex, "vertex"), Checks.u16(index, "index"), now, number, term};
        Objects.requireNonNull(first, "fresh");
        Objects.requireNonNull(second, "reused");
        Library.need();
        return text(Answers.bytes(0, new long[Native.ANSWER], (at, line, out) -> Native.callLine(call, first, second, line, out)));
    }

    private static String line(int kind, long now, long number) {
        return line(kind, 0, 0, now, number, NO_TERM, NONE, NONE);
    }

    // bindings/generate makes the lines of calls
    /** {@return the line of a tick} */
    public static String tick(long now) {
        return line(Header.CALL_TICK, now, 0);
    }

    /** {@return the line of a savepoint} */
    public static String savepoint(long now) {
        return line(Header.CALL_SAVEPOINT, now, 0);
    }

    /** {@return the line of a dispose} */
    public static String dispose(long id) {
        return line(Header.CALL_DISPOSE, 0, id);
    }

    /** {@return the line of a cancel} */
    public static String cancel(long now) {
        return line(Header.CALL_CANCEL, now, 0);
    }

    /** {@return the line of a deleted} */
    public static String deleted(long file) {
        return line(Header.CALL_DELETED, 0, file);
    }

    /** {@return the line of an undeleted} */
    public static String undeleted(long file) {
        return line(Header.CALL_UNDELETED, 0, file);
    }

    /** {@return the line of a count} */
    public static String count(long file) {
        return line(Header.CALL_COUNT, 0, file);
    }

    /** {@return the line of a fence} */
    public static String fence(long firstName) {
        return line(Header.CALL_FENCE, 0, firstName);
    }

    /** {@return the line of a trigger} */
    public static String trigger(long now) {
        return line(Header.CALL_TRIGGER, now, 0);
    }

    /** {@return the line of an ack} */
    public static String ack(long now, long id, int vertex, int index, long[] fresh, long... reused) {
        return line(Header.CALL_ACK, vertex, index, now, id, NO_TERM, fresh, reused);
    }

    /** {@return the line of a decline} */
    public static String decline(long now, long id, int vertex, int index) {
        return line(Header.CALL_DECLINE, vertex, index, now, id, NO_TERM, NONE, NONE);
    }

    /** {@return the line of a reserve} */
    public static String reserve(long term, long count) {
        return line(Header.CALL_RESERVE, 0, 0, 0, count, term, NONE, NONE);
    }

    /** {@return the line of a forfeit} */
    public static String forfeit(long term, long... names) {
        return line(Header.CALL_FORFEIT, 0, 0, 0, 0, term, names, NONE);
    }

    /** {@return the line of an ack in} */
    public static String ackIn(long term, long now, long id, int vertex, int index, long[] fresh, long... reused) {
        return line(Header.CALL_ACK, vertex, index, now, id, term, fresh, reused);
    }

    /** {@return the line of a decline in} */
    public static String declineIn(long term, long now, long id, int vertex, int index) {
        return line(Header.CALL_DECLINE, vertex, index, now, id, term, NONE, NONE);
    }
    // bindings/generate: end

    /** {@return the line of a restore from the latest record} */
    public static String restoreLatest(long now) {
        return line(Header.CALL_RESTORE, now, 0);
    }

    /** {@return the line of a restore from the latest record, in a new shape} */
    public static String restoreLatest(long now, long[] shape) {
        return line(Header.CALL_RESTORE, 0, 0, now, 0, NO_TERM, Checks.shape(shape), NONE);
    }

    /** {@return the line of a restore from a savepoint} */
    public static String restoreSavepoint(long now, long id) {
        return line(Header.CALL_RESTORE, now, Checks.savepoint(id));
    }

    /** {@return the line of a restore from a savepoint, in a new shape} */
    public static String restoreSavepoint(long now, long id, long[] shape) {
        return line(Header.CALL_RESTORE, 0, 0, now, Checks.savepoint(id), NO_TERM, Checks.shape(shape), NONE);
    }

    /** {@return the line of a take} */
    public static String take(long most) {
        return line(Header.CALL_TAKE, 0, most);
    }

    /** {@return the line of a show} */
    public static String show(long id) {
        return line(Header.CALL_SHOW, 0, id);
    }
}

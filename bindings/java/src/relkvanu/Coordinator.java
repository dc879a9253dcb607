package relkvanu;

import java.lang.ref.Cleaner;
import java.security.SecureRandom;
import java.util.Objects;
import java.util.Optional;

/**
 * The checkpoint coordinator of one job, with a method for each call.
 *
 * <p><b>Threads</b> may share it: its own lock admits one call at a time. To make several calls with no other thread's call between them,
 * use {@link #locked}. Arrays are copied before a call, so another thread may change them then.
 *
 * <p><b>Faults.</b> Each call throws a {@link CoordinatorException} if it is not made: {@code Refused}, {@code NoMemory} if memory of the
 * library runs out, {@code Closed} after {@link #close}, {@code OutOfRange} if a number would be cut. Then nothing has changed. An
 * {@link OutOfMemoryError} is another thing: it is of the heap of Java, and may come after the call was made. Then end the process, and go
 * on from the log.
 *
 * <p><b>Files.</b> If an acknowledgement is accepted, its fresh files belong to the coordinator. Otherwise the task deletes a file only if no
 * accepted acknowledgement ever named it. So it deletes none after {@code ALREADY_ACKNOWLEDGED}, the answer to a repeat, and {@code SPENT}. After
 * {@code NAME_TAKEN} it deletes no file that it named before.
 *
 * <p><b>Names.</b> A coordinator with names ({@link #openFenced}, {@link #fence}) gives out the numbers of the files that tasks will write,
 * each once, and counts the terms of the job. Each accepted restore and cancel ends the term. What a task of an ended term sends throws {@code
 * Fenced} with {@code OLD_TERM}. Whoever restarts the tasks tells them the term, which it reads by {@link #term} after the restore. A coordinator
 * without names throws {@code Fenced} with {@code NO_NAMES}.
 *
 * <p><b>Closing.</b> Its memory is not in the heap of Java, so use it in a {@code try} with resources. A call that another thread is in ends
 * first. One that is lost is closed when the heap is collected, which may be never.
 *
 * <p><b>Moments</b> come from a clock that never jumps. A moment that is far ahead would stop the job's checkpoints until then. So a call is
 * refused as {@code MOMENT_TOO_LARGE} if its moment is more than {@link #mostAhead} milliseconds beyond the greatest moment so far, and
 * beyond what a timer waits for. That is a day, unless an engine sets it, which it does if a longer time may pass without a call. Lines
 * of a log are not checked.
 */
public final class Coordinator extends Reads implements AutoCloseable {
    private static final long DAY = 24L * 60 * 60 * 1000;
    private static final long LAST_MOMENT = (1L << 62) - 1;
    private static final long[] SAME_SHAPE = {};
    private static final SecureRandom RANDOM = new SecureRandom();
    private static final Cleaner CLEANER = Cleaner.create();

    private final Cleaner.Cleanable cleanable = CLEANER.register(this, handle);
    private volatile long mostAhead = DAY;

    /** Opens it by a native function. */
    private Coordinator(Handle.Call opening) {
        super(new Handle());
        try {
            handle.call(opening, (what, a, b) -> what);
        } catch (RuntimeException | Error fault) {
            close();
            throw fault;
        }
    }

    /** Opens the coordinator of a new job, whose first record has the number 1. */
    public static Coordinator open(Settings settings, long[] shape, long now) {
        return open(settings, shape, now, 1);
    }

    /** Opens a coordinator. Throws {@code BadArgument} for the settings first, then for the shape, the moment and the first number. */
    public static Coordinator open(Settings settings, long[] shape, long now, long first) {
        long[] numbers = settings.numbers();
        Objects.requireNonNull(shape, "shape");
        return new Coordinator((at, out) -> Native.open(at, numbers, shape, now, first, RANDOM.nextLong(), RANDOM.nextLong(), out));
    }

    /**
     * Opens a coordinator with names, in term 1. {@link #ack} and {@link #decline} throw {@code Fenced} then: its tasks call {@link #ackIn} and
     * {@link #declineIn}. Throws {@code BadArgument} for the settings first, then for the shape, the first name, the moment and the first
     * number.
     */
    public static Coordinator openFenced(Settings settings, long[] shape, long now, long first, long firstName) {
        long[] numbers = settings.numbers();
        Objects.requireNonNull(shape, "shape");
        return new Coordinator((at, out) -> Native.openFenced(at, numbers, shape, now, first, firstName, RANDOM.nextLong(), RANDOM.nextLong(), out));
    }

    /**
     * Opens the coordinator that an image describes, which {@link #save} returned: with names if the image has some. It answers every list of
     * calls as the saved one would. Throws {@code BadArgument} if the bytes are not an image, or if the state is not sound, or no coordinator
     * could be opened so.
     *
     * <p>All calls that were made after the save are made again, before any task makes a call. Otherwise names that were given out since then
     * are given out again, and a term that has ended runs again.
     */
    public static Coordinator openSaved(byte[] image) {
        Objects.requireNonNull(image, "image");
        return new Coordinator((at, out) -> Native.openSaved(at, image, RANDOM.nextLong(), RANDOM.nextLong(), out));
    }

    /** {@return the version of the native library: three numbers, such as "1.2.3"} */
    public static String version() {
        Library.need();
        return Native.version();
    }

    /** Closes the coordinator and frees its memory. A closed one stays closed. Threads that wait for a call get {@code Closed}. */
    @Override
    public void close() {
        cleanable.clean();
    }

    private Reply replied(Handle.Call call) {
        return call(call, Answers::reply);
    }

    /** A call at a moment. */
    private Reply timed(long now, Handle.Call call) {
        return locked(() -> {
            if (now >= 0 && now <= LAST_MOMENT && isAhead(now)) {
                throw new CoordinatorException.Refused(Refusal.MOMENT_TOO_LARGE, 0);
            }
            return handle.moved(call);
        });
    }

    private boolean isAhead(long now) {
        long past = now - mostAhead;
        return past > moment() && past > due() && past > oldestExpiry().orElse(0);
    }

    /** {@return how many milliseconds a moment may be ahead} */
    public long mostAhead() {
        return mostAhead;
    }

    /** Sets how many milliseconds a moment may be ahead. */
    public void setMostAhead(long millis) {
        mostAhead = Checks.natural(millis, "a time");
    }

    // bindings/generate makes the calls of one number
    /** Time has passed: records that are too old expire, and a checkpoint is triggered if one is due. */
    public Reply.Tick tick(long now) {
        return (Reply.Tick) timed(now, (at, out) -> Native.tick(at, now, out));
    }

    /** Triggers a savepoint. At most 1000 savepoints are pending or done. */
    public Reply.SavepointTriggered savepoint(long now) {
        return (Reply.SavepointTriggered) timed(now, (at, out) -> Native.savepoint(at, now, out));
    }

    /** A user disposes of the completed savepoint id. */
    public Reply.Disposed dispose(long id) {
        return (Reply.Disposed) replied((at, out) -> Native.dispose(at, id, out));
    }

    /** The job ends for good. */
    public Reply.Cancelled cancel(long now) {
        return (Reply.Cancelled) timed(now, (at, out) -> Native.cancel(at, now, out));
    }

    /** A fetched file is deleted: the coordinator forgets it. */
    public Reply.Deleted deleted(long file) {
        return (Reply.Deleted) replied((at, out) -> Native.deleted(at, file, out));
    }

    /** A fetched file could not be deleted: it waits again, behind all others. */
    public Reply.Undeleted undeleted(long file) {
        return (Reply.Undeleted) replied((at, out) -> Native.undeleted(at, file, out));
    }

    /**
     * Triggers a checkpoint now, whatever the interval and the pause. Nothing expires: make a tick first if records may be too old. The
     * interval counts from it, as after a tick that triggers.
     */
    public Reply.Tick trigger(long now) {
        return (Reply.Tick) timed(now, (at, out) -> Native.trigger(at, now, out));
    }
    // bindings/generate: end

    // bindings/generate makes the calls of tasks
    /**
     * The subtask vertex.index has taken its part of record id. fresh has the files that it wrote. reused has files of earlier records that it
     * uses again. Both may be in any order, with at most 4096 files together. After a refusal the task must not delete a file that an accepted
     * acknowledgement ever named.
     */
    public Reply.Ack ack(long now, long id, int vertex, int index, long[] fresh, long... reused) {
        Checks.subtask(vertex, index);
        Objects.requireNonNull(fresh, "fresh");
        Objects.requireNonNull(reused, "reused");
        return (Reply.Ack) timed(now, (at, out) -> Native.ack(at, now, id, vertex, index, fresh, reused, out));
    }

    /** The subtask vertex.index could not take its part of record id. */
    public Reply.Decline decline(long now, long id, int vertex, int index) {
        Checks.subtask(vertex, index);
        return (Reply.Decline) timed(now, (at, out) -> Native.decline(at, now, id, vertex, index, out));
    }

    /** A task of this term reserves names for files that it will write, 1 to 65536 of them. */
    public Reply.Reserved reserve(long term, long count) {
        return (Reply.Reserved) replied((at, out) -> Native.reserve(at, term, count, out));
    }

    /**
     * A task of this term gives up names that it will not acknowledge, such as those of a failed upload: their files are garbage then. Names
     * that the term does not hold are passed over, so the call can be repeated.
     */
    public Reply.Forfeited forfeit(long term, long... names) {
        Objects.requireNonNull(names, "names");
        return (Reply.Forfeited) replied((at, out) -> Native.forfeit(at, term, names, out));
    }

    /**
     * Begins a job again that goes on from an older image or log, such as one that was restored from a backup: restore of the latest, in the
     * shape that the job has, in a term above term, the greatest that any task was told, and with names from first_name on, 1 to 2^62, above
     * each that was given out. A smaller term and a smaller first_name lower nothing. Names that are passed over are garbage, unless the
     * handle's records use them. Make this call before any other of such a job. docs/RULES.md, section 13, says what it is for.
     */
    public Reply.Restore advance(long now, long term, long firstName) {
        return (Reply.Restore) timed(now, (at, out) -> Native.advance(at, now, term, firstName, out));
    }

    /**
     * ack of a task of this term. An accepted acknowledgement spends the names of its fresh files. So a task does not delete a file for Spent.
     */
    public Reply.Ack ackIn(long term, long now, long id, int vertex, int index, long[] fresh, long... reused) {
        Checks.subtask(vertex, index);
        Objects.requireNonNull(fresh, "fresh");
        Objects.requireNonNull(reused, "reused");
        return (Reply.Ack) timed(now, (at, out) -> Native.ackIn(at, term, now, id, vertex, index, fresh, reused, out));
    }

    /** decline of a task of this term. */
    public Reply.Decline declineIn(long term, long now, long id, int vertex, int index) {
        Checks.subtask(vertex, index);
        return (Reply.Decline) timed(now, (at, out) -> Native.declineIn(at, term, now, id, vertex, index, out));
    }
    // bindings/generate: end

    /** The job begins again from the latest record, in its shape. */
    public Reply.Restore restoreLatest(long now) {
        return restore(now, 0, SAME_SHAPE);
    }

    /** The job begins again from the latest record, in a new shape. A bad shape is a {@code BadArgument}, before any refusal. */
    public Reply.Restore restoreLatest(long now, long[] shape) {
        return restore(now, 0, Checks.shape(shape));
    }

    /** The job begins again from a savepoint, in its shape. */
    public Reply.Restore restoreSavepoint(long now, long id) {
        return restore(now, Checks.savepoint(id), SAME_SHAPE);
    }

    /** The job begins again from a savepoint, in a new shape. A bad shape is a {@code BadArgument}, before any refusal. */
    public Reply.Restore restoreSavepoint(long now, long id, long[] shape) {
        return restore(now, Checks.savepoint(id), Checks.shape(shape));
    }

    private Reply.Restore restore(long now, long savepoint, long[] shape) {
        return (Reply.Restore) timed(now, (at, out) -> Native.restore(at, now, savepoint, shape, out));
    }

    /**
     * Gives the coordinator names, in term 1. Make the call between the end of all tasks and their restart, since a task that began before
     * it has no term. Throws {@code Fenced} with {@code HAS_NAMES} if it has some, {@code BadArgument} with {@code BAD_NAME}, and {@code Fenced}
     * with {@code NAME_IN_USE} if a known file has this number or a greater one.
     */
    public Reply.Named fence(long firstName) {
        return (Reply.Named) replied((at, out) -> Native.fence(at, firstName, out));
    }

    /**
     * Fetches files that wait for deletion. Report each by {@link #deleted} or {@link #undeleted}. A repeated acknowledgement that comes late
     * may hand out a file that no longer exists: report it as deleted.
     */
    public Reply.Taken take(int most) {
        Checks.natural(most, "a number of files");
        return fenced(() -> handle.take(most));
    }

    /** Shows the metadata of a live record. */
    public Reply.Shown show(long id) {
        return new Reply.Shown(Lines.text(bytes((at, json, out) -> Native.show(at, id, json, out))));
    }

    /** Counts the uses of a file, by acknowledgements and pins of live records. */
    public Reply.Counted count(long file) {
        return (Reply.Counted) replied((at, out) -> Native.count(at, file, out));
    }

    /** {@return the image of the coordinator, all of its state, as JSON in UTF-8} */
    public byte[] save() {
        return bytes(Native::save);
    }

    /** Makes the call of a line of a script, with at most 4096 files in a take line. */
    public Optional<Reply> line(byte[] line) {
        return line(line, 4096);
    }

    /**
     * Makes the call of a line of a script. Throws {@code BadLine} if it can't be read or makes no call, and what the call throws. A take
     * line that would fetch more files than it may throws {@code TooShort}.
     */
    public Optional<Reply> line(byte[] line, int most) {
        byte[] own = line.clone();
        Checks.natural(most, "a number of files");
        return fenced(() -> handle.line(own, most));
    }
}

package relkvanu;

import java.lang.ref.Reference;
import java.time.Duration;
import java.util.Optional;
import java.util.OptionalLong;
import java.util.function.Supplier;

/** The reads of a {@link Coordinator}, and what a timer waits for. */
abstract sealed class Reads permits Coordinator {
    final Handle handle;

    Reads(Handle handle) {
        this.handle = handle;
    }

    /** No thread closes a lost coordinator while this goes on. */
    final <T> T fenced(Supplier<T> work) {
        try {
            return work.get();
        } finally {
            Reference.reachabilityFence(this);
        }
    }

    final <T> T call(Handle.Call call, Handle.Read<T> read) {
        return fenced(() -> handle.call(call, read));
    }

    final byte[] bytes(Answers.Write<byte[]> write) {
        return fenced(() -> handle.bytes(write));
    }

    final Optional<long[]> files(Answers.Write<long[]> write) {
        return fenced(() -> handle.files(write));
    }

    /** Makes calls with no other thread's call between them. Delete, send and wait outside of it. */
    public <T> T locked(Supplier<T> calls) {
        return fenced(() -> handle.locked(calls));
    }

    /** {@return the number of calls so far that may have changed what a timer waits for} */
    public long calls() {
        return handle.calls();
    }

    /** Waits until {@link #calls} is above a number. */
    public void waitForCall(long seen) throws InterruptedException {
        waitForNanos(seen, Long.MAX_VALUE);
    }

    /** Waits until {@link #calls} is above a number, or a time is over. */
    public void waitForCall(long seen, Duration atMost) throws InterruptedException {
        waitForNanos(seen, atMost.compareTo(Duration.ofNanos(Long.MAX_VALUE)) < 0 ? atMost.toNanos() : Long.MAX_VALUE);
    }

    private void waitForNanos(long seen, long nanos) throws InterruptedException {
        try {
            handle.waitForCall(seen, nanos);
        } finally {
            Reference.reachabilityFence(this);
        }
    }

    // Reads: none changes anything. None but pinsOf and takenFiles wants memory of the library.

    // bindings/generate makes the reads
    /** What the job is doing. */
    public Mode mode() {
        return call(Native::mode, (what, a, b) -> Mode.of(what));
    }

    /**
     * The greatest moment that the coordinator has seen, at its opening or in an accepted call. It takes an earlier moment for this one. So it
     * shows whether a clock has run ahead.
     */
    public long moment() {
        return call(Native::moment, (what, a, b) -> a);
    }

    /**
     * The moment from which neither the interval nor the pause holds a checkpoint back. No tick before it triggers one. A tick at it or later
     * triggers one, with three exceptions: as many are pending as may be, the job is not running, or so many checkpoints expire in the tick
     * that the job fails over. A call that triggers, completes, restores or configures may move this moment, so read it again after a call.
     */
    public long due() {
        return call(Native::due, (what, a, b) -> a);
    }

    /**
     * The moment from which a pending record is expired. A tick at that moment drops the record. None if no record is pending. Visits each
     * pending record.
     */
    public OptionalLong oldestExpiry() {
        return call(Native::oldestExpiry, (what, a, b) -> what == Header.EXPIRES ? OptionalLong.of(a) : OptionalLong.empty());
    }

    /** The record that a restore of the latest would begin from. */
    public Optional<Chosen> choice() {
        return call(Native::choice, (what, a, b) -> Chosen.of(what, a));
    }

    /** The live record at this place, from 0, in order of their numbers; none past the last. The time grows with the place. */
    public Optional<Live> live(long place) {
        return call((at, out) -> Native.live(at, place, out), Live::of);
    }

    /** How many subtasks of this record have not acknowledged. None if no record with this number is pending. */
    public OptionalLong missing(long id) {
        return call((at, out) -> Native.missing(at, id, out), (what, a, b) -> what == Header.MISSING ? OptionalLong.of(a) : OptionalLong.empty());
    }

    /**
     * The live record with the least number that is at least id; none if there is none. To visit all live records, begin with 0, and go on
     * with the returned number plus 1. A binary search. Takes no memory.
     */
    public Optional<Live> liveFrom(long id) {
        return call((at, out) -> Native.liveFrom(at, id, out), Live::of);
    }

    /**
     * Whether the record with this number is pending, done or ended, or no record has had the number. A binary search. Takes no memory.
     */
    public Standing standing(long id) {
        return call((at, out) -> Native.standing(at, id, out), (what, a, b) -> Standing.of(what));
    }

    /**
     * The file at this place, from 0, among those that wait for deletion. The next to be fetched is the first. None past the last. Takes
     * constant time and no memory.
     */
    public OptionalLong waitingFile(long place) {
        return call((at, out) -> Native.waitingFile(at, place, out), (what, a, b) -> what == Header.WAITING ? OptionalLong.of(a) : OptionalLong.empty());
    }

    /**
     * The files that the subtask vertex.index acknowledged in the live record id, in ascending order. None if it has not acknowledged in one.
     */
    public Optional<long[]> filesOf(long id, int vertex, int index) {
        Checks.subtask(vertex, index);
        return files((at, files, out) -> Native.filesOf(at, id, vertex, index, files, out));
    }

    /**
     * The files that the pending record id pins, in ascending order: the files of the record that a restart would have begun from at its
     * trigger. None if no record with this number is pending.
     */
    public long[] pinsOf(long id) {
        return files((at, files, out) -> Native.pinsOf(at, id, files, out)).orElseThrow();
    }

    /** The files that were fetched for deletion and are not yet reported, in ascending order. */
    public long[] takenFiles() {
        return files(Native::takenFiles).orElseThrow();
    }
    // bindings/generate: end

    /**
     * The moment of the next tick after a tick, unless another call comes first: when a checkpoint is due or a pending record expires. While
     * as many are pending as may be, it is the expiry, because {@link #due} has passed. After a tick that ran out of memory it has passed:
     * wait for a second instead.
     */
    public OptionalLong nextTick(Reply.Tick ticked) {
        return locked(() -> {
            if (mode() != Mode.RUNNING) {
                return OptionalLong.empty();
            }
            OptionalLong expiry = oldestExpiry();
            return ticked instanceof Reply.HeldAtOnce ? expiry : OptionalLong.of(Math.min(due(), expiry.orElse(Long.MAX_VALUE)));
        });
    }

    /**
     * The term that runs, and the next name. Whoever restarts the tasks reads it after the restore, and tells each of them once the restore is
     * durable. A task never asks for it: one that should be dead would learn the new term. Throws {@code Fenced} without names.
     */
    public RunningTerm term() {
        return call(Native::term, RunningTerm::of);
    }

    /**
     * Sorts files of a storage, at any time, also while tasks run. Ask a coordinator whose calls are durable: one that forgot a call also
     * forgets which files are in use. Throws {@code Fenced} without names.
     */
    public Garbage garbage(long... files) {
        long[] garbage = new long[files.length];
        long[] unissued = new long[files.length];
        return call((at, out) -> Native.garbage(at, files, garbage, unissued, out), (what, first, second) -> Garbage.of(what, garbage, first, unissued, second));
    }

    /** {@return how many files are in use, wait for deletion, and were fetched} */
    public FileCounts fileCounts() {
        return fenced(handle::counts);
    }
}

package relkvanu;

import java.util.Arrays;
import java.util.Optional;
import java.util.OptionalLong;
import java.util.concurrent.locks.Condition;
import java.util.concurrent.locks.ReentrantLock;
import java.util.function.Supplier;

/**
 * A handle of the library with its lock. It outlives its {@link Coordinator} until it is closed, and does not refer to it.
 *
 * <p>The lock admits one call of the library at a time. A handle whose address is 0 is closed for good: no function gets it.
 */
final class Handle implements Runnable {
    private static final long[] NONE = {};

    private final ReentrantLock lock = new ReentrantLock();
    private final Condition called = lock.newCondition();
    private final long[] out = new long[Native.ANSWER]; // the last answer
    private long address;
    private long calls;

    /** A native function that gets the handle, and the place of its answer. */
    @FunctionalInterface
    interface Call {
        void on(long address, long[] out);
    }

    /** What an answer becomes. */
    @FunctionalInterface
    interface Read<T> {
        T of(int what, long a, long b);
    }

    Handle() {
        Library.need();
        address = Native.create();
        if (address == 0) {
            throw new CoordinatorException.NoMemory();
        }
    }

    /** Closes it, after the call that another thread is in. */
    @Override
    public void run() {
        locked(() -> {
            if (address != 0) {
                Native.close(address);
                Native.destroy(address);
                address = 0;
                called.signalAll();
            }
            return null;
        });
    }

    /** Admits one thread at a time. */
    <T> T locked(Supplier<T> work) {
        lock.lock();
        try {
            return work.get();
        } finally {
            lock.unlock();
        }
    }

    private long open() {
        if (address == 0) {
            throw new CoordinatorException.Closed();
        }
        return address;
    }

    <T> T call(Call call, Read<T> read) {
        return locked(() -> {
            call.on(open(), out);
            Answers.check(out);
            return read.of((int) out[1], out[2], out[3]);
        });
    }

    /** A call that may change what a timer waits for. */
    Reply moved(Call call) {
        return locked(() -> {
            calls++;
            called.signalAll();
            return call(call, Answers::reply);
        });
    }

    byte[] bytes(Answers.Write<byte[]> write) {
        return locked(() -> Answers.bytes(open(), out, write));
    }

    /** Files that a read writes. Empty: its answer is another one. */
    Optional<long[]> files(Answers.Write<long[]> write) {
        return locked(() -> {
            long[] files = Answers.numbers(open(), out, write);
            return out[1] == Header.FILES ? Optional.of(files) : Optional.empty();
        });
    }

    FileCounts counts() {
        return locked(() -> {
            Native.fileCounts(open(), out);
            return new FileCounts(out[1], out[2], out[3]);
        });
    }

    /** Fetches files. The array is not longer than what waits. */
    Reply.Taken take(int most) {
        return locked(() -> {
            long[] files = new long[(int) Math.min(most, counts().waiting())];
            Native.take(open(), files, out);
            Answers.check(out);
            Answers.is((int) out[1], Header.TAKEN);
            return new Reply.Taken(Arrays.copyOf(files, (int) out[2]));
        });
    }

    /** Makes the call of a line. The first attempt has no room for files: it changes nothing if it needs some. */
    Optional<Reply> line(byte[] line, int most) {
        return locked(() -> {
            calls++;
            called.signalAll();
            Native.line(open(), line, NONE, out);
            return out[0] == Header.TOO_SHORT ? Optional.of(withRoom(line, most, out[2])) : replyOf(NONE);
        });
    }

    private Reply withRoom(byte[] line, int most, long places) {
        OptionalLong shown = Lines.shown(line);
        if (shown.isPresent()) {
            return new Reply.Shown(Lines.text(bytes((at, json, to) -> Native.show(at, shown.getAsLong(), json, to))));
        }
        if (places > most) {
            throw new CoordinatorException.TooShort(places);
        }
        long[] files = new long[(int) places];
        Native.line(open(), line, files, out);
        return replyOf(files).orElseThrow();
    }

    private Optional<Reply> replyOf(long[] files) {
        Answers.check(out);
        return switch ((int) out[1]) {
            case Header.SKIPPED -> Optional.empty();
            case Header.TAKEN -> Optional.of(new Reply.Taken(Arrays.copyOf(files, (int) out[2])));
            default -> Optional.of(Answers.reply((int) out[1], out[2], out[3]));
        };
    }

    long calls() {
        return locked(() -> calls);
    }

    /** Waits for another call, for so many nanoseconds at most. */
    void waitForCall(long seen, long nanos) throws InterruptedException {
        lock.lockInterruptibly();
        try {
            long left = nanos;
            while (open() != 0 && calls <= seen && left > 0) {
                left = called.awaitNanos(left);
            }
        } finally {
            lock.unlock();
        }
    }
}

package relkvanu;

import java.util.Arrays;
import java.util.function.IntFunction;

/** What the four numbers of an answer mean: its code, what it is, and two numbers of that. */
final class Answers {
    private Answers() {}

    /** A native function that writes to a buffer. */
    @FunctionalInterface
    interface Write<B> {
        void on(long handle, B buffer, long[] out);
    }

    /** Throws if the call was not made. */
    static void check(long[] out) {
        if (out[0] != Header.DONE) {
            throw fault((int) out[0], (int) out[1], out[2]);
        }
    }

    /** Throws unless an answer is this one, which its function alone gives. */
    static void is(int what, int known) {
        if (what != known) {
            throw new CoordinatorException.Unknown("reply", what);
        }
    }

    /** What a function writes into a buffer that is long enough. */
    static byte[] bytes(long handle, long[] out, Write<byte[]> write) {
        byte[] buffer = written(handle, out, write, new byte[512], byte[]::new);
        return Arrays.copyOf(buffer, (int) out[2]);
    }

    /** The same with numbers. */
    static long[] numbers(long handle, long[] out, Write<long[]> write) {
        long[] buffer = written(handle, out, write, new long[64], long[]::new);
        return Arrays.copyOf(buffer, (int) out[2]);
    }

    /** Writes into this buffer, or into a longer one. Returns which. */
    private static <B> B written(long handle, long[] out, Write<B> write, B first, IntFunction<B> longer) {
        B buffer = first;
        write.on(handle, buffer, out);
        while (out[0] == Header.TOO_SHORT) {
            buffer = longer.apply(Checks.length(out[2]));
            write.on(handle, buffer, out);
        }
        check(out);
        return buffer;
    }

    /** The reply of a call that writes to no buffer. */
    static Reply reply(int what, long a, long b) {
        return switch (what) {
            // bindings/generate makes what tells the replies
            case Header.TICK_TRIGGERED -> new Reply.Triggered(a, b);
            case Header.TICK_HELD_INTERVAL -> new Reply.HeldInterval(a);
            case Header.TICK_HELD_AT_ONCE -> new Reply.HeldAtOnce(a);
            case Header.TICK_HELD_PAUSE -> new Reply.HeldPause(a);
            case Header.TICK_FAILED -> new Reply.Failed(a);
            case Header.SAVEPOINT_TRIGGERED -> new Reply.SavepointTriggered(a);
            case Header.ACK_PENDING -> new Reply.AckPending(a);
            case Header.ACK_COMPLETED -> new Reply.AckCompleted(a, b);
            case Header.ACK_LATE -> new Reply.AckLate(a);
            case Header.DECLINE_ABORTED -> new Reply.DeclineAborted(a);
            case Header.DECLINE_FAILED -> new Reply.DeclineFailed(a);
            case Header.DECLINE_LATE -> new Reply.DeclineLate();
            case Header.DISPOSED -> new Reply.Disposed(a);
            case Header.RESTORED_CHECKPOINT -> new Reply.RestoredCheckpoint(b, a);
            case Header.RESTORED_SAVEPOINT -> new Reply.RestoredSavepoint(b, a);
            case Header.RESTORED_FRESH -> new Reply.RestoredFresh(a);
            case Header.CANCELLED -> new Reply.Cancelled(a, b);
            case Header.DELETED -> new Reply.Deleted(a);
            case Header.UNDELETED -> new Reply.Undeleted(a);
            case Header.COUNTED -> new Reply.Counted(a, b);
            case Header.CONFIGURED -> new Reply.Configured(a, b);
            // bindings/generate: end
            case Header.RESERVED -> new Reply.Reserved(a, b);
            case Header.FORFEITED -> new Reply.Forfeited();
            case Header.NAMED -> new Reply.Named();
            default -> throw new CoordinatorException.Unknown("reply", what);
        };
    }

    private static CoordinatorException fault(int code, int what, long a) {
        return switch (code) {
            case Header.REFUSED -> new CoordinatorException.Refused(Refusal.of(what), a);
            case Header.NO_MEMORY -> new CoordinatorException.NoMemory();
            case Header.CLOSED -> new CoordinatorException.Closed();
            case Header.BAD_ARGUMENT -> new CoordinatorException.BadArgument(Argument.of(what));
            case Header.TOO_SHORT -> new CoordinatorException.TooShort(a);
            case Header.BAD_LINE -> new CoordinatorException.BadLine(LineFault.of(what));
            case Header.FENCED -> new CoordinatorException.Fenced(relkvanu.Fenced.of(what), a);
            default -> throw new CoordinatorException.Unknown("code", code);
        };
    }
}

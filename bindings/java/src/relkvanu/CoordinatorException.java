package relkvanu;

/**
 * A call was not made, and nothing has changed, except maybe after {@link Unknown}. Each exception of this package is one of the classes below.
 *
 * <p>{@link Refused}, {@link Fenced} and {@link NoMemory} are answers that a job gets every day, so they have no stack trace. With {@code
 * -Drelkvanu.traces=true} they have one.
 */
@SuppressWarnings("serial") // nobody keeps one in a file
public abstract sealed class CoordinatorException extends RuntimeException {
    private static final boolean HAS_TRACES = Boolean.getBoolean("relkvanu.traces");

    private CoordinatorException(String text, boolean hasTrace) {
        super(text, null, true, hasTrace);
    }

    private static String withFile(String text, boolean hasFile, long file) {
        return hasFile ? text + " " + FileNumbers.toString(file) : text;
    }

    // bindings/generate makes the exceptions with reasons
    /** The coordinator refused the call. */
    public static final class Refused extends CoordinatorException {
        private final relkvanu.Refusal refusal;
        private final long file;

        Refused(relkvanu.Refusal refusal, long file) {
            super(withFile(refusal.text(), refusal.namesFile(), file), HAS_TRACES);
            this.refusal = refusal;
            this.file = file;
        }

        /** {@return why} */
        public relkvanu.Refusal refusal() {
            return refusal;
        }

        /** {@return the file that is to blame, unsigned; 0 unless it is {@code NAME_TAKEN} or {@code FILE_GONE}} */
        public long file() {
            return file;
        }
    }

    /** The term of the task or the names refuse the call, or the coordinator has no names. After {@code SPENT} a task deletes no file. */
    public static final class Fenced extends CoordinatorException {
        private final relkvanu.Fenced reason;
        private final long file;

        Fenced(relkvanu.Fenced reason, long file) {
            super(withFile(reason.text(), reason.namesFile(), file), HAS_TRACES);
            this.reason = reason;
            this.file = file;
        }

        /** {@return why} */
        public relkvanu.Fenced reason() {
            return reason;
        }

        /** {@return the file that is to blame, unsigned; 0 unless it is {@code SPENT} or {@code NEVER_RESERVED}} */
        public long file() {
            return file;
        }
    }

    /** A value is outside its limits. */
    public static final class BadArgument extends CoordinatorException {
        private final relkvanu.Argument argument;

        BadArgument(relkvanu.Argument argument) {
            super(argument.text(), true);
            this.argument = argument;
        }

        /** {@return why} */
        public relkvanu.Argument argument() {
            return argument;
        }
    }

    /** A line of a script can't be read or makes no call, or the line of a call would be too long. */
    public static final class BadLine extends CoordinatorException {
        private final relkvanu.LineFault fault;

        BadLine(relkvanu.LineFault fault) {
            super(fault.text(), true);
            this.fault = fault;
        }

        /** {@return why} */
        public relkvanu.LineFault fault() {
            return fault;
        }
    }
    // bindings/generate: end

    /** Memory of the library ran out: make the same call again. */
    public static final class NoMemory extends CoordinatorException {
        NoMemory() {
            super("the library has no memory", HAS_TRACES);
        }
    }

    /** The coordinator was closed. */
    public static final class Closed extends CoordinatorException {
        Closed() {
            super("the coordinator was closed", true);
        }
    }

    /** A take line would fetch more files than it may. */
    public static final class TooShort extends CoordinatorException {
        private final long places;

        TooShort(long places) {
            super("the line would fetch " + places + " files", true);
            this.places = places;
        }

        /** {@return how many files it would fetch} */
        public long places() {
            return places;
        }
    }

    /** A number is negative, or has more bits than the call has for it, or an array can't have so many elements. */
    public static final class OutOfRange extends CoordinatorException {
        OutOfRange(String text) {
            super(text, true);
        }
    }

    /**
     * The library has answered with a number that this package does not know, as one of a later version may. The call may have been made:
     * something may have changed.
     */
    public static final class Unknown extends CoordinatorException {
        Unknown(String kind, long what) {
            super("this package has no " + kind + " " + what, true);
        }
    }

    /** The native library is missing, can't be loaded, or is of another version. */
    public static final class NoLibrary extends CoordinatorException {
        NoLibrary(String text) {
            super(text, true);
        }
    }
}

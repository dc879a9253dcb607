package relkvanu;

import java.util.Arrays;

/** What a line of a script is, with the numbers of one that makes no call. */
public sealed interface Line {
    /** A line without words, or a comment. */
    record Skip() implements Line {}

    /** The configuration. */
    record Config(Settings settings) implements Line {}

    /** The shape of the job. Two with the same numbers are equal. */
    record Job(long[] shape) implements Line {
        // bindings/generate makes the list of the shape
        /** Copies the lists. */
        public Job {
            shape = shape.clone();
        }

        /** {@return a copy} */
        @Override
        public long[] shape() {
            return shape.clone();
        }

        @Override
        public boolean equals(Object other) {
            return other instanceof Job it && Arrays.equals(shape, it.shape);
        }

        @Override
        public int hashCode() {
            return Arrays.hashCode(shape);
        }

        @Override
        public String toString() {
            return "Job[shape=" + FileNumbers.toString(shape) + "]";
        }
        // bindings/generate: end
    }

    /** The opening. */
    record Start(long now) implements Line {}

    /** A line that makes a call: {@link Coordinator#line} makes it. */
    record Call() implements Line {}

    /** An acknowledgement for each subtask that is missing, which programs that run scripts make. */
    record All(long now, long id, long threads, long first) implements Line {}
}

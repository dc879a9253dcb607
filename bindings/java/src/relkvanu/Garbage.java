package relkvanu;

import java.util.Arrays;

/** Of some files, in their order: those that may be deleted, and those that are not of this job. Two with the same files are equal. */
public record Garbage(long[] garbage, long[] unissued) {
    /** So many files at the start of each buffer. */
    static Garbage of(int what, long[] garbage, long first, long[] unissued, long second) {
        Answers.is(what, Header.GARBAGE);
        return new Garbage(Arrays.copyOf(garbage, (int) first), Arrays.copyOf(unissued, (int) second));
    }

    // bindings/generate makes the lists of files
    /** Copies the lists. */
    public Garbage {
        garbage = garbage.clone();
        unissued = unissued.clone();
    }

    /** {@return a copy} */
    @Override
    public long[] garbage() {
        return garbage.clone();
    }

    /** {@return a copy} */
    @Override
    public long[] unissued() {
        return unissued.clone();
    }

    @Override
    public boolean equals(Object other) {
        return other instanceof Garbage it && Arrays.equals(garbage, it.garbage) && Arrays.equals(unissued, it.unissued);
    }

    @Override
    public int hashCode() {
        return 31 * Arrays.hashCode(garbage) + Arrays.hashCode(unissued);
    }

    @Override
    public String toString() {
        return "Garbage[garbage=" + FileNumbers.toString(garbage) + ", unissued=" + FileNumbers.toString(unissued) + "]";
    }
    // bindings/generate: end
}

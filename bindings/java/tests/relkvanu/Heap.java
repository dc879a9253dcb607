package relkvanu;

/** The heap that refuses, in the library of MemoryTest. */
final class Heap {
    static {
        Library.need();
    }

    private Heap() {}

    /** Refuses the n-th request for memory from now on, once. Refuses none if n is 0. */
    static native void refuse(long nth);

    /** How often memory was asked for since then. */
    static native long requests();
}

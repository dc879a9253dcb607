package relkvanu;

/** What the number of a record is. Made of include/relkvanu.h by bindings/generate. */
public enum Standing {
    /** A live record has the number, and lacks an acknowledgement. */
    PENDING,
    /** A live record has the number, and is complete. */
    DONE,
    /** A record had the number, and is no longer live. */
    ENDED,
    /** No record has had the number so far. */
    NOT_YET,
    /** The number is below the first one of the opening. */
    NEVER;

    static Standing of(int what) {
        return switch (what) {
            case Header.STANDS_PENDING -> PENDING;
            case Header.STANDS_DONE -> DONE;
            case Header.STANDS_ENDED -> ENDED;
            case Header.STANDS_NOT_YET -> NOT_YET;
            case Header.STANDS_NEVER -> NEVER;
            default -> throw new CoordinatorException.Unknown("standing", what);
        };
    }
}

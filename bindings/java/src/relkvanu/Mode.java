package relkvanu;

/** What a job is doing. Made of include/relkvanu.h by bindings/generate. */
public enum Mode {
    /** The job takes checkpoints. */
    RUNNING,
    /** Too many checkpoints failed in a row: restore the job. */
    FAILED,
    /** The job has ended for good. */
    CANCELLED;

    static Mode of(int what) {
        return switch (what) {
            case Header.MODE_RUNNING -> RUNNING;
            case Header.MODE_FAILED -> FAILED;
            case Header.MODE_CANCELLED -> CANCELLED;
            default -> throw new CoordinatorException.Unknown("mode", what);
        };
    }
}

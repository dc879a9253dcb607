package relkvanu;

/** Why a call was refused: the first of these that applies. Made of include/relkvanu.h by bindings/generate. */
public enum Refusal {
    /** The moment is above its limit. */
    MOMENT_TOO_LARGE(Header.MOMENT_TOO_LARGE),
    /** The job has failed or was cancelled. */
    NOT_RUNNING(Header.NOT_RUNNING),
    /** An acknowledgement has more than 4096 files. */
    TOO_MANY_FILES(Header.TOO_MANY_FILES),
    /** An acknowledgement names a file twice. */
    REPEATED_FILE(Header.REPEATED_FILE),
    /** No record has had the number. */
    UNKNOWN_CHECKPOINT(Header.UNKNOWN_CHECKPOINT),
    /** The job has no such subtask. */
    UNKNOWN_SUBTASK(Header.UNKNOWN_SUBTASK),
    /** The subtask has acknowledged in this record. Its files may belong to the coordinator: do not delete them. */
    ALREADY_ACKNOWLEDGED(Header.ALREADY_ACKNOWLEDGED),
    /** The coordinator knows a file with the number of a fresh one. It may be in use: do not delete it. */
    NAME_TAKEN(Header.NAME_TAKEN),
    /** A reused file is no longer in use: the task writes its state again, under a new number. */
    FILE_GONE(Header.FILE_GONE),
    /** No completed savepoint has the number. */
    NO_SUCH_SAVEPOINT(Header.NO_SUCH_SAVEPOINT),
    /** The job would begin again from this savepoint. */
    IN_USE(Header.IN_USE),
    /** 1000 savepoints are pending or done. */
    TOO_MANY_SAVEPOINTS(Header.TOO_MANY_SAVEPOINTS),
    /** The file was not fetched for deletion, or was reported before. */
    NOT_TAKEN(Header.NOT_TAKEN),
    /** No live record has the number. */
    NO_SUCH_RECORD(Header.NO_SUCH_RECORD),
    /** No number is left for another record. */
    IDS_USED_UP(Header.IDS_USED_UP),
    /** As many checkpoints are pending as may be, or more than the new settings allow. */
    AT_ONCE(Header.AT_ONCE);

    private static final Refusal[] ALL = values();
    private final int what;

    Refusal(int what) {
        this.what = what;
    }

    static Refusal of(int what) {
        for (Refusal it : ALL) {
            if (it.what == what) {
                return it;
            }
        }
        throw new CoordinatorException.Unknown("refusal", what);
    }

    /** {@return the name in scripts, such as "MomentTooLarge"} */
    public String text() {
        return ScriptNames.of(this);
    }

    /** Whether an answer names the file that is to blame. */
    boolean namesFile() {
        return this == NAME_TAKEN || this == FILE_GONE;
    }
}

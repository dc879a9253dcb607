package relkvanu;

/** Why a term or the names refuse a call. Made of include/relkvanu.h by bindings/generate. */
public enum Fenced {
    /** The term of the task has ended, or has not begun. */
    OLD_TERM(Header.OLD_TERM),
    /** The job was cancelled, and no task runs. */
    ENDED(Header.ENDED),
    /** It would reserve no name, or more than 65536. */
    BAD_COUNT(Header.BAD_COUNT),
    /** All names up to 2<sup>62</sup> - 1 were given out. */
    NAMES_USED_UP(Header.NAMES_USED_UP),
    /** As many terms have ended as can be counted, 2<sup>62</sup>. */
    TERMS_USED_UP(Header.TERMS_USED_UP),
    /** Its name was given out, and the term does not hold it: nobody deletes it for this answer. */
    SPENT(Header.SPENT),
    /** Its name was not given out. */
    NEVER_RESERVED(Header.NEVER_RESERVED),
    /** The handle has no names. */
    NO_NAMES(Header.NO_NAMES),
    /** The handle has names. */
    HAS_NAMES(Header.HAS_NAMES),
    /** A file with this number or a greater one is in use, waits for deletion or was fetched. */
    NAME_IN_USE(Header.NAME_IN_USE);

    private static final Fenced[] ALL = values();
    private final int what;

    Fenced(int what) {
        this.what = what;
    }

    static Fenced of(int what) {
        for (Fenced it : ALL) {
            if (it.what == what) {
                return it;
            }
        }
        throw new CoordinatorException.Unknown("fenced", what);
    }

    /** {@return the name in scripts, such as "OldTerm"} */
    public String text() {
        return ScriptNames.of(this);
    }

    /** Whether an answer names the file that is to blame. */
    boolean namesFile() {
        return this == SPENT || this == NEVER_RESERVED;
    }
}

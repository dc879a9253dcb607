package relkvanu;

/** What is wrong with a line: the first fault from the left. Made of include/relkvanu.h by bindings/generate. */
public enum LineFault {
    /** A line has at most 131072 bytes. */
    TOO_LONG(Header.FAULT_TOO_LONG),
    /** A word that does not belong there. */
    WORD(Header.FAULT_WORD),
    /** The line ends before a word that it needs. */
    MISSING(Header.FAULT_MISSING),
    /** Not a number, or not a subtask. */
    NUMBER(Header.FAULT_NUMBER),
    /** A word follows the last one. */
    EXTRA(Header.FAULT_EXTRA),
    /** A config, job, start or all line, or in and a term before what is no call: it was read, and makes no call. */
    NO_CALL(Header.FAULT_NO_CALL);

    private static final LineFault[] ALL = values();
    private final int what;

    LineFault(int what) {
        this.what = what;
    }

    static LineFault of(int what) {
        for (LineFault it : ALL) {
            if (it.what == what) {
                return it;
            }
        }
        throw new CoordinatorException.Unknown("fault", what);
    }

    /** {@return the name in scripts, such as "TooLong"} */
    public String text() {
        return ScriptNames.of(this);
    }
}

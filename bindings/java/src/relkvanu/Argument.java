package relkvanu;

/** The argument that is outside its limits. Made of include/relkvanu.h by bindings/generate. */
public enum Argument {
    /** The handle has a coordinator already. */
    ALREADY_OPEN(Header.ALREADY_OPEN),
    /** A value of the settings is outside its limits. */
    BAD_CONFIG(Header.BAD_CONFIG),
    /** 1 to 256 vertices, at least 1 subtask each, at most 4096 in sum. */
    BAD_SHAPE(Header.BAD_SHAPE),
    /** The moment of an opening is above 2<sup>62</sup> - 1. */
    BAD_MOMENT(Header.BAD_MOMENT),
    /** The number of the first record is not within 1 to 2<sup>62</sup> - 1. */
    BAD_FIRST(Header.BAD_FIRST),
    /** The kind of a call that is to be written. */
    BAD_KIND(Header.BAD_KIND),
    /** The bytes are not an image, or the state is not sound, or no coordinator could be opened so. */
    BAD_IMAGE(Header.BAD_IMAGE),
    /** The first name is 0 or above 2<sup>62</sup>. */
    BAD_NAME(Header.BAD_NAME),
    /** The group has failed: open the handle again, from the log. */
    BAD_GROUP(Header.BAD_GROUP),
    /** No answer may be told by the receipt, or there is no place or receipt for another answer. */
    BAD_RECEIPT(Header.BAD_RECEIPT);

    private static final Argument[] ALL = values();
    private final int what;

    Argument(int what) {
        this.what = what;
    }

    static Argument of(int what) {
        for (Argument it : ALL) {
            if (it.what == what) {
                return it;
            }
        }
        throw new CoordinatorException.Unknown("argument", what);
    }

    /** {@return the name in scripts, such as "AlreadyOpen"} */
    public String text() {
        return ScriptNames.of(this);
    }
}

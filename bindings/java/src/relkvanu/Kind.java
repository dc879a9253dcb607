package relkvanu;

/** The kind of a record. */
public enum Kind {
    /** A tick triggered it. Later ones replace it. */
    CHECKPOINT,
    /** A user triggered it, and disposes of it. */
    SAVEPOINT
}

package relkvanu;

/** What include/relkvanu.h says, made from it by bindings/generate: change the header, and run that. A class that calls it has the lock of the handle. */
final class Native {
    private Native() {}

    /** How many numbers relkvanu_settings has. */
    static final int SETTINGS = 7;

    /** How many numbers relkvanu_answer has. */
    static final int ANSWER = 4;

    /** How many numbers relkvanu_counts has. */
    static final int COUNTS = 4;

    /** How many numbers relkvanu_call has. */
    static final int CALL = 6;

    /** Returns the address of a closed handle, or 0 without memory. */
    static native long create();

    /** Frees the memory of a closed handle. */
    static native void destroy(long handle);

    static native String version();

    static native void open(long handle, long[] settings, long[] shape, long now, long first, long firstWord, long secondWord, long[] out);

    static native void close(long handle);

    static native void tick(long handle, long now, long[] out);

    static native void trigger(long handle, long now, long[] out);

    static native void savepoint(long handle, long now, long[] out);

    static native void ack(long handle, long now, long id, int vertex, int index, long[] fresh, long[] reused, long[] out);

    static native void decline(long handle, long now, long id, int vertex, int index, long[] out);

    static native void dispose(long handle, long id, long[] out);

    static native void restore(long handle, long now, long savepoint, long[] shape, long[] out);

    static native void cancel(long handle, long now, long[] out);

    static native void configure(long handle, long now, long[] settings, long[] out);

    static native void take(long handle, long[] files, long[] out);

    static native void deleted(long handle, long file, long[] out);

    static native void undeleted(long handle, long file, long[] out);

    static native void show(long handle, long id, byte[] json, long[] out);

    static native void count(long handle, long file, long[] out);

    static native void mode(long handle, long[] out);

    static native void moment(long handle, long[] out);

    static native void due(long handle, long[] out);

    static native void oldestExpiry(long handle, long[] out);

    static native void choice(long handle, long[] out);

    static native void live(long handle, long place, long[] out);

    static native void missing(long handle, long id, long[] out);

    static native void fileCounts(long handle, long[] out);

    static native long refusalText(int what, byte[] text);

    static native long answerText(long[] answer, byte[] text);

    static native void line(long handle, byte[] line, long[] files, long[] out);

    static native void lineSays(byte[] line, long[] numbers, long[] out);

    static native void lineCall(byte[] line, long[] call, long[] first, long[] second, long[] out);

    static native void callLine(long[] call, long[] first, long[] second, byte[] line, long[] out);

    static native void openingLines(long[] settings, long[] shape, long now, byte[] lines, long[] out);

    static native void save(long handle, byte[] image, long[] out);

    static native void openSaved(long handle, byte[] image, long firstWord, long secondWord, long[] out);

    static native void liveFrom(long handle, long id, long[] out);

    static native void standing(long handle, long id, long[] out);

    static native void filesOf(long handle, long id, int vertex, int index, long[] files, long[] out);

    static native void pinsOf(long handle, long id, long[] files, long[] out);

    static native void waitingFile(long handle, long place, long[] out);

    static native void takenFiles(long handle, long[] files, long[] out);

    static native void openFenced(long handle, long[] settings, long[] shape, long now, long first, long firstName, long firstWord, long secondWord, long[] out);

    static native void fence(long handle, long firstName, long[] out);

    static native void term(long handle, long[] out);

    static native void reserve(long handle, long term, long count, long[] out);

    static native void forfeit(long handle, long term, long[] names, long[] out);

    static native void advance(long handle, long now, long term, long firstName, long[] out);

    static native void ackIn(long handle, long term, long now, long id, int vertex, int index, long[] fresh, long[] reused, long[] out);

    static native void declineIn(long handle, long term, long now, long id, int vertex, int index, long[] out);

    static native void garbage(long handle, long[] files, long[] garbage, long[] unissued, long[] out);

    static native long fencedText(int what, byte[] text);
}

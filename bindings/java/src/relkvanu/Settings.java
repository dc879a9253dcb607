package relkvanu;

/** The configuration of a job. Durations are milliseconds. */
public record Settings(long interval, long pause, long atOnce, long timeout, long tolerable, long retained, boolean keepOnCancel) {
    /**
     * One checkpoint at once without a pause, a timeout of ten minutes, no tolerated failure, and one retained checkpoint that is not kept
     * when the job is cancelled.
     */
    public static Settings every(long interval) {
        return new Settings(interval, 0, 1, 600_000, 0, 1, false);
    }

    // bindings/generate makes the settings with another value
    /** {@return these settings with another value: 0 to 2^40 ms between a completion and the next trigger} */
    public Settings withPause(long pause) {
        return with(1, pause);
    }

    /** {@return these settings with another value: 1 to 64 checkpoints that may be pending} */
    public Settings withAtOnce(long atOnce) {
        return with(2, atOnce);
    }

    /** {@return these settings with another value: 1 to 2^40 ms after which a pending record expires} */
    public Settings withTimeout(long timeout) {
        return with(3, timeout);
    }

    /** {@return these settings with another value: 0 to 1000 failed checkpoints in a row} */
    public Settings withTolerable(long tolerable) {
        return with(4, tolerable);
    }

    /** {@return these settings with another value: 1 to 1000 completed checkpoints to keep} */
    public Settings withRetained(long retained) {
        return with(5, retained);
    }

    /** {@return these settings with another value: whether to keep them when the job is cancelled} */
    public Settings withKeepOnCancel(boolean keepOnCancel) {
        return with(6, keepOnCancel ? 1 : 0);
    }
    // bindings/generate: end

    /** These settings with another value at a place of numbers. */
    private Settings with(int place, long value) {
        long[] changed = numbers();
        changed[place] = value;
        return of(changed);
    }

    /** In the order of the header's struct and of a config line. */
    long[] numbers() {
        return new long[] {interval, pause, atOnce, timeout, tolerable, retained, keepOnCancel ? 1 : 0};
    }

    static Settings of(long[] numbers) {
        return new Settings(numbers[0], numbers[1], numbers[2], numbers[3], numbers[4], numbers[5], numbers[6] == 1);
    }
}

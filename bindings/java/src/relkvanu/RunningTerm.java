package relkvanu;

/** The term that runs, and the next name. */
public record RunningTerm(long term, long nextName) {
    static RunningTerm of(int what, long term, long nextName) {
        Answers.is(what, Header.TERM);
        return new RunningTerm(term, nextName);
    }
}

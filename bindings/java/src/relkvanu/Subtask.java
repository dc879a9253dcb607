package relkvanu;

/** A subtask of a job. */
public record Subtask(int vertex, int index) {
    /** As scripts write it, such as 1.0. */
    @Override
    public String toString() {
        return vertex + "." + index;
    }
}

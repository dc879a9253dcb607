package relkvanu;

/** How many files there are. */
public record FileCounts(long inUse, long waiting, long taken) {}

/**
 * The checkpoint coordinator of one job of a stream processor, over the native library in the jar.
 *
 * <p>{@link relkvanu.Coordinator} has a method for each call. One with names ({@link relkvanu.Coordinator#openFenced}) gives out the numbers of files,
 * and refuses tasks of a term that has ended. {@link relkvanu.Lines} writes and reads the lines of a log, from which a coordinator goes on. Each exception
 * of this package is a {@link relkvanu.CoordinatorException}. The package has no durable coordinator.
 *
 * <p>Numbers of files are unsigned numbers of 64 bits in a {@code long}: {@link relkvanu.FileNumbers} prints, reads and compares them.
 * Numbers of records and moments are below 2<sup>62</sup>. Moments and durations are milliseconds, unless they say otherwise. No
 * argument may be null.
 */
package relkvanu;

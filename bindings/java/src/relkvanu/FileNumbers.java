package relkvanu;

import java.util.Arrays;
import java.util.stream.Collectors;

/** Numbers of files: unsigned, of 64 bits, in a {@code long}. */
public final class FileNumbers {
    private FileNumbers() {}

    /** {@return the number in decimal, such as 18446744073709551615 for -1} */
    public static String toString(long file) {
        return Long.toUnsignedString(file);
    }

    /** {@return the numbers in decimal, such as [1, 18446744073709551615]} */
    public static String toString(long[] files) {
        return Arrays.stream(files).mapToObj(Long::toUnsignedString).collect(Collectors.joining(", ", "[", "]"));
    }

    /** Reads a number in decimal. */
    public static long parse(String text) {
        return Long.parseUnsignedLong(text);
    }

    /** Compares two numbers. */
    public static int compare(long one, long other) {
        return Long.compareUnsigned(one, other);
    }
}

package relkvanu;

/** Numbers that a call would cut. */
final class Checks {
    private Checks() {}

    /** A number of 16 bits. */
    static int u16(int value, String name) {
        if (value < 0 || value > 0xffff) {
            throw new CoordinatorException.OutOfRange(name + " " + value + " is negative, or has more than 16 bits");
        }
        return value;
    }

    static void subtask(int vertex, int index) {
        u16(vertex, "vertex");
        u16(index, "index");
    }

    /** A number that is not negative. */
    static long natural(long value, String name) {
        if (value < 0) {
            throw new CoordinatorException.OutOfRange(name + " " + value + " is negative");
        }
        return value;
    }

    /** How many elements an array needs. */
    static int length(long places) {
        if (places < 0 || places > Integer.MAX_VALUE - 8) {
            throw new CoordinatorException.OutOfRange("an array can't have " + Long.toUnsignedString(places) + " elements");
        }
        return (int) places;
    }

    /** The number of a savepoint. 0 would be the latest record. */
    static long savepoint(long id) {
        if (id == 0) {
            throw new CoordinatorException.OutOfRange("no savepoint has the number 0");
        }
        return id;
    }

    /** A shape that is given. An empty one would be the current one. */
    static long[] shape(long[] shape) {
        if (shape.length == 0) {
            throw new CoordinatorException.BadArgument(Argument.BAD_SHAPE);
        }
        return shape;
    }
}

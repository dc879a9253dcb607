package relkvanu;

import java.util.Optional;

/** A live record. */
public record Live(long id, Kind kind, boolean isDone) {
    static Optional<Live> of(int what, long id, long done) {
        return switch (what) {
            case Header.LIVE_CHECKPOINT -> Optional.of(new Live(id, Kind.CHECKPOINT, done == 1));
            case Header.LIVE_SAVEPOINT -> Optional.of(new Live(id, Kind.SAVEPOINT, done == 1));
            case Header.LIVE_NONE -> Optional.empty();
            default -> throw new CoordinatorException.Unknown("live record", what);
        };
    }
}

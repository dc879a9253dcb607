package relkvanu;

import java.util.Optional;

/** The record that a restore of the latest would begin from. */
public record Chosen(long id, Kind kind) {
    static Optional<Chosen> of(int what, long id) {
        return switch (what) {
            case Header.CHOICE_CHECKPOINT -> Optional.of(new Chosen(id, Kind.CHECKPOINT));
            case Header.CHOICE_SAVEPOINT -> Optional.of(new Chosen(id, Kind.SAVEPOINT));
            case Header.CHOICE_FRESH -> Optional.empty();
            default -> throw new CoordinatorException.Unknown("choice", what);
        };
    }
}

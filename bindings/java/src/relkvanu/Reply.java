package relkvanu;

import java.util.Arrays;
import java.util.LinkedHashMap;
import java.util.Map;
import java.util.regex.Matcher;
import java.util.regex.Pattern;
import java.util.stream.LongStream;

/** The reply to a call that was made. A pattern over the records of a reply is complete without a default. */
public sealed interface Reply {
    /** The reply to a tick. */
    sealed interface Tick extends Reply {
        /** {@return how many records expired in it} */
        long expired();
    }

    /** The reply to an acknowledgement: the fresh files belong to the coordinator now. */
    sealed interface Ack extends Reply {}

    /** The reply to a decline. */
    sealed interface Decline extends Reply {}

    /** The reply to a restore. */
    sealed interface Restore extends Reply {
        /** {@return how many files it released} */
        long released();
    }

    /** Files were fetched for deletion. Two replies with the same files in the same order are equal. */
    record Taken(long[] files) implements Reply {
        // bindings/generate makes the list of files
        /** Copies the lists. */
        public Taken {
            files = files.clone();
        }

        /** {@return a copy} */
        @Override
        public long[] files() {
            return files.clone();
        }

        @Override
        public boolean equals(Object other) {
            return other instanceof Taken it && Arrays.equals(files, it.files);
        }

        @Override
        public int hashCode() {
            return Arrays.hashCode(files);
        }

        @Override
        public String toString() {
            return "Taken[files=" + FileNumbers.toString(files) + "]";
        }
        // bindings/generate: end
    }

    /** The metadata of a record. */
    record Shown(String json) implements Reply {
        private static final Pattern ACK = Pattern.compile("\\{\"files\":\\[([0-9,]*)\\],\"subtask\":\"([0-9]+)\\.([0-9]+)\"\\}");

        /** {@return the files of each subtask that has acknowledged, ascending, in the order of the subtasks} */
        public Map<Subtask, long[]> files() {
            Map<Subtask, long[]> found = new LinkedHashMap<>();
            Matcher acks = ACK.matcher(json);
            while (acks.find()) {
                Subtask subtask = new Subtask(Integer.parseInt(acks.group(2)), Integer.parseInt(acks.group(3)));
                found.put(subtask, Pattern.compile(",").splitAsStream(acks.group(1)).filter(it -> !it.isEmpty()).mapToLong(FileNumbers::parse).toArray());
            }
            return found;
        }
    }

    /** Names are reserved for files that a task will write. */
    record Reserved(long first, long count) implements Reply {
        /** {@return the names, ascending} */
        public long[] names() {
            return LongStream.range(first, first + count).toArray();
        }
    }

    /** The names are given up. */
    record Forfeited() implements Reply {}

    /** The coordinator has names now. */
    record Named() implements Reply {}

    // bindings/generate makes the replies
    /** A checkpoint was triggered. expired: expired records; id: number. */
    record Triggered(long expired, long id) implements Tick {}

    /** No checkpoint is due yet. expired: expired records. */
    record HeldInterval(long expired) implements Tick {}

    /** As many checkpoints are pending as may be. expired: expired records. */
    record HeldAtOnce(long expired) implements Tick {}

    /** The pause after the last completion has not passed. expired: expired records. */
    record HeldPause(long expired) implements Tick {}

    /** Too many checkpoints failed in a row: restore the job. expired: expired records. */
    record Failed(long expired) implements Tick {}

    /** A savepoint was triggered. id: number. */
    record SavepointTriggered(long id) implements Reply {}

    /** The record is not complete yet. missing: subtasks missing. */
    record AckPending(long missing) implements Ack {}

    /** The record is complete. dropped: records dropped; released: files released. */
    record AckCompleted(long dropped, long released) implements Ack {}

    /** The record was done or had ended. handedOut: fresh files that this call handed out for deletion. */
    record AckLate(long handedOut) implements Ack {}

    /** The record is dropped. released: files released. */
    record DeclineAborted(long released) implements Decline {}

    /** The record is dropped, and the job has failed: restore it. released: files released. */
    record DeclineFailed(long released) implements Decline {}

    /** The record was done or had ended. */
    record DeclineLate() implements Decline {}

    /** The savepoint is gone. released: files released. */
    record Disposed(long released) implements Reply {}

    /** The job begins again from a checkpoint. id: number; released: files released. */
    record RestoredCheckpoint(long id, long released) implements Restore {}

    /** The job begins again from a savepoint. id: number; released: files released. */
    record RestoredSavepoint(long id, long released) implements Restore {}

    /** The job begins again from nothing. released: files released. */
    record RestoredFresh(long released) implements Restore {}

    /** The job has ended for good. dropped: records dropped; released: files released. */
    record Cancelled(long dropped, long released) implements Reply {}

    /** The file is forgotten. file: file. */
    record Deleted(long file) implements Reply {
        @Override
        public String toString() {
            return "Deleted[file=" + FileNumbers.toString(file) + "]";
        }
    }

    /** The file waits again. file: file. */
    record Undeleted(long file) implements Reply {
        @Override
        public String toString() {
            return "Undeleted[file=" + FileNumbers.toString(file) + "]";
        }
    }

    /** The uses by live records. file: file; uses: uses. */
    record Counted(long file, long uses) implements Reply {
        @Override
        public String toString() {
            return "Counted[file=" + FileNumbers.toString(file) + ", uses=" + uses + "]";
        }
    }

    /** The job has the new settings. checkpoints: checkpoints dropped; released: files released. */
    record Configured(long checkpoints, long released) implements Reply {}
    // bindings/generate: end
}

// The checks at the end of a run: see job.hpp.
#include "job.hpp"
#include "trace.hpp"

#include <algorithm>

// The live counts are those of the stream up to the place at which the source stopped.
void Job::check_counts() {
    for (unsigned partition = 0; partition < PARTITIONS; partition++) {
        const uint64_t end = state_of(partition).offset(partition);
        CHECK(end == offsets[partition], "partition ", partition, " is counted up to ", end, ", not ", offsets[partition]);
        state_of(partition).check(seed, partition);
    }
    tasks.clear();
}

// Opens all files of a done record, and compares what its databases have with the stream.
void Job::check_record(uint64_t id) {
    std::vector<Named> files;
    const States states = opened(id, "checked", files);
    for (unsigned partition = 0; partition < PARTITIONS; partition++) {
        states[partition % states.size()]->check(seed, partition);
    }
}

// Checks that the storage folder has exactly the files that are in use or taken, and returns how many.
size_t Job::check_folder() {
    const Files files = coordinator().storage.all(), taken = coordinator().taken();
    uint64_t used = 0;
    for (uint64_t file : files) {
        const bool is_used = coordinator().uses(file) != 0;
        CHECK(is_used || std::find(taken.begin(), taken.end(), file) != taken.end(), "nobody knows file ", file);
        used += is_used;
    }
    CHECK(used == coordinator().counts().in_use, coordinator().counts().in_use, " files are in use, and ", used, " of them are there");
    for (uint64_t file : taken) {
        CHECK(coordinator().storage.has(file), "file ", file, " is taken and gone");
    }
    return files.size();
}

// Opens the job once more, with the image before the last one and the calls after it, which the store compares.
void Job::check_recovery() {
    const std::string before = coordinator().image();
    shared.coordinator.reset();
    shared.coordinator = std::make_unique<Coordinator>(folder, trace_is_on() ? 0 : RELKVANU_STORE_EARLIER_IMAGE, Death{});
    const uint64_t replayed = coordinator().report.replayed;
    CHECK(replayed != 0 && coordinator().image() == before, "a recovery of ", replayed, " calls gives another state");
}

// The discarder of the recovery deletes all that is taken, and after a cancel all that there is.
void Job::check_deletions(uint64_t savepoint) {
    Discarder of_recovery(coordinator(), seed);
    of_recovery.drain();
    CHECK(check_folder() == coordinator().counts().in_use, "files are left that nobody uses");
    coordinator().make(RELKVANU_CALL_DISPOSE, savepoint);
    coordinator().make(RELKVANU_CALL_CANCEL);
    of_recovery.drain();
    CHECK(check_folder() == 0, "files are left of a cancelled job");
    of_recovery.stop();
}

void Job::check_end() {
    check_counts();
    const relkvanu_answer answer = coordinator().restore();
    CHECK(answer.code == RELKVANU_DONE && answer.what == RELKVANU_RESTORED_CHECKPOINT, "no checkpoint is retained");
    check_record(answer.b);
    const uint64_t savepoint = coordinator().progress().savepoint;
    check_record(savepoint);
    coordinator().sweep();
    coordinator().take_all(); // then the files taken are those that were waiting or taken
    const size_t all = check_folder(), used = coordinator().counts().in_use;
    check_recovery();
    coordinator().restore();
    coordinator().sweep();
    CHECK(check_folder() == all, "a sweep has deleted files of a job that had ended well");
    check_deletions(savepoint);
    std::cout << "rocksdb: the folder had " << all << " files: " << used << " in use, " << all - used
              << " for deletion; all deleted after a cancel" << std::endl;
}

// The threads that delete files, beside tasks and tasks that should be dead.
#ifndef ENGINE_CLEANERS_HPP
#define ENGINE_CLEANERS_HPP

#include "coordinator.hpp"

#include <atomic>

// Deletes what the store hands it, until it is stopped. The seed decides which of its deletions fail, and these files wait again.
class Discarder {
public:
    uint64_t deleted = 0, failed = 0; // to be read once it has ended

    Discarder(Coordinator &of, uint64_t seed) : coordinator(of), chance{mixed(seed + 1)}, thread(&Discarder::run, this) {}
    // The store hands out no more file after it.
    void stop();
    // Waits until it has deleted all that waits.
    void drain();

private:
    Coordinator &coordinator;
    Chance chance;
    std::thread thread;

    void run();
    void delete_files(const uint64_t *files, size_t len, uint8_t *is_gone);
};

// Deletes garbage of the storage all the time.
class Sweeper {
public:
    uint64_t sweeps = 0; // to be read once it has ended

    Sweeper(Coordinator &of, uint64_t seed) : coordinator(of), chance{mixed(seed + 2)}, thread(&Sweeper::run, this) {}
    void stop();

private:
    Coordinator &coordinator;
    Chance chance;
    std::atomic<bool> stops = false;
    std::thread thread;

    void run();
};

#endif

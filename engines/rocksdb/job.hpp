// The job: a source, tasks, a timer, and what is done if something fails.
#ifndef ENGINE_JOB_HPP
#define ENGINE_JOB_HPP

#include "cleaners.hpp"
#include "task.hpp"

// Why the tasks are started, or stop.
enum class End { BEGINS, FAILED, ROLLS_BACK, RESCALES, OVER };

class Job {
public:
    // Opens the folder's job, or makes one. The seed is that of the stream. An endless process is to be killed.
    Job(const fs::path &folder, uint64_t seed, uint64_t choices, uint64_t seconds, Death death, bool is_endless);

    // Does what a recovery requires, and runs until the time is over and a savepoint, a roll back and a restore in another parallelism are done.
    // Then the source has stopped, all its records are counted, no zombie runs, and neither discarder nor sweeper.
    void run();

    // Says what this process has done.
    void print_end();

    // Checks what has to hold at the end. The counts are those of the stream. The last checkpoint can be opened, before anything else is deleted. The
    // storage folder has exactly the files in use, waiting and taken. A recovery from the image before the last one gives the same state, and finds
    // no file to sweep. A cancelled job leaves no file.
    void check_end();

private:
    static constexpr uint64_t GUARD_MS = 900000;

    const fs::path folder, local;
    const uint64_t seed, seconds, started;
    const bool is_endless;
    Chance chance;
    Shared shared;
    std::unique_ptr<Discarder> discarder;
    std::unique_ptr<Sweeper> sweeper;
    std::vector<std::unique_ptr<Task>> tasks;
    std::array<std::unique_ptr<Zombie>, 16> zombies; // in turn
    uint64_t zombies_begun = 0;
    std::thread source;
    std::atomic<bool> source_stops = false;
    std::array<uint64_t, PARTITIONS> offsets = {}; // the source's
    uint64_t next_failure;
    Task *victim = nullptr; // the task that is to be stopped
    uint64_t failures = 0;

    Coordinator &coordinator() { return *shared.coordinator; }
    State &state_of(unsigned partition) { return *tasks[partition % shared.parallelism]->state; }

    void feed();
    States opened(uint64_t id, const std::string &of, std::vector<Named> &files);
    void load(uint64_t id);
    uint64_t restore(End end);
    void start(uint64_t id);
    void take_steps();
    void stop(bool at_once);
    void send_barriers(uint64_t id);
    bool has_passed(uint64_t hundredths) const { return now() - started >= seconds * 10 * hundredths; }
    bool is_over() const { return has_passed(100) && !is_endless; }
    void choose_victim();
    bool has_failed() const { return shared.is_failed || (victim != nullptr && victim->is_stopped); }
    void drive();
    End drive_on();

    void check_counts();
    void check_record(uint64_t id);
    size_t check_folder();
    void check_recovery();
    void check_deletions(uint64_t savepoint);
};

#endif

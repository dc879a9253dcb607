// engine FOLDER SEED SECONDS [KILLS]: runs a job of four tasks with a RocksDB each for this many seconds over a folder of
// its own, and checks its end. With KILLS the process that runs it is first killed this many times, and started again over
// its job: at places and moments that the seed chooses, in turn each kind of place and a moment.
#include "job.hpp"

#include <csignal>
#include <sys/wait.h>

static constexpr uint64_t MOST_NTH = 150, MOST_RESERVATIONS = 40, MOST_WRITES = 400, MOST_MS = 1200, GUARD_MS = 900000;

static void run(const fs::path &folder, uint64_t seed, uint64_t choices, uint64_t seconds, Death death, bool is_endless) {
    Job job(folder, seed, choices, seconds, death, is_endless);
    job.run();
    job.print_end();
    job.check_end();
}

// Has shim.c end this process at the nth call that writes to the job's files.
static void die_in_a_write(const Death &death) {
    CHECK(getenv("STORE_IN") != nullptr, "faults/shim.c is not loaded");
    setenv("STORE_DIE", std::to_string(death.nth).c_str(), 1);
    if (death.place == AFTER_A_WRITE) {
        setenv("STORE_DIE_AFTER", "1", 1);
    }
}

// Waits so many ms for a process, and kills it then. Returns its status.
static int awaited(pid_t child, uint64_t ms) {
    int status;
    pid_t ended = 0;
    CHECK(child >= 0, "no process");
    for (const uint64_t end = now() + ms; ended == 0 && now() < end; sleep_ms(1)) {
        ended = waitpid(child, &status, WNOHANG);
    }
    if (ended == 0) {
        kill(child, SIGKILL);
        waitpid(child, &status, 0);
    }
    return status;
}

// Starts a process that runs the job until it is killed.
static void run_and_kill(const fs::path &folder, uint64_t seed, uint64_t nth) {
    Chance chance = {mixed(seed ^ mixed(nth))};
    const Place place = Place(nth % (PLACES + 1));
    const bool from_outside = place == PLACES, in_a_write = place <= AFTER_A_WRITE;
    const uint64_t most = in_a_write ? MOST_WRITES : place == AFTER_A_RESERVATION ? MOST_RESERVATIONS : MOST_NTH;
    const Death death = {place, from_outside ? 0 : 1 + chance.below(most)};
    const uint64_t ms = from_outside ? 1 + chance.below(MOST_MS) : GUARD_MS;
    const pid_t child = fork();
    if (child == 0) {
        if (in_a_write) {
            die_in_a_write(death);
        }
        run(folder, seed, chance.state, 1, death, true);
        _exit(1);
    }
    const int status = awaited(child, ms);
    CHECK(WIFSIGNALED(status) && WTERMSIG(status) == SIGKILL, "process ", nth, " was not killed, but ended with ", status);
}

int main(int argc, char **argv) {
    if (argc != 4 && argc != 5) {
        std::cerr << "engine FOLDER SEED SECONDS [KILLS]\n";
        return 2;
    }
    const uint64_t seed = std::stoull(argv[2]), seconds = std::stoull(argv[3]), kills = argc == 5 ? std::stoull(argv[4]) : 0;
    for (uint64_t nth = 0; nth < kills; nth++) {
        run_and_kill(argv[1], seed, nth);
    }
    run(argv[1], seed, seed, seconds, {}, false);
    std::cout << "rocksdb: the process was killed " << kills << " times" << std::endl;
    return 0;
}

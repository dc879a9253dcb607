// The coordinator, whose calls are durable (include/relkvanu_store.h): a process that opens it again has exactly the calls that the process before
// was answered, and maybe those of the commit that it was in. A call that can't be committed ends the process, because nobody may act on it.
//
// The store keeps the log, the lock, the images and the identity of the job, and gives out the names of files, each once. A task is started with
// the term of the last restore, and never gets another one.
#ifndef ENGINE_COORDINATOR_HPP
#define ENGINE_COORDINATOR_HPP

#include "../../include/relkvanu_store.h"
#include "storage.hpp"

#include <array>
#include <map>
#include <mutex>
#include <optional>

// The places at which the process may kill itself: in the nth write or sync of the store, before and after it (faults/shim.c does that,
// if it is loaded); after a call that is committed, and before anybody acts on its answer; the same after a reservation, before a name of it is
// used; between two steps of a task or of the discarder.
enum Place { BEFORE_A_WRITE, AFTER_A_WRITE, AFTER_A_CALL, AFTER_A_RESERVATION, BETWEEN_STEPS, PLACES };

// The process is killed when it comes to the place for the nth time; 0: it is not.
struct Death {
    Place place = PLACES;
    uint64_t nth = 0;
};

// A task, as the coordinator sees it: its subtask, and the term that it was started with.
struct Caller {
    unsigned index;
    uint64_t term;

    std::string name() const { return text_of("0.", index, " ", term); }
};

// What the timer needs to know.
struct Progress {
    uint64_t savepoint = 0, savepoint_pending = 0; // 0: none
    uint64_t completed = 0;                        // since the last restore
    uint64_t images = 0;                           // written by this process
    bool is_rolled_back = false;                   // by this process
};

class Coordinator {
public:
    relkvanu_store *store = nullptr;
    relkvanu_store_report report = {};
    Storage storage = {};
    uint64_t term; // of the tasks that are started next
    std::map<std::string, uint64_t>
        told;           // how often this process was given each answer, without its numbers, but those to the store's discarder
    uint64_t looks = 0; // how often all files of done records were there

    // Opens the coordinator in FOLDER/job.db, over the files in FOLDER/storage, or makes one for TASKS tasks. More flags of relkvanu_store.h may be
    // given.
    Coordinator(const fs::path &folder, uint32_t flags, Death death);
    Coordinator(const Coordinator &) = delete;
    ~Coordinator();

    // A tick, once one is due, if that is within so many ms.
    std::optional<relkvanu_answer> tick(uint64_t ms);
    // A call with one number or none.
    relkvanu_answer make(uint32_t kind, uint64_t number = 0);
    // A call of a task, with the files of an acknowledgement, or names that it gives up.
    relkvanu_answer make_by(const Caller &task, uint32_t kind, uint64_t number, const Files &first = {}, const Files &second = {});
    // From a savepoint, or from the latest if it is 0; with this many tasks from now on, or as many as before if that is 0. Those that run are of an
    // ended term then.
    relkvanu_answer restore(uint64_t savepoint = 0, uint64_t tasks = 0);
    // Fetches all files that wait, and deletes none.
    void take_all();

    // Makes a state file, which no loss of power takes then.
    void put(uint64_t number, const std::string &contents);
    // One sweep, after which the storage has no garbage that was there before.
    void sweep();

    // The files of a done record, by subtask: each has acknowledged it.
    std::vector<Files> record(uint64_t id);
    relkvanu_counts counts();
    // How often a file is used.
    uint64_t uses(uint64_t file);
    Files taken();
    // All of its state as a text.
    std::string image();
    Progress progress();

    // Ends the process unless the status is RELKVANU_STORE_OK.
    void check(const char *what, int status);
    // A place between two steps.
    void step() { may_die_at(BETWEEN_STEPS); }

private:
    std::mutex lock; // of told and what follows
    Death death;
    uint64_t completed = 0;      // checkpoints since the last restore
    bool is_rolled_back = false; // by this process

    void may_die_at(Place place);
    void look();
    void look_for(uint64_t id, const Files &files);
    relkvanu_answer committed(relkvanu_store_call &call);
    relkvanu_answer noted(const relkvanu_answer &answer);
    void note(const relkvanu_answer &answer);
};

#endif

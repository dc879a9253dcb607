// A task: a thread that counts the records of its queue, and takes its part of a checkpoint at each barrier. And a zombie, which goes on of it.
#ifndef ENGINE_TASK_HPP
#define ENGINE_TASK_HPP

#include "coordinator.hpp"
#include "state.hpp"

#include <atomic>
#include <condition_variable>
#include <deque>

struct Message {
    uint64_t barrier; // the number of a record of the coordinator, or 0: then it is a batch
    unsigned partition;
    uint64_t offset; // after the batch
    Keys keys;
};

// The queue of a task: records of the stream and barriers between them, in the order in which they were put.
class Queue {
public:
    // Waits for room. Nothing is put into a queue that is closed.
    void put(const Message &message);
    // Waits for a message: none comes after an end or a close.
    std::optional<Message> get();
    // Messages that are in the queue are still received.
    void end() { mark(is_ended); }
    // What is in the queue is lost.
    void close() { mark(is_closed); }

private:
    std::mutex lock;
    std::condition_variable changed;
    std::deque<Message> messages;
    bool is_closed = false, is_ended = false;

    void mark(bool &it);
};

// The files of a database, each with the number that it has in the storage folder.
using Named = std::map<std::string, uint64_t>;

// Those that never change once they are written: the tables.
Named tables_of(const Named &files);

// What a task puts into an acknowledgement.
struct Upload {
    uint64_t id = 0;
    Named fresh, reused;
};

// Names that a task has reserved, and used for no file so far.
struct Names {
    uint64_t next = 0, end = 0;
};

// How far each partition was counted at the barrier of a record; 0: of none of this process.
struct Cut {
    uint64_t record = 0;
    std::array<uint64_t, PARTITIONS> offsets = {};
};

// What the tasks of a job share.
struct Shared {
    std::unique_ptr<Coordinator> coordinator;
    unsigned parallelism = TASKS;
    std::atomic<bool> is_failed = false; // the job has to be restored
    std::array<Cut, 1024> cuts;          // that of a record is at its number modulo how many there are

    Cut &cut_of(uint64_t record) { return cuts[record % cuts.size()]; }
};

struct Task {
    Shared &shared;
    Coordinator &coordinator;
    const Caller caller; // with the term that it was started with
    Chance chance;
    const fs::path folder;
    Names names;
    std::unique_ptr<State> state;
    Queue queue;
    Named held;  // of the database's files, those of its last accepted acknowledgement
    Upload left; // what it was uploading when it was stopped; id 0: nothing
    std::atomic<bool> is_stopped = false;
    std::atomic<unsigned> stops_after = 0; // in the next checkpoint, after this many files; 0: not there
    std::thread thread;

    Task(Shared &shared, unsigned index, uint64_t choices, const fs::path &folder);
    void start();

private:
    void work();
    void take_part(uint64_t id);
    bool uploads(uint64_t id, const fs::path &snapshot);
    void upload_file(const fs::path &path, Upload &upload);
    uint64_t new_name();
    relkvanu_answer ack(const Upload &upload);
    void repeat(const Upload &upload);
    void decline(uint64_t id);
};

// What goes on of a task that stood still in the middle of an upload, while its job was restored. It has the term and the names that the task had,
// writes files, and sends what the task would have sent, beside the tasks that have replaced it.
class Zombie {
public:
    // Takes what the task was uploading. The job was restored since.
    explicit Zombie(const Task &task);
    // Waits until it has ended.
    ~Zombie() { thread.join(); }

private:
    Coordinator &coordinator;
    const Caller caller;
    Names names;
    const Upload left;
    Chance chance;
    std::thread thread;

    void write_files();
    void write_file(uint64_t number);
    void send();
};

#endif

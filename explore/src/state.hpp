// A state of the whole protocol: the coordinator's process and its log, tasks, messages, storage, and what was used up.
#ifndef EXPLORE_STATE_HPP
#define EXPLORE_STATE_HPP

#include "scope.hpp"

#include <cstring>
#include <utility>

constexpr unsigned MOST_TASKS = 4, MOST_MESSAGES = 6;

// What a process knows.
struct Process {
    u32 image;
    u8 term;   // how many restores it made: the engine's own fence
    u8 number; // of the process
    u8 width;  // how many subtasks the job has
    u8 stop;   // the number of the savepoint of a stop, and whether that is done: stop_code; 0: the job runs
};

// The phase of a job that stops with a savepoint, or has stopped with it.
constexpr u8 stop_code(u8 record, bool has_stopped) {
    return u8(record << 1 | (has_stopped ? 1 : 0));
}
constexpr u8 stop_record(u8 code) {
    return u8(code >> 1);
}
constexpr bool has_stopped(u8 code) {
    return code & 1;
}

// What the network brought a task back.
enum AckAnswer : u8 { NOTHING, ACCEPTED, LATE, REFUSED };

// A task of a subtask. Its incarnation is unique. It is not the term that the task was told.
struct Task {
    u8 incarnation; // 0: there is no task
    u8 term, subtask;
    u8 barrier; // of a record that it has not begun
    u8 record;  // that it takes part in, or 0
    u8 file;    // its new file, or 0
    u8 written; // 1: not durable, 2: durable, or there is nothing to write
    u8 sent;    // how often it sent its acknowledgement
    AckAnswer told;
    bool stops; // its barrier is that of a stop's savepoint
    u8 holds;   // the record of a stop that it has taken its snapshot for: it does nothing more, unless the stop fails
    u8 unused;
    Files barrier_base, base; // the files of the choice, which it may name again
    Files reused;             // those that it named
};

// A set of elements, or of records: number n is bit n, from 1 on.
using Small = u8;
constexpr Small bit(unsigned number) {
    return Small(1u << number);
}
// Those up to a number.
constexpr Small up_to(unsigned number) {
    return Small((2u << number) - 2);
}

// What a task has of the elements of its source.
struct Snapshot {
    u8 taken;       // it has processed so many elements, the first ones
    Small prepared; // a sink has prepared what it wrote for these records
};

// An item of a channel: an element, or the barrier of a record.
constexpr u8 BARRIER = 0x80;
constexpr unsigned MOST_ITEMS = 4;

// The elements' part of a task. It moves with the task.
struct Flow {
    Snapshot now, cut;      // cut: when it began its last record, or started
    u8 told;                // the greatest completed record of which a sink is about to be told, or 0
    u8 opening;             // what a sink does first: 2 publish, 1 give up; 0: it has
    u8 begun;               // the record that it began last
    u8 arrived;             // the record whose barrier has come on the channel, and that it has not begun, or 0
    u8 channel[MOST_ITEMS]; // what comes next from the source, the first first
    u8 unused[4];
};

// What a sink's target holds, and the snapshots of records.
struct Target {
    Small prepared[LAST_RECORD + 1]; // the elements that were prepared for a record, of those not published
    Snapshot parts[LAST_RECORD + 1][2];
    Small shown;            // elements that were published
    Small published, twice; // those since the last way back; those that were twice
    Small closed, dropped;  // records whose elements were published, and those for which they were given up
    u8 unused[3];
};

// A message of a task, in one word, so that messages can be sorted.
class Message {
public:
    u64 word;
    explicit Message(u64 word) : word(word) {}
    Message(const Task &task, bool is_decline)
        : word(u64(1) << 63 | u64(is_decline) << 62 | u64(task.incarnation) << 54 | u64(task.term & 0x7f) << 47 | u64(task.subtask) << 46 |
               u64(task.record) << 40 | (is_decline ? 0 : u64(task.file) << 32 | task.reused)) {}
    bool is_decline() const { return word >> 62 & 1; }
    u8 incarnation() const { return u8(word >> 54); }
    u8 term() const { return word >> 47 & 0x7f; }
    u8 subtask() const { return word >> 46 & 1; }
    u8 record() const { return word >> 40 & 0x3f; }
    u8 file() const { return u8(word >> 32); }
    Files reused() const { return scope.has_elements() ? 0 : Files(word); }
    // With elements no task has files: their place has the snapshot.
    void take(Snapshot part) { word |= u64(part.taken) << 8 | part.prepared; }
    Snapshot part() const { return {u8(word >> 8), Small(word)}; }
};

// It has no padding, because the hash reads all of it.
struct State {
    Process current, durable, old; // the process, what its log holds, and an older process that goes on (without ONE_LOG; has_old), or what
                                   // a copy of the log holds (without NEWEST_LOG), or a lost log (without LOST_LOG), or a manifest
                                   // that is ahead of the log (without COMMIT_FIRST)
    Process manifests;             // what the log held when the manifests in the storage were written
    Files visible, kept;           // what the storage shows, and what it shows after a loss of power
    Files may_sweep;               // files that a sweeper has leave to delete, for ever
    Files may_unlink;              // files that a discarder was ever given: one that should be dead deletes them at any time
    Files accepted;                // files that an accepted acknowledgement named, of the log that the job has
    u32 mixed;                     // records with a part of a task that was replaced
    Files wrong;                   // accepted files that another task has written over
    Files gone;                    // files of records that somebody else deleted
    u8 writer[LAST_FILE + 1];      // who wrote each file last
    Task tasks[MOST_TASKS];        // the running ones first, by subtask
    u64 messages[MOST_MESSAGES];   // descending
    u8 used[24];                   // by Budget
    u8 is_down, incarnation, name, is_away, messages_len, has_old, processes;
    u8 is_lost; // 1: the log; `durable` is what it held, and `current` what the manifests say; 2: a new log is there, and no process yet
    u8 back_to, back_with; // without GO_BACK_ALONE: a way back that is not done, its checkpoint and its savepoint
    u8 looked;             // without LOCKED_MARKER: the number of a process that has looked at the marker and not written it yet
    u8 unused[5];
    // With elements:
    Flow flows[MOST_TASKS];
    Target target;
};
static_assert(
    BUDGETS <= 24 && sizeof(Process) == 8 && sizeof(Task) == 24 && sizeof(Flow) == 16 && sizeof(Target) == 48, "there is no padding");
static_assert(sizeof(State) == 4 * 8 + 8 * 4 + 32 + 4 * 24 + 6 * 8 + 24 + 16 + 4 * 16 + 48, "there is no padding");
constexpr size_t WORDS_WITHOUT_ELEMENTS = (sizeof(State) - 4 * sizeof(Flow) - sizeof(Target)) / 8;

State first_state();
u64 hash_of(const State &state);
void add_message(State *state, Message message);
void drop_message(State *state, unsigned place);
// Who a task is, for the storage.
inline u8 mark_of(u8 incarnation, u8 subtask) {
    return u8(2 * incarnation + subtask);
}
// Ends the running tasks' time: they go on as replaced ones, and new ones start.
void start_tasks(State *state);
// A running task is one of the newest incarnation.
inline bool is_running(unsigned place) {
    return place < scope.subtasks;
}
// Whether the task has taken its snapshot for the savepoint of a stop that has not failed.
inline bool is_holding(const State &state, const Task &task) {
    return task.holds != 0 && task.holds == stop_record(state.current.stop);
}
// Whether a sink that begins with the record would find all that its snapshot lists. Otherwise it refuses to start.
inline bool is_whole(const State &state, u8 record) {
    return !scope.has_elements() || !(state.target.parts[record][scope.subtasks - 1].prepared & state.target.dropped);
}
// The subtask that reads the source, and the one that has the sink.
constexpr unsigned SOURCE = 0;
inline unsigned sink_of_job() {
    return scope.subtasks - 1;
}
// The records for which a sink has prepared elements that were not published.
Small found(const Target &target);
// The work on a record ends.
void clear_work(Task *task, bool keeps_file);
// Replaced tasks that can do nothing more are no part of a state.
void drop_idle_tasks(State *state);

#endif

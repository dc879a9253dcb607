// The steps that a state allows. A visitor makes all of them, or one that it chose by its number.
#ifndef EXPLORE_STEPS_HPP
#define EXPLORE_STEPS_HPP

#include "library.hpp"
#include "state.hpp"

#include <cstdarg>
#include <functional>

// The lines of the log in a random run, and how many of them are durable.
struct Log {
    std::vector<std::string> lines;
    size_t durable = 0, copied = 0;
    u8 first = 0; // of the log of a recovery: the number of its first record
    std::vector<std::string> lost;
    u8 first_of_lost = 0;
};

class Steps {
public:
    static constexpr unsigned ALL = ~0u;

    unsigned chosen = ALL;   // ALL, or the number of the step to make
    bool has_faults = true;  // whether faults are among the steps
    bool loses = false;      // whether messages are lost by a step. A search need not lose them: they may stay for ever
    bool is_telling = false; // whether each step writes the lines of the trace
    std::vector<std::string> lines;
    Log *log = nullptr;
    State next; // the state after the step

    // The lines of the trace before the first step.
    void tell_opening(const State &state);
    void print() const;
    // Makes the steps of a state. `visit` sees each one in `next`. Returns how many there are.
    unsigned of(const State &state, const std::function<void(unsigned step)> &visit);

private:
    const State *from = nullptr;
    const Facts *facts = nullptr;
    const std::function<void(unsigned)> *visitor = nullptr;
    unsigned number = 0; // of the step that is offered next

    // Whether to make this step. If so, `next` is a copy of the state, to be changed.
    bool offer(bool may);
    bool offer_fault(bool may) { return (has_faults || chosen == ALL) && offer(may); }
    // The step has changed `next`.
    void made();
    bool may_use(Budget budget) const { return from->used[budget] < scope.limit[budget]; }
    void use(Budget budget) { next.used[budget]++; }

    void tell(const char *format, ...) __attribute__((format(printf, 2, 3)));
    void tell_task(const Task &task, const char *format, ...) __attribute__((format(printf, 3, 4)));
    void tell_sent(const Task &task);
    void append(const char *before, const char *format, va_list values);
    // A call of the library by a process, and its line in the log.
    Answer call(Process *who, const Call &call);
    // Without the rule the log is synced later, by a step of its own.
    void sync_log();
    void sync_now();
    // The same without the manifests.
    void commit();

    // process.cpp: ticks, savepoints, restores, and the end and the start of the process
    void of_process();
    void of_triggers();
    void of_restores();
    void of_endings();
    void of_crashes();
    void of_copies();
    void end_process();
    void recover();
    void report_taken();
    void sweep_known();
    Answer restore(u8 savepoint, u8 width);
    void start();
    void send_barriers(u8 record, bool stops = false);

    // operations.cpp: what an operator asks for
    void of_operations();
    void of_requests();
    void of_stops();
    void of_ways_back();
    void stop_with(u8 record);
    void go_back(unsigned place);
    void begin_way_back(unsigned place);
    void end_way_back();
    void acknowledge_as(u8 checkpoint, u8 record, const Files *parts);
    void take_back(u8 record);
    // Whether a way back to a record with these files may begin.
    bool may_go_back_to(Files files) const { return !scope.is_on[LOOK_FIRST] || !(files & ~(from->is_away ? 0 : from->visible)); }

    // recovery.cpp: manifests, and a log that is lost
    void of_recoveries();
    void end_behind(unsigned place);
    u32 untold() const;
    void write_manifests();
    void lose_log();
    void put_lost_log_back();
    void of_openings();
    void make_again(u8 choice, const Files *parts);
    void must(const Call &call);
    void adopt(u8 choice, const Files *parts, u8 below);
    void pass_names(const Files *parts);

    // elements.cpp: a source, a channel, and a sink with its target
    void of_elements(unsigned place);
    void read_element(unsigned place);
    void take_item(unsigned place);
    void open_sink(unsigned place);
    void publish_told(unsigned place);
    bool may_cut(unsigned place) const;
    void cut(unsigned place);
    void publish(unsigned place, Small records);
    void put_into_channel(unsigned place, u8 item);
    void tell_sink(u8 record);
    bool may_touch_target(unsigned place) const { return is_running(place) || !scope.is_on[TARGET_FENCE]; }
    bool has_room_after(unsigned place) const;

    // tasks.cpp
    void of_task(unsigned place);
    void begin_record(unsigned place);
    void write(unsigned place);
    void send(unsigned place);
    void add_ack(unsigned place);
    void give_up(unsigned place);
    void read_answer(unsigned place);
    // With names a task gives names back by a call.
    bool may_call() const { return !scope.names || !from->is_down; }
    u8 new_name(const Task &task);
    void give_back(const Task &task);

    // messages.cpp
    void of_messages();
    void deliver(unsigned place, bool is_copy, bool to_old);
    Answer accept(Process *who, Message message);
    void note_completed(u8 record);
    void note_accepted(Message message, bool is_late);
    void answer_task(Message message, const Answer &answer);

    // storage.cpp: the discarder, sweepers, and faults of the storage
    void of_storage();
    void of_takes();
    void of_deletions();
    void of_sweepers();
    void of_faults();
    void of_strangers();
    void unlink(Files files, const char *who);
};

// The term of a process: that of its coordinator, or the engine's own.
inline u8 term_of(const Process &process) {
    return scope.names ? library.facts(process.image).term : process.term;
}

// The files that the coordinator knows: in use, waiting or taken.
inline Files known(const Facts &facts) {
    return facts.in_use | facts.waiting | facts.taken;
}

// What happened how often. It shows that a search that finds nothing saw something.
enum Seen {
    PENDING_ACKS,
    COMPLETED_ACKS,
    LATE_ACKS,
    DROPPED_MESSAGES,
    REFUSED_MESSAGES,
    SWEEPS,
    DISCARDS,
    LATE_WRITES,
    RECOVERIES,
    SEEN_ALWAYS,
    REQUESTS = SEEN_ALWAYS,
    CHANGES,
    STOPS_DONE,
    STOPS_FAILED,
    BEGINS,
    WAYS_BACK,
    PUBLISHED,
    GIVEN_UP,
    SEEN_WITH_LOG,
    MADE_AGAIN = SEEN_WITH_LOG,
    UNTOLD,
    SEEN
};
extern u64 seen[SEEN];
void print_seen();

// What is wrong with a state: a word and a number, as docs/PROTOCOL.md has them. Empty: nothing.
std::string fault_of(const State &state);

#endif

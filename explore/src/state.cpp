// Small changes of a state, and its hash.
#include "state.hpp"

#include "library.hpp"

u64 hash_of(const State &state) {
    u64 words[sizeof(State) / 8], first = 0x9e3779b97f4a7c15u, second = 0x2545f4914f6cdd1du;
    memcpy(words, &state, sizeof state);
    const size_t count = scope.has_elements() ? sizeof(State) / 8 : WORDS_WITHOUT_ELEMENTS;
    for (size_t place = 0; place < count; place++) {
        first = (first ^ words[place]) * 0xff51afd7ed558ccdu;
        first ^= first >> 32;
        second = (second + first) * 0xc4ceb9fe1a85ec53u;
        second ^= second >> 29;
    }
    const u64 hash = mixed(first ^ second);
    return hash == 0 ? 1 : hash;
}

void add_message(State *state, Message message) {
    unsigned place = state->messages_len++;
    for (; place > 0 && state->messages[place - 1] < message.word; place--) {
        state->messages[place] = state->messages[place - 1];
    }
    state->messages[place] = message.word;
}

void drop_message(State *state, unsigned place) {
    for (state->messages_len--; place < state->messages_len; place++) {
        state->messages[place] = state->messages[place + 1];
    }
    state->messages[place] = 0;
}

static Task task_of(const State &state, unsigned subtask) {
    Task task = {};
    task.incarnation = state.incarnation;
    task.term = scope.names ? library.facts(state.current.image).term : state.current.term;
    task.subtask = u8(subtask);
    return task;
}

Small found(const Target &target) {
    Small records = 0;
    for (unsigned record = 1; record <= LAST_RECORD; record++) {
        records |= target.prepared[record] ? bit(record) : 0;
    }
    return records;
}

// What a new task has of the record that the job is restored to.
static Flow flow_of(const State &state, unsigned subtask) {
    Flow flow = {};
    const u8 choice = scope.has_elements() ? library.facts(state.current.image).choice : 0;
    flow.now = choice ? state.target.parts[choice][subtask] : Snapshot{};
    flow.cut = flow.now;
    flow.begun = choice;
    flow.opening = subtask == sink_of_job() && found(state.target) ? 2 : 0;
    return flow;
}

void start_tasks(State *state) {
    for (unsigned place = MOST_TASKS; place-- > scope.subtasks;) {
        state->tasks[place] = state->tasks[place - scope.subtasks];
        state->flows[place] = state->flows[place - scope.subtasks];
    }
    state->incarnation++;
    for (unsigned subtask = 0; subtask < scope.subtasks; subtask++) {
        state->tasks[subtask] = subtask < state->current.width ? task_of(*state, subtask) : Task{};
        state->flows[subtask] = flow_of(*state, subtask);
    }
}

void clear_work(Task *task, bool keeps_file) {
    task->record = task->sent = 0;
    task->told = NOTHING;
    task->base = task->reused = 0;
    if (!keeps_file) {
        task->file = task->written = 0;
    }
}

static bool is_idle_for_good(const State &state, const Task &task) {
    const bool may_publish = scope.has_elements() && !scope.is_on[TARGET_FENCE];
    return task.incarnation && task.record == 0 && task.barrier == 0 && !may_publish &&
           state.used[ZOMBIE_BARRIERS] >= scope.limit[ZOMBIE_BARRIERS];
}

// Moves a task into the place of a newer one that was dropped.
static void close_gaps(State *state) {
    const unsigned subtasks = scope.subtasks;
    for (unsigned place = subtasks; place + subtasks < MOST_TASKS; place++) {
        if (state->tasks[place].incarnation == 0) {
            std::swap(state->tasks[place], state->tasks[place + subtasks]);
            std::swap(state->flows[place], state->flows[place + subtasks]);
        }
    }
}

void drop_idle_tasks(State *state) {
    for (unsigned place = scope.subtasks; place < MOST_TASKS; place++) {
        if (is_idle_for_good(*state, state->tasks[place])) {
            state->tasks[place] = {};
            state->flows[place] = {};
        }
    }
    close_gaps(state);
}

State first_state() {
    State state;
    memset(static_cast<void *>(&state), 0, sizeof state);
    state.current.image = library.opening();
    state.current.term = state.current.number = state.processes = 1;
    state.current.width = u8(scope.subtasks);
    state.durable = state.current;
    state.manifests = scope.has_manifests() ? state.current : Process{};
    start_tasks(&state);
    return state;
}

// How steps are offered, told and logged.
#include "steps.hpp"

#include <algorithm>
#include <cstdio>

u64 seen[SEEN];

void print_seen() {
    static const char *const what[SEEN] = {"acks pending", "completed", "late", "messages dropped", "refused", "sweeps", "discards",
        "late writes", "recoveries", "checkpoints asked for", "settings", "stops", "failed stops", "begins", "ways back", "published",
        "given up", "lost logs", "records that nobody was told"};
    printf("# seen");
    const int most = scope.has_manifests() ? SEEN : scope.has_operations() ? SEEN_WITH_LOG : SEEN_ALWAYS;
    for (int place = 0; place < most; place++) {
        printf("%s %s %llu", place == 0 ? "" : ",", what[place], static_cast<unsigned long long>(seen[place]));
    }
    printf("\n");
}

void Steps::tell_opening(const State &state) {
    tell("process 1 starts");
    std::string opening = library.opening_lines(scope.names);
    opening.pop_back();
    tell("%s", opening.c_str());
    tell("log synced");
    if (scope.has_elements() && scope.subtasks == 2) {
        tell("channel 0.0 to 0.1");
    }
    for (unsigned place = 0; place < scope.subtasks; place++) {
        tell_task(state.tasks[place], "starts");
    }
}

void Steps::print() const {
    for (const std::string &line : lines) {
        printf("%s\n", line.c_str());
    }
}

bool Steps::offer(bool may) {
    if (!may || (number++ != chosen && chosen != ALL)) {
        return false;
    }
    next = *from;
    return true;
}

void Steps::made() {
    drop_idle_tasks(&next);
    (*visitor)(number - 1);
}

unsigned Steps::of(const State &state, const std::function<void(unsigned)> &visit) {
    from = &state;
    facts = &library.facts(state.current.image);
    visitor = &visit;
    number = 0;
    of_process();
    of_operations();
    of_recoveries();
    for (unsigned place = 0; place < MOST_TASKS; place++) {
        if (state.tasks[place].incarnation) {
            of_elements(place);
            of_task(place);
        }
    }
    of_messages();
    of_storage();
    return number;
}

void Steps::append(const char *before, const char *format, va_list values) {
    char text[512];
    vsnprintf(text, sizeof text, format, values);
    lines.push_back(std::string(before) + text);
}

void Steps::tell(const char *format, ...) {
    if (is_telling) {
        va_list values;
        va_start(values, format);
        append("", format, values);
        va_end(values);
    }
}

void Steps::tell_task(const Task &task, const char *format, ...) {
    if (is_telling) {
        char who[32];
        snprintf(who, sizeof who, "task 0.%u %u ", task.subtask, task.incarnation);
        va_list values;
        va_start(values, format);
        append(who, format, values);
        va_end(values);
    }
}

void Steps::commit() {
    next.durable = next.current;
    if (log) {
        log->durable = log->lines.size();
    }
    tell("log synced");
}

void Steps::sync_now() {
    commit();
    if (scope.has_manifests() && (scope.is_on[MANIFEST_FIRST] || !untold())) {
        write_manifests();
    }
}

void Steps::sync_log() {
    if (scope.is_on[SYNC] && scope.is_on[ONE_LOG]) {
        sync_now();
    }
}

static bool has(const u8 *records, u8 record) {
    return std::find(records, records + MOST_RECORDS, record) != records + MOST_RECORDS;
}

// A stop fails when its savepoint is dropped. The job runs then.
static void settle(Process *who) {
    const Facts &now = library.facts(who->image);
    const u8 record = stop_record(who->stop);
    if (who->stop && !has(now.pending, record) && !has(now.savepoints, record)) {
        seen[STOPS_FAILED]++;
        who->stop = 0;
    }
}

Answer Steps::call(Process *who, const Call &call) {
    const u32 before = who->image;
    const Answer answer = library.call(before, call);
    if (is_telling || log) {
        const std::string line = library.line(before, call);
        if (next.has_old) {
            tell("process %u goes on", who->number);
        }
        tell("%s%s", answer.is_done() ? "" : "refused ", line.c_str());
        if (log && answer.is_done()) {
            log->lines.push_back(line);
        }
    }
    who->image = answer.image;
    settle(who);
    if (!scope.is_on[ONE_LOG]) {
        // two processes append to one log: it has the calls of both
        const Answer again = library.call(next.durable.image, call);
        next.durable.image = again.image;
        next.durable.term += call.kind == RESTORE && again.is_done();
        tell("log synced");
    }
    return answer;
}

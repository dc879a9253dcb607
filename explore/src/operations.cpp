// Steps that an operator asks for: a checkpoint now, other settings, a stop and a begin, and a way back to an older checkpoint.
#include "steps.hpp"

void Steps::of_requests() {
    const bool may = !from->is_down && facts->is_running && !has_stopped(from->current.stop);
    if (offer(may && may_use(NOW))) {
        const Answer answer = call(&next.current, {TRIGGER, 0, 0, 0, 0});
        sync_log();
        if (answer.is_done()) {
            use(NOW);
            seen[REQUESTS]++;
            send_barriers(u8(answer.b));
            made();
        }
    }
    for (unsigned retained = 1; retained <= 2; retained++) {
        for (unsigned at_once = 1; at_once <= 2; at_once++) {
            if (offer(may && may_use(CONFIGURES))) {
                use(CONFIGURES);
                seen[CHANGES]++;
                call(&next.current, {CONFIGURE, 0, settings_code(retained, at_once), 0, 0});
                sync_log();
                made();
            }
        }
    }
}

// The job is restored to the savepoint of its stop, and stops with it. The caller syncs the log.
void Steps::stop_with(u8 record) {
    const Answer answer = call(&next.current, {RESTORE, 0, record, 0, 0});
    if (answer.is_done()) {
        next.current.term++;
        next.current.stop = stop_code(record, true);
        seen[STOPS_DONE]++;
    }
}

void Steps::of_stops() {
    const u8 stop = from->current.stop, record = stop_record(stop);
    if (offer(!from->is_down && facts->is_running && stop == 0 && may_use(STOPS) && !facts->pending[1])) {
        use(STOPS);
        const Answer answer = call(&next.current, {SAVE, 0, 0, 0, 0});
        next.current.stop = stop_code(u8(answer.a), false);
        tell("stop with %u", unsigned(answer.a));
        sync_log();
        send_barriers(u8(answer.a), true);
        made();
    }
    const bool is_complete = stop != 0 && !has_stopped(stop) && facts->done_records & (u32(1) << record);
    if (offer(!from->is_down && is_complete)) { // without STOP_IN_ONE: with the rule it is one step with the acknowledgement
        stop_with(record);
        sync_log();
        tell_sink(record);
        made();
    }
    if (offer(!from->is_down && has_stopped(stop) && !facts->is_cancelled)) {
        seen[BEGINS]++;
        tell("begin");
        restore(0, from->current.width);
        sweep_known();
        start();
        made();
    }
}

// What was published for records after this one is not taken back. It comes again, and whoever goes back has agreed to that.
void Steps::take_back(u8 record) {
    if (record != 0 && scope.has_elements()) {
        next.target.published &= up_to(next.target.parts[record][SOURCE].taken);
    }
}

// Each subtask acknowledges the record by what it has in the checkpoint.
void Steps::acknowledge_as(u8 checkpoint, u8 record, const Files *parts) {
    for (u8 subtask = 0; subtask < next.current.width; subtask++) {
        const Answer answer = call(&next.current, {ACK, subtask, record, 0, parts[subtask], term_of(next.current)});
        if (answer.is_done() && scope.has_elements()) {
            next.target.parts[record][subtask] = next.target.parts[checkpoint][subtask];
        }
    }
}

// Only a savepoint can be restored to by its number, so a way back makes one of the checkpoint's own files.
void Steps::go_back(unsigned place) {
    const u8 checkpoint = facts->checkpoints[place], record = u8(call(&next.current, {SAVE, 0, 0, 0, 0}).a);
    tell("back to %u with %u", checkpoint, record);
    acknowledge_as(checkpoint, record, facts->parts[place]);
    restore(record, from->current.width);
    take_back(record);
    sweep_known();
    start();
}

// Without GO_BACK_ALONE: the savepoint is one commit, and the rest another one.
void Steps::begin_way_back(unsigned place) {
    next.back_to = facts->checkpoints[place];
    next.back_with = u8(call(&next.current, {SAVE, 0, 0, 0, 0}).a);
    tell("back to %u with %u", next.back_to, next.back_with);
    sync_log();
    send_barriers(next.back_with);
}

void Steps::end_way_back() {
    const u8 checkpoint = from->back_to, record = from->back_with;
    for (unsigned place = 0; place < MOST_RECORDS; place++) {
        if (facts->checkpoints[place] == checkpoint) {
            acknowledge_as(checkpoint, record, facts->parts[place]);
        }
    }
    restore(record, from->current.width);
    take_back(record);
    sweep_known();
    start();
}

void Steps::of_ways_back() {
    const bool may = !from->is_down && facts->is_running && from->current.stop == 0 && from->back_with == 0 && !facts->pending[1];
    for (unsigned place = 0; place < MOST_RECORDS && facts->checkpoints[place]; place++) {
        if (offer_fault(may && may_use(BACKS) && may_go_back_to(facts->parts[place][0] | facts->parts[place][1]))) {
            use(BACKS);
            seen[WAYS_BACK]++;
            if (scope.is_on[GO_BACK_ALONE]) {
                go_back(place);
            } else {
                begin_way_back(place);
            }
            made();
        }
    }
    if (offer(from->back_with != 0 && !from->is_down)) {
        end_way_back();
        made();
    }
}

void Steps::of_operations() {
    of_requests();
    of_stops();
    of_ways_back();
}

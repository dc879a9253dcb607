// Steps of the coordinator's process: ticks, savepoints, restores, and its end and start.
#include "steps.hpp"

void Steps::send_barriers(u8 record, bool stops) {
    next.mixed &= ~(u32(1) << record);
    const Facts &now = library.facts(next.current.image);
    for (unsigned place = 0; place < scope.subtasks; place++) {
        Task &task = next.tasks[place];
        if (task.incarnation != 0) {
            task.barrier = record;
            task.stops = stops;
            task.barrier_base = now.base[task.subtask];
            tell("barrier %u to 0.%u %u", record, task.subtask, task.incarnation);
        }
    }
}

// From a stop on the timer rests, but for the expiry of its savepoint.
void Steps::of_triggers() {
    const bool runs = !from->is_down && facts->is_running && from->current.stop == 0;
    const bool stops = !from->is_down && from->current.stop != 0 && facts->pending[0] == stop_record(from->current.stop);
    const unsigned most = scope.limit[CONFIGURES] > 0 ? 2 : scope.at_once;
    if (offer(runs && may_use(TRIGGERS) && !facts->pending[most - 1])) {
        const Answer answer = call(&next.current, {TICK, 0, 0, 0, 0});
        sync_log();
        if (answer.what == RELKVANU_TICK_TRIGGERED) {
            use(TRIGGERS);
            send_barriers(u8(answer.b));
            made();
        }
    }
    if (offer_fault((runs || stops) && facts->pending[0] && may_use(DECLINES))) {
        use(DECLINES);
        const Answer answer = call(&next.current, {EXPIRE, 0, 0, 0, 0});
        sync_log();
        if (answer.what == RELKVANU_TICK_TRIGGERED) {
            use(TRIGGERS);
            send_barriers(u8(answer.b));
        }
        made();
    }
    if (offer(runs && may_use(SAVEPOINTS) && !facts->pending[1])) {
        use(SAVEPOINTS);
        const Answer answer = call(&next.current, {SAVE, 0, 0, 0, 0});
        sync_log();
        send_barriers(u8(answer.a));
        made();
    }
}

Answer Steps::restore(u8 savepoint, u8 width) {
    const Answer answer = call(&next.current, {RESTORE, 0, savepoint, width == next.current.width ? u8(0) : width, 0});
    next.current.term += answer.is_done();
    next.current.width = answer.is_done() ? width : next.current.width;
    next.current.stop = answer.is_done() ? 0 : next.current.stop;
    next.back_to = next.back_with = 0;
    sync_log();
    return answer;
}

void Steps::start() {
    start_tasks(&next);
    for (unsigned place = 0; place < next.current.width; place++) {
        tell_task(next.tasks[place], "starts");
    }
}

// A sweep by what the coordinator knows: it deletes all other files. With names a sweeper asks the coordinator, at any time.
void Steps::sweep_known() {
    if (scope.names) {
        return;
    }
    seen[SWEEPS]++;
    unlink(next.visible & ~known(library.facts(next.current.image)), "sweeper");
}

void Steps::of_restores() {
    const bool may = !from->is_down && !facts->is_cancelled && !has_stopped(from->current.stop) && may_use(RESTORES);
    for (unsigned place = 0; place <= MOST_RECORDS && (place == 0 || facts->savepoints[place - 1]); place++) {
        const u8 savepoint = place == 0 ? 0 : facts->savepoints[place - 1];
        const Files files = place == 0 ? 0 : facts->saved[place - 1];
        if (offer_fault(may && is_whole(*from, savepoint) && may_go_back_to(files))) {
            use(RESTORES);
            restore(savepoint, from->current.width);
            take_back(savepoint);
            if (scope.is_on[SWEEP_RESTORED]) {
                sweep_known();
            }
            start();
            made();
        }
    }
    if (offer_fault(may && may_use(SCALES))) {
        use(RESTORES);
        use(SCALES);
        restore(0, u8(3 - from->current.width));
        sweep_known();
        start();
        made();
    }
    if (offer_fault(may && !scope.is_on[RESTART_RESTORES])) {
        use(RESTORES);
        start();
        made();
    }
}

void Steps::of_endings() {
    for (unsigned place = 0; place < MOST_RECORDS && facts->savepoints[place]; place++) {
        if (offer_fault(!from->is_down && may_use(DISPOSALS))) {
            use(DISPOSALS);
            call(&next.current, {DISPOSE, 0, facts->savepoints[place], 0, 0});
            sync_log();
            made();
        }
    }
    if (offer_fault(!from->is_down && !facts->is_cancelled && may_use(CANCELS))) {
        use(CANCELS);
        call(&next.current, {CANCEL, 0, 0, 0, 0});
        sync_log();
        made();
    }
}

// The files that a process that has ended took. A file that is not there was deleted.
void Steps::report_taken() {
    for (unsigned file = 1; file <= LAST_FILE; file++) {
        if (facts->taken & only(file)) {
            const bool is_gone = next.is_away ? !scope.is_on[MOUNTED_DELETE] : !(next.visible & only(file));
            call(&next.current, {is_gone ? DELETE : UNDELETE, 0, 0, u8(file), 0});
        }
    }
}

// The new process has replayed the log.
void Steps::recover() {
    next.is_down = next.is_lost = 0;
    seen[RECOVERIES]++;
    const bool goes_on = from->looked && next.old.number == 0; // it has looked at the marker
    next.current.number = goes_on ? from->looked : ++next.processes;
    next.looked = goes_on ? u8(0) : from->looked;
    tell("process %u starts", next.current.number);
    report_taken();
    sync_log();
    if (has_stopped(next.current.stop)) {
        return; // until the job begins
    }
    if (!scope.is_on[SWEEP_RESTORED] && !scope.names) {
        sweep_known(); // and it restores the job later
    } else if (!library.facts(next.current.image).is_cancelled) {
        restore(0, next.current.width);
        sweep_known();
        start();
    }
}

// What is not durable is lost with it.
void Steps::end_process() {
    if (scope.is_on[ONE_LOG]) {
        tell("process %u ends", next.current.number);
        tell("log cut");
    }
    next.current = next.durable;
    next.back_to = next.back_with = 0;
    next.is_down = 1;
    if (log) {
        log->lines.resize(log->durable);
    }
}

void Steps::of_crashes() {
    if (offer(memcmp(&from->current, &from->durable, sizeof(Process)) != 0 && !from->is_down && scope.is_on[ONE_LOG])) {
        sync_now();
        made();
    }
    if (offer_fault(!from->is_down && may_use(CRASHES))) {
        use(CRASHES);
        if (!scope.is_on[ONE_LOG]) {
            next.old = from->current;
            next.has_old = 1;
        }
        end_process();
        made();
    }
    if (offer(from->is_down && from->is_lost != 1)) {
        recover();
        made();
    }
}

// Somebody copies the log, and puts the copy in its place once the process has ended: a backup, or a snapshot of a machine.
void Steps::of_copies() {
    const bool may = !scope.is_on[NEWEST_LOG] && scope.is_on[ONE_LOG], has_copy = from->old.number != 0;
    if (offer_fault(may && !has_copy && !from->is_down)) {
        next.old = from->durable;
        tell("log copied");
        if (log) {
            log->copied = log->durable;
        }
        made();
    }
    if (offer_fault(may && has_copy && from->is_down)) {
        next.current = next.durable = from->old;
        next.old = Process{};
        tell("log put back");
        if (log) {
            log->lines.resize(log->copied);
            log->durable = log->copied;
        }
        made();
    }
}

void Steps::of_process() {
    of_triggers();
    of_restores();
    of_endings();
    of_copies();
    of_crashes();
}

// Steps of a job that loses its log: the manifests in its storage, the loss, a recovery that makes a new log of the newest manifest, and the old
// log that comes back.
#include "steps.hpp"

#include <cstring>

// The complete records that have no manifest.
u32 Steps::untold() const {
    return library.facts(next.durable.image).done_records & ~library.facts(next.manifests.image).done_records;
}

// Those of all complete records. With MANIFEST_FIRST they are as the durable log is before anybody is told of it.
void Steps::write_manifests() {
    const u32 records = untold();
    for (unsigned record = 1; record < 32; record++) {
        if (records & u32(1) << record) {
            tell("manifest %u", record);
        }
    }
    next.manifests = next.durable;
}

// The process ends between the commit that completes a record and its manifest, so nobody is told. Without COMMIT_FIRST it ends between the
// manifest and the commit.
void Steps::end_behind(unsigned place) {
    const Message message(from->messages[place]);
    use(CRASHES);
    drop_message(&next, place);
    tell("from 0.%u %u", message.subtask(), message.incarnation());
    const Answer answer = accept(&next.current, message);
    if (!answer.is_done() || answer.what != RELKVANU_ACK_COMPLETED) {
        return;
    }
    note_accepted(message, false);
    seen[UNTOLD]++;
    if (scope.is_on[COMMIT_FIRST]) {
        commit();
    } else {
        tell("manifest %u", message.record());
        next.old = next.current;
    }
    end_process();
    made();
}

// What the manifests say of which a recovery takes the newest record.
static const Process &newest_of(const State &state) {
    const bool is_ahead = !scope.is_on[COMMIT_FIRST] && library.facts(state.old.image).choice > library.facts(state.manifests.image).choice;
    return is_ahead ? state.old : state.manifests;
}

void Steps::lose_log() {
    use(LOSSES);
    if (!from->is_down) {
        end_process();
    }
    tell("log lost");
    if (!scope.is_on[LOST_LOG] || from->looked) {
        next.old = from->durable;
    }
    if (log) {
        log->lost = log->lines;
        log->first_of_lost = log->first;
    }
    next.current = newest_of(*from);
    next.current.number = from->current.number;
    next.is_lost = 1;
}

// A call of a recovery. None may be refused.
void Steps::must(const Call &made) {
    if (!call(&next.current, made).is_done()) {
        die("a call of a recovery is refused");
    }
}

// The record that was chosen has its own number, and those up to `below` are used up while it is pending.
void Steps::adopt(u8 choice, const Files *parts, u8 below) {
    const bool is_savepoint = memchr(library.facts(from->current.image).savepoints, choice, MOST_RECORDS);
    must({is_savepoint ? SAVE : TRIGGER, 0, 0, 0, 0});
    for (u8 number = u8(choice + 1); number < below; number++) {
        must({SAVE, 0, 0, 0, 0});
        must({DECLINE, 0, number, 0, 0});
    }
    for (u8 subtask = 0; subtask < next.current.width; subtask++) {
        must({ADOPT, subtask, choice, 0, parts[subtask]});
    }
    if (is_savepoint) {
        must({RESTORE, 0, choice, 0, 0});
    }
}

// From here on the job has names, in a term above each that a task was told.
void Steps::pass_names(const Files *parts) {
    const Facts &lost = library.facts(from->durable.image);
    u8 name = 1;
    while ((parts[0] | parts[1]) >> name) {
        name++;
    }
    name = scope.is_on[NEW_NAMES] ? lost.next_name : name;
    must({GIVE_NAMES, 0, 0, name, 0});
    if (scope.is_on[NEW_TERMS]) {
        must({ADVANCE, 0, 0, name, 0, lost.term});
    }
}

// A new log, of ordinary calls. Other savepoints are not taken over.
void Steps::make_again(u8 choice, const Files *parts) {
    const Process lost = from->durable;
    seen[MADE_AGAIN]++;
    next.current = {library.opening_of_recovery(choice), scope.is_on[NEW_TERMS] ? lost.term : u8(0), ++next.processes, lost.width, 0};
    if (log) {
        log->lines.clear();
        log->first = choice;
    }
    tell("process %u recovers %u", next.current.number, choice);
    std::string opening = library.opening_lines(false);
    opening.pop_back();
    tell("%s", opening.c_str());
    adopt(choice, parts, scope.is_on[NEW_NUMBERS] ? library.facts(lost.image).next_record : u8(0));
    if (scope.names) {
        pass_names(parts);
    }
    sync_now();
    next.manifests = next.durable;
    next.accepted &= parts[0] | parts[1]; // the new log has no acknowledgement of others
    tell("process %u ends", next.current.number);
    next.is_lost = 2;
}

// The old log is in its place again when the process has ended that had the new one.
void Steps::put_lost_log_back() {
    if (!from->is_down) {
        end_process();
    }
    next.current = next.durable = from->old;
    next.old = Process{};
    tell("log comes back");
    if (log) {
        log->lines = log->lost;
        log->durable = log->lines.size();
        log->first = log->first_of_lost;
    }
}

// Without LOCKED_MARKER: a process that starts has seen that the marker is its log's. It writes the marker later, also when a recovery has
// written it since, whose process ends then.
void Steps::of_openings() {
    const bool may = !scope.is_on[LOCKED_MARKER] && from->is_lost == 0;
    if (offer_fault(may && from->is_down && from->looked == 0)) {
        next.looked = ++next.processes;
        tell("process %u looks", next.looked);
        made();
    }
    if (offer_fault(may && from->looked != 0 && from->old.number != 0)) {
        put_lost_log_back();
        recover();
        made();
    }
}

void Steps::of_recoveries() {
    if (!scope.has_manifests()) {
        return;
    }
    const bool is_there = library.facts(newest_of(*from).image).choice != 0 && !facts->is_cancelled;
    if (offer_fault(from->is_lost == 0 && is_there && may_use(LOSSES))) {
        lose_log();
        made();
    }
    if (offer(from->is_lost == 1 && !from->is_away && !((facts->base[0] | facts->base[1]) & ~from->visible))) {
        make_again(facts->choice, facts->base);
        made();
    }
    for (unsigned place = 0; place < MOST_RECORDS && !scope.is_on[NEWEST_RECORD]; place++) {
        if (offer(from->is_lost == 1 && facts->checkpoints[place] != 0 && facts->checkpoints[place] != facts->choice)) {
            make_again(facts->checkpoints[place], facts->parts[place]);
            made();
        }
    }
    if (offer(!scope.is_on[MANIFEST_FIRST] && !from->is_down && memcmp(&from->manifests, &from->durable, sizeof(Process)) != 0)) {
        write_manifests();
        made();
    }
    if (offer_fault(!scope.is_on[LOST_LOG] && from->is_down && from->is_lost == 0 && from->old.number != 0)) {
        put_lost_log_back();
        made();
    }
    of_openings();
}

// Steps of the network: a message arrives, arrives and comes again, arrives at an older process, or is lost.
#include "names.hpp"
#include "steps.hpp"

#include <algorithm>

static bool is_completed(const Answer &answer) {
    return answer.is_done() && answer.what == RELKVANU_ACK_COMPLETED;
}

Answer Steps::accept(Process *who, Message message) {
    // Without the rule the engine does not carry the term.
    const u8 term = scope.is_on[FENCE] ? message.term() : term_of(*who);
    const Call made = message.is_decline() ? Call{DECLINE, message.subtask(), message.record(), 0, 0, term}
                                           : Call{ACK, message.subtask(), message.record(), message.file(), message.reused(), term};
    if (!scope.names && term != who->term) {
        if (is_telling) {
            tell("dropped %s", library.line(who->image, made).c_str());
        }
        return {who->image, RELKVANU_REFUSED, 0, 0, 0};
    }
    const Answer answer = call(who, made);
    if (is_completed(answer) && scope.is_on[STOP_IN_ONE] && message.record() == stop_record(who->stop)) {
        stop_with(message.record());
    }
    return answer;
}

// Sinks are told of a completed checkpoint, and of a savepoint when the job is restored to it.
void Steps::note_completed(u8 record) {
    const Facts &now = library.facts(next.current.image);
    const bool is_savepoint = std::count(now.savepoints, now.savepoints + MOST_RECORDS, record);
    const bool is_of_stop = record == stop_record(next.current.stop);
    if (!is_savepoint || is_of_stop || !scope.is_on[SAVEPOINT_WAITS]) {
        tell_sink(record);
    }
}

void Steps::note_accepted(Message message, bool is_late) {
    const Files file = only(message.file());
    const bool is_other = next.writer[message.file()] != mark_of(message.incarnation(), message.subtask());
    next.accepted |= file;
    if (scope.has_elements() && !is_late) {
        next.target.parts[message.record()][message.subtask()] = message.part();
    }
    next.wrong = (next.wrong & ~file) | (is_other && scope.is_on[FSYNC] && scope.is_on[MOUNTED_WRITE] ? file : 0);
    if (!is_late && message.incarnation() != next.incarnation) {
        next.mixed |= u32(1) << message.record();
    }
}

void Steps::answer_task(Message message, const Answer &answer) {
    const AckAnswer told = !answer.is_done() ? REFUSED : answer.what == RELKVANU_ACK_LATE ? LATE : ACCEPTED;
    static const char *const words[] = {"", "accepted", "late", "refused"};
    tell("answer to 0.%u %u %s", message.subtask(), message.incarnation(), words[told]);
    for (Task &task : next.tasks) {
        if (task.incarnation == message.incarnation() && task.subtask == message.subtask() && task.record == message.record() &&
            task.file == message.file() && task.sent) {
            task.told = told;
        }
    }
}

void Steps::deliver(unsigned place, bool is_copy, bool to_old) {
    const Message message(from->messages[place]);
    Process *who = to_old ? &next.old : &next.current;
    if (is_copy) {
        use(DUPLICATES);
    } else {
        drop_message(&next, place);
    }
    tell("from 0.%u %u", message.subtask(), message.incarnation());
    const Answer answer = accept(who, message);
    if (answer.what != 0) {
        sync_log(); // else it was dropped
    }
    if (is_completed(answer)) {
        note_completed(message.record());
    }
    seen[!answer.is_done()                       ? answer.what == 0 || is_old_term(answer) ? DROPPED_MESSAGES : REFUSED_MESSAGES
         : answer.what == RELKVANU_ACK_PENDING   ? PENDING_ACKS
         : answer.what == RELKVANU_ACK_COMPLETED ? COMPLETED_ACKS
                                                 : LATE_ACKS]++;
    if (!message.is_decline()) {
        answer_task(message, answer);
        if (answer.is_done()) {
            note_accepted(message, answer.what == RELKVANU_ACK_LATE);
        }
    }
    made();
}

void Steps::of_messages() {
    for (unsigned place = 0; place < from->messages_len; place++) {
        if (place > 0 && from->messages[place] == from->messages[place - 1]) {
            continue; // the same message twice
        }
        if (offer(!from->is_down)) {
            deliver(place, false, false);
        }
        if (offer_fault(!from->is_down && may_use(DUPLICATES))) {
            deliver(place, true, false);
        }
        if (offer(from->has_old && !scope.is_on[ONE_LOG])) {
            deliver(place, false, true);
        }
        if (offer_fault(!from->is_down && scope.has_manifests() && may_use(CRASHES))) {
            end_behind(place);
        }
        if (offer_fault(loses)) {
            drop_message(&next, place);
            made();
        }
    }
}

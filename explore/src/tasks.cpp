// Steps of a task: it begins a record, writes its file, sends, and reads its answer or gives up. A task that was replaced goes on.
#include "steps.hpp"

// Takes up the barrier that waits.
static void take_up(Task *task) {
    task->record = task->barrier;
    task->base = task->barrier_base;
    task->barrier = 0;
    task->barrier_base = 0;
}

// The name of a new file, or 0 if the coordinator gives none.
u8 Steps::new_name(const Task &task) {
    const Task &other = next.tasks[0];
    if (!scope.is_on[OWN_NAME] && task.subtask == 1 && other.incarnation == task.incarnation && other.record && other.file) {
        return other.file;
    }
    if (!scope.names) {
        return ++next.name;
    }
    const Answer answer = call(&next.current, {RESERVE, 0, 0, 0, 0, task.term});
    sync_log();
    return answer.is_done() ? u8(answer.a) : 0;
}

// A name that the task won't acknowledge.
void Steps::give_back(const Task &task) {
    if (scope.names && scope.is_on[GIVE_BACK] && task.file != 0) {
        call(&next.current, {FORFEIT, 0, 0, task.file, 0, task.term});
        sync_log();
    }
}

void Steps::begin_record(unsigned place) {
    const Task &task = from->tasks[place];
    const bool may = task.record == 0 && task.barrier != 0 && !is_holding(*from, task) && may_cut(place);
    const bool has_name = scope.names ? !from->is_down && facts->next_name <= scope.limit[NAMES] : from->name < scope.limit[NAMES];
    if (offer(may && (task.file != 0 || has_name))) {
        Task &mine = next.tasks[place];
        take_up(&mine);
        tell_task(task, "begins %u", mine.record);
        cut(place);
        mine.file = mine.file != 0 ? mine.file : new_name(mine);
        if (mine.file == 0) {
            clear_work(&mine, false);
        }
        made();
    }
    if (offer(may && task.file == 0)) {
        Task &mine = next.tasks[place];
        take_up(&mine);
        mine.written = 2;
        tell_task(task, "begins %u", mine.record);
        cut(place);
        made();
    }
    const bool is_late = !is_running(place) && task.record == 0 && task.barrier == 0 && facts->pending[0] && may_use(ZOMBIE_BARRIERS);
    if (offer(is_late)) {
        Task &mine = next.tasks[place];
        use(ZOMBIE_BARRIERS);
        mine.barrier = facts->pending[0];
        mine.barrier_base = facts->base[task.subtask];
        mine.stops = mine.barrier == stop_record(from->current.stop);
        mine.term = scope.is_on[TERM_AT_START] ? mine.term : term_of(from->current);
        tell("barrier %u to 0.%u %u", mine.barrier, task.subtask, task.incarnation);
        if (mine.term != task.term) {
            tell("term %u of 0.%u %u", mine.term, task.subtask, task.incarnation);
        }
        made();
    }
}

void Steps::write(unsigned place) {
    const Task &task = from->tasks[place];
    const Files file = only(task.file);
    // If the storage never loses its power, the two steps are one.
    const bool are_apart = scope.limit[POWER_LOSSES] > 0 || !scope.is_on[FSYNC];
    if (offer(task.written == 0 && (!from->is_away || !scope.is_on[MOUNTED_WRITE]))) {
        const u8 mark = mark_of(task.incarnation, task.subtask);
        next.tasks[place].written = from->is_away || !are_apart ? 2 : 1;
        tell_task(task, "writes %u", task.file);
        seen[LATE_WRITES] += !is_running(place);
        if (!from->is_away) {
            next.wrong |= from->writer[task.file] != mark ? from->accepted & file : 0;
            next.writer[task.file] = mark;
            next.visible |= file;
            next.kept |= are_apart ? 0 : file;
        }
        if (!are_apart || from->is_away) {
            tell_task(task, "syncs %u", task.file);
        }
        made();
    }
    if (offer(task.written == 1 && !from->is_away)) {
        const bool is_there = from->visible & file;
        next.kept |= is_there ? file : 0;
        next.tasks[place].written = is_there ? 2 : 0; // lost with the power: it writes it again
        if (is_there) {
            tell_task(task, "syncs %u", task.file);
        }
        made();
    }
}

void Steps::tell_sent(const Task &task) {
    if (is_telling) {
        tell_task(task, "sends ack %u%s%s", task.record, words(only(task.file), "+").c_str(), words(task.reused, "=").c_str());
    }
}

void Steps::add_ack(unsigned place) {
    const Task &mine = next.tasks[place];
    Message message(mine, false);
    if (scope.has_elements()) {
        message.take(next.flows[place].cut);
    }
    add_message(&next, message);
    tell_sent(mine);
}

void Steps::send(unsigned place) {
    const Task &task = from->tasks[place];
    const bool has_room = from->messages_len < scope.limit[MESSAGES];
    for (int reuses = task.base ? 1 : 0; reuses >= 0; reuses--) {
        if (offer(task.sent == 0 && (task.written == 2 || !scope.is_on[FSYNC]) && has_room)) {
            Task &mine = next.tasks[place];
            mine.sent = 1;
            mine.reused = reuses ? task.base : 0;
            add_ack(place);
            made();
        }
    }
    if (offer_fault(task.sent == 0 && may_use(DECLINES) && has_room && !from->is_down)) {
        use(DECLINES);
        add_message(&next, Message(task, true));
        tell_task(task, "sends decline %u", task.record);
        give_back(task);
        clear_work(&next.tasks[place], false);
        made();
    }
    if (offer_fault(task.sent == 1 && may_use(DUPLICATES) && has_room)) {
        Task &mine = next.tasks[place];
        use(DUPLICATES);
        mine.sent = 2;
        mine.told = NOTHING;
        add_ack(place);
        made();
    }
}

void Steps::read_answer(unsigned place) {
    const Task &task = from->tasks[place];
    if (offer(task.told != NOTHING && may_call())) {
        if (task.told == REFUSED && !scope.is_on[NO_TASK_DELETES]) {
            unlink(only(task.file), ("task 0." + std::to_string(task.subtask) + " " + std::to_string(task.incarnation)).c_str());
        }
        if (task.told == REFUSED) {
            give_back(task);
        }
        clear_work(&next.tasks[place], false);
        made();
    }
}

void Steps::give_up(unsigned place) {
    const Task &task = from->tasks[place];
    // A task that merely dies takes no more steps.
    if (offer_fault(may_call())) {
        clear_work(&next.tasks[place], false);
        tell_task(task, "gives up %u", task.record);
        give_back(task);
        made();
    }
    const bool may_keep = scope.may_keep && is_running(place) && task.written > 0 && task.file != 0;
    // With names a task may send a name again: it is spent, or it is not.
    if (offer_fault(may_keep && (scope.names || task.sent == 0 || !scope.is_on[NEW_NAME]))) {
        clear_work(&next.tasks[place], true);
        tell_task(task, "gives up %u", task.record);
        tell_task(task, "keeps %u", task.file);
        made();
    }
}

void Steps::of_task(unsigned place) {
    begin_record(place);
    if (from->tasks[place].record != 0) {
        write(place);
        send(place);
        read_answer(place);
        give_up(place);
    }
}

// Gathers what the reads of the library say of a coordinator.
#include "reads.hpp"

#include "names.hpp"
#include "scope.hpp"

constexpr size_t PLACES = 64;

static Files set_of(const u64 *files, u64 len) {
    Files set = 0;
    for (u64 place = 0; place < len; place++) {
        set |= only(unsigned(files[place]));
    }
    return set;
}

static Files in_use(relkvanu *handle) {
    Files set = 0;
    for (unsigned file = 1; file <= LAST_FILE; file++) {
        set |= relkvanu_count(handle, file).b > 0 ? only(file) : 0;
    }
    return set;
}

static Files waiting(relkvanu *handle) {
    Files set = 0;
    for (size_t place = 0;; place++) {
        const relkvanu_answer answer = relkvanu_waiting_file(handle, place);
        if (answer.what != RELKVANU_WAITING) {
            return set;
        }
        set |= only(unsigned(answer.a));
    }
}

static Files taken(relkvanu *handle) {
    u64 files[PLACES];
    return set_of(files, relkvanu_taken_files(handle, files, PLACES).a);
}

static Files files_of(relkvanu *handle, u64 record, unsigned subtask) {
    u64 files[PLACES];
    const relkvanu_answer answer = relkvanu_files_of(handle, record, 0, u16(subtask), files, PLACES);
    return answer.what == RELKVANU_FILES ? set_of(files, answer.a) : 0;
}

// Returns the place of the number. A list that is full has no more.
static unsigned append(u8 *list, u64 number) {
    unsigned place = 0;
    while (place < MOST_RECORDS && list[place] != 0) {
        place++;
    }
    if (place < MOST_RECORDS) {
        list[place] = u8(number);
    }
    return place;
}

static void append_checkpoint(relkvanu *handle, Facts *facts, u64 record) {
    const unsigned place = append(facts->checkpoints, record);
    for (unsigned subtask = 0; subtask < scope.subtasks && place < MOST_RECORDS; subtask++) {
        facts->parts[place][subtask] = files_of(handle, record, subtask);
    }
}

static void append_savepoint(relkvanu *handle, Facts *facts, u64 record) {
    const unsigned place = append(facts->savepoints, record);
    if (place < MOST_RECORDS) {
        facts->saved[place] = files_of(handle, record, 0) | files_of(handle, record, 1);
    }
}

static void read_records(relkvanu *handle, Facts *facts) {
    for (u64 from = 0;;) {
        const relkvanu_answer live = relkvanu_live_from(handle, from);
        if (live.what == RELKVANU_LIVE_NONE) {
            return;
        }
        from = live.a + 1;
        if (live.b == 0) {
            append(facts->pending, live.a);
            continue;
        }
        facts->done_records |= u32(1) << live.a;
        facts->done |= files_of(handle, live.a, 0) | files_of(handle, live.a, 1);
        if (live.what == RELKVANU_LIVE_SAVEPOINT) {
            append_savepoint(handle, facts, live.a);
        } else {
            append_checkpoint(handle, facts, live.a);
        }
    }
}

static u8 next_record(relkvanu *handle) {
    u8 number = 1;
    while (relkvanu_standing(handle, number).what != RELKVANU_STANDS_NOT_YET) {
        number++;
    }
    return number;
}

Facts facts_of(relkvanu *handle) {
    Facts facts = {};
    read_records(handle, &facts);
    facts.in_use = in_use(handle);
    facts.waiting = waiting(handle);
    facts.taken = taken(handle);
    facts.is_running = relkvanu_mode(handle).what == RELKVANU_MODE_RUNNING;
    facts.is_cancelled = relkvanu_mode(handle).what == RELKVANU_MODE_CANCELLED;
    facts.next_record = next_record(handle);
    facts.due = relkvanu_due(handle).a;
    facts.expiry = relkvanu_oldest_expiry(handle).a;
    const relkvanu_answer choice = relkvanu_choice(handle);
    facts.choice = choice.what == RELKVANU_CHOICE_FRESH ? 0 : u8(choice.a);
    for (unsigned subtask = 0; subtask < scope.subtasks && facts.choice; subtask++) {
        facts.base[subtask] = files_of(handle, facts.choice, subtask);
    }
    if (scope.names) {
        read_names(handle, &facts);
    }
    return facts;
}

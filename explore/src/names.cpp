// The calls of a coordinator with terms and names.
#include "names.hpp"

#include "scope.hpp"

relkvanu_answer make_named(relkvanu *handle, const Call &call, const std::vector<u64> &reused) {
    const u64 file[] = {call.file};
    const size_t len = call.file ? 1 : 0;
    switch (call.kind) {
    case RESERVE: return relkvanu_reserve(handle, call.term, 1);
    case FORFEIT: return relkvanu_forfeit(handle, call.term, file, len);
    case DECLINE: return relkvanu_decline_in(handle, call.term, 0, call.record, 0, call.subtask);
    default: return relkvanu_ack_in(handle, call.term, 0, call.record, 0, call.subtask, file, len, reused.data(), reused.size());
    }
}

bool is_fenced(const relkvanu_answer &answer) {
    return answer.code == RELKVANU_FENCED;
}

bool is_old_term(const Answer &answer) {
    return answer.code == RELKVANU_FENCED && answer.what == RELKVANU_OLD_TERM;
}

void read_names(relkvanu *handle, Facts *facts) {
    const relkvanu_answer term = relkvanu_term(handle);
    if (term.code == RELKVANU_FENCED && term.what == RELKVANU_NO_NAMES) {
        return; // a recovery makes its first calls without names
    }
    u64 all[LAST_FILE], garbage[LAST_FILE], unissued[LAST_FILE];
    for (unsigned file = 1; file <= LAST_FILE; file++) {
        all[file - 1] = file;
    }
    const relkvanu_answer found = relkvanu_garbage(handle, all, LAST_FILE, garbage, LAST_FILE, unissued, LAST_FILE);
    if (term.what != RELKVANU_TERM || found.code != RELKVANU_DONE || found.a > LAST_FILE) {
        die("the library does not tell its names");
    }
    for (u64 place = 0; place < found.a; place++) {
        facts->garbage |= only(unsigned(garbage[place]));
    }
    facts->term = u8(term.a);
    facts->next_name = u8(term.b);
    const Files issued = (Files(1) << facts->next_name) - 2;
    facts->held = issued & ~facts->garbage & ~(facts->in_use | facts->waiting | facts->taken);
}

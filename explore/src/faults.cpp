// What is wrong with a state: a file that is lost, a record that mixes old and new tasks, or a file that stays for ever.
#include "steps.hpp"

static std::string lost(const State &state, const Facts &facts) {
    // What somebody else deleted is missed only if the job begins from it.
    const Files missed = facts.base[0] | facts.base[1] | ~state.gone;
    if (const Files gone = facts.done & ~(state.visible & state.kept) & missed) {
        return "lost " + std::to_string(least(gone));
    }
    if (const Files wrong = state.wrong & facts.done) {
        return "overwritten " + std::to_string(least(wrong));
    }
    if (const u32 mixed = state.mixed & facts.done_records) {
        return "mixed " + std::to_string(least(mixed));
    }
    return "";
}

// Each element that the source has left behind is published, or prepared in the snapshot of the sink: else nobody reads it again.
static std::string wrong_output(const State &state, const Facts &facts) {
    const Target &target = state.target;
    if (target.twice) {
        return "twice " + std::to_string(least(target.twice));
    }
    Small there = target.shown;
    for (unsigned record = 1; record <= LAST_RECORD && facts.choice; record++) {
        there |= target.parts[facts.choice][sink_of_job()].prepared & bit(record) ? target.prepared[record] : 0;
    }
    const Small missing = facts.choice ? up_to(target.parts[facts.choice][SOURCE].taken) & ~there : 0;
    return missing ? "missing " + std::to_string(least(missing)) : "";
}

static bool are_idle(const State &state) {
    bool idle = true;
    for (const Task &task : state.tasks) {
        idle = idle && task.record == 0 && task.file == 0 && task.barrier == 0;
    }
    return idle;
}

// Files that the discarder leaves. With names a sweeper deletes garbage. Without them only files count that an accepted acknowledgement
// named: the others wait for the sweep of the next recovery.
static Files left(const State &state, u8 after) {
    const Drained &all = library.drained(state.current.image, after);
    return state.visible & ~all.deleted & ~all.in_use & ~all.garbage & (scope.names ? ~Files(0) : state.accepted);
}

static std::string leaked(const State &state, const Facts &facts) {
    Files files = 0;
    if (!facts.is_cancelled) {
        files = left(state, RESTORE) | left(state, CANCEL);
    }
    if (are_idle(state)) {
        files |= left(state, 0);
    }
    return files ? "left " + std::to_string(least(files)) : "";
}

std::string fault_of(const State &state) {
    if (state.is_down && !scope.is_on[ONE_LOG]) {
        return ""; // the other process has not read the log yet
    }
    if (state.is_lost) {
        return ""; // no process knows a record
    }
    const Facts &facts = library.facts(state.current.image);
    const std::string fault = scope.has_elements() ? wrong_output(state, facts) : lost(state, facts);
    if (!fault.empty() || !scope.checks_leaks || state.is_down) {
        return fault;
    }
    return leaked(state, facts);
}

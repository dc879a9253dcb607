// Steps around the storage: discarders, sweepers that break a rule, losses of power, and a storage that goes away.
#include "steps.hpp"

void Steps::unlink(Files files, const char *who) {
    if (next.is_away) {
        return;
    }
    next.visible &= ~files;
    next.kept &= scope.is_on[SYNCED_FOLDER] ? ~files : ~Files(0);
    if (is_telling && files) {
        tell("%s unlinks%s", who, words(files, "").c_str());
        if (scope.is_on[SYNCED_FOLDER]) {
            tell("folder synced");
        }
    }
}

void Steps::of_takes() {
    for (int is_old = 0; is_old < 2; is_old++) {
        const bool may = is_old ? from->has_old && library.facts(from->old.image).waiting : !from->is_down && facts->waiting;
        if (offer(may)) {
            Process *who = is_old ? &next.old : &next.current;
            const Answer answer = call(who, {TAKE, 0, 0, 0, 0});
            sync_log();
            next.may_unlink |= only(answer.a);
            made();
        }
    }
}

void Steps::of_deletions() {
    for (unsigned file = 1; file <= LAST_FILE; file++) {
        const Files it = only(file);
        if (offer(from->may_unlink & from->visible & it && !from->is_away)) {
            unlink(it, "discarder");
            seen[DISCARDS]++;
            made();
        }
        const bool is_taken = !from->is_down && facts->taken & it;
        if (offer(is_taken && (from->is_away ? !scope.is_on[MOUNTED_DELETE] : !(from->visible & it)))) {
            call(&next.current, {DELETE, 0, 0, u8(file), 0});
            sync_log();
            made();
        }
        if (offer_fault(is_taken && may_use(UNDELETED))) {
            use(UNDELETED);
            call(&next.current, {UNDELETE, 0, 0, u8(file), 0}); // that discarder may go on
            sync_log();
            made();
        }
    }
}

// A sweeper that has asked may delete at any later time, again and again, also one that should be dead. It is answered from what is durable.
void Steps::of_sweepers() {
    const Files may = scope.names                  ? library.facts(from->durable.image).garbage
                      : scope.is_on[SWEEP_STOPPED] ? 0
                                                   : from->visible & ~known(*facts);
    if (offer(!from->is_away && !from->is_down && may & ~from->may_sweep)) {
        next.may_sweep |= may;
        tell("sweeper lists%s", words(from->visible, "").c_str());
        made();
    }
    for (unsigned file = 1; file <= LAST_FILE; file++) {
        if (offer(!from->is_away && from->may_sweep & from->visible & only(file))) {
            unlink(only(file), "sweeper");
            seen[SWEEPS]++;
            made();
        }
    }
}

void Steps::of_faults() {
    if (offer_fault(may_use(POWER_LOSSES))) {
        use(POWER_LOSSES);
        next.visible = from->kept;
        tell("storage loses power");
        made();
    }
    if (offer_fault(from->is_away || may_use(UNMOUNTS))) {
        next.used[UNMOUNTS] += !from->is_away;
        next.is_away ^= 1;
        tell("storage %s", from->is_away ? "back" : "away");
        made();
    }
}

// Somebody else deletes a file of a record from which nobody begins now, or puts a copy of the storage back that lacks it.
void Steps::of_strangers() {
    const bool may = !from->is_down && from->current.image == from->durable.image && !facts->pending[0] && may_use(GONE);
    for (unsigned file = 1; file <= LAST_FILE; file++) {
        const Files it = only(file);
        if (offer_fault(may && it & facts->done & from->visible & ~(facts->base[0] | facts->base[1]))) {
            use(GONE);
            next.visible &= ~it;
            next.kept &= ~it;
            next.gone |= it;
            tell("storage lacks %u", file);
            made();
        }
    }
}

void Steps::of_storage() {
    of_takes();
    of_deletions();
    of_sweepers();
    of_faults();
    of_strangers();
}

/* What an operator wants of a job that runs: a checkpoint now, other settings, a stop with a savepoint and a new begin. */
#include "../job/job.h"
#include "../log/log.h"
#include "../store.h"
#include "commands.h"

/* Makes one call, whose list the caller keeps no longer than this. */
static int make_one(
    relkvanu_store *s, enum rks_verb verb, relkvanu_call made, const uint64_t *first, size_t len, relkvanu_store_call *call) {
    *call = (relkvanu_store_call){.call = made, .first = first, .first_len = len};
    int status = rks_call(s, call, 1, verb);
    call->first = NULL;
    call->first_len = 0;
    rks_why_words(status != RELKVANU_STORE_NOT_NOW ? ""
                  : verb == RKS_STOPS              ? "the job is being stopped, or is stopped"
                                                   : "the job is not stopped");
    return status;
}

relkvanu_call rks_of_kind(uint32_t kind) {
    return (relkvanu_call){.kind = kind, .now = RELKVANU_STORE_NOW};
}

int relkvanu_store_trigger(relkvanu_store *s, relkvanu_store_call *call) {
    return make_one(s, RKS_CALLS, rks_of_kind(RELKVANU_CALL_TRIGGER), NULL, 0, call);
}

int relkvanu_store_configure(relkvanu_store *s, const relkvanu_settings *settings, relkvanu_store_call *call) {
    const uint64_t numbers[] = {settings->interval, settings->pause, settings->at_once, settings->timeout, settings->tolerable,
        settings->retained, settings->keep_on_cancel};
    char words[RKS_MESSAGE];
    int status = make_one(s, RKS_CALLS, rks_of_kind(RELKVANU_CALL_CONFIGURE), numbers, sizeof numbers / sizeof *numbers, call);
    if (status == RELKVANU_STORE_BAD_ARGUMENT) {
        status = rks_tell_limit(&(relkvanu_store_options){.settings = *settings}, RELKVANU_BAD_CONFIG, words, sizeof words);
        rks_why_words(status == RELKVANU_STORE_BAD_ARGUMENT ? words : "");
    }
    return status;
}

int relkvanu_store_stop_job(relkvanu_store *s, relkvanu_store_call *call) {
    return make_one(s, RKS_STOPS, rks_of_kind(RELKVANU_CALL_SAVEPOINT), NULL, 0, call);
}

int relkvanu_store_begin_job(relkvanu_store *s, relkvanu_store_call *call) {
    return make_one(s, RKS_BEGINS, rks_of_kind(RELKVANU_CALL_RESTORE), NULL, 0, call);
}

int relkvanu_store_advance(relkvanu_store *s, uint64_t term, uint64_t first_name, relkvanu_store_call *call) {
    relkvanu_call made = rks_of_kind(RELKVANU_CALL_ADVANCE);
    made.term = term;
    made.number = first_name;
    return make_one(s, RKS_CALLS, made, NULL, 0, call);
}

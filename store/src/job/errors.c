/* Why a storage did not do what it was to do, for the thread that called. */
#include "job.h"

#include <errno.h>
#include <inttypes.h>
#include <stdio.h>
#include <string.h>

static _Thread_local char why[RKS_MESSAGE];

static const char *words_of(int storage_status, int error) {
    switch (storage_status) {
    case RELKVANU_STORAGE_NO_MEMORY: return "there is no memory";
    case RELKVANU_STORAGE_NOT_THERE: return "the storage is gone, or lacks its marker: is it mounted?";
    case RELKVANU_STORAGE_OTHER_JOB: return "the marker of the storage names another job, or a later opening";
    case RELKVANU_STORAGE_PRESENT: return "there is a file of this number, or a part of one";
    default: return error != 0 ? strerror(error) : "the storage has failed";
    }
}

void rks_why(const char *what, int storage_status) {
    int error = errno;
    why[0] = 0;
    if (storage_status != RELKVANU_STORAGE_OK) {
        snprintf(why, sizeof why, "%.60s: %s", what, words_of(storage_status, error));
    }
    errno = error;
}

void rks_why_file(uint64_t file, int storage_status) {
    char what[40];
    snprintf(what, sizeof what, "file %" PRIu64, file);
    rks_why(what, storage_status);
}

void rks_forget_why(void) {
    why[0] = 0;
}

/* What a call is about: its record, its subtask and its term, as far as its kind has them. */
static void name_call(const relkvanu_call *call, char *words, size_t len) {
    bool has_term = call->kind != RELKVANU_CALL_DISPOSE && call->kind != RELKVANU_CALL_RESTORE;
    char term[40] = "no term";
    if (call->term != 0) {
        snprintf(term, sizeof term, "term %" PRIu64, call->term);
    }
    words[0] = 0;
    if (call->kind == RELKVANU_CALL_ACK || call->kind == RELKVANU_CALL_DECLINE) {
        snprintf(words, len, "record %" PRIu64 ", subtask %u.%u, %s: ", call->number, (unsigned)call->vertex, (unsigned)call->index, term);
    } else if (call->kind == RELKVANU_CALL_RESERVE || call->kind == RELKVANU_CALL_FORFEIT) {
        snprintf(words, len, "%s: ", term);
    } else if (!has_term && call->number != 0) {
        snprintf(words, len, "record %" PRIu64 ": ", call->number);
    }
}

void rks_why_refused(const relkvanu_store_call *call, uint64_t term) {
    char words[120];
    uint8_t text[RELKVANU_ANSWER_TEXT];
    size_t len = relkvanu_answer_text(&call->answer, text, sizeof text);
    name_call(&call->call, words, sizeof words);
    int written = snprintf(why, sizeof why, "%s%.*s", words, (int)len, (const char *)text);
    if (call->answer.code == RELKVANU_FENCED && call->answer.what == RELKVANU_OLD_TERM) {
        snprintf(why + written, sizeof why - (size_t)written, "; term %" PRIu64 " runs", term);
    }
}

/* Why a verb was not made; empty: it was. */
void rks_why_words(const char *words) {
    snprintf(why, sizeof why, "%s", words);
}

size_t relkvanu_store_why(char *text, size_t text_len) {
    return (size_t)snprintf(text, text_len, "%s", why);
}

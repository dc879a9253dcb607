/* What a call has beside its numbers: whether it is well-formed. */
#include "job.h"

#include <string.h>

static bool refuse(const char *words) {
    rks_why_words(words);
    return false;
}

static bool is_buffer(const void *at, size_t len) {
    return at != NULL || len == 0;
}

static bool check_figures(uint32_t kind, const relkvanu_store_more *more) {
    bool is_none = more->payload_len == 0 && more->bytes == 0 && more->millis == 0;
    if (kind != RELKVANU_CALL_ACK && !is_none) {
        return refuse("a payload, bytes or millis of a call that is no acknowledgement");
    }
    if (more->payload_len > RELKVANU_STORE_MOST_PAYLOAD) {
        return refuse("the payload of an acknowledgement has more than 4096 bytes");
    }
    return more->bytes <= INT64_MAX && more->millis <= INT64_MAX ? true : refuse("bytes or millis is above 2^63 - 1");
}

static bool check_reason(uint32_t kind, const relkvanu_store_more *more) {
    if (kind != RELKVANU_CALL_DECLINE && more->reason_len != 0) {
        return refuse("a reason of a call that is no decline");
    }
    if (more->reason_len > RELKVANU_STORE_MOST_REASON) {
        return refuse("the reason of a decline has more than 200 bytes");
    }
    bool has_zero = more->reason_len != 0 && more->reason != NULL && memchr(more->reason, 0, more->reason_len) != NULL;
    return !has_zero || refuse("the reason of a decline has a zero");
}

bool rks_check_more(const relkvanu_store_call *call) {
    const relkvanu_store_more *more = call->more;
    uint32_t kind = call->call.kind;
    if (more == NULL) {
        return true;
    }
    for (size_t i = 0; i < sizeof more->reserved / sizeof *more->reserved; i++) {
        if (more->reserved[i] != 0) {
            return refuse("a reserved field is not 0");
        }
    }
    bool has_buffers = is_buffer(more->payload, more->payload_len) && is_buffer(more->reason, more->reason_len) &&
                       is_buffer(more->ended, more->ended_room);
    return check_figures(kind, more) && check_reason(kind, more) && (has_buffers || refuse("a buffer is NULL, and its length is not 0"));
}

void rks_clear_more(const relkvanu_store_call *call) {
    if (call->more != NULL) {
        call->more->kind = 0;
        call->more->ended_len = 0;
    }
}

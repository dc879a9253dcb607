/* The answers of a group. They wait in the coordinator's library until it is told that the group is committed: what was proved of relkvanu_group_answer
 * decides whether they are told, and no code here. */
#include "../job/job.h"
#include "../store.h"
#include "log.h"

#include <stdlib.h>

bool rks_has_rows(relkvanu_store *s, size_t len) {
    struct rks_group *group = &s->group;
    size_t held = group->rows_room, receipts = group->rows_room; /* the least one is told last */
    if (len > group->rows_room) {
        rks_await_rows(s);
    }
    return rks_has_room_for_extras(s, len) && rks_grow(&group->held, &held, len, sizeof *group->held) &&
           rks_grow(&group->receipts, &receipts, len, sizeof *group->receipts) &&
           rks_grow(&group->rows, &group->rows_room, len, sizeof *group->rows);
}

void rks_free_rows(relkvanu_store *s) {
    free(s->group.rows);
    free(s->group.held);
    free(s->group.receipts);
}

void rks_begin_group(relkvanu_store *s) {
    s->group.rows_len = s->group.receipts_len = s->group.inserted = s->ahead.bytes = 0;
}

void rks_note_receipt(relkvanu_store *s, relkvanu_answer receipt) {
    s->group.receipts[s->group.receipts_len++] = receipt.a;
}

void rks_hold(relkvanu_store *s, relkvanu_answer answer) {
    rks_note_receipt(s, relkvanu_group_hold(&s->group.answers, s->group.held, s->group.rows_room, &answer));
}

relkvanu_answer rks_told(const relkvanu_store *s, size_t nth) {
    relkvanu_answer told = {.code = RELKVANU_STORE_NOT_MADE};
    if (nth < s->group.receipts_len) {
        told = relkvanu_group_answer(&s->group.answers, s->group.held, s->group.rows_room, s->group.receipts[nth]);
    }
    return told;
}

void rks_drop_group(relkvanu_store *s) {
    relkvanu_group_failed(&s->group.answers);
    s->group.answers = (relkvanu_group){.given = s->group.answers.given};
    rks_begin_group(s);
}

void rks_end_group(relkvanu_store *s, int status) {
    if (status != RELKVANU_STORE_OK || relkvanu_group_synced(&s->group.answers).code != RELKVANU_DONE) {
        relkvanu_group_failed(&s->group.answers);
    }
}

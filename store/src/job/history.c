/* The history: a row of each record that is complete or has failed, of the last ones. It is written in the commit of the call that has done that. */
#include "../log/log.h"
#include "../store.h"
#include "job.h"

#include <stdio.h>
#include <stdlib.h>
#include <string.h>
#include <zlib.h>

enum { NUMBERS = RKS_PAST_NUMBERS, FIRST = 6, MEDIAN, P99, SLOWEST, REASON = NUMBERS, SUM }; /* columns */

static const char TABLE[] =
    "CREATE TABLE IF NOT EXISTS past(id INTEGER PRIMARY KEY, kind INTEGER NOT NULL, outcome INTEGER NOT NULL, triggered INTEGER NOT NULL,"
    " ended INTEGER NOT NULL, acks INTEGER NOT NULL, first INTEGER NOT NULL, median INTEGER NOT NULL, p99 INTEGER NOT NULL,"
    " slowest INTEGER NOT NULL, bytes INTEGER NOT NULL, millis INTEGER NOT NULL, reason BLOB NOT NULL, sum INTEGER NOT NULL) STRICT";

static int by_size(const void *one, const void *other) {
    uint32_t a = *(const uint32_t *)one, b = *(const uint32_t *)other;
    return (a > b) - (a < b);
}

/* The least of the times that so many of 100 are not above. */
static uint64_t part_of(const struct rks_live *it, size_t of_100) {
    return it->times[(it->times_len * of_100 + 99) / 100 - 1];
}

static void measure(const struct rks_live *it, uint64_t numbers[NUMBERS]) {
    if (it->times == NULL || it->times_len == 0) {
        return;
    }
    qsort(it->times, it->times_len, sizeof *it->times, by_size);
    numbers[FIRST] = it->times[0];
    numbers[MEDIAN] = part_of(it, 50);
    numbers[P99] = part_of(it, 99);
    numbers[SLOWEST] = it->times[it->times_len - 1];
}

void rks_note_past(relkvanu_store *s, const struct rks_live *of, uint32_t outcome, const relkvanu_store_more *more) {
    struct rks_past *past = &s->job.extras.past[s->job.extras.past_len++];
    *past = (struct rks_past){.reason = more != NULL ? more->reason : NULL, .reason_len = more != NULL ? more->reason_len : 0};
    const uint64_t numbers[NUMBERS] = {
        of->id, of->kind, outcome, of->triggered, relkvanu_moment(s->handle).a, of->acks, 0, 0, 0, 0, of->bytes, of->millis};
    memcpy(past->numbers, numbers, sizeof numbers);
    measure(of, past->numbers);
}

static uint32_t sum_of(const uint64_t numbers[NUMBERS], const void *reason, size_t len) {
    uLong sum = crc32(0, (const Bytef *)numbers, NUMBERS * sizeof *numbers);
    return (uint32_t)(len == 0 ? sum : crc32(sum, reason, (uInt)len));
}

static int insert(relkvanu_store *s, const struct rks_past *past) {
    static const char SQL[] = "INSERT OR REPLACE INTO past VALUES(?1, ?2, ?3, ?4, ?5, ?6, ?7, ?8, ?9, ?10, ?11, ?12, ?13, ?14)";
    sqlite3_stmt *it = rks_extras_statement(s, RKS_INSERT_PAST, SQL);
    int code = SQLITE_OK;
    for (int i = 0; i < NUMBERS; i++) {
        code |= sqlite3_bind_int64(it, i + 1, (sqlite3_int64)past->numbers[i]);
    }
    code |= past->reason_len != 0 ? sqlite3_bind_blob(it, REASON + 1, past->reason, (int)past->reason_len, SQLITE_STATIC)
                                  : sqlite3_bind_zeroblob(it, REASON + 1, 0);
    code |= sqlite3_bind_int64(it, SUM + 1, sum_of(past->numbers, past->reason, past->reason_len));
    return rks_do(s, it, code, "history");
}

/* Numbers of records only rise, so that those far below the last one are the oldest. */
static int cut(relkvanu_store *s) {
    char sql[120];
    snprintf(sql, sizeof sql, "DELETE FROM past WHERE id <= (SELECT max(id) FROM past) - %d", RELKVANU_STORE_MOST_HISTORY);
    return rks_run(s, sql);
}

int rks_write_past(relkvanu_store *s) {
    struct rks_extras *b = &s->job.extras;
    int status = b->has_past || b->past_len == 0 ? RELKVANU_STORE_OK : rks_run(s, TABLE);
    for (size_t i = 0; i < b->past_len && status == RELKVANU_STORE_OK; i++) {
        status = insert(s, &b->past[i]);
    }
    return status == RELKVANU_STORE_OK && b->past_len != 0 ? cut(s) : status;
}

/* Returns whether the row is whole. */
static bool read_row(sqlite3_stmt *it, relkvanu_store_past *past) {
    uint64_t n[NUMBERS];
    for (int i = 0; i < NUMBERS; i++) {
        n[i] = (uint64_t)sqlite3_column_int64(it, i);
    }
    const void *reason = sqlite3_column_blob(it, REASON);
    size_t len = (size_t)sqlite3_column_bytes(it, REASON);
    if (len > RELKVANU_STORE_MOST_REASON || (len != 0 && reason == NULL) ||
        (uint32_t)sqlite3_column_int64(it, SUM) != sum_of(n, reason, len)) {
        return false;
    }
    *past = (relkvanu_store_past){
        n[0], (uint32_t)n[1], (uint32_t)n[2], n[3], n[4], n[5], n[FIRST], n[MEDIAN], n[P99], n[SLOWEST], n[10], n[11], .reason = ""};
    if (len != 0) {
        memcpy(past->reason, reason, len);
    }
    return true;
}

static int read_rows(relkvanu_store *s, relkvanu_store_past *past, size_t room, size_t *len) {
    sqlite3_stmt *it = NULL;
    if (sqlite3_prepare_v2(s->log.db, "SELECT * FROM past ORDER BY id DESC", -1, &it, NULL) != SQLITE_OK) {
        return rks_status_of_read(s, "history");
    }
    int code = SQLITE_DONE, status = RELKVANU_STORE_OK;
    while (status == RELKVANU_STORE_OK && *len < room && (code = sqlite3_step(it)) == SQLITE_ROW) {
        bool is_whole = read_row(it, &past[*len]);
        *len += is_whole;
        status = is_whole ? status : sqlite3_errcode(s->log.db) == SQLITE_NOMEM ? RELKVANU_STORE_NO_MEMORY : RELKVANU_STORE_DAMAGED;
    }
    status = status == RELKVANU_STORE_OK && code != SQLITE_DONE && code != SQLITE_ROW ? rks_status_of_read(s, "history") : status;
    sqlite3_finalize(it);
    return status;
}

int relkvanu_store_history(relkvanu_store *s, relkvanu_store_past *past, size_t *len) {
    relkvanu *handle;
    size_t room = *len;
    *len = 0;
    int status = relkvanu_store_read(s, &handle);
    if (status != RELKVANU_STORE_OK) {
        return status;
    }
    if (s->job.extras.has_past && room != 0) {
        status = read_rows(s, past, room, len);
    }
    relkvanu_store_read_end(s);
    rks_why_words(status == RELKVANU_STORE_DAMAGED ? "a row of the history is damaged: its checksum is another one" : "");
    return status;
}

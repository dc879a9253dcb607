/* A recovery: the last image, and the calls after it, whose answers are compared. */
#include "../files/files.h"
#include "../manifests/manifests.h"
#include "../store.h"
#include "log.h"

#include <inttypes.h>
#include <stdlib.h>
#include <string.h>

static int damaged(relkvanu_store *s, const char *what, uint64_t place, const char *how) {
    return rks_refuse(s, RELKVANU_STORE_DAMAGED, "%.300s: %s %" PRIu64 " %s", s->file.path, what, place, how);
}

/* Opens the coordinator with the image of a row. */
static int open_image(relkvanu_store *s, sqlite3_stmt *row) {
    uint64_t place = (uint64_t)sqlite3_column_int64(row, 0);
    uint32_t chain = (uint32_t)sqlite3_column_int64(row, 1), sum = (uint32_t)sqlite3_column_int64(row, 2);
    const uint8_t *image = sqlite3_column_blob(row, 3);
    size_t len = (size_t)sqlite3_column_bytes(row, 3);
    if (image == NULL && sqlite3_errcode(s->log.db) == SQLITE_NOMEM) {
        return RELKVANU_STORE_NO_MEMORY;
    }
    if (image == NULL || rks_image_sum(place, chain, image, len) != sum) {
        return damaged(s, "the image after call", place, "is damaged: its checksum is another one");
    }
    relkvanu_answer answer = rks_open_image(s->handle, image, len);
    if (answer.code == RELKVANU_CLOSED) {
        return rks_refuse(s, RELKVANU_STORE_FAILED, "no random numbers");
    }
    if (answer.code != RELKVANU_DONE || !rks_settings_of((const char *)image, len, &s->job.settings)) {
        return answer.code == RELKVANU_NO_MEMORY ? RELKVANU_STORE_NO_MEMORY
                                                 : damaged(s, "the image after call", place, "is damaged: it is no image");
    }
    s->log.place = s->log.image_place = s->log.image_before = place;
    s->log.chain = chain;
    return RELKVANU_STORE_OK;
}

static int open_last_image(relkvanu_store *s) {
    sqlite3_stmt *row = NULL;
    bool is_earlier = (s->options.flags & RELKVANU_STORE_EARLIER_IMAGE) != 0;
    const char *sql = is_earlier ? "SELECT place, chain, sum, text FROM image ORDER BY place DESC LIMIT 1 OFFSET 1"
                                 : "SELECT place, chain, sum, text FROM image ORDER BY place DESC LIMIT 1";
    if (sqlite3_prepare_v2(s->log.db, sql, -1, &row, NULL) != SQLITE_OK) {
        return rks_fault(s, "images");
    }
    int code = sqlite3_step(row), status;
    if (code == SQLITE_ROW) {
        status = open_image(s, row);
    } else if (code == SQLITE_DONE) {
        status = rks_refuse(s, RELKVANU_STORE_DAMAGED, "%.400s: there is no%s image", s->file.path, is_earlier ? " earlier" : "");
    } else {
        status = rks_fault(s, "images");
    }
    sqlite3_finalize(row);
    return status;
}

/* What a row of the log says. */
static struct rks_row row_of(relkvanu_store *s, sqlite3_stmt *it, uint32_t *chain) {
    struct rks_row row = {.line = {sqlite3_column_text(it, 1), (size_t)sqlite3_column_bytes(it, 1)}};
    row.place = (uint64_t)sqlite3_column_int64(it, 0);
    row.answer.what = (uint32_t)sqlite3_column_int64(it, 2);
    row.answer.a = (uint64_t)sqlite3_column_int64(it, 3);
    row.answer.b = (uint64_t)sqlite3_column_int64(it, 4);
    row.files = sqlite3_column_blob(it, 5);
    bool has_files = row.answer.what == RELKVANU_TAKEN && row.answer.a != 0;
    bool is_whole = row.line.at != NULL && (!has_files || (uint64_t)sqlite3_column_bytes(it, 5) == row.answer.a * 8);
    row.chain = is_whole ? rks_chain(s->log.chain, &row) : 0;
    *chain = (uint32_t)sqlite3_column_int64(it, 6);
    row.line.at = is_whole ? row.line.at : NULL;
    return row;
}

static int differs(relkvanu_store *s, const struct rks_row *row, relkvanu_answer got) {
    return rks_refuse(s, RELKVANU_STORE_DIFFERS,
        "%.200s: call %" PRIu64 ", \"%.60s\": the coordinator answers %" PRIu32 "/%" PRIu32 " %" PRIu64 " %" PRIu64
        ", the log has 0/%" PRIu32 " %" PRIu64 " %" PRIu64,
        s->file.path, row->place, (const char *)row->line.at, got.code, got.what, got.a, got.b, row->answer.what, row->answer.a,
        row->answer.b);
}

/* The settings that the line of a row gives to the job. */
static int configured(relkvanu_store *s, const struct rks_row *row) {
    uint64_t numbers[7] = {0};
    relkvanu_call call;
    relkvanu_answer answer = relkvanu_line_call(row->line.at, row->line.len, &call, numbers, 7, NULL, 0);
    s->job.settings = answer.code == RELKVANU_DONE ? rks_settings(numbers) : s->job.settings;
    return answer.code == RELKVANU_DONE ? RELKVANU_STORE_OK : RELKVANU_STORE_NO_MEMORY;
}

/* Makes the call of a row again, and compares the answer. */
static int make_again(relkvanu_store *s, const struct rks_row *row, struct rks_text *files) {
    size_t taken = row->answer.what == RELKVANU_TAKEN ? row->answer.a : 0;
    files->len = 0;
    if (!rks_room(files, taken * 8 + 8)) {
        return RELKVANU_STORE_NO_MEMORY;
    }
    relkvanu_answer got = relkvanu_line(s->handle, row->line.at, row->line.len, (uint64_t *)(void *)files->at, taken);
    if (got.code == RELKVANU_NO_MEMORY) {
        return RELKVANU_STORE_NO_MEMORY;
    }
    bool is_same = got.code == RELKVANU_DONE && got.what == row->answer.what && got.a == row->answer.a && got.b == row->answer.b;
    if (!is_same || (taken != 0 && memcmp(files->at, row->files, taken * 8) != 0)) {
        return differs(s, row, got);
    }
    return got.what == RELKVANU_CONFIGURED ? configured(s, row) : RELKVANU_STORE_OK;
}

static int replay_row(relkvanu_store *s, sqlite3_stmt *it, struct rks_text *files) {
    uint32_t chain;
    struct rks_row row = row_of(s, it, &chain);
    if (row.line.at == NULL && sqlite3_errcode(s->log.db) == SQLITE_NOMEM) {
        return RELKVANU_STORE_NO_MEMORY;
    }
    if (row.place != s->log.place + 1) {
        return damaged(s, "the log lacks call", s->log.place + 1, "and has later ones");
    }
    if (row.line.at == NULL || row.chain != chain) {
        return damaged(s, "call", row.place, "is damaged: its checksum is another one");
    }
    int status = make_again(s, &row, files);
    if (status == RELKVANU_STORE_OK) {
        s->log.place = row.place;
        s->log.chain = chain;
    }
    return status;
}

/* Brings the coordinator to the state after the last call of the log. */
int rks_replay(relkvanu_store *s, relkvanu_store_report *report) {
    sqlite3_stmt *it = NULL;
    struct rks_text files = {0};
    int64_t first = 0;
    int status = open_last_image(s);
    if (status != RELKVANU_STORE_OK) {
        return status;
    }
    report->image_place = s->log.image_place;
    if ((status = rks_ask(s, "SELECT coalesce(min(place) - 1, 0) FROM log", &first, NULL, 0)) != RELKVANU_STORE_OK) {
        return status;
    }
    s->log.first = (uint64_t)first;
    if (sqlite3_prepare_v2(s->log.db, "SELECT place, line, what, a, b, files, chain FROM log WHERE place > ?1 ORDER BY place", -1, &it,
            NULL) != SQLITE_OK ||
        sqlite3_bind_int64(it, 1, (sqlite3_int64)s->log.place) != SQLITE_OK) {
        status = rks_fault(s, "log");
    }
    int code = SQLITE_DONE;
    while (status == RELKVANU_STORE_OK && (code = sqlite3_step(it)) == SQLITE_ROW) {
        status = replay_row(s, it, &files);
    }
    status = status == RELKVANU_STORE_OK && code != SQLITE_DONE ? rks_fault(s, "log") : status;
    sqlite3_finalize(it);
    free(files.at);
    report->replayed = s->log.place - s->log.image_place;
    return status;
}

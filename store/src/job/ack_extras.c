/* The rows of what acknowledgements have beside their files: payloads, figures, and the order of the files. Those of one record that one commit has are one
 * row, or some if they are long, whose key is the place of the first of them in the log. It is written in the commit of its acknowledgements, and deleted in that of the call that ends the
 * record: the rows of a record are between two places, with those of records that were pending beside it. */
#include "../log/log.h"
#include "../manifests/manifests.h"
#include "../store.h"
#include "job.h"

#include <inttypes.h>
#include <stdio.h>
#include <stdlib.h>
#include <string.h>
#include <zlib.h>

/* What a part begins with; its files and its payload follow, and zeros up to a multiple of eight bytes. */
struct head {
    uint16_t vertex, index;
    uint32_t files_len; /* 0: they are in ascending order */
    uint64_t payload_len, bytes, millis;
};

static const char TABLE[] = "CREATE TABLE IF NOT EXISTS part(record INTEGER NOT NULL, place INTEGER PRIMARY KEY, sum INTEGER NOT NULL,"
                            " parts BLOB NOT NULL) STRICT";

enum { WORD = sizeof(uint64_t) };

static size_t padded(uint64_t len) {
    return (size_t)(len + WORD - 1) / WORD * WORD;
}

static void append(struct rks_text *text, const void *bytes, size_t len) {
    if (len != 0) {
        memcpy(text->at + text->len, bytes, len);
        text->len += len;
    }
}

static const uint8_t zeros[WORD];

static bool is_ascending(const uint64_t *files, size_t len, uint64_t *last) {
    bool is_ascending = true;
    for (size_t i = 0; i < len && is_ascending; i++) {
        is_ascending = files[i] > *last || (*last == 0 && files[i] == 0);
        *last = files[i];
    }
    return is_ascending;
}

/* Whether a part whose files are in this order says nothing that the coordinator does not. */
static bool says_nothing(const struct rks_subtask *part, bool is_kept) {
    return is_kept && part->payload_len == 0 && part->bytes == 0 && part->millis == 0;
}

/* Appends a part, whose files are those of the first list with those of the second one behind them. There is room. */
static void append_part(struct rks_text *text, const struct rks_subtask *part, const uint64_t *second, size_t second_len, bool is_kept) {
    size_t files_len = is_kept ? 0 : part->files_len + second_len;
    const struct head head = {part->vertex, part->index, (uint32_t)files_len, part->payload_len, part->bytes, part->millis};
    append(text, &head, sizeof head);
    if (!is_kept) {
        append(text, part->files, part->files_len * sizeof *part->files);
        append(text, second, second_len * sizeof *second);
    }
    append(text, part->payload, part->payload_len);
    append(text, zeros, padded(part->payload_len) - part->payload_len);
}

bool rks_add_part(struct rks_text *text, const struct rks_subtask *part) {
    uint64_t last = 0;
    bool is_kept = is_ascending(part->files, part->files_len, &last);
    if (says_nothing(part, is_kept)) {
        return true;
    }
    bool has_room = rks_room(text, sizeof(struct head) + part->files_len * sizeof *part->files + padded(part->payload_len));
    if (has_room) {
        append_part(text, part, NULL, 0, is_kept);
    }
    return has_room;
}

/* The part of an accepted acknowledgement. There is room for it (rks_has_room_for_parts). */
void rks_note_part(relkvanu_store *s, const relkvanu_store_call *call) {
    struct rks_extras *b = &s->job.extras;
    const relkvanu_store_more *more = call->more;
    uint64_t id = call->call.number, last = 0;
    bool is_kept = is_ascending(call->first, call->first_len, &last) && is_ascending(call->second, call->second_len, &last);
    const struct rks_subtask part = {
        call->call.vertex, call->call.index, call->first, call->first_len, more->payload, more->payload_len, more->bytes, more->millis};
    if (says_nothing(&part, is_kept)) {
        return;
    }
    struct rks_run *run = b->runs_len == 0 ? NULL : &b->runs[b->runs_len - 1];
    if (run == NULL || run->record != id || run->ends - run->begins > RKS_LONG_RUN) {
        run = &b->runs[b->runs_len++];
        *run = (struct rks_run){.record = id, .place = s->log.place + 1, .begins = b->parts.len};
    }
    append_part(&b->parts, &part, call->second, call->second_len, is_kept);
    run->ends = b->parts.len;
    struct rks_live *live = rks_live_of(s, id);
    live->first_part = live->first_part == 0 ? s->log.place + 1 : live->first_part;
    live->last_part = s->log.place + 1;
}

/* Binds the numbers of a record's rows. */
static int bind_rows(sqlite3_stmt *it, const struct rks_rows *rows) {
    int code = sqlite3_bind_int64(it, 1, (sqlite3_int64)rows->record);
    code |= sqlite3_bind_int64(it, 2, (sqlite3_int64)rows->first);
    return code | sqlite3_bind_int64(it, 3, (sqlite3_int64)rows->last);
}

static int delete_parts(relkvanu_store *s, const struct rks_rows *rows) {
    static const char SQL[] = "DELETE FROM part WHERE record = ?1 AND place BETWEEN ?2 AND ?3";
    sqlite3_stmt *it = rks_extras_statement(s, RKS_DELETE_PARTS, SQL);
    return rks_do(s, it, bind_rows(it, rows), "parts");
}

/* The acknowledgements of the savepoint have no parts of their own, so that their places are free. */
static int copy_parts(relkvanu_store *s, const struct rks_rows *from, uint64_t to, uint64_t first) {
    char sql[300];
    snprintf(sql, sizeof sql,
        "INSERT INTO part SELECT %" PRIu64 ", %" PRIu64
        " + row_number() OVER (ORDER BY place) - 1, sum, parts FROM part WHERE record = %" PRIu64 " AND place BETWEEN %" PRIu64
        " AND %" PRIu64,
        to, first, from->record, from->first, from->last);
    return rks_run(s, sql);
}

static int insert_row(relkvanu_store *s, const struct rks_run *row, const uint8_t *parts, size_t len) {
    sqlite3_stmt *it = rks_extras_statement(s, RKS_INSERT_PARTS, "INSERT INTO part VALUES(?1, ?2, ?3, ?4)");
    int code = sqlite3_bind_int64(it, 1, (sqlite3_int64)row->record);
    code |= sqlite3_bind_int64(it, 2, (sqlite3_int64)row->place);
    code |= sqlite3_bind_int64(it, 3, (sqlite3_int64)crc32_z(0, parts, len));
    code |= sqlite3_bind_blob64(it, 4, parts, len, SQLITE_STATIC);
    return rks_do(s, it, code, "parts");
}

static int insert(relkvanu_store *s, const struct rks_run *row, const struct rks_text *parts) {
    int status = s->job.extras.has_parts ? RELKVANU_STORE_OK : rks_run(s, TABLE);
    return status == RELKVANU_STORE_OK ? insert_row(s, row, parts->at + row->begins, row->ends - row->begins) : status;
}

int rks_insert_runs(relkvanu_store *s, size_t runs) {
    struct rks_extras *b = &s->job.extras;
    int status = RELKVANU_STORE_OK;
    for (; b->runs_inserted < runs && status == RELKVANU_STORE_OK; b->runs_inserted++) {
        status = insert(s, &b->runs[b->runs_inserted], &b->parts);
    }
    return status;
}

int rks_write_parts(relkvanu_store *s) {
    const struct rks_extras *b = &s->job.extras;
    int status = b->to != 0 ? copy_parts(s, &b->from, b->to, b->to_first) : RELKVANU_STORE_OK;
    for (size_t i = 0; i < b->ended_len && status == RELKVANU_STORE_OK; i++) {
        status = delete_parts(s, &b->ended[i]);
    }
    return status;
}

int rks_carry_parts(relkvanu_store *s, uint64_t record, const struct rks_text *parts) {
    const struct rks_run row = {.record = record, .place = s->log.place, .ends = parts->len}; /* that of its last acknowledgement */
    if (parts->len == 0) {
        return RELKVANU_STORE_OK;
    }
    int status = rks_run(s, "BEGIN IMMEDIATE");
    status = status == RELKVANU_STORE_OK ? insert(s, &row, parts) : status;
    status = status == RELKVANU_STORE_OK ? rks_run(s, "COMMIT") : status;
    struct rks_live *live = rks_live_of(s, record);
    if (status == RELKVANU_STORE_OK && live != NULL) {
        s->job.extras.has_parts = true;
        live->first_part = live->last_part = s->log.place;
    }
    return status;
}

/* At an opening. An earlier version of the library does not know the rows: it may have ended records that have some. */
int rks_begin_parts(relkvanu_store *s) {
    sqlite3_stmt *it = NULL;
    int status = rks_has_table(s, "part", &s->job.extras.has_parts);
    if (status != RELKVANU_STORE_OK || !s->job.extras.has_parts) {
        return status;
    }
    if (sqlite3_prepare_v2(s->log.db, "SELECT record, min(place), max(place) FROM part GROUP BY record", -1, &it, NULL) != SQLITE_OK) {
        return rks_fault(s, "parts");
    }
    int code;
    while (status == RELKVANU_STORE_OK && (code = sqlite3_step(it)) != SQLITE_DONE) {
        const struct rks_rows rows = {
            (uint64_t)sqlite3_column_int64(it, 0), (uint64_t)sqlite3_column_int64(it, 1), (uint64_t)sqlite3_column_int64(it, 2)};
        struct rks_live *live = rks_live_of(s, rows.record);
        if (code != SQLITE_ROW) {
            status = rks_fault(s, "parts");
        } else if (live != NULL) {
            live->first_part = rows.first;
            live->last_part = rows.last;
        } else {
            status = delete_parts(s, &rows);
        }
    }
    sqlite3_finalize(it);
    return status;
}

static int by_subtask(const void *one, const void *other) {
    const struct rks_subtask *a = one, *b = other;
    return a->vertex != b->vertex ? (a->vertex > b->vertex) - (a->vertex < b->vertex) : (a->index > b->index) - (a->index < b->index);
}

/* Notes the place of each part of the text. Returns false if it is damaged. */
static bool divide(struct rks_parts *parts) {
    struct head head;
    size_t at = 0;
    while (at < parts->text.len) {
        size_t rest = parts->text.len - at;
        if (rest < sizeof head) {
            return false;
        }
        memcpy(&head, parts->text.at + at, sizeof head);
        size_t files = head.files_len * sizeof(uint64_t), payload = head.payload_len > rest ? rest : padded(head.payload_len);
        if (sizeof head + files + payload > rest) {
            return false;
        }
        const uint8_t *files_at = parts->text.at + at + sizeof head;
        parts->at[parts->len++] = (struct rks_subtask){head.vertex, head.index, head.files_len != 0 ? (const void *)files_at : NULL,
            head.files_len, files_at + files, head.payload_len, head.bytes, head.millis};
        at += sizeof head + files + payload;
    }
    qsort(parts->at, parts->len, sizeof *parts->at, by_subtask);
    return true;
}

/* Appends the parts of a row. */
static int take_row(relkvanu_store *s, sqlite3_stmt *it, struct rks_text *text) {
    const void *parts = sqlite3_column_blob(it, 0);
    size_t len = (size_t)sqlite3_column_bytes(it, 0);
    if ((parts == NULL && sqlite3_errcode(s->log.db) == SQLITE_NOMEM) || !rks_room(text, len)) {
        return RELKVANU_STORE_NO_MEMORY;
    }
    if (parts == NULL || (int64_t)crc32_z(0, parts, len) != sqlite3_column_int64(it, 1)) {
        return RELKVANU_STORE_DAMAGED;
    }
    append(text, parts, len);
    return RELKVANU_STORE_OK;
}

static int read_text(relkvanu_store *s, const struct rks_rows *rows, struct rks_text *text) {
    static const char SQL[] = "SELECT parts, sum FROM part WHERE record = ?1 AND place BETWEEN ?2 AND ?3 ORDER BY place";
    sqlite3_stmt *it = NULL;
    int code = sqlite3_prepare_v2(s->log.db, SQL, -1, &it, NULL);
    code = code != SQLITE_OK ? code : bind_rows(it, rows);
    int status = code == SQLITE_OK ? RELKVANU_STORE_OK : rks_status_of_read(s, "parts");
    while (status == RELKVANU_STORE_OK && (code = sqlite3_step(it)) == SQLITE_ROW) {
        status = take_row(s, it, text);
    }
    status = status == RELKVANU_STORE_OK && code != SQLITE_DONE ? rks_status_of_read(s, "parts") : status;
    sqlite3_finalize(it);
    return status;
}

/* The parts of a record, for the thread that leads. To be freed, also after another status. */
int rks_read_parts(relkvanu_store *s, uint64_t record, struct rks_parts *parts) {
    const struct rks_live *live = rks_live_of(s, record);
    *parts = (struct rks_parts){0};
    if (live == NULL || live->first_part == 0) {
        return RELKVANU_STORE_OK;
    }
    const struct rks_rows rows = {record, live->first_part, live->last_part};
    int status = read_text(s, &rows, &parts->text);
    if (status != RELKVANU_STORE_OK) {
        return status;
    }
    parts->at = malloc((parts->text.len / sizeof(struct head) + 1) * sizeof *parts->at);
    return parts->at == NULL ? RELKVANU_STORE_NO_MEMORY : divide(parts) ? RELKVANU_STORE_OK : RELKVANU_STORE_DAMAGED;
}

const struct rks_subtask *rks_part_of(const struct rks_parts *parts, uint16_t vertex, uint16_t index) {
    const struct rks_subtask key = {.vertex = vertex, .index = index};
    return parts->len == 0 ? NULL : bsearch(&key, parts->at, parts->len, sizeof key, by_subtask);
}

void rks_free_parts(struct rks_parts *parts) {
    free(parts->text.at);
    free(parts->at);
}

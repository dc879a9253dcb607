/* A commit: the lines of a group with their answers, and now and then an image, in one transaction. */
#include "../job/job.h"
#include "../manifests/manifests.h"
#include "../store.h"
#include "log.h"

#include <string.h>
#include <time.h>
#include <zlib.h>

enum { SMALL_IMAGE = 1 << 16, LOG_OF_IMAGE = 8 }; /* bytes; the log before the next image, in images */

/* The checksum of the calls so far with one more: its line, its answer and its files. */
uint32_t rks_chain(uint32_t chain, const struct rks_row *row) {
    uint64_t numbers[] = {row->place, row->answer.what, row->answer.a, row->answer.b};
    uLong sum = crc32(chain, (const Bytef *)numbers, sizeof numbers);
    sum = crc32(sum, row->line.at, (uInt)row->line.len);
    if (row->answer.what == RELKVANU_TAKEN && row->answer.a != 0) {
        sum = crc32(sum, (const Bytef *)row->files, (uInt)(row->answer.a * sizeof *row->files));
    }
    return (uint32_t)sum;
}

/* The checksum of an image, of its place and of the calls before it. */
uint32_t rks_image_sum(uint64_t place, uint32_t chain, const void *image, size_t len) {
    uint64_t numbers[] = {place, chain, len};
    return (uint32_t)crc32_z(crc32(0, (const Bytef *)numbers, sizeof numbers), image, len);
}

/* Writes the image of the coordinator into the store's buffer. */
int rks_save(relkvanu_store *s) {
    for (;;) {
        s->log.image.len = 0;
        relkvanu_answer answer = relkvanu_save(s->handle, s->log.image.at, s->log.image.room);
        if (answer.code == RELKVANU_DONE) {
            s->log.image.len = answer.a;
            return RELKVANU_STORE_OK;
        }
        if (answer.code != RELKVANU_TOO_SHORT || !rks_room(&s->log.image, answer.a + answer.a / 8)) {
            return RELKVANU_STORE_NO_MEMORY;
        }
    }
}

/* Writes the saved image, and drops those before the last one: two stay. */
int rks_write_image(relkvanu_store *s) {
    sqlite3_stmt *it = s->log.statements[RKS_IMAGE];
    int code = sqlite3_bind_int64(it, 1, (sqlite3_int64)s->log.place);
    code |= sqlite3_bind_int64(it, 2, s->log.chain);
    code |= sqlite3_bind_int64(it, 3, rks_image_sum(s->log.place, s->log.chain, s->log.image.at, s->log.image.len));
    code |= sqlite3_bind_blob64(it, 4, s->log.image.at, s->log.image.len, SQLITE_STATIC);
    code |= sqlite3_bind_int64(s->log.statements[RKS_DROP_IMAGES], 1, (sqlite3_int64)s->log.image_place);
    int status = rks_do(s, it, code, "image");
    return status == RELKVANU_STORE_OK ? rks_step(s, RKS_DROP_IMAGES, "old images") : status;
}

/* The image is committed: the log stays whole behind the last two. */
void rks_note_image(relkvanu_store *s) {
    s->log.image_before = s->log.image_place;
    s->log.image_place = s->log.place;
    s->log.cut_to = s->log.image_before;
    s->group.led.images++;
}

/* Binds a row to the parameters behind this one. */
static int bind(sqlite3_stmt *it, int behind, const struct rks_row *row) {
    int code = sqlite3_bind_int64(it, behind + 1, (sqlite3_int64)row->place);
    code |= sqlite3_bind_text(it, behind + 2, (const char *)row->line.at, (int)row->line.len, SQLITE_STATIC);
    code |= sqlite3_bind_int64(it, behind + 3, row->answer.what);
    code |= sqlite3_bind_int64(it, behind + 4, (sqlite3_int64)row->answer.a);
    code |= sqlite3_bind_int64(it, behind + 5, (sqlite3_int64)row->answer.b);
    if (row->answer.what == RELKVANU_TAKEN) {
        code |= sqlite3_bind_blob64(it, behind + 6, row->files, row->answer.a * sizeof *row->files, SQLITE_STATIC);
    } else {
        code |= sqlite3_bind_null(it, behind + 6);
    }
    return code | sqlite3_bind_int64(it, behind + 7, row->chain);
}

static int insert(relkvanu_store *s, enum rks_statement statement, const struct rks_row *rows, size_t len) {
    int code = SQLITE_OK;
    for (size_t i = 0; i < len; i++) {
        code |= bind(s->log.statements[statement], (int)i * RKS_COLUMNS, &rows[i]);
    }
    return rks_do(s, s->log.statements[statement], code, "call");
}

/* Inserts the rows that are not there yet, in the transaction that may have begun: so many by one statement, since they take SQLite less than two thirds of the
 * time that they take one by one. */
int rks_insert_rows(relkvanu_store *s, size_t rows, size_t runs) {
    int status = sqlite3_get_autocommit(s->log.db) ? rks_step(s, RKS_BEGIN, "begin") : RELKVANU_STORE_OK;
    for (size_t len; s->group.inserted < rows && status == RELKVANU_STORE_OK; s->group.inserted += len) {
        len = rows - s->group.inserted < RKS_MANY ? 1 : RKS_MANY;
        status = insert(s, len == 1 ? RKS_INSERT : RKS_INSERT_MANY, &s->group.rows[s->group.inserted], len);
    }
    return status == RELKVANU_STORE_OK ? rks_insert_runs(s, runs) : status;
}

int rks_roll_back(relkvanu_store *s) {
    s->group.inserted = s->job.extras.runs_inserted = 0;
    return sqlite3_get_autocommit(s->log.db) ? RELKVANU_STORE_OK : rks_step(s, RKS_ROLLBACK, "rollback");
}

/* Deletes calls that both images cover, a part at a time, so that no commit takes long. Returns in *cut up to which call. */
static int cut_log(relkvanu_store *s, uint64_t *cut) {
    uint64_t most = s->log.first + RKS_CUT + 2 * s->group.rows_len;
    *cut = most < s->log.cut_to ? most : s->log.cut_to;
    if (*cut <= s->log.first) {
        *cut = s->log.first;
        return RELKVANU_STORE_OK;
    }
    int code = sqlite3_bind_int64(s->log.statements[RKS_CUT_LOG], 1, (sqlite3_int64)*cut);
    return rks_do(s, s->log.statements[RKS_CUT_LOG], code, "cut");
}

/* One transaction. If it fails it is rolled back, or *may_retry is false. */
static int transact(relkvanu_store *s, bool has_image, bool *may_retry) {
    char words[RKS_MESSAGE];
    uint64_t cut = 0;
    rks_await_rows(s);
    int status = rks_insert_rows(s, s->group.rows_len, s->job.extras.runs_len);
    status = status == RELKVANU_STORE_OK && s->job.writes_phase ? rks_write_phase(s) : status;
    status = status == RELKVANU_STORE_OK ? rks_write_parts(s) : status;
    status = status == RELKVANU_STORE_OK ? rks_write_past(s) : status;
    status = status == RELKVANU_STORE_OK && has_image ? rks_write_image(s) : status;
    status = status == RELKVANU_STORE_OK ? cut_log(s, &cut) : status;
    if (status == RELKVANU_STORE_OK) {
        uint64_t began = rks_clock_ns();
        status = rks_step(s, RKS_COMMIT, "commit");
        s->group.took = rks_clock_ns() - began;
    }
    if (status == RELKVANU_STORE_OK) {
        s->log.first = cut;
        return status;
    }
    int primary = s->log.code & 255;
    *may_retry = primary == SQLITE_FULL || primary == SQLITE_NOMEM || primary == SQLITE_BUSY || primary == SQLITE_LOCKED ||
                 primary == SQLITE_TOOBIG || s->log.code == SQLITE_IOERR_WRITE || s->log.code == SQLITE_IOERR_NOMEM;
    memcpy(words, s->fault, sizeof words);
    *may_retry = rks_roll_back(s) == RELKVANU_STORE_OK && *may_retry;
    memcpy(s->fault, words, sizeof words);
    return status;
}

static uint64_t saturated(uint64_t a, uint64_t b) {
    return a > UINT64_MAX - b ? UINT64_MAX : a + b;
}

/* All callers wait for an image. A large one is due only when the log has several times its bytes: so it costs a call no more than a part of its line, and an
 * opening reads that much. */
static bool is_due(const relkvanu_store *s) {
    bool is_large = s->log.image.len > SMALL_IMAGE;
    return s->log.place >= s->log.next_image && (!is_large || s->log.logged / LOG_OF_IMAGE >= s->log.image.len);
}

/* Whether an image is due, and is in the buffer. */
static bool has_saved(relkvanu_store *s, bool is_wanted) {
    if (s->options.image_calls == RELKVANU_STORE_NO_IMAGES || (!is_wanted && !is_due(s))) {
        return false;
    }
    s->log.next_image = saturated(s->log.place, s->options.image_calls);
    rks_room(&s->log.image, s->log.logged); /* one that does not fit is made twice */
    s->log.logged = 0;
    /* While many files wait, images are large. Then a call costs no more for them than so many bytes. */
    if (rks_save(s) != RELKVANU_STORE_OK) {
        s->group.led.failed_images++;
        return false;
    }
    uint64_t large = s->log.image.len / 100;
    s->log.next_image = saturated(s->log.place, large > s->options.image_calls ? large : s->options.image_calls);
    return true;
}

static int committed(relkvanu_store *s, bool has_image) {
    s->job.writes_phase = false;
    rks_forget_extras(s);
    if (!rks_in_place(s)) {
        return RELKVANU_STORE_FAILED;
    }
    if (has_image) {
        rks_note_image(s);
    }
    rks_write_tail(s);
    s->log.committed_at = rks_wall_clock_ms();
    return RELKVANU_STORE_OK;
}

/* Commits the rows. What was made and could not be committed makes the store unusable. An image that can't be written waits. */
int rks_commit(relkvanu_store *s, bool wants_image) {
    bool has_image = has_saved(s, wants_image), may_retry = true;
    int status;
    for (uint64_t end = rks_clock_ns() + (uint64_t)s->options.patience * 1000000;; s->group.led.retries++) {
        status = transact(s, has_image, &may_retry);
        if (status == RELKVANU_STORE_OK) {
            return committed(s, has_image);
        }
        if (may_retry && has_image) {
            has_image = false;
            s->group.led.failed_images++;
        } else if (!may_retry || rks_clock_ns() >= end) {
            break;
        } else {
            nanosleep(&(struct timespec){0, 20000000}, NULL);
        }
    }
    return status >= RELKVANU_STORE_FAILED ? status : RELKVANU_STORE_FAILED;
}

/* SQLite: how a job's file is opened, and what its failures mean. */
#include "../files/files.h"
#include "../job/job.h"
#include "../store.h"
#include "log.h"

#include <errno.h>
#include <stdio.h>
#include <string.h>

static int status_of(int code, int error) {
    switch (code & 255) {
    case SQLITE_NOMEM: return RELKVANU_STORE_OUT_OF_MEMORY;
    case SQLITE_BUSY:
    case SQLITE_LOCKED:
    case SQLITE_PROTOCOL: return RELKVANU_STORE_BUSY;
    case SQLITE_FULL: return RELKVANU_STORE_FULL;
    case SQLITE_READONLY: return RELKVANU_STORE_READ_ONLY;
    case SQLITE_NOTADB: return RELKVANU_STORE_NOT_A_STORE;
    case SQLITE_CORRUPT: return RELKVANU_STORE_DAMAGED;
    case SQLITE_IOERR:
        return code == SQLITE_IOERR_NOMEM ? RELKVANU_STORE_OUT_OF_MEMORY : error == EDQUOT ? RELKVANU_STORE_FULL : RELKVANU_STORE_FAILED;
    case SQLITE_CANTOPEN: return error == EROFS || error == EACCES ? RELKVANU_STORE_READ_ONLY : RELKVANU_STORE_FAILED;
    default: return RELKVANU_STORE_FAILED;
    }
}

/* Notes the last failure of the connection, and returns its status. */
int rks_fault(relkvanu_store *s, const char *what) {
    int error = s->log.db != NULL ? sqlite3_system_errno(s->log.db) : 0;
    s->log.code = s->log.db != NULL ? sqlite3_extended_errcode(s->log.db) : SQLITE_NOMEM;
    snprintf(s->fault, sizeof s->fault, "%.300s: %.60s: %s (SQLite %d, errno %d)", s->file.path, what, sqlite3_errstr(s->log.code),
        s->log.code, error);
    return status_of(s->log.code, error);
}

/* The status of a read that has failed, which closes nothing. */
int rks_status_of_read(relkvanu_store *s, const char *what) {
    int status = rks_fault(s, what);
    bool is_out = status == RELKVANU_STORE_OUT_OF_MEMORY;
    return is_out ? RELKVANU_STORE_NO_MEMORY : status == RELKVANU_STORE_DAMAGED ? status : RELKVANU_STORE_NOT_DONE;
}

int rks_run(relkvanu_store *s, const char *sql) {
    return sqlite3_exec(s->log.db, sql, NULL, NULL, NULL) == SQLITE_OK ? RELKVANU_STORE_OK : rks_fault(s, sql);
}

/* Within the transaction that is under way. */
int rks_set_format(relkvanu_store *s, int format) {
    char pragma[40];
    snprintf(pragma, sizeof pragma, "PRAGMA user_version=%d", format);
    return rks_run(s, pragma);
}

int rks_do(relkvanu_store *s, sqlite3_stmt *it, int bound, const char *what) {
    int code = bound == SQLITE_OK ? sqlite3_step(it) : bound;
    int status = code == SQLITE_DONE || code == SQLITE_ROW ? RELKVANU_STORE_OK : rks_fault(s, what);
    sqlite3_reset(it);
    return status;
}

int rks_step(relkvanu_store *s, enum rks_statement statement, const char *what) {
    return rks_do(s, s->log.statements[statement], SQLITE_OK, what);
}

int rks_has_table(relkvanu_store *s, const char *name, bool *is_there) {
    char sql[100];
    int64_t tables = 0;
    snprintf(sql, sizeof sql, "SELECT count(*) FROM sqlite_schema WHERE name = '%s'", name);
    int status = rks_ask(s, sql, &tables, NULL, 0);
    *is_there = tables != 0;
    return status;
}

/* The number or the text that a statement returns. Both stay as they are if it returns no row. */
int rks_ask(relkvanu_store *s, const char *sql, int64_t *number, char *text, size_t text_len) {
    sqlite3_stmt *it = NULL;
    if (sqlite3_prepare_v2(s->log.db, sql, -1, &it, NULL) != SQLITE_OK) {
        return rks_fault(s, sql);
    }
    int code = sqlite3_step(it), status = code == SQLITE_DONE || code == SQLITE_ROW ? RELKVANU_STORE_OK : rks_fault(s, sql);
    if (code == SQLITE_ROW && number != NULL) {
        *number = sqlite3_column_int64(it, 0);
    }
    if (code == SQLITE_ROW && text != NULL) {
        const char *found = (const char *)sqlite3_column_text(it, 0);
        if (found == NULL && sqlite3_errcode(s->log.db) == SQLITE_NOMEM) {
            status = RELKVANU_STORE_OUT_OF_MEMORY;
        }
        snprintf(text, text_len, "%s", found != NULL ? found : "");
    }
    sqlite3_finalize(it);
    return status;
}

static int count_pages(void *store, sqlite3 *db, const char *name, int pages) {
    (void)db, (void)name;
    ((relkvanu_store *)store)->log.pages = pages;
    return SQLITE_OK;
}

/* SQLite answers with the mode that it stays in, and not with a failure. */
static int set_mode(relkvanu_store *s, const char *pragma, const char *mode) {
    char found[32] = "";
    int status = rks_ask(s, pragma, NULL, found, sizeof found);
    if (status == RELKVANU_STORE_OK && strcmp(found, mode) != 0) {
        return rks_refuse(s, RELKVANU_STORE_FAILED, "%.400s: %s: it stays %s", s->file.path, pragma, found);
    }
    return status;
}

/* The path has no link, unless somebody puts one there now. SQLite gives a -wal that it makes to the user of the file. */
#ifdef SQLITE_OPEN_NOFOLLOW
enum { RKS_NOFOLLOW = SQLITE_OPEN_NOFOLLOW };
#else
enum { RKS_NOFOLLOW = 0 };
#endif

/* The lock of the whole file is set first: then SQLite keeps its index of the -wal in memory, and PATH-shm is free for rks_lock. */
int rks_open_database(relkvanu_store *s) {
    if (sqlite3_threadsafe() == 0) {
        return rks_refuse(s, RELKVANU_STORE_FAILED, "SQLite was compiled without threads");
    }
    int follows = rks_is_guest(s->file.path) ? RKS_NOFOLLOW : 0;
    if (sqlite3_open_v2(s->file.path, &s->log.db, SQLITE_OPEN_READWRITE | SQLITE_OPEN_NOMUTEX | follows, NULL) != SQLITE_OK) {
        return rks_fault(s, "open");
    }
    sqlite3_extended_result_codes(s->log.db, 1);
    sqlite3_busy_timeout(s->log.db, s->options.patience > INT32_MAX ? INT32_MAX : (int)s->options.patience);
    /* A -wal whose sync failed must not go into the file and be deleted: the next opening writes it again. */
    sqlite3_db_config(s->log.db, SQLITE_DBCONFIG_NO_CKPT_ON_CLOSE, 1, NULL);
    if (sqlite3_db_readonly(s->log.db, "main") == 1) { /* SQLite opens such a file */
        return rks_refuse(s, RELKVANU_STORE_READ_ONLY, "%.400s: it is read-only", s->file.path);
    }
    /* Of a new file. The payloads of a checkpoint take a sixth less time than on pages of half the size, and a commit of one call 2 us more. */
    int status = rks_run(s, "PRAGMA page_size=8192");
    status = status == RELKVANU_STORE_OK ? set_mode(s, "PRAGMA locking_mode=EXCLUSIVE", "exclusive") : status;
    status = status == RELKVANU_STORE_OK ? set_mode(s, "PRAGMA journal_mode=WAL", "wal") : status;
    status = status == RELKVANU_STORE_OK ? rks_run(s, "PRAGMA synchronous=FULL") : status;
    /* Debian's SQLite would write each page of a payload once more, with zeros, when its record ends */
    status = status == RELKVANU_STORE_OK ? rks_run(s, "PRAGMA secure_delete=FAST") : status;
    /* payloads of a record would be written to the -wal before the commit and once more by it, and be read to be deleted */
    status = status == RELKVANU_STORE_OK ? rks_run(s, "PRAGMA cache_spill=OFF; PRAGMA cache_size=-16384") : status;
    sqlite3_wal_autocheckpoint(s->log.db, 0); /* SQLite would hide that one failed */
    sqlite3_wal_hook(s->log.db, count_pages, s);
    return status;
}

/* After a row that fails the transaction is rolled back, so SQLite has to keep nothing for a rollback of the statement alone. */
#define ROW "(?, ?, ?, ?, ?, ?, ?)"
#define FOUR ROW ", " ROW ", " ROW ", " ROW
#define SIXTEEN FOUR ", " FOUR ", " FOUR ", " FOUR
#define INSERT "INSERT OR FAIL INTO log(place, line, what, a, b, files, chain) VALUES"

int rks_prepare(relkvanu_store *s) {
    static const char *const sql[RKS_STATEMENTS] = {
        [RKS_BEGIN] = "BEGIN IMMEDIATE",
        [RKS_COMMIT] = "COMMIT",
        [RKS_ROLLBACK] = "ROLLBACK",
        [RKS_INSERT] = INSERT ROW,
        [RKS_INSERT_MANY] = INSERT SIXTEEN ", " SIXTEEN,
        [RKS_IMAGE] = "INSERT OR REPLACE INTO image(place, chain, sum, text) VALUES(?1, ?2, ?3, ?4)",
        [RKS_CUT_LOG] = "DELETE FROM log WHERE place <= ?1",
        [RKS_DROP_IMAGES] = "DELETE FROM image WHERE place < ?1",
    };
    int code = SQLITE_OK;
    for (size_t i = 0; i < RKS_STATEMENTS && code == SQLITE_OK; i++) {
        code = sqlite3_prepare_v3(s->log.db, sql[i], -1, SQLITE_PREPARE_PERSISTENT, &s->log.statements[i], NULL);
    }
    return code == SQLITE_OK ? RELKVANU_STORE_OK : rks_fault(s, "prepare");
}

/* A statement over a table that the first commit with such a row makes. NULL: it can't be prepared. */
sqlite3_stmt *rks_extras_statement(relkvanu_store *s, enum rks_extras_statement which, const char *sql) {
    sqlite3_stmt **it = &s->job.extras.statements[which];
    if (*it == NULL) {
        sqlite3_prepare_v3(s->log.db, sql, -1, SQLITE_PREPARE_PERSISTENT, it, NULL);
    }
    return *it;
}

/* Brings the -wal into the file. With SQLITE_CHECKPOINT_TRUNCATE it is empty afterwards. */
int rks_checkpoint(relkvanu_store *s, int mode) {
    bool is_done = sqlite3_wal_checkpoint_v2(s->log.db, NULL, mode, NULL, NULL) == SQLITE_OK;
    s->group.led.checkpoints += is_done;
    s->group.led.failed_checkpoints += !is_done;
    s->log.pages = is_done ? 0 : s->log.pages - RKS_WAL_PAGES / 4; /* a failure that may pass is tried again later */
    return is_done ? RELKVANU_STORE_OK : rks_fault(s, "checkpoint");
}

void rks_close_database(relkvanu_store *s) {
    for (size_t i = 0; i < RKS_STATEMENTS; i++) {
        sqlite3_finalize(s->log.statements[i]);
    }
    for (size_t i = 0; i < RKS_EXTRAS_STATEMENTS; i++) {
        sqlite3_finalize(s->job.extras.statements[i]);
    }
    sqlite3_close(s->log.db);
}

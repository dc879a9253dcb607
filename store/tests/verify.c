/* verify FOLDER TOLD MOST [files|backup]: opens the job FOLDER/x.db again, and checks that each call of TOLD is there as it was told, unless the log was cut
 * there; that at most MOST calls are there beside those; and that a second coordinator answers all calls as they were answered, and then
 * has the same image. No name was given twice, no term came back, and both go on from what was told; with "files" each file in
 * use is in the folder, whole. The calls beside are appended to TOLD, for a next run. The last word of the line that it prints is "part" if the log was
 * cut behind a call that nobody was told: then there is no second coordinator. */
#include "common.h"

#include <unistd.h>

enum { MOST_TOLD = 400000 };

static int by_place(const void *one, const void *other) {
    uint64_t a = ((const struct told *)one)->place, b = ((const struct told *)other)->place;
    return (a > b) - (a < b);
}

/* Takes the end away by which a line is known as whole: nobody was told of the part of one. */
static bool is_whole(char *line) {
    size_t len = strcspn(line, "\n");
    bool has_end = len != 0 && line[len - 1] == ';';
    line[has_end ? len - 1 : len] = 0;
    return has_end;
}

static struct told *read_told(const char *name, size_t *len) {
    FILE *from = fopen(name, "r");
    struct told *told = calloc(MOST_TOLD, sizeof *told);
    char line[LINE + 100];
    *len = 0;
    CHECK(told != NULL, "no memory");
    while (from != NULL && fgets(line, sizeof line, from) != NULL) {
        if (!is_whole(line)) {
            continue;
        }
        struct told *it = &told[(*len)++];
        CHECK(*len < MOST_TOLD, "too many calls");
        CHECK(
            sscanf(line, "%" SCNu64 " %" SCNu32 " %" SCNu64 " %" SCNu64 " %399[^\n]", &it->place, &it->what, &it->a, &it->b, it->line) == 5,
            "%s", line);
    }
    if (from != NULL) {
        fclose(from);
    }
    qsort(told, *len, sizeof *told, by_place);
    return told;
}

struct check {
    struct told *told, *rows;
    size_t told_len, rows_len, beside;
    struct shadow shadow;
    bool is_whole;
    int to;
    uint64_t term, next_name; /* by the calls so far */
};

static void check_same(const struct told *told, const struct told *row) {
    CHECK(strcmp(row->line, told->line) == 0 && row->what == told->what && row->a == told->a && row->b == told->b,
        "call %" PRIu64 " was told as %s: %" PRIu32 " %" PRIu64 " %" PRIu64 ", and the log has %s: %" PRIu32 " %" PRIu64 " %" PRIu64,
        told->place, told->line, told->what, told->a, told->b, row->line, row->what, row->a, row->b);
}

/* What the call says of terms and names, read from its text. */
static void check_names(struct check *c, const struct told *call) {
    uint64_t term;
    bool has_term = sscanf(call->line, "in %" SCNu64, &term) == 1 || sscanf(call->line, "reserve %" SCNu64, &term) == 1 ||
                    sscanf(call->line, "forfeit %" SCNu64, &term) == 1;
    if (c->term != 0 && call->what >= RELKVANU_RESTORED_CHECKPOINT && call->what <= RELKVANU_CANCELLED) {
        c->term++;
    }
    CHECK(!has_term || term == c->term || !c->is_whole, "call %" PRIu64 ", %s, in the term %" PRIu64, call->place, call->line, c->term);
    c->term = has_term && term > c->term ? term : c->term; /* the beginning may be cut */
    if (call->what == RELKVANU_RESERVED) {
        CHECK(call->a >= c->next_name && call->b >= 1, "call %" PRIu64 ": the names from %" PRIu64 " on are given again", call->place,
            call->a);
        c->next_name = call->a + call->b;
    }
}

static void check_files(const char *folder, relkvanu_store *store) {
    relkvanu *handle;
    CHECK(relkvanu_store_read(store, &handle) == RELKVANU_STORE_OK, "a read");
    for (relkvanu_answer it = relkvanu_live_from(handle, 0); it.what != RELKVANU_LIVE_NONE; it = relkvanu_live_from(handle, it.a + 1)) {
        for (uint16_t i = 0; i < SUBTASKS; i++) {
            uint64_t files[MOST_FILES];
            relkvanu_answer found = relkvanu_files_of(handle, it.a, 0, i, files, MOST_FILES);
            for (uint64_t at = 0; found.what == RELKVANU_FILES && at < found.a; at++) {
                char name[PATHS], contents[8] = "";
                snprintf(name, sizeof name, "%s/storage/%" PRIu64, folder, files[at]);
                FILE *from = fopen(name, "r");
                CHECK(from != NULL && fread(contents, 1, sizeof contents, from) == 5 && memcmp(contents, "state", 5) == 0,
                    "%s of record %" PRIu64, name, it.a);
                fclose(from);
            }
        }
    }
    relkvanu_store_read_end(store);
}

/* How a part begins in its row. */
struct head {
    uint16_t vertex, index;
    uint32_t files_len;
    uint64_t payload_len, bytes, millis;
};

/* Notes which subtasks of a record have a payload, which has to be theirs. */
static void note_payloads(uint64_t id, const uint8_t *parts, size_t len, bool noted[SUBTASKS]) {
    struct head head;
    for (size_t at = 0; at < len; at += sizeof head + head.files_len * sizeof(uint64_t) + (head.payload_len + 7) / 8 * 8) {
        memcpy(&head, parts + at, sizeof head);
        struct payload payload = payload_of(id, head.index);
        const uint8_t *found = parts + at + sizeof head + head.files_len * sizeof(uint64_t);
        CHECK(
            head.index < SUBTASKS && !noted[head.index] && head.payload_len == payload.len && memcmp(found, payload.text, payload.len) == 0,
            "the payload of %d in record %" PRIu64, head.index, id);
        noted[head.index] = true;
    }
}

/* The subtasks that have acknowledged, and no others, have a payload, if their tasks gave them any. */
static void check_payloads(const char *path, relkvanu *handle) {
    sqlite3 *db = open_file(path);
    sqlite3_stmt *it = NULL;
    int code = sqlite3_prepare_v2(db, "SELECT record, parts FROM part ORDER BY record", -1, &it, NULL);
    CHECK(code == SQLITE_OK || strstr(sqlite3_errmsg(db), "no such table") != NULL, "%s", sqlite3_errmsg(db));
    bool noted[MOST_FILES][SUBTASKS] = {0};
    uint64_t ids[MOST_FILES] = {0};
    size_t len = 0;
    for (relkvanu_answer live = relkvanu_live_from(handle, 0); live.what != RELKVANU_LIVE_NONE;
         live = relkvanu_live_from(handle, live.a + 1)) {
        ids[len++] = live.a;
    }
    while (code == SQLITE_OK && sqlite3_step(it) == SQLITE_ROW) {
        uint64_t id = (uint64_t)sqlite3_column_int64(it, 0);
        size_t at = 0;
        while (at < len && ids[at] != id) {
            at++;
        }
        CHECK(at < len, "payloads of record %" PRIu64 ", which has ended", id);
        note_payloads(id, sqlite3_column_blob(it, 1), (size_t)sqlite3_column_bytes(it, 1), noted[at]);
    }
    for (size_t at = 0; at < len && code == SQLITE_OK; at++) {
        for (uint16_t i = 0; i < SUBTASKS; i++) {
            uint64_t files[MOST_FILES];
            bool is_acknowledged = relkvanu_files_of(handle, ids[at], 0, i, files, MOST_FILES).what == RELKVANU_FILES;
            CHECK(is_acknowledged == noted[at][i], "subtask %d of record %" PRIu64 ": %d", i, ids[at], is_acknowledged);
        }
    }
    sqlite3_finalize(it);
    sqlite3_close(db);
}

static void make(struct check *c, const struct told *call) {
    if (call->place != c->shadow.place + 1) {
        c->is_whole = false;
    }
    check_names(c, call);
    if (c->is_whole) {
        shadow_make(&c->shadow, call);
    }
}

/* Goes through both by their places. */
static void compare(struct check *c) {
    size_t told = 0, row = 0;
    while (told < c->told_len || row < c->rows_len) {
        struct told *t = told < c->told_len ? &c->told[told] : NULL, *r = row < c->rows_len ? &c->rows[row] : NULL;
        bool is_told = t != NULL && (r == NULL || t->place <= r->place), is_row = r != NULL && (t == NULL || r->place <= t->place);
        if (is_told && is_row) {
            check_same(t, r);
        } else if (is_told) {
            CHECK(row == 0 && r != NULL, "call %" PRIu64 ", %s, is not in the log", t->place, t->line);
        } else {
            c->beside++;
            tell_row(c->to, r);
        }
        make(c, is_told ? t : r);
        told += is_told;
        row += is_row;
    }
}

/* Opens the job, and closes it. If nobody was told of a call, the process may have ended before there was a job: then one is made. */
static void open_first(const char *path, relkvanu_store_options *options, bool is_told) {
    relkvanu_store *store;
    relkvanu_store_report report;
    int status = relkvanu_store_open(&store, path, options, &report);
    if (status == RELKVANU_STORE_ABSENT && !is_told) {
        options->flags = RELKVANU_STORE_CREATE;
        status = relkvanu_store_open(&store, path, options, &report);
    }
    CHECK(status == RELKVANU_STORE_OK, "status %d: %s", status, report.message);
    relkvanu_store_close(store);
}

int main(int argc, char **argv) {
    char path[PATHS];
    relkvanu_store *store;
    relkvanu_store_report report;
    struct check c = {.is_whole = true};
    CHECK(argc == 4 || argc == 5, "verify FOLDER TOLD MOST [files|backup]");
    bool is_backup = argc == 5 && strcmp(argv[4], "backup") == 0;
    relkvanu_store_options options =
        options_in(argv[1], is_backup ? RELKVANU_STORE_BACKUP : RELKVANU_STORE_RECOVER, RELKVANU_STORE_NO_IMAGES);
    c.told = read_told(argv[2], &c.told_len);
    snprintf(path, sizeof path, "%s/x.db", argv[1]);
    open_first(path, &options, c.told_len != 0);
    c.rows = log_rows(path, 0, &c.rows_len);
    c.to = told_file(argv[2]);
    shadow_open_as(&c.shadow, path);
    relkvanu_answer begins = relkvanu_term(&c.shadow.handle);
    c.term = begins.a;
    c.next_name = begins.b;
    compare(&c);
    if (c.is_whole) {
        check_payloads(path, &c.shadow.handle);
    }
    options.flags &= ~RELKVANU_STORE_BACKUP;
    CHECK(c.beside <= strtoull(argv[3], NULL, 10), "%zu calls beside those that were told", c.beside);
    int status = relkvanu_store_open(&store, path, &options, &report);
    CHECK(status == RELKVANU_STORE_OK, "status %d: %s", status, report.message);
    uint64_t last = c.rows_len != 0 ? c.rows[c.rows_len - 1].place : 0;
    CHECK(report.image_place + report.replayed == last, "%" PRIu64 " calls", report.image_place + report.replayed);
    CHECK(!c.is_whole || shadow_equals(&c.shadow, store), "another image");
    CHECK(report.term >= c.term && report.next_name >= c.next_name && (!c.is_whole || report.term == c.term),
        "term %" PRIu64 " after %" PRIu64 ", next name %" PRIu64 " after %" PRIu64, report.term, c.term, report.next_name, c.next_name);
    if (argc == 5 && !is_backup) {
        check_files(argv[1], store);
    }
    relkvanu_store_close(store);
    printf("%zu told, %zu beside, %s\n", c.told_len, c.beside, c.is_whole ? "whole" : "part");
    free(c.told);
    free(c.rows);
    relkvanu_close(&c.shadow.handle);
    return 0;
}

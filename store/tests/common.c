/* See common.h. */
#include "common.h"

#include <fcntl.h>
#include <unistd.h>

static const uint64_t shape[] = {SUBTASKS};

relkvanu_store_options job_options(uint32_t flags, uint64_t image_calls) {
    return (relkvanu_store_options){.flags = flags,
        .image_calls = image_calls,
        .settings = {.interval = 10, .at_once = 1, .timeout = UINT64_C(1) << 30, .tolerable = 1000, .retained = 1},
        .shape = shape,
        .shape_len = 1};
}

relkvanu_store_options options_in(const char *folder, uint32_t flags, uint64_t image_calls) {
    static char storage[PATHS];
    relkvanu_store_options options = job_options(flags, image_calls);
    snprintf(storage, sizeof storage, "%s/storage", folder);
    options.storage = storage;
    return options;
}

int told_file(const char *name) {
    int file = open(name, O_WRONLY | O_CREAT | O_APPEND | O_CLOEXEC, 0600);
    CHECK(file >= 0, "%s", name);
    return file;
}

void tell(int told_file, const relkvanu_store_call *call) {
    if (call->place != 0) {
        struct told told = told_of(call);
        tell_row(told_file, &told);
    }
}

void tell_row(int told_file, const struct told *told) {
    char text[LINE + 100];
    int len = snprintf(
        text, sizeof text, "\n%" PRIu64 " %" PRIu32 " %" PRIu64 " %" PRIu64 " %s;", told->place, told->what, told->a, told->b, told->line);
    CHECK(write(told_file, text, (size_t)len) == len, "TOLD");
}

struct told told_of(const relkvanu_store_call *call) {
    struct told told = {call->place, call->answer.a, call->answer.b, call->answer.what, ""};
    relkvanu_answer written = relkvanu_call_line(
        &call->call, call->first, call->first_len, call->second, call->second_len, (uint8_t *)told.line, sizeof told.line - 1);
    if (written.code == RELKVANU_NO_MEMORY) { /* a test refuses one request */
        return told_of(call);
    }
    CHECK(written.code == RELKVANU_DONE, "no line");
    return told;
}

sqlite3 *open_file(const char *path) {
    sqlite3 *db = NULL;
    CHECK(sqlite3_open_v2(path, &db, SQLITE_OPEN_READWRITE, NULL) == SQLITE_OK, "%s", path);
    sqlite3_db_config(db, SQLITE_DBCONFIG_NO_CKPT_ON_CLOSE, 1, NULL);
    return db;
}

void shadow_open_as(struct shadow *shadow, const char *path) {
    sqlite3 *db = open_file(path);
    sqlite3_stmt *it = NULL;
    uint64_t numbers[7], shape_found[256];
    CHECK(sqlite3_prepare_v2(db, "SELECT opening FROM job", -1, &it, NULL) == SQLITE_OK && sqlite3_step(it) == SQLITE_ROW, "%s",
        sqlite3_errmsg(db));
    const char *config = (const char *)sqlite3_column_text(it, 0), *job = strchr(config, '\n') + 1;
    relkvanu_answer first = relkvanu_line_says((const uint8_t *)config, strcspn(config, "\n"), numbers, 7);
    relkvanu_answer second = relkvanu_line_says((const uint8_t *)job, strcspn(job, "\n"), shape_found, 256);
    CHECK(first.what == RELKVANU_LINE_CONFIG && second.what == RELKVANU_LINE_JOB, "%s", config);
    const relkvanu_settings settings = {numbers[0], numbers[1], numbers[2], numbers[3], numbers[4], numbers[5], numbers[6] != 0};
    uint64_t name = first_name_of(config);
    *shadow = (struct shadow){0};
    relkvanu_answer opened = name == 0 ? relkvanu_open(&shadow->handle, &settings, shape_found, second.a, 0, 1, 1, 2)
                                       : relkvanu_open_fenced(&shadow->handle, &settings, shape_found, second.a, 0, 1, name, 1, 2);
    CHECK(opened.code == RELKVANU_DONE, "the second coordinator");
    sqlite3_finalize(it);
    sqlite3_close(db);
}

struct payload payload_of(uint64_t id, uint16_t index) {
    struct payload payload;
    payload.len = (size_t)snprintf(payload.text, sizeof payload.text, "state %" PRIu64 " of %d", id, index);
    return payload;
}

uint64_t first_name_of(const char *opening) {
    const char *fence = strstr(opening, "\nfence ");
    return fence == NULL ? 0 : strtoull(fence + 7, NULL, 10);
}

struct names names_of(const relkvanu_answer *answer) {
    bool is_reserved = answer->code == RELKVANU_DONE && answer->what == RELKVANU_RESERVED;
    return is_reserved ? (struct names){answer->a, answer->a + answer->b} : (struct names){0};
}

void shadow_make(struct shadow *shadow, const struct told *told) {
    uint64_t files[4096];
    CHECK(told->place == shadow->place + 1, "call %" PRIu64 " comes after call %" PRIu64, told->place, shadow->place);
    relkvanu_answer got = relkvanu_line(&shadow->handle, (const uint8_t *)told->line, strlen(told->line), files, 4096);
    CHECK(got.code == RELKVANU_DONE && got.what == told->what && got.a == told->a && got.b == told->b,
        "call %" PRIu64 ", %s: %" PRIu32 "/%" PRIu32 " %" PRIu64 " %" PRIu64 ", and not %" PRIu32 " %" PRIu64 " %" PRIu64, told->place,
        told->line, got.code, got.what, got.a, got.b, told->what, told->a, told->b);
    shadow->place++;
}

static uint8_t *image_of(relkvanu *handle, size_t *len) {
    *len = relkvanu_save(handle, NULL, 0).a;
    uint8_t *image = malloc(*len + 1);
    CHECK(image != NULL && relkvanu_save(handle, image, *len).code == RELKVANU_DONE, "no image");
    return image;
}

bool has_same_image(relkvanu *one, relkvanu *other) {
    size_t len, other_len;
    uint8_t *image = image_of(one, &len), *second = image_of(other, &other_len);
    bool is_same = len == other_len && memcmp(image, second, len) == 0;
    free(image);
    free(second);
    return is_same;
}

bool shadow_equals(struct shadow *shadow, relkvanu_store *store) {
    relkvanu *handle;
    CHECK(relkvanu_store_read(store, &handle) == RELKVANU_STORE_OK, "no read");
    bool is_same = has_same_image(handle, &shadow->handle);
    relkvanu_store_read_end(store);
    return is_same;
}

struct told *log_rows(const char *path, uint64_t after, size_t *len) {
    sqlite3 *db = open_file(path);
    sqlite3_stmt *it = NULL;
    struct told *rows = NULL;
    size_t room = 0;
    int code = sqlite3_prepare_v2(db, "SELECT place, a, b, what, line FROM log WHERE place > ?1 ORDER BY place", -1, &it, NULL);
    CHECK(code == SQLITE_OK && sqlite3_bind_int64(it, 1, (sqlite3_int64)after) == SQLITE_OK, "%s", sqlite3_errmsg(db));
    *len = 0;
    while ((code = sqlite3_step(it)) == SQLITE_ROW) {
        room = *len == room ? room * 2 + 64 : room;
        rows = realloc(rows, room * sizeof *rows);
        CHECK(rows != NULL, "no memory");
        struct told *row = &rows[(*len)++];
        *row = (struct told){(uint64_t)sqlite3_column_int64(it, 0), (uint64_t)sqlite3_column_int64(it, 1),
            (uint64_t)sqlite3_column_int64(it, 2), (uint32_t)sqlite3_column_int64(it, 3), ""};
        snprintf(row->line, sizeof row->line, "%s", (const char *)sqlite3_column_text(it, 4));
    }
    CHECK(code == SQLITE_DONE, "%s", sqlite3_errmsg(db));
    sqlite3_finalize(it);
    sqlite3_close(db);
    return rows;
}

void run_sql(const char *path, const char *sql) {
    sqlite3 *db = open_file(path);
    char *words = NULL;
    CHECK(sqlite3_exec(db, sql, NULL, NULL, &words) == SQLITE_OK, "%s", words);
    sqlite3_close(db);
}

uint64_t ask_sql(const char *path, const char *sql) {
    sqlite3 *db = open_file(path);
    sqlite3_stmt *it = NULL;
    CHECK(sqlite3_prepare_v2(db, sql, -1, &it, NULL) == SQLITE_OK && sqlite3_step(it) == SQLITE_ROW, "%s", sqlite3_errmsg(db));
    uint64_t number = (uint64_t)sqlite3_column_int64(it, 0);
    sqlite3_finalize(it);
    sqlite3_close(db);
    return number;
}

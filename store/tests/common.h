/* What the tests of the store share: a job, calls, and a second coordinator that makes the same calls. */
#ifndef STORE_TESTS_COMMON_H
#define STORE_TESTS_COMMON_H
#ifndef _GNU_SOURCE
#define _GNU_SOURCE
#endif
#include "../../include/relkvanu_store.h"

#include <inttypes.h>
#include <sqlite3.h>
#include <stdio.h>
#include <stdlib.h>
#include <string.h>

enum { SUBTASKS = 8, LINE = 400, PATHS = 600, MOST_FILES = 64 };

/* What has to hold, and what is told beside it if it does not: the words of a printf, if there are any. */
#define CHECK(condition, ...)                                             \
    do {                                                                  \
        if (!(condition)) {                                               \
            fprintf(stderr, "%s:%d: %s", __FILE__, __LINE__, #condition); \
            fprintf(stderr, ": " __VA_ARGS__);                            \
            fputc('\n', stderr);                                          \
            fflush(stderr);                                               \
            abort();                                                      \
        }                                                                 \
    } while (0)

/* What a caller was told, or what the log has. */
struct told {
    uint64_t place, a, b;
    uint32_t what;
    char line[LINE];
};

/* The options of the tests' job: 8 subtasks, an image after so many calls. */
relkvanu_store_options job_options(uint32_t flags, uint64_t image_calls);

/* Notes an answered call with the line that it has in the log. */
struct told told_of(const relkvanu_store_call *call);

/* The same, with the storage folder FOLDER/storage. */
relkvanu_store_options options_in(const char *folder, uint32_t flags, uint64_t image_calls);

/* Opens the file of told calls, and appends one to it if it has a line, or a row of a log. Each begins with a newline and ends with a semicolon:
 * a process that is killed may have written a part of one. */
int told_file(const char *name);
void tell(int told_file, const relkvanu_store_call *call);
void tell_row(int told_file, const struct told *told);

/* The payload of a subtask in a record. */
struct payload {
    char text[40];
    size_t len;
};
struct payload payload_of(uint64_t id, uint16_t index);

/* The job's file, which no store has open. It is left as it is. */
sqlite3 *open_file(const char *path);

/* A second coordinator. */
struct shadow {
    relkvanu handle;
    uint64_t place;
};

/* Opens it with the settings and the shape that are kept in a file. */
void shadow_open_as(struct shadow *shadow, const char *path);

/* Makes a call, and checks that it is the next one and gets the answer. */
void shadow_make(struct shadow *shadow, const struct told *told);

/* The first name of the line fence of an opening; 0 if it has none. */
uint64_t first_name_of(const char *opening);

/* The names that a call was answered to have reserved: the first, and the one behind the last; both 0 otherwise. */
struct names {
    uint64_t next, end;
};
struct names names_of(const relkvanu_answer *answer);

/* Whether two coordinators have the same image. */
bool has_same_image(relkvanu *one, relkvanu *other);

/* Whether the coordinator of the store has the image of the shadow. */
bool shadow_equals(struct shadow *shadow, relkvanu_store *store);

/* Rows of a log that no store has open, with a place beyond after. To be freed. */
struct told *log_rows(const char *path, uint64_t after, size_t *len);

/* Runs statements on a file that no store has open, or one that gives a number. */
void run_sql(const char *path, const char *sql);
uint64_t ask_sql(const char *path, const char *sql);

#endif

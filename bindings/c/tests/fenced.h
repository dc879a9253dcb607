/* What the tests of terms and names share: jobs, expected answers, and all that can be seen of a job. */
#ifndef RELKVANU_FENCED_H
#define RELKVANU_FENCED_H

#include "../../../include/relkvanu.h"

#include <inttypes.h>
#include <stdio.h>
#include <stdlib.h>
#include <string.h>

#define NAMES_END ((uint64_t)1 << 62)

static const relkvanu_settings settings = {1000, 0, 1, 600000, 0, 1, false};
static const uint64_t shape[] = {1};

static inline void check(bool holds, const char *what, int line) {
    if (!holds) {
        fprintf(stderr, "fenced: line %d: %s does not hold\n", line, what);
        exit(1);
    }
}

#define CHECK(condition) check(condition, #condition, __LINE__)

static inline void expect(relkvanu_answer told, uint32_t code, uint32_t what, uint64_t a, uint64_t b, int line) {
    if (told.code != code || told.what != what || told.a != a || told.b != b) {
        fprintf(stderr, "fenced: line %d: %u %u %" PRIu64 " %" PRIu64 "\n", line, told.code, told.what, told.a, told.b);
        exit(1);
    }
}

#define DONE(told, what, a, b) expect(told, RELKVANU_DONE, what, a, b, __LINE__)
#define FENCED(told, what, a) expect(told, RELKVANU_FENCED, what, a, 0, __LINE__)
#define BAD(told, what) expect(told, RELKVANU_BAD_ARGUMENT, what, 0, 0, __LINE__)
#define CLOSED(told) expect(told, RELKVANU_CLOSED, 0, 0, 0, __LINE__)

static inline relkvanu named(uint64_t first_name) {
    relkvanu job = {NULL};
    DONE(relkvanu_open_fenced(&job, &settings, shape, 1, 0, 1, first_name, 3, 4), RELKVANU_OPENED, 0, 0);
    return job;
}

static inline relkvanu plain(void) {
    relkvanu job = {NULL};
    DONE(relkvanu_open(&job, &settings, shape, 1, 0, 1, 3, 4), RELKVANU_OPENED, 0, 0);
    return job;
}

static inline relkvanu_answer ack(relkvanu *job, uint64_t term, uint64_t now, uint64_t id, uint64_t file) {
    return relkvanu_ack_in(job, term, now, id, 0, 0, &file, 1, NULL, 0);
}

/* What can be seen of a job: no refused call and no request that memory has no room for may change it. */
struct seen {
    relkvanu_answer term, mode, moment, due, garbage;
    relkvanu_counts counts;
    uint64_t files[16], others[16];
};

static inline struct seen look(relkvanu *job) {
    struct seen seen;
    uint64_t files[16];
    memset(&seen, 0, sizeof seen);
    for (uint64_t file = 0; file < 16; file++) {
        files[file] = file;
    }
    seen.term = relkvanu_term(job);
    seen.mode = relkvanu_mode(job);
    seen.moment = relkvanu_moment(job);
    seen.due = relkvanu_due(job);
    seen.garbage = relkvanu_garbage(job, files, 16, seen.files, 16, seen.others, 16);
    relkvanu_counts counts = relkvanu_file_counts(job);
    memcpy(&seen.counts.in_use, &counts.in_use, 3 * sizeof(uint64_t));
    return seen;
}

static inline bool same(const struct seen *left, const struct seen *right) {
    return memcmp(left, right, sizeof *left) == 0;
}

#endif

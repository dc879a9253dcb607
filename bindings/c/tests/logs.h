/* What the tests of lines share: each line and each buffer is a block of its own with the length that the call gets. */
#ifndef RELKVANU_LOGS_H
#define RELKVANU_LOGS_H

#include "fenced.h"

enum { PLACES = 8 };

static const relkvanu_call OLD = {77, 78, 79, 80, 81, 82}; /* of no call */

static inline void *block(size_t size) {
    void *at = malloc(size);
    CHECK(at != NULL || size == 0);
    return at;
}

/* The text in a block of exactly its length. */
static inline uint8_t *bytes_of(const char *text, size_t len) {
    uint8_t *bytes = block(len);
    if (len != 0) {
        memcpy(bytes, text, len);
    }
    return bytes;
}

static inline relkvanu_answer line_into(relkvanu *job, const char *text, uint64_t *files, size_t places) {
    size_t len = strlen(text);
    uint8_t *bytes = bytes_of(text, len);
    relkvanu_answer told = relkvanu_line(job, bytes, len, files, places);
    free(bytes);
    return told;
}

static inline relkvanu_answer line(relkvanu *job, const char *text) {
    return line_into(job, text, NULL, 0);
}

static inline relkvanu_answer says_into(const char *text, uint64_t *numbers, size_t places) {
    uint8_t *bytes = bytes_of(text, strlen(text));
    relkvanu_answer told = relkvanu_line_says(bytes, strlen(text), numbers, places);
    free(bytes);
    return told;
}

static inline relkvanu_answer says(const char *text) {
    return says_into(text, NULL, 0);
}

static inline bool same_call(const relkvanu_call *left, const relkvanu_call *right) {
    return memcmp(left, right, sizeof *left) == 0;
}

static inline bool same_answer(relkvanu_answer left, relkvanu_answer right) {
    return left.code == right.code && left.what == right.what && left.a == right.a && left.b == right.b;
}

/* What was said of a line, and the buffers for it. */
struct said {
    relkvanu_answer answer;
    relkvanu_call call;
    uint64_t *first, *second;
    size_t first_len, second_len;
};

static inline uint64_t *places(size_t len) {
    uint64_t *at = block(len * sizeof *at);
    for (size_t place = 0; place < len; place++) {
        at[place] = OLD.number;
    }
    return at;
}

/* Reads a line with room for so many items. */
static inline struct said say(const char *text, size_t len, size_t first_len, size_t second_len) {
    struct said it = {{0, 0, 0, 0}, OLD, places(first_len), places(second_len), first_len, second_len};
    uint8_t *bytes = bytes_of(text, len);
    it.answer = relkvanu_line_call(bytes, len, &it.call, it.first, first_len, it.second, second_len);
    free(bytes);
    return it;
}

static inline void forget_said(struct said *it) {
    free(it->first);
    free(it->second);
}

/* Whether the call and the buffers are as they were. */
static inline bool is_unchanged(const struct said *it) {
    bool same = same_call(&it->call, &OLD);
    for (size_t place = 0; place < it->first_len; place++) {
        same = same && it->first[place] == OLD.number;
    }
    for (size_t place = 0; place < it->second_len; place++) {
        same = same && it->second[place] == OLD.number;
    }
    return same;
}

#endif

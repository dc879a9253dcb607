/* said: tries relkvanu_line_call, which returns the call that a line says, relkvanu_call_line, which writes the line of a call, and relkvanu_make. Expected
 * values come from docs/SCRIPT.md and docs/LOGS.md. The packages write the lines of rows and logs again. The buffers are blocks of their own with the length
 * that the call gets. */
#include "logs.h"

enum { LONGEST = 131072 };

static bool is_answer(relkvanu_answer answer, uint32_t code, uint32_t what, uint64_t a, uint64_t b) {
    return same_answer(answer, (relkvanu_answer){code, what, a, b});
}

static bool are(const uint64_t *items, const uint64_t *wanted, size_t len) {
    return len == 0 || memcmp(items, wanted, len * sizeof *items) == 0;
}

/* A line, the line that is written of its call if that is another one, the call with its lists, and how long these are. */
static const struct line {
    const char *text, *written;
    relkvanu_call call;
    uint64_t first[PLACES], second[2];
    size_t first_len, second_len;
} LINES[] = {
    {"tick 3", NULL, {RELKVANU_CALL_TICK, 0, 0, 3, 0, 0}, {0}, {0}, 0, 0},
    {"  savepoint  003 \r", "savepoint 3", {RELKVANU_CALL_SAVEPOINT, 0, 0, 3, 0, 0}, {0}, {0}, 0, 0},
    {"ack 3 4 1.2 +12 =7 +11 =5 +9", "ack 3 4 1.2 +9 +11 +12 =5 =7", {RELKVANU_CALL_ACK, 1, 2, 3, 4, 0}, {9, 11, 12}, {5, 7}, 3, 2},
    {"ack 3 4 65535.0 +8 +8", NULL, {RELKVANU_CALL_ACK, 65535, 0, 3, 4, 0}, {8, 8}, {0}, 2, 0},
    {"ack 3 4 0.65535 =18446744073709551615", NULL, {RELKVANU_CALL_ACK, 0, 65535, 3, 4, 0}, {0}, {UINT64_MAX}, 0, 1},
    {"ack 3 4 1.2", NULL, {RELKVANU_CALL_ACK, 1, 2, 3, 4, 0}, {0}, {0}, 0, 0},
    {"decline 3 4 1.2", NULL, {RELKVANU_CALL_DECLINE, 1, 2, 3, 4, 0}, {0}, {0}, 0, 0},
    {"dispose 4", NULL, {RELKVANU_CALL_DISPOSE, 0, 0, 0, 4, 0}, {0}, {0}, 0, 0},
    {"restore 3 latest", NULL, {RELKVANU_CALL_RESTORE, 0, 0, 3, 0, 0}, {0}, {0}, 0, 0},
    {"restore 3 latest 2 1 4", NULL, {RELKVANU_CALL_RESTORE, 0, 0, 3, 0, 0}, {2, 1, 4}, {0}, 3, 0},
    {"restore 3 4", NULL, {RELKVANU_CALL_RESTORE, 0, 0, 3, 4, 0}, {0}, {0}, 0, 0},
    {"restore 3 4 2", NULL, {RELKVANU_CALL_RESTORE, 0, 0, 3, 4, 0}, {2}, {0}, 1, 0},
    {"cancel 3", NULL, {RELKVANU_CALL_CANCEL, 0, 0, 3, 0, 0}, {0}, {0}, 0, 0},
    {"take 4", NULL, {RELKVANU_CALL_TAKE, 0, 0, 0, 4, 0}, {0}, {0}, 0, 0},
    {"deleted 4", NULL, {RELKVANU_CALL_DELETED, 0, 0, 0, 4, 0}, {0}, {0}, 0, 0},
    {"undeleted 4", NULL, {RELKVANU_CALL_UNDELETED, 0, 0, 0, 4, 0}, {0}, {0}, 0, 0},
    {"show 18446744073709551615", NULL, {RELKVANU_CALL_SHOW, 0, 0, 0, UINT64_MAX, 0}, {0}, {0}, 0, 0},
    {"count 4", NULL, {RELKVANU_CALL_COUNT, 0, 0, 0, 4, 0}, {0}, {0}, 0, 0},
    {"fence 7", NULL, {RELKVANU_CALL_FENCE, 0, 0, 0, 7, 0}, {0}, {0}, 0, 0},
    {"reserve 3 1000", NULL, {RELKVANU_CALL_RESERVE, 0, 0, 0, 1000, 3}, {0}, {0}, 0, 0},
    {"reserve 0 0", NULL, {RELKVANU_CALL_RESERVE, 0, 0, 0, 0, 0}, {0}, {0}, 0, 0},
    {"forfeit 3", NULL, {RELKVANU_CALL_FORFEIT, 0, 0, 0, 0, 3}, {0}, {0}, 0, 0},
    {"forfeit 3 7 8 9", NULL, {RELKVANU_CALL_FORFEIT, 0, 0, 0, 0, 3}, {7, 8, 9}, {0}, 3, 0},
    {"advance 5 3 70", NULL, {RELKVANU_CALL_ADVANCE, 0, 0, 5, 70, 3}, {0}, {0}, 0, 0},
    {"advance 0 0 0", NULL, {RELKVANU_CALL_ADVANCE, 0, 0, 0, 0, 0}, {0}, {0}, 0, 0},
    {"in 3 tick 4", NULL, {RELKVANU_CALL_TICK, 0, 0, 4, 0, 3}, {0}, {0}, 0, 0},
    {"in 3 savepoint 4", NULL, {RELKVANU_CALL_SAVEPOINT, 0, 0, 4, 0, 3}, {0}, {0}, 0, 0},
    {"in 3 ack 4 5 1.2 +6 +7 =8", NULL, {RELKVANU_CALL_ACK, 1, 2, 4, 5, 3}, {6, 7}, {8}, 2, 1},
    {"in 18446744073709551615 decline 4 5 1.2", NULL, {RELKVANU_CALL_DECLINE, 1, 2, 4, 5, UINT64_MAX}, {0}, {0}, 0, 0},
    {"in 3 dispose 5", NULL, {RELKVANU_CALL_DISPOSE, 0, 0, 0, 5, 3}, {0}, {0}, 0, 0},
    {"in 3 restore 4 latest", NULL, {RELKVANU_CALL_RESTORE, 0, 0, 4, 0, 3}, {0}, {0}, 0, 0},
    {"in 3 restore 4 5 2 1", NULL, {RELKVANU_CALL_RESTORE, 0, 0, 4, 5, 3}, {2, 1}, {0}, 2, 0},
    {"in 3 cancel 4", NULL, {RELKVANU_CALL_CANCEL, 0, 0, 4, 0, 3}, {0}, {0}, 0, 0},
    {"in 3 take 5", NULL, {RELKVANU_CALL_TAKE, 0, 0, 0, 5, 3}, {0}, {0}, 0, 0},
    {"in 3 deleted 5", NULL, {RELKVANU_CALL_DELETED, 0, 0, 0, 5, 3}, {0}, {0}, 0, 0},
    {"in 3 undeleted 5", NULL, {RELKVANU_CALL_UNDELETED, 0, 0, 0, 5, 3}, {0}, {0}, 0, 0},
    {"in 3 show 5", NULL, {RELKVANU_CALL_SHOW, 0, 0, 0, 5, 3}, {0}, {0}, 0, 0},
    {"in 3 count 5", NULL, {RELKVANU_CALL_COUNT, 0, 0, 0, 5, 3}, {0}, {0}, 0, 0},
    {"trigger 4", NULL, {RELKVANU_CALL_TRIGGER, 0, 0, 4, 0, 0}, {0}, {0}, 0, 0},
    {"in 3 trigger 4", NULL, {RELKVANU_CALL_TRIGGER, 0, 0, 4, 0, 3}, {0}, {0}, 0, 0},
    {"configure 4 1000 0 1 10000 0 1 delete", NULL, {RELKVANU_CALL_CONFIGURE, 0, 0, 4, 0, 0}, {1000, 0, 1, 10000, 0, 1, 0}, {0}, 7, 0},
    {"in 3 configure 4 10 5 64 1 1000 2 keep", NULL, {RELKVANU_CALL_CONFIGURE, 0, 0, 4, 0, 3}, {10, 5, 64, 1, 1000, 2, 1}, {0}, 7, 0},
    {"ack 4 5 1.2 +6 +7 =8", NULL, {RELKVANU_CALL_ACK, 1, 2, 4, 5, 0}, {6, 7}, {8}, 2, 1},
    {"  in  003  ack 04 5 1.2 =8 +7 +6 \r", "in 3 ack 4 5 1.2 +6 +7 =8", {RELKVANU_CALL_ACK, 1, 2, 4, 5, 3}, {6, 7}, {8}, 2, 1},
    {"in 0 tick 4", "tick 4", {RELKVANU_CALL_TICK, 0, 0, 4, 0, 0}, {0}, {0}, 0, 0},
};

/* Each kind of call, with its numbers. Those that it does not have are 0, and places past its lists keep what they had. */
static void is_read(const struct line *line) {
    const char *text = line->text;
    size_t m = line->first_len, n = line->second_len;
    DONE(says(text), RELKVANU_LINE_CALL, 0, 0);
    for (size_t more = 0; more < 2; more++) {
        struct said it = say(text, strlen(text), m + more, n + more);
        CHECK(is_answer(it.answer, RELKVANU_DONE, RELKVANU_LINE_CALL, m, n) && same_call(&it.call, &line->call));
        CHECK(are(it.first, line->first, m) && are(it.second, line->second, n));
        CHECK(more == 0 || (it.first[m] == OLD.number && it.second[n] == OLD.number));
        forget_said(&it);
    }
    for (size_t less = 1; less < 4; less++) {
        size_t one = m - (m != 0 && (less & 1)), other = n - (n != 0 && (less & 2));
        struct said it = say(text, strlen(text), one, other);
        CHECK((one == m && other == n) || (is_answer(it.answer, RELKVANU_TOO_SHORT, 0, m, n) && is_unchanged(&it)));
        forget_said(&it);
    }
}

/* Writes the line of a call into too short a buffer, and into one that is just long enough. */
static void is_written(
    const relkvanu_call *call, const uint64_t *first, size_t first_len, const uint64_t *second, size_t second_len, const char *text) {
    size_t len = strlen(text);
    uint8_t *written = block(len);
    memset(written, '?', len);
    expect(relkvanu_call_line(call, first, first_len, second, second_len, written, len - 1), RELKVANU_TOO_SHORT, 0, len, 0, __LINE__);
    CHECK(written[0] == '?');
    DONE(relkvanu_call_line(call, first, first_len, second, second_len, written, len), RELKVANU_WRITTEN, len, 0);
    CHECK(memcmp(written, text, len) == 0);
    free(written);
}

/* A call is written without the numbers that its kind does not have, with files in order, and a shape and names as they are given. */
static void other_calls(void) {
    static const uint64_t items[] = {12, 11}, reused[] = {7}, names[] = {9, 7, 8}, none[] = {0};
    static const struct {
        relkvanu_call call;
        const char *text;
    } calls[] = {
        {{RELKVANU_CALL_TICK, 1, 2, 3, 4, 0}, "tick 3"},
        {{RELKVANU_CALL_SAVEPOINT, 1, 2, 3, 4, 0}, "savepoint 3"},
        {{RELKVANU_CALL_ACK, 1, 2, 3, 4, 0}, "ack 3 4 1.2 +11 +12 =7"},
        {{RELKVANU_CALL_DECLINE, 1, 2, 3, 4, 0}, "decline 3 4 1.2"},
        {{RELKVANU_CALL_DISPOSE, 1, 2, 3, 4, 0}, "dispose 4"},
        {{RELKVANU_CALL_RESTORE, 1, 2, 3, 4, 0}, "restore 3 4 12 11"},
        {{RELKVANU_CALL_RESTORE, 1, 2, 3, 0, 0}, "restore 3 latest 12 11"},
        {{RELKVANU_CALL_CANCEL, 1, 2, 3, 4, 0}, "cancel 3"},
        {{RELKVANU_CALL_TAKE, 1, 2, 3, 4, 0}, "take 4"},
        {{RELKVANU_CALL_DELETED, 1, 2, 3, 4, 0}, "deleted 4"},
        {{RELKVANU_CALL_UNDELETED, 1, 2, 3, 4, 0}, "undeleted 4"},
        {{RELKVANU_CALL_SHOW, 1, 2, 3, 4, 0}, "show 4"},
        {{RELKVANU_CALL_COUNT, 1, 2, 3, 4, 0}, "count 4"},
        {{RELKVANU_CALL_FENCE, 0, 0, 0, 7, 3}, "fence 7"},
    };
    for (size_t at = 0; at < sizeof calls / sizeof *calls; at++) {
        is_written(&calls[at].call, items, 2, reused, 1, calls[at].text);
    }
    is_written(&(relkvanu_call){.kind = RELKVANU_CALL_FORFEIT, .term = 3}, names, 3, NULL, 0, "forfeit 3 7 8 9");
    relkvanu_call unknown = {0}, last = {.kind = UINT32_MAX}, restore = {RELKVANU_CALL_RESTORE, 0, 0, 1, 0, 0};
    BAD(relkvanu_call_line(&unknown, NULL, 0, NULL, 0, NULL, 0), RELKVANU_BAD_KIND);
    BAD(relkvanu_call_line(&last, NULL, 0, NULL, 0, NULL, 0), RELKVANU_BAD_KIND);
    BAD(relkvanu_call_line(&restore, none, 1, NULL, 0, NULL, 0), RELKVANU_BAD_SHAPE);
    expect(relkvanu_call_line(&restore, NULL, 0, NULL, 0, NULL, 0), RELKVANU_TOO_SHORT, 0, 16, 0, __LINE__);
}

static void kinds(void) {
    for (size_t at = 0; at < sizeof LINES / sizeof *LINES; at++) {
        const struct line *line = &LINES[at];
        is_read(line);
        is_written(
            &line->call, line->first, line->first_len, line->second, line->second_len, line->written == NULL ? line->text : line->written);
    }
    relkvanu_call call = OLD;
    DONE(relkvanu_line_call(NULL, 0, &call, NULL, 0, NULL, 0), RELKVANU_SKIPPED, 0, 0);
    DONE(relkvanu_line_call((const uint8_t *)"show 1", 6, &call, NULL, 0, NULL, 0), RELKVANU_LINE_CALL, 0, 0);
    CHECK(call.number == 1);
}

/* A line has at most 131,072 bytes, those of in and its term included. */
static void lengths(void) {
    enum { NAMES = 6898 };
    static uint64_t names[NAMES], again[NAMES];
    static uint8_t text[LONGEST + 1];
    relkvanu_call call = {.kind = RELKVANU_CALL_FORFEIT, .term = 3};
    for (size_t at = 0; at < NAMES; at++) {
        names[at] = (uint64_t)100000000000000000 + at;
    }
    /* 19 bytes for each name, after "forfeit 3" (9) or "forfeit 18446744073709551615" (28) */
    DONE(relkvanu_call_line(&call, names, NAMES, NULL, 0, text, LONGEST), RELKVANU_WRITTEN, 9 + 19 * NAMES, 0);
    relkvanu_call said = OLD;
    DONE(relkvanu_line_call(text, 9 + 19 * NAMES, &said, again, NAMES, NULL, 0), RELKVANU_LINE_CALL, NAMES, 0);
    CHECK(same_call(&said, &call) && memcmp(names, again, sizeof again) == 0);
    call.term = UINT64_MAX;
    expect(relkvanu_call_line(&call, names, NAMES, NULL, 0, text, LONGEST), RELKVANU_BAD_LINE, RELKVANU_FAULT_TOO_LONG, 0, 0, __LINE__);
    memset(text, ' ', sizeof text);
    memcpy(text, "in 3 tick 4", 11);
    DONE(relkvanu_line_call(text, LONGEST, &said, NULL, 0, NULL, 0), RELKVANU_LINE_CALL, 0, 0);
    expect(relkvanu_line_call(text, LONGEST + 1, &said, NULL, 0, NULL, 0), RELKVANU_BAD_LINE, RELKVANU_FAULT_TOO_LONG, 0, 0, __LINE__);
    expect(relkvanu_line_says(text, LONGEST + 1, NULL, 0), RELKVANU_BAD_LINE, RELKVANU_FAULT_TOO_LONG, 0, 0, __LINE__);
}

static const relkvanu_made MADE = {91, 92, 93, 94, 95}; /* of no call */

/* A call that relkvanu_make does not make has this answer, and no buffer has changed. */
static void is_unmade(
    relkvanu *job, const relkvanu_call *call, const uint64_t *first, size_t first_len, size_t room, relkvanu_answer wanted) {
    relkvanu_made made = MADE;
    uint64_t file = OLD.number;
    uint8_t *line = block(room);
    memset(line, '?', room);
    CHECK(same_answer(relkvanu_make(job, call, first, first_len, NULL, 0, &file, 1, line, room, &made), wanted));
    CHECK(file == OLD.number && memcmp(&made, &MADE, sizeof made) == 0 && (room == 0 || (line[0] == '?' && line[room - 1] == '?')));
    free(line);
}

/* Of two reasons why a call is not made the first is told. The packages make each call of the rows with its line. */
static void made(void) {
    enum { MANY = 8192 };
    static uint64_t many[MANY];
    relkvanu closed = {NULL}, job = plain();
    relkvanu_call none = {0}, last = {.kind = UINT32_MAX}, shapeless = {.kind = RELKVANU_CALL_RESTORE},
                  take = {.kind = RELKVANU_CALL_TAKE, .number = 9};
    relkvanu_call late = {.kind = RELKVANU_CALL_DECLINE, .now = 5, .number = 7}, full = {.kind = RELKVANU_CALL_ACK, .now = 5, .number = 7};
    relkvanu_made told = MADE;
    char line[16] = "???????????????";
    for (size_t at = 0; at < MANY; at++) {
        many[at] = (uint64_t)10000000000000000000u + at;
    }
    is_unmade(&closed, &none, NULL, 0, 1, (relkvanu_answer){RELKVANU_CLOSED, 0, 0, 0});
    is_unmade(&job, &none, NULL, 0, 0, (relkvanu_answer){RELKVANU_BAD_ARGUMENT, RELKVANU_BAD_KIND, 0, 0});
    is_unmade(&job, &last, NULL, 0, 0, (relkvanu_answer){RELKVANU_BAD_ARGUMENT, RELKVANU_BAD_KIND, 0, 0});
    is_unmade(&job, &shapeless, (uint64_t[]){0}, 1, 0, (relkvanu_answer){RELKVANU_BAD_ARGUMENT, RELKVANU_BAD_SHAPE, 0, 0});
    is_unmade(&job, &full, many, MANY, 0, (relkvanu_answer){RELKVANU_BAD_LINE, RELKVANU_FAULT_TOO_LONG, 0, 0});
    is_unmade(&job, &late, NULL, 0, 12, (relkvanu_answer){RELKVANU_TOO_SHORT, 0, 0, strlen("decline 5 7 0.0")});
    is_unmade(&job, &late, NULL, 0, 15, (relkvanu_answer){RELKVANU_REFUSED, RELKVANU_UNKNOWN_CHECKPOINT, 0, 0});
    is_unmade(&job, &full, many, 4097, LONGEST, (relkvanu_answer){RELKVANU_REFUSED, RELKVANU_TOO_MANY_FILES, 0, 0});
    DONE(line_into(&job, "tick 1000", NULL, 0), RELKVANU_TICK_TRIGGERED, 0, 1);
    DONE(line_into(&job, "ack 1000 1 0.0 +11 +12", NULL, 0), RELKVANU_ACK_COMPLETED, 0, 0);
    DONE(line_into(&job, "cancel 1000", NULL, 0), RELKVANU_CANCELLED, 1, 2);
    is_unmade(&job, &take, NULL, 0, 6, (relkvanu_answer){RELKVANU_TOO_SHORT, 0, 2, 0});
    DONE(relkvanu_make(&job, &take, NULL, 0, NULL, 0, many, 2, (uint8_t *)line, 6, &told), RELKVANU_TAKEN, 2, 0);
    CHECK(memcmp(line, "take 9?", 7) == 0 && many[0] == 11 && many[1] == 12);
    CHECK(told.written == 6 && memcmp(&told, &(relkvanu_made){6, 2, 0, 0, 2}, sizeof told) == 0);
    relkvanu_close(&job);
}

int main(void) {
    made();
    kinds();
    other_calls();
    lengths();
    return 0;
}

/* lines: lines of scripts and of logs with names through the C interface: what is read, what is refused, and what a line does; lines that are cut or
 * changed at each byte, and lines that are too long. Expected values come from docs/SCRIPT.md and the tables of docs/LOGS.md, by hand. It also runs
 * under AddressSanitizer, which sees nothing of what the library itself reads: for that some lines end where a page does. */
#define _GNU_SOURCE
#include "logs.h"

#include <sys/mman.h>
#include <unistd.h>

enum { LONGEST = 131072, ROOM = 1 << 18 };

/* The end of a room, before a page that can't be touched. */
static char *guarded(void) {
    size_t page = (size_t)sysconf(_SC_PAGESIZE);
    char *room = mmap(NULL, ROOM + page, PROT_READ | PROT_WRITE, MAP_PRIVATE | MAP_ANONYMOUS, -1, 0);
    CHECK(room != MAP_FAILED && mprotect(room + ROOM, page, PROT_NONE) == 0);
    return room + ROOM;
}

/* The answer to these bytes, after which nothing may be read. One that made no call has changed nothing. */
static relkvanu_answer line_at_end(relkvanu *job, const char *text, size_t len) {
    static char *end;
    end = end != NULL ? end : guarded();
    memcpy(end - len, text, len);
    struct seen before = look(job);
    relkvanu_answer told = relkvanu_line(job, (const uint8_t *)end - len, len, NULL, 0);
    struct seen after = look(job);
    CHECK((told.code == RELKVANU_DONE && told.what != RELKVANU_SKIPPED) || same(&before, &after));
    return told;
}

/* What relkvanu_line_call tells of a line. One that says no call changes neither the call nor the lists. */
static relkvanu_answer call_of(const char *text) {
    struct said it = say(text, strlen(text), PLACES, PLACES);
    CHECK((it.answer.code == RELKVANU_DONE && it.answer.what == RELKVANU_LINE_CALL) || is_unchanged(&it));
    forget_said(&it);
    return it.answer;
}

/* Lines with this fault change nothing, and every function tells the fault. */
static void have_fault(relkvanu *job, uint32_t fault, const char *const *texts) {
    for (; *texts != NULL; texts++) {
        expect(line(job, *texts), RELKVANU_BAD_LINE, fault, 0, 0, __LINE__);
        expect(says(*texts), RELKVANU_BAD_LINE, fault, 0, 0, __LINE__);
        expect(call_of(*texts), RELKVANU_BAD_LINE, fault, 0, 0, __LINE__);
    }
}

static void faults(void) {
    relkvanu job = named(5);
    struct seen before = look(&job);
    have_fault(&job, RELKVANU_FAULT_MISSING,
        (const char *const[]){"fence", "in 3", "reserve", "reserve 1", "forfeit", "in", "in 3 ", "in 3 tick", "tick", "job", "decline 5 1",
            "ack 5 1", "restore 5", "all 1 2 3", "config 1000 0 1 500 2 3", NULL});
    have_fault(&job, RELKVANU_FAULT_EXTRA,
        (const char *const[]){"reserve 2 1000 5", "fence 1 2", "in 3 tick 5 6", "tick 3 4", "tick 5 # soon", "decline 1 2 0.0 4",
            "config 1000 0 1 500 2 3 keep 4", NULL});
    have_fault(&job, RELKVANU_FAULT_NUMBER,
        (const char *const[]){"forfeit 1 +7", "in tick 5", "fence x", "fence 18446744073709551616", "reserve 1 -1", "forfeit x",
            "forfeit 1 7 x", "in 3 tick x", "tick x", "tick 18446744073709551616", "ack 3 4 1", "ack 3 4 1.65536", "ack 3 4 65536.0",
            "restore 3 late", "in 18446744073709551616 tick 5", "tick x 7", "ack 5 1 0.0 +", "restore 5 latest 2 x", "ack 1 1 .0",
            "ack 1 1 0.", "ack 1 1 0.0.0", "ack 1 1 0.0 +-1", "take +5", "tick 1\xff", "tick 8\r ", "tick 8\r\r", NULL});
    have_fault(&job, RELKVANU_FAULT_WORD,
        (const char *const[]){"in 3 in 3 tick 5", "in 3 reserve 3 1", "reserved 5", "fences 1", "Fence 1", "in 3 fence 1", "in 3 forfeit 1",
            "in 3 ack 5 1 0.0 7", "Tick 3", "ack 3 4 1.2 7", "tick\t5", "config 1000 0 1 600000 0 1 maybe", "\xff", "ticks 5", NULL});
    struct seen after = look(&job);
    CHECK(same(&before, &after));
    relkvanu_close(&job);
}

/* What is read, and makes no call. */
static void no_calls(void) {
    static const char *const lines[] = {"start 3", "job 1", "config 1000 0 1 600000 0 1 delete", "all 3 1 1 1", "# tick 5", "in 3 start 3",
        "in 3 job 1", "in 3 config 1000 0 1 600000 0 1 delete", "in 3 all 3 1 1 1", "in 3 # tick 5", "in 0 start 3", "in 0 #", "", "  \r"};
    relkvanu jobs[] = {plain(), named(5)};
    for (size_t nth = 0; nth < 2; nth++) {
        struct seen before = look(&jobs[nth]);
        for (size_t at = 0; at < sizeof lines / sizeof *lines; at++) {
            bool is_comment = strchr("# \r", lines[at][0]) != NULL;
            relkvanu_answer told = call_of(lines[at]);
            CHECK(same_answer(line(&jobs[nth], lines[at]), told));
            if (is_comment) {
                DONE(told, RELKVANU_SKIPPED, 0, 0);
            } else {
                expect(told, RELKVANU_BAD_LINE, RELKVANU_FAULT_NO_CALL, 0, 0, __LINE__);
            }
            if (strncmp(lines[at], "in ", 3) == 0) {
                DONE(says(lines[at]), RELKVANU_LINE_CALL, 0, 0);
            }
        }
        BAD(line(&jobs[nth], "in 3 restore 5 latest 0"), RELKVANU_BAD_SHAPE);
        static const char *const shapes[] = {"in 3 restore 5 latest 0", "restore 3 latest 0", "restore 3 4 4097", "restore 3 0 0"};
        for (size_t at = 0; at < sizeof shapes / sizeof *shapes; at++) {
            BAD(call_of(shapes[at]), RELKVANU_BAD_SHAPE);
        }
        static const char *const savepoints[] = {"in 3 restore 5 0", "restore 3 0", "restore 3 00 2 1"};
        for (size_t at = 0; at < sizeof savepoints / sizeof *savepoints; at++) {
            expect(call_of(savepoints[at]), RELKVANU_REFUSED, RELKVANU_NO_SUCH_SAVEPOINT, 0, 0, __LINE__);
        }
        struct seen after = look(&jobs[nth]);
        CHECK(same(&before, &after));
        relkvanu_close(&jobs[nth]);
    }
}

/* On a handle without names each term but 0 is refused, whatever the call is. */
static void no_names(void) {
    static const char *const lines[] = {"reserve 0 1", "reserve 1 1", "forfeit 0", "forfeit 1 5", "in 1 tick 1000", "in 1 savepoint 1000",
        "in 1 ack 1000 1 0.0 +5", "in 1 decline 1000 1 0.0", "in 1 dispose 1", "in 1 restore 1000 latest", "in 1 restore 1000 latest 2",
        "in 1 cancel 1000", "in 1 take 1", "in 1 deleted 5", "in 1 undeleted 5", "in 1 show 1", "in 1 count 5"};
    relkvanu job = plain(), closed = {NULL};
    struct seen before = look(&job);
    for (size_t at = 0; at < sizeof lines / sizeof *lines; at++) {
        FENCED(line(&job, lines[at]), RELKVANU_NO_NAMES, 0);
        CLOSED(line(&closed, lines[at]));
    }
    struct seen after = look(&job);
    CHECK(same(&before, &after));
    CLOSED(line(&closed, "fence 5"));
    CLOSED(line(&closed, "#"));
    DONE(line(&job, "in 0 tick 1000"), RELKVANU_TICK_TRIGGERED, 0, 1);
    DONE(line(&job, "in 0 ack 1000 1 0.0 +5"), RELKVANU_ACK_COMPLETED, 0, 0);
    DONE(line(&job, "in 0 count 5"), RELKVANU_COUNTED, 5, 1);
    relkvanu_close(&job);
}

static void change_each_byte(relkvanu *job, const char *text) {
    static const char others[] = {'\0', '\t', '\r', ' ', '+', '-', '.', '9', 'x', '\x7f', '\xff'};
    size_t len = strlen(text);
    for (size_t place = 0; place < len; place++) {
        for (size_t other = 0; other < sizeof others; other++) {
            char line[64];
            memcpy(line, text, len);
            line[place] = others[other];
            (void)line_at_end(job, line, len).what;
        }
    }
}

/* Two readers read each prefix of each line in the same way, and a prefix with a fault changes nothing. Nor does a changed line that can't be read. */
static void cut_lines(void) {
    static const char *const texts[] = {"fence 70", "reserve 1 30", "forfeit 1 7 80", "in 1 ack 1000 1 0.0 +5 =6", "in 12 restore 9 4 1 1",
        "in 0 take 3", "config 1000 0 1 10000 0 1 keep", "job 2 1", "start 0", "tick 1", "savepoint 2", "ack 5 1 0.0 +1 +22 =3",
        "decline 5 1 0.1", "dispose 7", "restore 9 latest 3 1", "restore 9 4 1", "take 3", "deleted 44", "undeleted 45", "show 1",
        "count 1", "all 5 1 2 100"};
    for (size_t at = 0; at < sizeof texts / sizeof *texts; at++) {
        relkvanu job = named(5);
        for (size_t len = 0; len <= strlen(texts[at]); len++) {
            char cut[32];
            snprintf(cut, sizeof cut, "%.*s", (int)len, texts[at]);
            struct seen before = look(&job);
            relkvanu_answer call = call_of(cut), said = says(cut), told = line(&job, cut);
            struct seen after = look(&job);
            CHECK(said.code != RELKVANU_BAD_LINE || (same_answer(said, told) && same_answer(said, call) && same(&before, &after)));
            CHECK(call.what == RELKVANU_LINE_CALL ? told.code != RELKVANU_BAD_LINE : same_answer(call, told));
            (void)line_at_end(&job, cut, strlen(cut)).what;
        }
        change_each_byte(&job, texts[at]);
        relkvanu_close(&job);
    }
}

/* An ack line of this many files, padded with spaces to this length if it is shorter. */
static size_t ack_of(char *line, size_t files, size_t len) {
    size_t at = (size_t)sprintf(line, "ack 3000 1 0.0");
    for (size_t file = 0; file < files; file++) {
        at += (size_t)sprintf(line + at, " +%zu", 100 + file);
    }
    memset(line + at, ' ', at < len ? len - at : 0);
    return at < len ? len : at;
}

/* The answer of a job with a pending checkpoint. */
static relkvanu_answer of_pending(const char *text, size_t len) {
    relkvanu job = plain();
    DONE(line(&job, "tick 1000"), RELKVANU_TICK_TRIGGERED, 0, 1);
    relkvanu_answer told = line_at_end(&job, text, len);
    relkvanu_close(&job);
    return told;
}

static void long_lines(void) {
    static char text[ROOM];
    DONE(of_pending("  tick   0001500 \r", 18), RELKVANU_TICK_HELD_INTERVAL, 0, 0);
    DONE(of_pending(text, ack_of(text, 4096, 0)), RELKVANU_ACK_COMPLETED, 0, 0);
    for (size_t files = 4097; files <= 9000; files += 4903) {
        expect(of_pending(text, ack_of(text, files, 0)), RELKVANU_REFUSED, RELKVANU_TOO_MANY_FILES, 0, 0, __LINE__);
    }
    DONE(of_pending(text, ack_of(text, 1, LONGEST)), RELKVANU_ACK_COMPLETED, 0, 0);
    for (size_t len = LONGEST + 1; len <= ROOM; len += len == LONGEST + 1 ? 1000 : 40000) {
        expect(of_pending(text, ack_of(text, 1, len)), RELKVANU_BAD_LINE, RELKVANU_FAULT_TOO_LONG, 0, 0, __LINE__);
    }
    memset(text, '#', LONGEST + 1);
    DONE(of_pending(text, LONGEST), RELKVANU_SKIPPED, 0, 0);
    CHECK(of_pending(text, LONGEST + 1).code == RELKVANU_BAD_LINE);
}

/* What a line says, in a buffer of its own. */
static void is_said(const char *text, uint32_t what, const uint64_t *wanted, size_t len) {
    uint64_t *numbers = block(len * sizeof *numbers);
    DONE(says_into(text, numbers, len), what, len, 0);
    CHECK(len == 0 || memcmp(numbers, wanted, len * sizeof *numbers) == 0);
    free(numbers);
}

/* Lines that open a job are written, and read back. */
static void opening(void) {
    static const char text[] = "config 10 20 3 40 5 6 keep\njob 2 1\nstart 7\n";
    static const uint64_t numbers[] = {10, 20, 3, 40, 5, 6, 1}, shape_of_two[] = {2, 1}, none[] = {0}, counted[] = {1, 2, 3, 4};
    relkvanu_settings given = {10, 20, 3, 40, 5, 6, true};
    size_t len = sizeof text - 1;
    uint8_t *written = block(len);
    expect(relkvanu_opening_lines(&given, shape_of_two, 2, 7, written, len - 1), RELKVANU_TOO_SHORT, 0, len, 0, __LINE__);
    expect(relkvanu_opening_lines(&given, shape_of_two, 2, 7, NULL, 0), RELKVANU_TOO_SHORT, 0, len, 0, __LINE__);
    DONE(relkvanu_opening_lines(&given, shape_of_two, 2, 7, written, len), RELKVANU_WRITTEN, len, 0);
    CHECK(memcmp(written, text, len) == 0);
    free(written);
    BAD(relkvanu_opening_lines(&given, NULL, 0, 7, NULL, 0), RELKVANU_BAD_SHAPE);
    BAD(relkvanu_opening_lines(&given, none, 1, 7, NULL, 0), RELKVANU_BAD_SHAPE);
    BAD(relkvanu_opening_lines(&given, shape_of_two, 2, NAMES_END, NULL, 0), RELKVANU_BAD_MOMENT);
    is_said("config 10 20 3 40 5 6 keep", RELKVANU_LINE_CONFIG, numbers, 7);
    expect(says_into("config 10 20 3 40 5 6 keep", (uint64_t[6]){0}, 6), RELKVANU_TOO_SHORT, 0, 7, 0, __LINE__);
    is_said("job 2 1", RELKVANU_LINE_JOB, shape_of_two, 2);
    is_said("start 5", RELKVANU_LINE_START, numbers + 4, 1);
    is_said("all 1 2 3 4", RELKVANU_LINE_ALL, counted, 4);
    is_said("# a", RELKVANU_LINE_SKIP, NULL, 0);
    is_said("tick 1", RELKVANU_LINE_CALL, NULL, 0);
    is_said("restore 1 latest 0", RELKVANU_LINE_CALL, NULL, 0);
    DONE(relkvanu_line_says(NULL, 0, NULL, 0), RELKVANU_LINE_SKIP, 0, 0);
}

int main(void) {
    faults();
    no_calls();
    no_names();
    cut_lines();
    long_lines();
    opening();
    printf("lines: all as told\n");
    return 0;
}

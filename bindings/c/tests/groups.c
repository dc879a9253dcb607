/* groups: tries the groups of relkvanu.h: a group of calls by hand, which is told once it is synced; reads that are held back with them; receipts that are none; a
 * sync that has failed; and memory that runs out. What a crash leaves of groups is proved, and store/tests kill a store that makes its calls in them. */
#include "logs.h"
#include "refusing_heap.h"

enum { LONGEST = 64, CALLS = 6 };

static const relkvanu_call calls[CALLS] = {
    {.kind = RELKVANU_CALL_RESERVE, .number = 3, .term = 1},
    {.kind = RELKVANU_CALL_TICK, .now = 1000},
    {.kind = RELKVANU_CALL_RESERVE, .number = 2, .term = 1},
    {.kind = RELKVANU_CALL_RESERVE, .number = 7, .term = 9}, /* refused: no such term */
    {.kind = RELKVANU_CALL_RESERVE, .number = 5, .term = 1},
    {.kind = RELKVANU_CALL_SAVEPOINT, .now = 1001},
};

static relkvanu_answer make(relkvanu *job, relkvanu_group *group, relkvanu_answer *held, size_t room, size_t call, char line[LONGEST]) {
    relkvanu_made made = {0};
    relkvanu_answer told =
        relkvanu_group_make(job, group, held, room, &calls[call], NULL, 0, NULL, 0, NULL, 0, (uint8_t *)line, LONGEST - 1, &made);
    line[made.written] = 0;
    return told;
}

/* From the rules. The names begin at 5, and a name that is refused takes none and has no line. */
static void by_hand(void) {
    static const char *const lines[CALLS] = {"reserve 1 3", "tick 1000", "reserve 1 2", NULL, "reserve 1 5", "savepoint 1001"};
    static const relkvanu_answer wanted[CALLS] = {{RELKVANU_DONE, RELKVANU_RESERVED, 5, 3}, {RELKVANU_DONE, RELKVANU_TICK_TRIGGERED, 0, 1},
        {RELKVANU_DONE, RELKVANU_RESERVED, 8, 2}, {RELKVANU_FENCED, RELKVANU_OLD_TERM, 0, 0}, {RELKVANU_DONE, RELKVANU_RESERVED, 10, 5},
        {RELKVANU_DONE, RELKVANU_SAVEPOINT_TRIGGERED, 2, 0}};
    relkvanu job = named(5);
    relkvanu_group group = {0};
    relkvanu_answer held[CALLS / 2];
    char line[LONGEST];
    for (size_t call = 0; call < CALLS; call++) {
        DONE(make(&job, &group, held, CALLS / 2, call, line), lines[call] != NULL ? RELKVANU_APPEND : RELKVANU_HELD_BACK, call, 0);
        CHECK(lines[call] == NULL || strcmp(line, lines[call]) == 0);
        BAD(relkvanu_group_answer(&group, held, CALLS / 2, call), RELKVANU_BAD_RECEIPT);
        if (call % 3 != 2) {
            continue;
        }
        DONE(relkvanu_group_synced(&group), RELKVANU_SYNCED, 3, 0);
        for (size_t at = 0; at <= call + 1; at++) {
            relkvanu_answer told = relkvanu_group_answer(&group, held, CALLS / 2, at);
            bool is_told = at + 3 > call && at <= call; /* neither those of an earlier group, nor one that was not given yet */
            CHECK(is_told ? same_answer(told, wanted[at]) : told.code == RELKVANU_BAD_ARGUMENT && told.what == RELKVANU_BAD_RECEIPT);
        }
    }
    BAD(relkvanu_group_answer(&group, held, CALLS / 2, UINT64_MAX), RELKVANU_BAD_RECEIPT);
    relkvanu_close(&job);
}

/* A sync has failed: nothing is held back or told any more. */
static void fails(void) {
    relkvanu job = named(5);
    relkvanu_group group = {0};
    relkvanu_answer held[2], any = {.code = RELKVANU_DONE};
    char line[LONGEST];
    DONE(make(&job, &group, held, 2, 0, line), RELKVANU_APPEND, 0, 0);
    relkvanu_group_failed(&group);
    BAD(relkvanu_group_answer(&group, held, 2, 0), RELKVANU_BAD_GROUP);
    BAD(relkvanu_group_synced(&group), RELKVANU_BAD_GROUP);
    BAD(relkvanu_group_hold(&group, held, 2, &any), RELKVANU_BAD_GROUP);
    BAD(make(&job, &group, held, 2, 1, line), RELKVANU_BAD_GROUP);
    relkvanu_close(&job);
}

/* An answer of another function, such as a read, is held back with the others. */
static void reads(void) {
    relkvanu job = named(5);
    relkvanu_group group = {0}, full = {.given = UINT64_C(1) << 62};
    relkvanu_answer held[2], choice = relkvanu_choice(&job);
    DONE(choice, RELKVANU_CHOICE_FRESH, 0, 0);
    DONE(relkvanu_group_hold(&group, held, 2, &choice), RELKVANU_HELD_BACK, 0, 0);
    choice = relkvanu_term(&job);
    DONE(relkvanu_group_hold(&group, held, 2, &choice), RELKVANU_HELD_BACK, 1, 0);
    BAD(relkvanu_group_hold(&group, held, 2, &choice), RELKVANU_BAD_RECEIPT);
    BAD(relkvanu_group_answer(&group, held, 2, 0), RELKVANU_BAD_RECEIPT);
    DONE(relkvanu_group_synced(&group), RELKVANU_SYNCED, 2, 0);
    DONE(relkvanu_group_answer(&group, held, 2, 0), RELKVANU_CHOICE_FRESH, 0, 0);
    DONE(relkvanu_group_answer(&group, held, 2, 1), RELKVANU_TERM, 1, 5);
    BAD(relkvanu_group_answer(&group, held, 1, 1), RELKVANU_BAD_RECEIPT);
    DONE(relkvanu_group_hold(&group, held, 2, &choice), RELKVANU_HELD_BACK, 2, 0);
    BAD(relkvanu_group_answer(&group, held, 2, 1), RELKVANU_BAD_RECEIPT);
    DONE(relkvanu_group_synced(&group), RELKVANU_SYNCED, 1, 0);
    BAD(relkvanu_group_answer(&group, held, 2, 0), RELKVANU_BAD_RECEIPT); /* the place is that of receipt 2 now */
    DONE(relkvanu_group_answer(&group, held, 2, 2), RELKVANU_TERM, 1, 5);
    BAD(relkvanu_group_hold(&full, held, 2, &choice), RELKVANU_BAD_RECEIPT);
    relkvanu_close(&job);
}

/* A call without memory is not held back, and changes nothing. */
static void lacks_memory(void) {
    relkvanu job = named(5);
    relkvanu_group group = {0};
    relkvanu_answer held[1];
    char line[LONGEST];
    heap_refuse_from(1);
    expect(make(&job, &group, held, 1, 0, line), RELKVANU_NO_MEMORY, 0, 0, 0, __LINE__);
    heap_refuse(0);
    CHECK(group.waiting == 0 && group.told == 0 && !group.has_failed && group.given == 0);
    DONE(relkvanu_term(&job), RELKVANU_TERM, 1, 5);
    relkvanu_close(&job);
}

int main(void) {
    by_hand();
    fails();
    reads();
    lacks_memory();
    printf("groups: all as told\n");
    return 0;
}

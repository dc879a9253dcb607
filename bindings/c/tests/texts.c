/* The texts of answers: those of replies are what docs/SCRIPT.md says, each number has one, and none is cut. */
#include "../../../include/relkvanu.h"

#include <inttypes.h>
#include <stdio.h>
#include <string.h>

#define MOST UINT64_MAX

static int failed;

/* Beside those that the rows print. */
static const struct {
    relkvanu_answer answer;
    const char *text;
} texts[] = {
    {{RELKVANU_DONE, RELKVANU_OPENED, 0, 0}, "opened"},
    {{RELKVANU_DONE, RELKVANU_TICK_TRIGGERED, 2, 7}, "tick expired 2 triggered 7"},
    {{RELKVANU_DONE, RELKVANU_RESTORED_SAVEPOINT, 0, 9}, "restored savepoint 9 0"},
    {{RELKVANU_DONE, RELKVANU_DELETED, MOST, 0}, "deleted 18446744073709551615"},
    {{RELKVANU_DONE, RELKVANU_SHOWN, 120, 0}, "shown 120"},
    {{RELKVANU_DONE, RELKVANU_LIVE_CHECKPOINT, 4, 1}, "live checkpoint 4 1"},
    {{RELKVANU_DONE, RELKVANU_STANDS_NOT_YET, 0, 0}, "stands not yet"},
    {{RELKVANU_DONE, 999, 1, 2}, "unknown code 0, what 999, a 1, b 2"},
    {{RELKVANU_REFUSED, RELKVANU_NAME_TAKEN, 7, 0}, "refused NameTaken 7"},
    {{RELKVANU_REFUSED, RELKVANU_IDS_USED_UP, 0, 0}, "refused IdsUsedUp"},
    {{RELKVANU_REFUSED, 0, 0, 0}, "unknown code 1, what 0, a 0, b 0"},
    {{RELKVANU_NO_MEMORY, 0, 0, 0}, "no memory"},
    {{RELKVANU_NO_MEMORY, 1, 0, 0}, "unknown code 2, what 1, a 0, b 0"},
    {{RELKVANU_CLOSED, 0, 0, 0}, "closed"},
    {{RELKVANU_TOO_SHORT, 0, 65, 0}, "too short 65"},
    {{RELKVANU_BAD_LINE, RELKVANU_FAULT_NO_CALL, 0, 0}, "fault NoCall"},
    {{UINT32_MAX, UINT32_MAX, MOST, MOST}, "unknown code 4294967295, what 4294967295, a 18446744073709551615, b 18446744073709551615"},
};

static void check_text(const relkvanu_answer *answer, const char *text) {
    uint8_t told[RELKVANU_ANSWER_TEXT + 1];
    size_t len = strlen(text);
    memset(told, '#', sizeof told);
    bool has_length = relkvanu_answer_text(answer, NULL, 0) == len;
    bool is_unwritten = relkvanu_answer_text(answer, told, len - 1) == len && told[0] == '#';
    bool is_same = relkvanu_answer_text(answer, told, len) == len && memcmp(told, text, len) == 0 && told[len] == '#';
    if (!has_length || !is_unwritten || !is_same) {
        printf("another text, or in a buffer that is too short: %s\n", text);
        failed++;
    }
}

/* Each number of the header has a text of its own, within the limit: the refusals have the library's names. */
static void check_length(uint32_t code, uint32_t what) {
    relkvanu_answer answer = {code, what, MOST, MOST};
    uint8_t told[RELKVANU_ANSWER_TEXT];
    size_t len = relkvanu_answer_text(&answer, told, sizeof told);
    failed += len == 0 || len > sizeof told;
}

int main(void) {
    for (size_t place = 0; place < sizeof texts / sizeof texts[0]; place++) {
        check_text(&texts[place].answer, texts[place].text);
    }
    for (uint32_t number = 0; number < 256 * 16; number++) {
        check_length(number / 256, number % 256);
    }
    printf("%zu texts, %d of them wrong\n", sizeof texts / sizeof texts[0], failed);
    return failed != 0;
}

/* calls.c: two subtasks take two checkpoints. The program gives the moments, so it needs no clock, and prints the same each time. */
#include "relkvanu.h"

#include <inttypes.h>
#include <stdio.h>

static relkvanu job; /* all zero: closed */

static void tell(relkvanu_answer answer) {
    uint8_t text[RELKVANU_ANSWER_TEXT];
    size_t len = relkvanu_answer_text(&answer, text, sizeof text);
    printf("%.*s\n", (int)len, (const char *)text);
}

int main(void) {
    relkvanu_settings settings = {.interval = 1000, .at_once = 1, .timeout = 600000, .retained = 1}; /* milliseconds */
    const uint64_t shape[] = {2};                            /* one vertex with two subtasks, 0.0 and 0.1 */
    const uint64_t file_11 = 11, file_21 = 21, file_22 = 22; /* the engine numbers its state files */
    uint64_t released[8];
    tell(relkvanu_open(&job, &settings, shape, 1, 0, 1, 7, 8)); /* at the moment 0; take random words in place of 7 and 8 */
    tell(relkvanu_tick(&job, 1000));
    tell(relkvanu_ack(&job, 1200, 1, 0, 0, &file_11, 1, NULL, 0)); /* 0.0 has written file 11 for checkpoint 1 */
    tell(relkvanu_ack(&job, 1500, 1, 0, 1, &file_21, 1, NULL, 0)); /* the last one completes it */
    tell(relkvanu_tick(&job, 2000));
    tell(relkvanu_ack(&job, 2200, 2, 0, 0, NULL, 0, &file_11, 1)); /* 0.0 reuses file 11 */
    tell(relkvanu_ack(&job, 2600, 2, 0, 1, &file_22, 1, NULL, 0)); /* drops checkpoint 1, and releases one file */
    relkvanu_answer taken = relkvanu_take(&job, released, 8);
    for (uint64_t i = 0; i < taken.a; i++) {
        printf("file %" PRIu64 " may be deleted\n", released[i]);
        tell(relkvanu_deleted(&job, released[i]));
    }
    relkvanu_close(&job);
    return 0;
}

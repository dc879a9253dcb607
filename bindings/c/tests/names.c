/* names: terms and names through the C interface, beside what the logs of examples/logs say of them: openings, an older image, and what is garbage. The expected
 * answers come from the header and the table of the layer, by hand. */
#include "fenced.h"

static relkvanu_answer line(relkvanu *job, const char *text) {
    return relkvanu_line(job, (const uint8_t *)text, strlen(text), NULL, 0);
}

/* The first bad argument decides. */
static void openings(void) {
    relkvanu job = {NULL};
    relkvanu_settings bad = settings;
    bad.interval = 0;
    BAD(relkvanu_open_fenced(&job, &bad, NULL, 0, NAMES_END, 0, 0, 3, 4), RELKVANU_BAD_CONFIG);
    BAD(relkvanu_open_fenced(&job, &settings, NULL, 0, NAMES_END, 0, 0, 3, 4), RELKVANU_BAD_SHAPE);
    BAD(relkvanu_open_fenced(&job, &settings, shape, 1, NAMES_END, 0, 0, 3, 4), RELKVANU_BAD_NAME);
    BAD(relkvanu_open_fenced(&job, &settings, shape, 1, NAMES_END, 0, NAMES_END + 1, 3, 4), RELKVANU_BAD_NAME);
    BAD(relkvanu_open_fenced(&job, &settings, shape, 1, NAMES_END, 0, NAMES_END, 3, 4), RELKVANU_BAD_MOMENT);
    BAD(relkvanu_open_fenced(&job, &settings, shape, 1, 0, 0, 1, 3, 4), RELKVANU_BAD_FIRST);
    CHECK(job.state == NULL);
    job = named(5);
    DONE(relkvanu_term(&job), RELKVANU_TERM, 1, 5);
    BAD(relkvanu_open_fenced(&job, &bad, NULL, 0, NAMES_END, 0, 0, 3, 4), RELKVANU_ALREADY_OPEN);
    BAD(relkvanu_open(&job, &settings, shape, 1, 0, 1, 3, 4), RELKVANU_ALREADY_OPEN);
    DONE(relkvanu_term(&job), RELKVANU_TERM, 1, 5);
    relkvanu_close(&job);
    CHECK(job.state == NULL);
    CLOSED(relkvanu_term(&job));
}

/* A job goes on from an image that lacks the last restart and the last names. */
static void from_an_older_image(void) {
    relkvanu job = named(5), older = {NULL}, nameless = plain();
    uint8_t image[2048];
    uint64_t files[] = {4, 5, 8, 9}, left[4], others[4];
    relkvanu_answer saved;
    DONE(relkvanu_reserve(&job, 1, 1), RELKVANU_RESERVED, 5, 1);
    saved = relkvanu_save(&job, image, sizeof image);
    CHECK(saved.code == RELKVANU_DONE && saved.what == RELKVANU_SAVED);
    DONE(relkvanu_restore(&job, 1000, 0, NULL, 0), RELKVANU_RESTORED_FRESH, 0, 0);
    DONE(relkvanu_reserve(&job, 2, 3), RELKVANU_RESERVED, 6, 3);
    relkvanu_close(&job);
    DONE(relkvanu_open_saved(&older, image, saved.a, 3, 4), RELKVANU_OPENED, 0, 0);
    BAD(relkvanu_advance(&older, 1000, NAMES_END, 0), RELKVANU_BAD_NAME);
    BAD(relkvanu_advance(&older, 1000, 2, NAMES_END + 1), RELKVANU_BAD_NAME);
    FENCED(relkvanu_advance(&older, NAMES_END, NAMES_END, 9), RELKVANU_TERMS_USED_UP, 0);
    expect(relkvanu_advance(&older, NAMES_END, 2, 9), RELKVANU_REFUSED, RELKVANU_MOMENT_TOO_LARGE, 0, 0, __LINE__);
    DONE(relkvanu_term(&older), RELKVANU_TERM, 1, 6);
    DONE(relkvanu_advance(&older, 1000, 2, 9), RELKVANU_RESTORED_FRESH, 0, 0);
    DONE(relkvanu_term(&older), RELKVANU_TERM, 3, 9);
    FENCED(relkvanu_reserve(&older, 2, 1), RELKVANU_OLD_TERM, 0);
    DONE(relkvanu_garbage(&older, files, 4, left, 4, others, 4), RELKVANU_GARBAGE, 3, 1);
    CHECK(left[0] == 4 && left[1] == 5 && left[2] == 8 && others[0] == 9);
    DONE(line(&older, "advance 1000 1 1"), RELKVANU_RESTORED_FRESH, 0, 0);
    DONE(relkvanu_term(&older), RELKVANU_TERM, 4, 9);
    BAD(line(&older, "advance 1000 1 0"), RELKVANU_BAD_NAME);
    FENCED(relkvanu_advance(&nameless, 1000, 1, 0), RELKVANU_NO_NAMES, 0);
    FENCED(line(&nameless, "advance 1000 1 0"), RELKVANU_NO_NAMES, 0);
    relkvanu_close(&older);
    CLOSED(relkvanu_advance(&older, 1000, 1, 1));
    relkvanu_close(&nameless);
}

/* Both buffers need a place for each file, and nothing else is written. */
static void buffers(void) {
    relkvanu job = named(5);
    uint64_t files[] = {1, 6}, left[] = {70, 71, 72}, others[] = {80, 81, 82};
    expect(relkvanu_garbage(&job, files, 2, left, 1, others, 2), RELKVANU_TOO_SHORT, 0, 2, 2, __LINE__);
    expect(relkvanu_garbage(&job, files, 2, left, 2, others, 1), RELKVANU_TOO_SHORT, 0, 2, 2, __LINE__);
    expect(relkvanu_garbage(&job, files, 2, NULL, 0, NULL, 0), RELKVANU_TOO_SHORT, 0, 2, 2, __LINE__);
    CHECK(left[0] == 70 && left[1] == 71 && others[0] == 80 && others[1] == 81);
    DONE(relkvanu_garbage(&job, NULL, 0, NULL, 0, NULL, 0), RELKVANU_GARBAGE, 0, 0);
    uint64_t twice[] = {6, 1, 9, 1}, garbage[4], unissued[4];
    DONE(relkvanu_garbage(&job, twice, 4, garbage, 4, unissued, 4), RELKVANU_GARBAGE, 2, 2);
    CHECK(garbage[0] == 1 && garbage[1] == 1 && unissued[0] == 6 && unissued[1] == 9);
    DONE(relkvanu_garbage(&job, files, 2, left, 3, others, 3), RELKVANU_GARBAGE, 1, 1);
    CHECK(left[0] == 1 && left[1] == 71 && left[2] == 72 && others[0] == 6 && others[1] == 81 && others[2] == 82);
    relkvanu_close(&job);
}

int main(void) {
    openings();
    from_an_older_image();
    buffers();
    return 0;
}

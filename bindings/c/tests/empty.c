/* empty [LIBRARY]: gives each list, text and buffer of each function of relkvanu.h length 0, with a null pointer and with one that leads nowhere,
 * and closes NULL. The functions are those that the program is linked with, or those of the shared library LIBRARY, loaded by their names
 * as a binding does. checks/check_header looks whether each function is called so. */
#include "fenced.h"

#include <dlfcn.h>

/* clang-format off */
#define FUNCTIONS(of) \
    of(open) of(close) of(tick) of(ack) of(restore) of(take) of(show) of(refusal_text) of(answer_text) of(line) of(line_says) of(line_call) \
    of(call_line) of(make) of(opening_lines) of(save) of(open_saved) of(files_of) of(pins_of) of(taken_files) of(open_fenced) of(forfeit) of(ack_in) \
    of(garbage) of(fenced_text) of(align_open) of(align_element) of(align_barrier) of(align_end) of(align_give_up) \
    of(unaligned_open) of(unaligned_element) of(unaligned_barrier) of(unaligned_end) of(unaligned_give_up) of(unaligned_overtake) \
    of(group_make) of(group_hold) of(group_answer)
/* clang-format on */

#define FIELD(name) __typeof__(&relkvanu_##name) name;
#define ADDRESS(name) .name = relkvanu_##name,
#define LOADED(name) .name = (__typeof__(&relkvanu_##name))loaded(library, "relkvanu_" #name),
#define SHORT(told, len) expect(told, RELKVANU_TOO_SHORT, 0, len, 0, __LINE__)

struct functions {
    FUNCTIONS(FIELD)
};

static void *loaded(void *library, const char *name) {
    void *function = dlsym(library, name);
    CHECK(function != NULL);
    return function;
}

static struct functions functions_of(void *library) {
    CHECK(library != NULL);
    CHECK(dlsym(library, "proved_relkvanu_ack") == NULL);
    return (struct functions){FUNCTIONS(LOADED)};
}

static void try_calls(const struct functions *lib, void *none) {
    relkvanu job = {NULL};
    BAD(lib->open(&job, &settings, none, 0, 0, 1, 3, 4), RELKVANU_BAD_SHAPE);
    DONE(lib->open(&job, &settings, shape, 1, 0, 1, 3, 4), RELKVANU_OPENED, 0, 0);
    DONE(lib->tick(&job, 1000), RELKVANU_TICK_TRIGGERED, 0, 1);
    DONE(lib->pins_of(&job, 1, none, 0), RELKVANU_FILES, 0, 0);
    DONE(lib->ack(&job, 1000, 1, 0, 0, none, 0, none, 0), RELKVANU_ACK_COMPLETED, 0, 0);
    DONE(lib->files_of(&job, 1, 0, 0, none, 0), RELKVANU_FILES, 0, 0);
    DONE(lib->restore(&job, 1001, 0, none, 0), RELKVANU_RESTORED_CHECKPOINT, 0, 1);
    DONE(lib->take(&job, none, 0), RELKVANU_TAKEN, 0, 0);
    DONE(lib->taken_files(&job, none, 0), RELKVANU_FILES, 0, 0);
    DONE(lib->line(&job, none, 0, none, 0), RELKVANU_SKIPPED, 0, 0);
    relkvanu_call call = {.kind = RELKVANU_CALL_TICK, .now = 3};
    relkvanu_made made;
    expect(lib->make(&job, &call, none, 0, none, 0, none, 0, none, 0, &made), RELKVANU_TOO_SHORT, 0, 0, strlen("tick 3"), __LINE__);
    CHECK(lib->show(&job, 1, none, 0).code == RELKVANU_TOO_SHORT);
    CHECK(lib->save(&job, none, 0).code == RELKVANU_TOO_SHORT);
    lib->close(&job);
    BAD(lib->open_saved(&job, none, 0, 3, 4), RELKVANU_BAD_IMAGE);
    lib->close(NULL);
}

static void try_names(const struct functions *lib, void *none) {
    relkvanu job = {NULL};
    BAD(lib->open_fenced(&job, &settings, none, 0, 0, 1, 5, 3, 4), RELKVANU_BAD_SHAPE);
    DONE(lib->open_fenced(&job, &settings, shape, 1, 0, 1, 5, 3, 4), RELKVANU_OPENED, 0, 0);
    DONE(lib->forfeit(&job, 1, none, 0), RELKVANU_FORFEITED, 0, 0);
    DONE(lib->garbage(&job, none, 0, none, 0, none, 0), RELKVANU_GARBAGE, 0, 0);
    DONE(lib->tick(&job, 1000), RELKVANU_TICK_TRIGGERED, 0, 1);
    DONE(lib->ack_in(&job, 1, 1000, 1, 0, 0, none, 0, none, 0), RELKVANU_ACK_COMPLETED, 0, 0);
    lib->close(&job);
}

static void try_texts(const struct functions *lib, void *none) {
    relkvanu_call call = {.kind = RELKVANU_CALL_TICK, .now = 3};
    relkvanu_answer closed = {.code = RELKVANU_CLOSED};
    SHORT(lib->call_line(&call, none, 0, none, 0, none, 0), strlen("tick 3"));
    BAD(lib->opening_lines(&settings, none, 0, 7, none, 0), RELKVANU_BAD_SHAPE);
    SHORT(lib->opening_lines(&settings, shape, 1, 7, none, 0), strlen("config 1000 0 1 600000 0 1 delete\njob 1\nstart 7\n"));
    DONE(lib->line_says(none, 0, none, 0), RELKVANU_LINE_SKIP, 0, 0);
    DONE(lib->line_call(none, 0, &call, none, 0, none, 0), RELKVANU_SKIPPED, 0, 0);
    CHECK(lib->refusal_text(RELKVANU_IN_USE, none, 0) == strlen("InUse"));
    CHECK(lib->fenced_text(RELKVANU_OLD_TERM, none, 0) == strlen("OldTerm"));
    CHECK(lib->answer_text(&closed, none, 0) == strlen("closed"));
}

static void try_alignment(const struct functions *lib, void *none) {
    relkvanu_aligner aligner = {7};
    CHECK(lib->align_open(&aligner, none, 0).what == RELKVANU_STEP_BAD_INPUTS);
    CHECK(lib->align_element(&aligner, none, 0, 0).what == RELKVANU_STEP_UNKNOWN_INPUT);
    CHECK(lib->align_barrier(&aligner, none, 0, 0, 1).what == RELKVANU_STEP_UNKNOWN_INPUT);
    CHECK(lib->align_end(&aligner, none, 0, 0).what == RELKVANU_STEP_UNKNOWN_INPUT);
    CHECK(lib->align_give_up(&aligner, none, 0, 7).what == RELKVANU_STEP_NOTHING);
    CHECK(aligner.latest == 7);
}

static void try_recorder(const struct functions *lib, void *none) {
    relkvanu_recorder recorder = {7, 1};
    CHECK(lib->unaligned_open(&recorder, none, 0).what == RELKVANU_STEP_BAD_INPUTS);
    CHECK(lib->unaligned_element(&recorder, none, 0, 0).what == RELKVANU_STEP_UNKNOWN_INPUT);
    CHECK(lib->unaligned_barrier(&recorder, none, 0, 0, 1).what == RELKVANU_STEP_UNKNOWN_INPUT);
    CHECK(lib->unaligned_end(&recorder, none, 0, 0).what == RELKVANU_STEP_UNKNOWN_INPUT);
    CHECK(lib->unaligned_overtake(&recorder, none, 0, 7).what == RELKVANU_STEP_NOTHING);
    CHECK(lib->unaligned_give_up(&recorder, none, 0, 7).what == RELKVANU_STEP_ABANDON);
    CHECK(recorder.latest == 7 && recorder.phase == 0);
}

static void try_groups(const struct functions *lib, void *none) {
    relkvanu job = {NULL};
    relkvanu_group group = {0}, told = {.told = 5, .given = 5};
    relkvanu_call call = {.kind = RELKVANU_CALL_TICK, .now = 3};
    relkvanu_answer held = {.code = RELKVANU_CLOSED};
    relkvanu_made made;
    BAD(lib->group_make(&job, &group, none, 0, &call, none, 0, none, 0, none, 0, none, 0, &made), RELKVANU_BAD_RECEIPT);
    CLOSED(lib->group_make(&job, &group, &held, 1, &call, none, 0, none, 0, none, 0, none, 0, &made));
    BAD(lib->group_hold(&group, none, 0, &held), RELKVANU_BAD_RECEIPT);
    BAD(lib->group_answer(&told, none, 0, 0), RELKVANU_BAD_RECEIPT);
    CHECK(group.waiting == 0 && group.told == 0 && !group.has_failed);
}

int main(int argc, char **argv) {
    void *library = argc > 1 ? dlopen(argv[1], RTLD_NOW | RTLD_LOCAL) : NULL;
    struct functions linked = {FUNCTIONS(ADDRESS)}, lib = argc > 1 ? functions_of(library) : linked;
    void *pointers[] = {NULL, (void *)1};
    for (size_t place = 0; place < 2; place++) {
        try_calls(&lib, pointers[place]);
        try_names(&lib, pointers[place]);
        try_texts(&lib, pointers[place]);
        try_alignment(&lib, pointers[place]);
        try_recorder(&lib, pointers[place]);
        try_groups(&lib, pointers[place]);
    }
    CHECK(argc == 1 || dlclose(library) == 0);
    return 0;
}

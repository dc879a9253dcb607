/* commands FOLDER COMMAND: makes a job FOLDER/x.db over FOLDER/storage, or opens it, makes one command of an operator, and prints "made" once it is
 * answered.
 *
 * VERB: make: a job with names and three checkpoints; begun: the same, and it is being stopped, with one acknowledgement missing; stopped: with none.
 * configure, trigger, stop, begin, back: the command; last: the acknowledgement that a stop waits for. state: prints what the job is, without moments
 * and without the number of the opening, in one line. */
#include "common.h"

#include <unistd.h>

static relkvanu_store *store;
static relkvanu_store_report report;

static relkvanu_store_options options_of(const char *folder, uint32_t flags) {
    relkvanu_store_options options = options_in(folder, flags, 0);
    options.flags = flags;
    options.settings = (relkvanu_settings){.interval = 60000, .at_once = 1, .timeout = 3600000, .tolerable = 0, .retained = 3};
    return options;
}

/* Acknowledges a record for the subtasks from `first` on. Each writes the file that it names. */
static int acks(uint64_t id, uint16_t first, uint16_t end) {
    relkvanu_answer answer;
    int status = relkvanu_store_reserve(store, report.term, (uint64_t)(end - first), &answer);
    uint64_t name = answer.a;
    for (uint16_t i = first; i < end && status == RELKVANU_STORE_OK; i++, name++) {
        status = relkvanu_store_put(store, name, "state", 5);
        if (status == RELKVANU_STORE_OK) {
            status = relkvanu_store_ack_in(store, report.term, RELKVANU_STORE_NOW, id, 0, i, &name, 1, NULL, 0, &answer);
            CHECK(status != RELKVANU_STORE_OK || answer.code == RELKVANU_DONE, "subtask %u: what %" PRIu32, i, answer.what);
        }
    }
    return status;
}

static int checkpoint(void) {
    relkvanu_store_call call;
    int status = relkvanu_store_trigger(store, &call);
    return status == RELKVANU_STORE_OK ? acks(call.answer.b, 0, SUBTASKS) : status;
}

static int stop(uint16_t subtasks) {
    relkvanu_store_call call;
    int status = relkvanu_store_stop_job(store, &call);
    return status == RELKVANU_STORE_OK && subtasks != 0 ? acks(call.answer.a, 0, subtasks) : status;
}

static int configure(void) {
    relkvanu_store_call call;
    relkvanu_settings settings = options_of("", 0).settings;
    settings.interval = 500;
    settings.retained = 1;
    return relkvanu_store_configure(store, &settings, &call);
}

static int make(const char *verb) {
    int status = RELKVANU_STORE_OK;
    for (int i = 0; i < 3 && status == RELKVANU_STORE_OK; i++) {
        status = checkpoint();
    }
    if (status == RELKVANU_STORE_OK && strcmp(verb, "make") != 0) {
        status = stop(strcmp(verb, "begun") == 0 ? SUBTASKS - 1 : SUBTASKS);
    }
    return status;
}

static int make_verb(const char *verb) {
    relkvanu_store_call call;
    if (strcmp(verb, "configure") == 0) {
        return configure();
    } else if (strcmp(verb, "trigger") == 0) {
        return relkvanu_store_trigger(store, &call);
    } else if (strcmp(verb, "stop") == 0) {
        return stop(0);
    } else if (strcmp(verb, "last") == 0) {
        return acks(report.savepoint, SUBTASKS - 1, SUBTASKS);
    } else if (strcmp(verb, "begin") == 0) {
        return relkvanu_store_begin_job(store, &call);
    } else if (strcmp(verb, "back") == 0) {
        return relkvanu_store_go_back(store, 1, RELKVANU_STORE_ACCEPT_PUBLISHED, &call);
    }
    return make(verb);
}

static void print_state(void) {
    relkvanu_store_job_phase phase;
    relkvanu_settings settings;
    uint64_t shape[4];
    size_t len = 4;
    relkvanu *handle;
    CHECK(
        relkvanu_store_phase(store, &phase) == RELKVANU_STORE_OK && relkvanu_store_job(store, &settings, shape, &len) == RELKVANU_STORE_OK);
    CHECK(relkvanu_store_read(store, &handle) == RELKVANU_STORE_OK, "a read");
    relkvanu_answer choice = relkvanu_choice(handle);
    relkvanu_counts counts = relkvanu_file_counts(handle);
    printf("phase %" PRIu32 " %" PRIu32 " %" PRIu64 " %" PRIu64 ", interval %" PRIu64 ", retained %" PRIu64 ", term %" PRIu64
           ", choice %" PRIu32 " %" PRIu64 ", files %" PRIu64 " %" PRIu64 ", records",
        phase.phase, phase.stop_failed, phase.savepoint, phase.term, settings.interval, settings.retained, report.term, choice.what,
        choice.a, counts.in_use, counts.waiting);
    for (relkvanu_answer it = relkvanu_live_from(handle, 0); it.what != RELKVANU_LIVE_NONE; it = relkvanu_live_from(handle, it.a + 1)) {
        printf(" %" PRIu32 " %" PRIu64 " %" PRIu64, it.what, it.a, it.b);
    }
    printf("\n");
    relkvanu_store_read_end(store);
}

int main(int argc, char **argv) {
    char path[PATHS];
    CHECK(argc == 3, "commands FOLDER COMMAND");
    bool is_state = strcmp(argv[2], "state") == 0;
    relkvanu_store_options options = options_of(argv[1], is_state ? RELKVANU_STORE_RECOVER : RELKVANU_STORE_CREATE);
    snprintf(path, sizeof path, "%s/x.db", argv[1]);
    int status = relkvanu_store_open(&store, path, &options, &report);
    CHECK(status == RELKVANU_STORE_OK || !is_state, "status %d: %s", status, report.message);
    if (is_state) {
        print_state();
    } else if (status == RELKVANU_STORE_OK) {
        status = make_verb(argv[2]);
        if (status == RELKVANU_STORE_OK) {
            printf("made\n");
            fflush(stdout);
        }
    }
    relkvanu_store_close(store);
    return 0;
}

/* scenario FOLDER TOLD CALLS IMAGE_CALLS MODE: opens FOLDER/x.db over FOLDER/storage, recovers as the report says, and makes so many lists of
 * calls, of at most 5. Each answered call is a line of the file TOLD. Prints the last status and the message, and ends with 0.
 *
 * MODE: calls: its tasks put no files. files: they put the files that they acknowledge, and the job is restored now and then; without a fault the
 * folder is exact at the end. Old tasks go on. */
#include "common.h"

#include <dirent.h>
#include <unistd.h>

enum { LIST = 5, RESERVED = 20 };

static relkvanu_store *store;
static int told_to;
static uint64_t term;
static bool has_files;    /* what MODE says */
static struct names held; /* names that no file has so far */
static uint64_t given_up[RESERVED];
static size_t given_up_len;

static int make(relkvanu_store_call *calls, size_t len) {
    int status = relkvanu_store_calls(store, calls, len);
    if (status == RELKVANU_STORE_OK) {
        for (size_t i = 0; i < len; i++) {
            tell(told_to, &calls[i]);
        }
    }
    for (size_t i = 0; i < len && status != RELKVANU_STORE_OK; i++) {
        CHECK(calls[i].answer.code == RELKVANU_STORE_NOT_MADE && calls[i].place == 0 && calls[i].term == 0, "an answer with the status %d",
            status);
    }
    return status;
}

/* What the job waits for. */
struct state {
    uint64_t pending, missing, due, waiting;
};

static int look(struct state *state) {
    relkvanu *handle;
    int status = relkvanu_store_read(store, &handle);
    if (status != RELKVANU_STORE_OK) {
        return status;
    }
    *state = (struct state){.due = relkvanu_due(handle).a, .waiting = relkvanu_file_counts(handle).waiting};
    for (relkvanu_answer it = relkvanu_live_from(handle, 0); it.what != RELKVANU_LIVE_NONE; it = relkvanu_live_from(handle, it.a + 1)) {
        if (it.b == 0) {
            state->pending = it.a;
            state->missing = relkvanu_missing(handle, it.a).a;
        }
    }
    relkvanu_store_read_end(store);
    return status;
}

/* Takes files, deletes them if there are any, and reports them in one list. */
static int discard(void) {
    uint64_t files[LIST];
    uint8_t is_gone[LIST] = {1, 1, 1, 0, 1};
    relkvanu_store_call calls[LIST] = {{.call = {.kind = RELKVANU_CALL_TAKE, .number = LIST}, .files = files, .files_len = LIST}};
    int status = make(calls, 1);
    size_t len = status == RELKVANU_STORE_OK ? calls[0].answer.a : 0;
    if (has_files) {
        relkvanu_store_delete_files(store, files, len, is_gone);
        memset(is_gone, 0, fsync(relkvanu_store_folder(store)) == 0 ? 0 : LIST);
    }
    memset(calls, 0, sizeof calls);
    for (size_t i = 0; i < len; i++) {
        calls[i].call = (relkvanu_call){.kind = is_gone[i] ? RELKVANU_CALL_DELETED : RELKVANU_CALL_UNDELETED, .number = files[i]};
    }
    return len == 0 ? status : make(calls, len);
}

static int reserve(void) {
    relkvanu_store_call call = {.call = {.kind = RELKVANU_CALL_RESERVE, .number = RESERVED, .term = term}};
    int status = make(&call, 1);
    if (status == RELKVANU_STORE_OK) {
        struct names next = names_of(&call.answer);
        CHECK(next.next >= held.end && next.end == next.next + RESERVED, "name %" PRIu64 " after %" PRIu64, next.next, held.end);
        held = next;
    }
    return status;
}

/* The file's number. Puts it if the test does; 0: it could not. */
static uint64_t made_file(void) {
    uint64_t file = held.next++;
    if (has_files && relkvanu_store_put(store, file, "state", 5) != RELKVANU_STORE_OK) {
        given_up[given_up_len++] = file;
        return 0;
    }
    return file;
}

static int forfeit(void) {
    relkvanu_store_call call = {.call = {.kind = RELKVANU_CALL_FORFEIT, .term = term}, .first = given_up, .first_len = given_up_len};
    int status = given_up_len == 0 ? RELKVANU_STORE_OK : make(&call, 1);
    given_up_len = 0;
    return status;
}

/* A task that should be dead goes on: nothing of it is made. */
static int old_task(const struct state *state) {
    uint64_t file = held.next;
    relkvanu_store_call calls[] = {{.call = {.kind = RELKVANU_CALL_ACK, .index = SUBTASKS - 1, .number = state->pending, .term = term - 1},
                                       .first = &file,
                                       .first_len = 1},
        {.call = {.kind = RELKVANU_CALL_DECLINE, .number = state->pending, .term = term - 1}},
        {.call = {.kind = RELKVANU_CALL_RESERVE, .number = 1, .term = term - 1}}};
    int status = make(calls, 3);
    for (size_t i = 0; i < 3 && status == RELKVANU_STORE_OK; i++) {
        CHECK(calls[i].answer.code == RELKVANU_FENCED && calls[i].answer.what == RELKVANU_OLD_TERM && calls[i].place == 0,
            "an old task's call %zu: code %" PRIu32, i, calls[i].answer.code);
    }
    return status;
}

/* Each acknowledgement has a payload, which says whose it is. */
static int acknowledge(const struct state *state) {
    uint64_t files[LIST][2];
    relkvanu_store_call calls[LIST] = {0};
    relkvanu_store_more more[LIST];
    struct payload payloads[LIST];
    size_t len = 0;
    for (size_t i = 0; i < LIST - 2 && i < state->missing; i++) {
        files[len][0] = made_file();
        files[len][1] = made_file();
        if (files[len][0] != 0 && files[len][1] != 0) {
            calls[len] = (relkvanu_store_call){.call = {.kind = RELKVANU_CALL_ACK,
                                                   .index = (uint16_t)(SUBTASKS - state->missing + i),
                                                   .number = state->pending,
                                                   .term = term},
                .first = files[len],
                .first_len = 2,
                .more = &more[len]};
            payloads[len] = payload_of(state->pending, calls[len].call.index);
            more[len] = (relkvanu_store_more){.payload = payloads[len].text, .payload_len = payloads[len].len};
            len++;
        } else if (files[len][0] + files[len][1] != 0) {
            given_up[given_up_len++] = files[len][0] + files[len][1]; /* the one that was put */
        }
    }
    calls[len++].call = (relkvanu_call){.kind = RELKVANU_CALL_DISPOSE, .number = 999999}; /* refused: it has no line */
    int status = make(calls, len);
    return status == RELKVANU_STORE_OK ? forfeit() : status;
}

static int restore(void) {
    relkvanu_store_call call = {.call = {.kind = RELKVANU_CALL_RESTORE}};
    int status = make(&call, 1);
    if (status == RELKVANU_STORE_OK) {
        CHECK(call.term == term + 1, "term %" PRIu64 " after %" PRIu64, call.term, term);
        term = call.term;
        held.next = held.end;
    }
    return status;
}

static bool is_closed(int status) {
    return status >= RELKVANU_STORE_FAILED || status == RELKVANU_STORE_CLOSED;
}

/* Beside the tasks. A fault of the folder is for the next one. */
static int sweep(void) {
    size_t left;
    int status = relkvanu_store_sweep(store, &left);
    return is_closed(status) ? status : RELKVANU_STORE_OK;
}

static int step(uint64_t nth) {
    struct state state;
    int status = look(&state);
    if (status == RELKVANU_STORE_OK && held.end - held.next < LIST * 2) {
        status = reserve();
    }
    if (status != RELKVANU_STORE_OK) {
        return status;
    }
    if (nth % 7 == 6 && state.waiting != 0) {
        return discard();
    }
    if (term > 1 && nth % 5 == 3) {
        status = old_task(&state);
    }
    if (status == RELKVANU_STORE_OK && has_files && nth % 4 == 2) {
        status = sweep();
    }
    if (status == RELKVANU_STORE_OK && has_files && nth % 13 == 9) {
        return restore();
    }
    if (status != RELKVANU_STORE_OK) {
        return status;
    }
    if (state.pending == 0 || nth % 19 == 18) {
        relkvanu_store_call call = {.call = {.kind = nth % 11 == 10 ? RELKVANU_CALL_SAVEPOINT : RELKVANU_CALL_TICK, .now = state.due}};
        return make(&call, 1);
    }
    return acknowledge(&state);
}

/* What the last process took and did not report waits again. */
static int return_taken(void) {
    uint64_t files[LIST];
    relkvanu_store_call calls[LIST] = {0};
    relkvanu *handle;
    int status = relkvanu_store_read(store, &handle);
    if (status != RELKVANU_STORE_OK) {
        return status;
    }
    size_t len = relkvanu_taken_files(handle, files, LIST).a;
    relkvanu_store_read_end(store);
    for (size_t i = 0; i < len; i++) {
        calls[i].call = (relkvanu_call){.kind = RELKVANU_CALL_UNDELETED, .number = files[i]};
    }
    return len == 0 ? status : make(calls, len);
}

/* Does what the report says. Nothing of the storage is swept here unless there are files. */
static int recover(const relkvanu_store_report *report) {
    int status = has_files ? return_taken() : RELKVANU_STORE_OK;
    for (size_t i = 0; i < report->steps_len && status == RELKVANU_STORE_OK; i++) {
        if (report->steps[i] == RELKVANU_STORE_RESTORE) {
            status = restore();
        } else if (report->steps[i] == RELKVANU_STORE_SWEEP && has_files) {
            status = sweep();
        }
    }
    return status;
}

/* Whether the folder has the files in use and no others. */
static void check_folder(const char *folder) {
    char name[PATHS];
    relkvanu *handle;
    snprintf(name, sizeof name, "%s/storage", folder);
    DIR *listing = opendir(name);
    CHECK(listing != NULL && relkvanu_store_read(store, &handle) == RELKVANU_STORE_OK, "the folder");
    uint64_t found = 0;
    for (struct dirent *it; (it = readdir(listing)) != NULL;) {
        found += it->d_name[0] != '.';
        CHECK(it->d_name[0] == '.' || relkvanu_count(handle, strtoull(it->d_name, NULL, 10)).b != 0, "%s is left", it->d_name);
    }
    CHECK(found == relkvanu_file_counts(handle).in_use, "%" PRIu64 " of %" PRIu64 " files are there", found,
        relkvanu_file_counts(handle).in_use);
    relkvanu_store_read_end(store);
    closedir(listing);
}

/* At the end a discarder and a sweep leave the files in use. */
static int settle(const char *folder) {
    struct state state = {.waiting = 1};
    int status = RELKVANU_STORE_OK;
    while (held.next < held.end) {
        given_up[given_up_len++] = held.next++;
    }
    status = forfeit();
    while (status == RELKVANU_STORE_OK && state.waiting != 0 && (status = look(&state)) == RELKVANU_STORE_OK && state.waiting != 0) {
        status = discard();
    }
    status = status == RELKVANU_STORE_OK ? sweep() : status;
    if (status == RELKVANU_STORE_OK) {
        check_folder(folder);
    }
    return status;
}

static int run(const char *folder, const char *told, uint64_t calls, uint64_t image_calls) {
    char path[PATHS], message[512] = "";
    relkvanu_store_report report;
    relkvanu_store_options options = options_in(folder, RELKVANU_STORE_CREATE, image_calls);
    snprintf(path, sizeof path, "%s/x.db", folder);
    told_to = told_file(told);
    int status = relkvanu_store_open(&store, path, &options, &report), opened = status;
    if (status == RELKVANU_STORE_OK) {
        term = report.term;
        status = recover(&report);
        for (uint64_t i = 0; i < calls && status == RELKVANU_STORE_OK; i++) {
            status = step(i);
        }
        if (status == RELKVANU_STORE_OK && has_files && getenv("STORE_FAULT") == NULL) {
            status = settle(folder);
        }
        size_t len = relkvanu_store_message(store, message, sizeof message); /* also if the -wal failed after the last answer */
        CHECK(status < RELKVANU_STORE_FAILED || len != 0, "status %d, %s", status, message);
        CHECK(status < RELKVANU_STORE_FAILED || step(0) == RELKVANU_STORE_CLOSED, "a call after the status %d", status);
        relkvanu_store_close(store);
    } else {
        snprintf(message, sizeof message, "%s", report.message);
        CHECK(store == NULL && (message[0] != 0 || status == RELKVANU_STORE_NO_MEMORY), "no message with the status %d", status);
    }
    printf("%s %d %s\n", opened == RELKVANU_STORE_OK ? "calls" : "open", status, message);
    return 0;
}

int main(int argc, char **argv) {
    CHECK(argc == 6, "scenario FOLDER TOLD CALLS IMAGE_CALLS MODE");
    has_files = strcmp(argv[5], "files") == 0;
    CHECK(has_files || strcmp(argv[5], "calls") == 0, "%s", argv[5]);
    return run(argv[1], argv[2], strtoull(argv[3], NULL, 10), strtoull(argv[4], NULL, 10));
}

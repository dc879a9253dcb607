/* log.c FOLDER [new]: a job of one task that goes on where its last process ended, since each call is in the log.
 *
 * Where it keeps the premises of theorem 11 (docs/PROMISES.md): `logged` writes and syncs the line of a call before it says synced (1), and it alone makes
 * calls (2); `discard` reads the files of a take after that (3); no read comes while something waits (4); `fail` ends the process (5); no image cuts the log (6).
 * A line has no checksum, so bytes that nobody wrote are noticed only if no line can be read there. */
#define _GNU_SOURCE
#include "relkvanu.h"

#include <dirent.h>
#include <errno.h>
#include <fcntl.h>
#include <inttypes.h>
#include <stdio.h>
#include <stdlib.h>
#include <string.h>
#include <sys/file.h>
#include <time.h>
#include <unistd.h>

enum { LONGEST_LINE = 131072, SHAPE = 256, AT_ONCE = 64 };
static const relkvanu_settings SETTINGS = {.interval = 20, .at_once = 1, .timeout = 600000, .retained = 1};

static relkvanu job;    /* all zero: closed */
static int folder;      /* of the log and the state files; it stays open and locked */
static int lines;       /* the log, to append to */
static uint64_t *files; /* what calls and reads fetch: it grows as needed */
static size_t files_len;
static uint64_t term; /* of the task that runs */

/* Ends the process. A new one goes on from the log, which has each call that anybody acted on. */
static void fail(const char *what) {
    perror(what);
    exit(1);
}

static relkvanu_answer check(const char *call, relkvanu_answer answer) {
    if (answer.code != RELKVANU_DONE) {
        fprintf(stderr, "%s: code %" PRIu32 ", what %" PRIu32 "\n", call, answer.code, answer.what);
        exit(1);
    }
    return answer;
}

/* Whether a call needs more places for files than there are. Then there are as many. */
static bool is_too_short(relkvanu_answer answer) {
    if (answer.code == RELKVANU_TOO_SHORT) {
        files_len = answer.a;
        files = realloc(files, files_len * sizeof *files);
        if (files == NULL) {
            fail("memory for files");
        }
    }
    return answer.code == RELKVANU_TOO_SHORT;
}

static void open_job(relkvanu *handle, const relkvanu_settings *settings, const uint64_t *shape, size_t shape_len, uint64_t now) {
    uint64_t words[2];
    if (getentropy(words, sizeof words) != 0) {
        fail("getentropy");
    }
    check("open", relkvanu_open(handle, settings, shape, shape_len, now, 1, words[0], words[1]));
}

/* Makes a call, logs its line, and then tells the answer. A call that changed nothing has no line. */
static relkvanu_answer logged(const relkvanu_call *call, const uint64_t *fresh, size_t fresh_len) {
    static uint8_t line[LONGEST_LINE + 1];
    static relkvanu_group group;
    static relkvanu_answer held[1];
    relkvanu_made made;
    relkvanu_answer receipt =
        relkvanu_group_make(&job, &group, held, 1, call, fresh, fresh_len, NULL, 0, files, files_len, line, LONGEST_LINE, &made);
    if (receipt.code != RELKVANU_DONE) {
        return receipt;
    }
    if (receipt.what == RELKVANU_APPEND) {
        line[made.written++] = '\n';
        if (write(lines, line, made.written) != (ssize_t)made.written || fdatasync(lines) != 0) {
            fail("the log"); /* the coordinator is ahead of its log: the process ends, and with it the group */
        }
    }
    check("group_synced", relkvanu_group_synced(&group));
    return relkvanu_group_answer(&group, held, 1, receipt.a);
}

/* Makes the calls of the whole lines of the log, and returns how many bytes these have. Nobody got the answer of a call whose line
 * has no newline. */
static off_t replay(relkvanu *handle) {
    relkvanu_settings settings = {0};
    uint64_t numbers[SHAPE], shape[SHAPE];
    size_t shape_len = 0, room = 0;
    off_t end = 0;
    char *line = NULL;
    int fd = openat(folder, "log", O_RDONLY | O_CLOEXEC);
    FILE *from = fd < 0 ? NULL : fdopen(fd, "r");
    if (from == NULL) {
        fail("the log"); /* this is not the storage, or it is not mounted */
    }
    for (ssize_t len = getline(&line, &room, from); len > 0 && line[len - 1] == '\n'; len = getline(&line, &room, from)) {
        const uint8_t *bytes = (const uint8_t *)line;
        relkvanu_answer says = check("line_says", relkvanu_line_says(bytes, (size_t)len - 1, numbers, SHAPE)), made = says;
        switch (says.what) {
        case RELKVANU_LINE_CONFIG:
            settings = (relkvanu_settings){numbers[0], numbers[1], numbers[2], numbers[3], numbers[4], numbers[5], numbers[6] != 0};
            break;
        case RELKVANU_LINE_JOB:
            shape_len = says.a;
            memcpy(shape, numbers, shape_len * sizeof numbers[0]);
            break;
        case RELKVANU_LINE_START: open_job(handle, &settings, shape, shape_len, numbers[0]); break;
        case RELKVANU_LINE_CALL:
            made = relkvanu_line(handle, bytes, (size_t)len - 1, files, files_len);
            while (is_too_short(made)) { /* a take line may fetch any number of files */
                made = relkvanu_line(handle, bytes, (size_t)len - 1, files, files_len);
            }
            check("a line of the log", made);
        }
        end += len;
    }
    free(line);
    fclose(from);
    return end;
}

struct name {
    char text[24];
};

static struct name name_of(uint64_t file) {
    struct name name;
    snprintf(name.text, sizeof name.text, "%" PRIu64, file);
    return name;
}

/* The next state file of the folder; 0: there is none. */
static uint64_t next_file(DIR *all) {
    for (struct dirent *it = readdir(all); it != NULL; it = readdir(all)) {
        uint64_t file = strtoull(it->d_name, NULL, 10);
        if (file != 0 && strcmp(name_of(file).text, it->d_name) == 0) {
            return file;
        }
    }
    return 0;
}

static DIR *open_all(void) {
    int again = openat(folder, ".", O_RDONLY | O_DIRECTORY | O_CLOEXEC);
    DIR *all = again < 0 ? NULL : fdopendir(again);
    if (all == NULL) {
        fail("the folder");
    }
    return all;
}

/* Makes a file that a loss of power does not take: its contents are synced, then its name in the folder. */
static void make_file(const char *name, const void *bytes, size_t len) {
    int to = openat(folder, name, O_WRONLY | O_CREAT | O_EXCL | O_CLOEXEC, 0666);
    if (to < 0 || write(to, bytes, len) != (ssize_t)len || fsync(to) != 0 || close(to) != 0 || fsync(folder) != 0) {
        fail(name);
    }
}

/* Makes the log anew. It gets its name when it is whole and synced. */
static void replace_log(const void *bytes, size_t len) {
    unlinkat(folder, "log.new", 0);
    make_file("log.new", bytes, len);
    if (renameat(folder, "log.new", folder, "log") != 0 || fsync(folder) != 0) {
        fail("a new log");
    }
}

/* Begins a job in a folder that has no log and no state files. */
static void begin(void) {
    static const char NAMES[] = "fence 1\n"; /* the coordinator gives out the numbers of files, from 1 on */
    const uint64_t shape[] = {1};
    uint8_t opening[256];
    DIR *all = open_all();
    if (next_file(all) != 0 || faccessat(folder, "log", F_OK, 0) == 0) {
        errno = ENOTEMPTY;
        fail("a new job");
    }
    closedir(all);
    size_t len = check("opening_lines", relkvanu_opening_lines(&SETTINGS, shape, 1, 0, opening, sizeof opening - sizeof NAMES)).a;
    memcpy(opening + len, NAMES, sizeof NAMES - 1);
    replace_log(opening, len + sizeof NAMES - 1);
}

static void find_used_files(void) {
    relkvanu_answer live = relkvanu_live_from(&job, 0), used;
    for (; live.code == RELKVANU_DONE && live.what != RELKVANU_LIVE_NONE; live = relkvanu_live_from(&job, live.a + 1)) {
        do {
            used = relkvanu_files_of(&job, live.a, 0, 0, files, files_len);
        } while (is_too_short(used));
        for (size_t place = 0; place < used.a; place++) {
            if (faccessat(folder, name_of(files[place]).text, F_OK, 0) != 0) {
                fail(name_of(files[place]).text);
            }
        }
    }
}

/* What the coordinator says of a file: `a` is 1 if it is garbage, and `b` is 1 if its name was never given out. */
static relkvanu_answer sorted(uint64_t file) {
    uint64_t garbage, unissued;
    return check("garbage", relkvanu_garbage(&job, &file, 1, &garbage, 1, &unissued, 1));
}

/* A file is made after the line that reserved its name. */
static void find_lost_lines(void) {
    DIR *all = open_all();
    for (uint64_t file = next_file(all); file != 0; file = next_file(all)) {
        if (sorted(file).b != 0) {
            fprintf(stderr, "file %" PRIu64 " has a name that the log never gave out\n", file);
            exit(1);
        }
    }
    closedir(all);
}

/* Opens the log, without an incomplete last line. It is written anew: after a sync that failed the system may show bytes that are not
 * on the disk. */
static void open_log(void) {
    off_t end = replay(&job);
    uint8_t *text = malloc((size_t)end);
    check("the opening of the log", relkvanu_mode(&job));
    find_used_files(); /* these two change nothing, if they find that the log is older than the storage */
    find_lost_lines();
    int from = openat(folder, "log", O_RDONLY | O_CLOEXEC);
    if (text == NULL || from < 0 || read(from, text, (size_t)end) != end || close(from) != 0) {
        fail("the log");
    }
    replace_log(text, (size_t)end);
    free(text);
    lines = openat(folder, "log", O_WRONLY | O_APPEND | O_CLOEXEC);
    if (lines < 0) {
        fail("the log");
    }
}

static uint64_t began; /* what the clock says at the moment 0 */

/* Milliseconds of a clock that never jumps. It begins at the greatest moment of the log. */
static uint64_t now(void) {
    struct timespec moment;
    clock_gettime(CLOCK_MONOTONIC, &moment);
    return (uint64_t)moment.tv_sec * 1000 + (uint64_t)moment.tv_nsec / 1000000 - began;
}

/* A file that does not exist counts as deleted, but only beside the log. */
static bool delete_file(uint64_t file) {
    return unlinkat(folder, name_of(file).text, 0) == 0 || (errno == ENOENT && faccessat(folder, "log", F_OK, 0) == 0);
}

/* Deletes files that no record uses, and reports each. Only a synced folder keeps a deleted file away. */
static void discard(void) {
    bool is_gone[AT_ONCE];
    relkvanu_call take = {.kind = RELKVANU_CALL_TAKE, .number = AT_ONCE};
    size_t len = check("take", logged(&take, NULL, 0)).a;
    for (size_t place = 0; place < len; place++) {
        is_gone[place] = delete_file(files[place]);
    }
    bool is_synced = fsync(folder) == 0;
    for (size_t place = 0; place < len; place++) {
        uint32_t kind = is_gone[place] && is_synced ? RELKVANU_CALL_DELETED : RELKVANU_CALL_UNDELETED;
        check("report", logged(&(relkvanu_call){.kind = kind, .number = files[place]}, NULL, 0));
    }
}

/* What the last process fetched and did not report waits again. */
static void report_taken(void) {
    relkvanu_answer taken;
    do {
        taken = relkvanu_taken_files(&job, files, files_len);
    } while (is_too_short(taken));
    for (size_t place = 0; place < check("taken_files", taken).a; place++) {
        check("report", logged(&(relkvanu_call){.kind = RELKVANU_CALL_UNDELETED, .number = files[place]}, NULL, 0));
    }
}

/* Deletes garbage: files of names that no task holds, which no record uses. With names that is safe at any time. */
static void sweep(void) {
    DIR *all = open_all();
    for (uint64_t file = next_file(all); file != 0; file = next_file(all)) {
        if (sorted(file).a != 0) {
            delete_file(file); /* if that fails, the next sweep tries again */
        }
    }
    closedir(all);
}

/* They may publish, also if they get this message twice. At a start a sink publishes what its state lists, and gives up all else. */
static void tell_sinks(uint64_t id) {
    printf("record %" PRIu64 " is complete\n", id);
}

static void recover(void) {
    began = now() - check("moment", relkvanu_moment(&job)).a;
    check("restore", logged(&(relkvanu_call){.kind = RELKVANU_CALL_RESTORE, .now = now()}, NULL, 0));
    term = check("term", relkvanu_term(&job)).a; /* calls of tasks of earlier terms are refused */
    report_taken();
    sweep();
    relkvanu_answer choice = check("choice", relkvanu_choice(&job));
    if (choice.what != RELKVANU_CHOICE_FRESH) {
        tell_sinks(choice.a); /* the last process may have ended before it told them */
    }
}

/* Takes a checkpoint, with a file under a name that no other file ever gets. */
static uint64_t checkpoint(void) {
    uint64_t due = check("due", relkvanu_due(&job)).a;
    for (uint64_t at = now(); at < due; at = now()) {
        usleep((useconds_t)(due - at) * 1000);
    }
    uint64_t id = check("tick", logged(&(relkvanu_call){.kind = RELKVANU_CALL_TICK, .now = now()}, NULL, 0)).b;
    uint64_t name = check("reserve", logged(&(relkvanu_call){.kind = RELKVANU_CALL_RESERVE, .number = 1, .term = term}, NULL, 0)).a;
    make_file(name_of(name).text, "state\n", 6);
    check("ack", logged(&(relkvanu_call){.kind = RELKVANU_CALL_ACK, .now = now(), .number = id, .term = term}, &name, 1));
    return id;
}

int main(int argc, char **argv) {
    static uint8_t image[4096], again[4096];
    folder = argc < 2 ? -1 : open(argv[1], O_RDONLY | O_DIRECTORY | O_CLOEXEC);
    if (folder < 0 || flock(folder, LOCK_EX | LOCK_NB) != 0) {
        fail("log FOLDER [new]");
    }
    is_too_short((relkvanu_answer){.code = RELKVANU_TOO_SHORT, .a = AT_ONCE});
    if (argc > 2) {
        begin();
    }
    open_log();
    recover();
    for (int more = 2; more > 0; more--) {
        tell_sinks(checkpoint());
        discard();
    }

    relkvanu replayed = {0};
    replay(&replayed);
    size_t len = check("save", relkvanu_save(&job, image, sizeof image)).a;
    size_t again_len = check("save", relkvanu_save(&replayed, again, sizeof again)).a;
    relkvanu_close(&replayed);
    relkvanu_close(&job);
    free(files);
    return len == again_len && memcmp(image, again, len) == 0 ? 0 : 1; /* the log has all of the state */
}

/* hostile MEETING OTHERS: each file has the same count of file numbers, one on each line. Those of MEETING were chosen
 * against maps that hash under two words that are 0 (tests/meeting.c). Runs a job whose tasks name them, with each file. The
 * coordinator is opened, and opened again from its image while the files are in use, and while they wait to be fetched.
 * Under random words the chosen numbers must cost at most four times what the others cost. They must cost at least five times
 * as much under words that are 0, be it at the opening or at the openings from images, so the first comparison can fail. The
 * cost is the processor time, the best of twelve runs, since other programs may run beside it. */
#define _GNU_SOURCE
#include "fenced.h"

#include <time.h>
#include <unistd.h>

enum { MOST_FILES = 1 << 17, OF_ONE_ACKNOWLEDGEMENT = 4000, RUNS = 12 };

struct numbers {
    uint64_t items[MOST_FILES];
    size_t len;
};

static void is(relkvanu_answer told, uint32_t what) {
    expect(told, RELKVANU_DONE, what, told.a, told.b, __LINE__);
}

static void read_numbers(const char *path, struct numbers *numbers) {
    FILE *from = fopen(path, "r");
    CHECK(from != NULL);
    while (numbers->len < MOST_FILES && fscanf(from, "%" SCNu64, &numbers->items[numbers->len]) == 1) {
        numbers->len++;
    }
    fclose(from);
}

/* Each subtask acknowledges the record with the next numbers, or with none. The last one completes it. */
static void complete(relkvanu *job, uint64_t now, uint64_t id, uint16_t tasks, const struct numbers *files) {
    for (uint16_t task = 0; task < tasks; task++) {
        size_t first = (size_t)task * OF_ONE_ACKNOWLEDGEMENT, left = files == NULL ? 0 : files->len - first;
        size_t len = left < OF_ONE_ACKNOWLEDGEMENT ? left : OF_ONE_ACKNOWLEDGEMENT;
        const uint64_t *fresh = files == NULL ? NULL : files->items + first;
        is(relkvanu_ack(job, now, id, 0, task, fresh, len, NULL, 0), task + 1 == tasks ? RELKVANU_ACK_COMPLETED : RELKVANU_ACK_PENDING);
    }
}

/* Fetches all files, and reports each as deleted, or as not deleted. */
static void report_all(relkvanu *job, size_t len, relkvanu_answer (*report)(relkvanu *, uint64_t), uint32_t what) {
    static uint64_t files[MOST_FILES];
    DONE(relkvanu_take(job, files, MOST_FILES), RELKVANU_TAKEN, len, 0);
    for (size_t place = 0; place < len; place++) {
        is(report(job, files[place]), what);
    }
}

/* The words that key the maps: those of the opening, and those of each opening from an image. */
struct secrets {
    uint64_t opening[2], saved[2];
};

/* Saves the coordinator, and opens it from its image. */
static void reopen(relkvanu *job, const struct secrets *secrets) {
    size_t len = (size_t)relkvanu_save(job, NULL, 0).a;
    uint8_t *image = malloc(len);
    CHECK(image != NULL);
    DONE(relkvanu_save(job, image, len), RELKVANU_SAVED, len, 0);
    relkvanu_close(job);
    DONE(relkvanu_open_saved(job, image, len, secrets->saved[0], secrets->saved[1]), RELKVANU_OPENED, 0, 0);
    free(image);
}

static void count_all(relkvanu *job, const struct numbers *files) {
    for (size_t place = 0; place < files->len; place++) {
        is(relkvanu_count(job, files->items[place]), RELKVANU_COUNTED);
    }
}

/* A job in which all files are named, counted, dropped with their record, fetched, reported as not deleted, fetched and
 * deleted. Returns the processor time, in seconds. */
static double cost(const struct numbers *files, const struct secrets *secrets) {
    clock_t before = clock();
    relkvanu job = {NULL};
    uint64_t tasks[] = {(files->len + OF_ONE_ACKNOWLEDGEMENT - 1) / OF_ONE_ACKNOWLEDGEMENT};
    DONE(relkvanu_open(&job, &settings, tasks, 1, 0, 1, secrets->opening[0], secrets->opening[1]), RELKVANU_OPENED, 0, 0);
    is(relkvanu_tick(&job, 1000), RELKVANU_TICK_TRIGGERED);
    complete(&job, 1001, 1, (uint16_t)tasks[0], files);
    count_all(&job, files);
    reopen(&job, secrets);
    count_all(&job, files);
    is(relkvanu_tick(&job, 2000), RELKVANU_TICK_TRIGGERED);
    complete(&job, 2001, 2, (uint16_t)tasks[0], NULL);
    reopen(&job, secrets);
    report_all(&job, files->len, relkvanu_undeleted, RELKVANU_UNDELETED);
    report_all(&job, files->len, relkvanu_deleted, RELKVANU_DELETED);
    relkvanu_counts counts = relkvanu_file_counts(&job);
    CHECK(counts.in_use == 0 && counts.waiting == 0 && counts.taken == 0);
    relkvanu_close(&job);
    return (double)(clock() - before) / CLOCKS_PER_SEC;
}

static double lesser(double one, double other) {
    return one < other ? one : other;
}

int main(int count, char **paths) {
    static struct numbers chosen, others;
    struct secrets secret;
    CHECK(count == 3 && getentropy(&secret, sizeof secret) == 0);
    read_numbers(paths[1], &chosen);
    read_numbers(paths[2], &others);
    CHECK(chosen.len != 0 && chosen.len == others.len);
    struct secrets known_at_opening = secret, known_at_images = secret;
    memset(known_at_opening.opening, 0, sizeof known_at_opening.opening);
    memset(known_at_images.saved, 0, sizeof known_at_images.saved);
    double plain = cost(&others, &secret), hidden = cost(&chosen, &secret);
    for (int turn = 1; turn < RUNS; turn++) { /* in turn, so that other programs are beside both */
        plain = lesser(plain, cost(&others, &secret));
        hidden = lesser(hidden, cost(&chosen, &secret));
    }
    double at_opening = cost(&chosen, &known_at_opening), at_images = cost(&chosen, &known_at_images);
    printf("hostile: %zu files, seconds: %.3f of others, %.3f of numbers that meet; under words that are 0 %.3f at the opening, %.3f at "
           "images\n",
        chosen.len, plain, hidden, at_opening, at_images);
    bool is_fast = hidden <= 4 * plain, is_slow = at_opening >= 5 * plain && at_images >= 5 * plain;
    return is_fast && is_slow ? 0 : 1;
}

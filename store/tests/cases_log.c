/* The end of a log: a damaged bit anywhere, or a log that was cut, stops an opening, unless each answered call is there. A commit that a loss of
 * power has torn is no damage. */
#include "cases.h"

enum { CALLS = 400, LIST = 20, PAGE = 8192, WAL_HEADER = 32, FRAME_HEADER = 24, FRAME = FRAME_HEADER + PAGE, MOST = 1 << 22 };

/* A file of the job as it was. */
struct kept {
    const char *name;
    char *bytes;
    size_t len;
};

static void keep(struct kept *kept, const char *name) {
    FILE *it = fopen(in(name), "rb");
    *kept = (struct kept){name, malloc(MOST), 0};
    CHECK(it != NULL && kept->bytes != NULL, "%s", name);
    kept->len = fread(kept->bytes, 1, MOST, it);
    CHECK(kept->len != 0 && kept->len < MOST, "%s: %zu bytes", name, kept->len);
    fclose(it);
}

/* Writes the file as it was, in its place: a new one would be another job's file to the store. */
static void put_back(const struct kept *kept, size_t len) {
    int file = open(in(kept->name), O_RDWR | O_CREAT, 0600);
    CHECK(file >= 0 && ftruncate(file, (off_t)len) == 0 && pwrite(file, kept->bytes, len, 0) == (ssize_t)len, "%s", kept->name);
    close(file);
}

static relkvanu_store_call reservation(void) {
    return (relkvanu_store_call){.call = {.kind = RELKVANU_CALL_RESERVE, .number = 10, .term = 1}};
}

static void reserve_list(relkvanu_store *store, size_t len) {
    relkvanu_store_call calls[CALLS];
    for (size_t i = 0; i < len; i++) {
        calls[i] = reservation();
    }
    CHECK(relkvanu_store_calls(store, calls, len) == RELKVANU_STORE_OK && calls[len - 1].answer.code == RELKVANU_DONE, "reservations");
}

/* Ends as if it was killed. */
static int reserves(void *with) {
    (void)with;
    relkvanu_store *store = new_job_alone(RELKVANU_STORE_NO_IMAGES);
    for (int made = 0; made < CALLS; made += LIST) {
        reserve_list(store, LIST);
    }
    _exit(7);
}

/* How many openings stopped, and how many had all. */
struct tried {
    unsigned stopped, opened;
};

/* Opens the job, which has all answered calls or is refused. */
static void try_opening(struct tried *tried, const char *what, size_t at) {
    relkvanu_store_options options = job_options(RELKVANU_STORE_RECOVER, RELKVANU_STORE_NO_IMAGES);
    relkvanu_store *store;
    int status = relkvanu_store_open(&store, in("x.db"), &options, &report);
    if (status != RELKVANU_STORE_OK) {
        CHECK(report.message[0] != 0 || status == RELKVANU_STORE_ABSENT, "%s, bit %zu: status %d without a message", what, at, status);
        tried->stopped++;
        return;
    }
    CHECK(report.next_name == CALLS * 10 + 1 && report.term == 1, "%s, bit %zu: OK, and the next name is %" PRIu64, what, at,
        report.next_name);
    tried->opened++;
    relkvanu_store_close(store);
}

/* Tries the job with one bit of one of its files changed. */
static void flip(struct tried *tried, struct kept all[3], size_t which, size_t bit) {
    char *byte = &all[which].bytes[bit / 8];
    *byte = (char)(*byte ^ 1 << bit % 8);
    for (size_t i = 0; i < 3; i++) {
        put_back(&all[i], all[i].len);
    }
    try_opening(tried, all[which].name, bit);
    *byte = (char)(*byte ^ 1 << bit % 8);
}

static void keep_all(struct kept all[3]) {
    keep(&all[0], "x.db");
    keep(&all[1], "x.db-wal");
    keep(&all[2], "x.db.lock");
}

static void free_all(struct kept all[3]) {
    for (size_t i = 0; i < 3; i++) {
        free(all[i].bytes);
    }
}

/* Some bits of the headers, and of what is in the pages. The 400 calls are in several commits of the last part of the log. */
CASE(any_bit_of_the_wal) {
    struct kept all[3];
    struct tried tried = {0};
    CHECK(in_child(reserves, NULL) == 7, "the job");
    keep_all(all);
    size_t bits = all[1].len * 8;
    for (size_t bit = 0; bit < bits;) {
        flip(&tried, all, 1, bit);
        size_t byte = bit / 8, place = byte < WAL_HEADER ? 0 : (byte - WAL_HEADER) % FRAME;
        bit += place < FRAME_HEADER ? 5 : 619;
    }
    free_all(all);
    fprintf(stderr, "%zu bits of the -wal: %u openings stopped, %u had all calls\n", bits, tried.stopped, tried.opened);
    CHECK(tried.stopped > 100 && tried.opened > 0, "%u stopped, %u opened", tried.stopped, tried.opened);
}

/* Each bit of the first 12 bytes of each page. Without a -wal: an opening that was killed has brought it into the file. */
static int reopens(void *with) {
    (void)with;
    opens_with(job_options(RELKVANU_STORE_RECOVER, RELKVANU_STORE_NO_IMAGES));
    _exit(7);
}

CASE(any_bit_of_a_page_header) {
    struct kept all[3];
    struct tried tried = {0};
    CHECK(in_child(reserves, NULL) == 7 && in_child(reopens, NULL) == 7, "the job");
    CHECK(truncate(in("x.db-wal"), 0) == 0, "the -wal, which has nothing");
    all[1] = (struct kept){"x.db-wal", NULL, 0};
    keep(&all[0], "x.db");
    keep(&all[2], "x.db.lock");
    for (size_t nth = 0; nth < all[0].len / PAGE * 12 * 8; nth++) {
        size_t page = nth / (12 * 8), bit = nth % (12 * 8);
        flip(&tried, all, 0, (page * PAGE + (page == 0 ? 100 : 0)) * 8 + bit);
    }
    for (size_t byte = 0; byte < all[0].len; byte += 131) { /* and some bits of all that is in them */
        flip(&tried, all, 0, byte * 8 + 4);
    }
    free_all(all);
    fprintf(stderr, "%zu pages: %u openings stopped, %u had all calls\n", all[0].len / PAGE, tried.stopped, tried.opened);
    CHECK(tried.stopped > 50 && tried.opened > 50, "%u stopped, %u opened", tried.stopped, tried.opened);
}

/* How many commits the -wal has, and where the last one begins and ends. */
static unsigned count_commits(const struct kept *wal, size_t *begin, size_t *end) {
    static const char none[4];
    unsigned commits = 0;
    *begin = *end = WAL_HEADER;
    for (size_t at = WAL_HEADER; at + FRAME <= wal->len && memcmp(wal->bytes + at + 8, wal->bytes + 16, 8) == 0; at += FRAME) {
        if (memcmp(wal->bytes + at + 4, none, 4) != 0) {
            *begin = *end;
            *end = at + FRAME;
            commits++;
        }
    }
    return commits;
}

/* Reserves until several commits are in the -wal. Returns how many reservations it took. */
static int fills_the_wal(void *with) {
    struct kept wal;
    size_t begin, end;
    int made = 0;
    (void)with;
    relkvanu_store *store = new_job_alone(RELKVANU_STORE_NO_IMAGES);
    do {
        reserve_list(store, 1);
        made++;
        keep(&wal, "x.db-wal");
    } while (count_commits(&wal, &begin, &end) < 4 && made < 200);
    _exit(made);
}

/* A bit of a page that is not the last one's does not lose calls silently, even if nobody knows how many were answered. */
CASE(damage_without_a_tail) {
    struct kept all[3];
    relkvanu_store_options options = job_options(RELKVANU_STORE_RECOVER, RELKVANU_STORE_NO_IMAGES);
    uint64_t made = (uint64_t)in_child(fills_the_wal, NULL);
    CHECK(made < 200, "no -wal of several commits");
    keep_all(all);
    all[1].bytes[WAL_HEADER + FRAME_HEADER + 100] ^= 4; /* of the first commit of several */
    put_back(&all[1], all[1].len);
    CHECK(truncate(in("x.db.lock"), 0) == 0, "the tail");
    opens(&options, RELKVANU_STORE_DAMAGED);
    CHECK(says("x.db-wal: the frame at byte 32 is damaged, and ") && says("later commits would be lost"), "%s", report.message);
    all[1].bytes[WAL_HEADER + FRAME_HEADER + 100] ^= 4;
    put_back(&all[1], all[1].len);
    relkvanu_store_close(opens(&options, RELKVANU_STORE_OK)); /* it was left as it was */
    CHECK(report.next_name == made * 10 + 1, "next name %" PRIu64, report.next_name);
    free_all(all);
}

enum { LAST_LIST = 400 };

/* A commit of 20 calls and one of 400. Keeps the tail of the first one. */
static int makes_torn(void *with) {
    struct kept lock;
    (void)with;
    relkvanu_store *store = new_job_alone(RELKVANU_STORE_NO_IMAGES);
    reserve_list(store, LIST);
    keep(&lock, "x.db.lock");
    reserve_list(store, LAST_LIST);
    int file = open(in("lock before"), O_WRONLY | O_CREAT, 0600);
    CHECK(write(file, lock.bytes, lock.len) == (ssize_t)lock.len, "the tail before");
    _exit(7);
}

/* Opens the job with the first bytes of its -wal, and tells how many calls it has. */
static uint64_t calls_of_cut(struct kept all[3], const struct kept *lock, size_t len) {
    relkvanu_store_options options = job_options(RELKVANU_STORE_RECOVER, RELKVANU_STORE_NO_IMAGES);
    struct kept tail = {"x.db.lock", lock->bytes, lock->len};
    put_back(&all[0], all[0].len);
    put_back(&all[1], len);
    put_back(&tail, tail.len);
    relkvanu_store *store;
    int status = relkvanu_store_open(&store, in("x.db"), &options, &report);
    relkvanu_store_close(store);
    CHECK(status == RELKVANU_STORE_OK || status == RELKVANU_STORE_DAMAGED, "status %d: %s", status, report.message);
    return status == RELKVANU_STORE_OK ? (report.next_name - 1) / 10 : UINT64_MAX;
}

/* 300 cuts within the last commit, which nobody was told of, and each of its frames lost. None is damage. Once its callers were told, each is. */
CASE(torn_last_commits) {
    struct kept all[3], before;
    size_t begin, end;
    CHECK(in_child(makes_torn, NULL) == 7, "the job");
    keep_all(all);
    keep(&before, "lock before");
    count_commits(&all[1], &begin, &end);
    CHECK(end - begin >= 2 * FRAME, "a commit of %zu bytes", end - begin);
    for (size_t i = 0; i < 300; i++) {
        size_t len = begin + (end - begin) * i / 300;
        uint64_t calls = calls_of_cut(all, &before, len), told = calls_of_cut(all, &all[2], len);
        CHECK(calls == LIST && told == UINT64_MAX, "cut at %zu: %" PRIu64 " calls, %" PRIu64, len, calls, told);
    }
    CHECK(says("its log ends with call 20, and call 420 was answered"), "%s", report.message);
    for (size_t at = begin; at < end; at += FRAME) {
        char frame[FRAME];
        memcpy(frame, all[1].bytes + at, FRAME);
        memset(all[1].bytes + at, 0, FRAME);
        CHECK(calls_of_cut(all, &before, all[1].len) == LIST, "a frame at %zu", at);
        memcpy(all[1].bytes + at, frame, FRAME);
    }
    CHECK(calls_of_cut(all, &before, all[1].len) == LIST + LAST_LIST && calls_of_cut(all, &all[2], all[1].len) == LIST + LAST_LIST);
    free_all(all);
    free(before.bytes);
}

/* The tail is of one file: another one in its place, with fewer calls, is no damage. An older state of the same one is. */
CASE(an_older_file) {
    relkvanu_store_options options = job_options(RELKVANU_STORE_CREATE, RELKVANU_STORE_NO_IMAGES);
    struct kept older;
    relkvanu_store *store = opens(&options, RELKVANU_STORE_OK);
    reserve_list(store, LIST);
    relkvanu_store_close(store);
    keep(&older, "x.db");
    store = opens(&options, RELKVANU_STORE_OK);
    reserve_list(store, LIST);
    relkvanu_store_close(store);
    put_back(&older, older.len);
    CHECK(truncate(in("x.db-wal"), 0) == 0, "-wal");
    opens_not(&options, RELKVANU_STORE_DAMAGED, "call 40 was answered");
    CHECK(rename(in("x.db"), in("away")) == 0, "away");
    put_back(&older, older.len);
    relkvanu_store_close(opens(&options, RELKVANU_STORE_OK));
    CHECK(report.next_name == LIST * 10 + 1, "next name %" PRIu64, report.next_name);
    free(older.bytes);
}

/* A tail whose own sum does not fit says nothing. */
CASE(a_damaged_tail) {
    struct kept lock;
    relkvanu_store *store = new_job_alone(RELKVANU_STORE_NO_IMAGES);
    reserve_list(store, LIST);
    relkvanu_store_close(store);
    keep(&lock, "x.db.lock");
    char *tail = strstr(lock.bytes + 64, "tail ");
    CHECK(tail != NULL && strstr(tail, " 20 ") != NULL, "no tail of call 20");
    tail[10] = (char)(tail[10] ^ 1); /* its own sum is another one: it is no tail */
    put_back(&lock, lock.len);
    relkvanu_store_close(new_job_alone(RELKVANU_STORE_NO_IMAGES));
    CHECK(report.next_name == LIST * 10 + 1, "next name %" PRIu64, report.next_name);
    free(lock.bytes);
}

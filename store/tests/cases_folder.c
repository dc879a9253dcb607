/* A folder as a storage: its marker, files with any names, links, pages, and ends in the middle. And storages of an engine. */
#include "cases.h"

#include <linux/filter.h>
#include <linux/seccomp.h>
#include <signal.h>
#include <stddef.h>
#include <sys/prctl.h>
#include <sys/syscall.h>
#include <sys/wait.h>

static bool has(const char *name) {
    struct stat found;
    return lstat(in(name), &found) == 0;
}

static relkvanu_storage_options state_of(const char *job) {
    static char path[PATHS];
    snprintf(path, sizeof path, "%s", in("state"));
    CHECK(mkdir(path, 0700) == 0 || errno == EEXIST, "%s", path);
    return (relkvanu_storage_options){.flags = RELKVANU_STORAGE_NEW, .path = path, .job = job};
}

static void folder_opens(const relkvanu_storage_options *options, int status) {
    relkvanu_storage storage;
    int got = relkvanu_storage_open_folder(&storage, options);
    CHECK(got == status && (storage.with != NULL) == (got == RELKVANU_STORAGE_OK), "status %d, not %d", got, status);
    relkvanu_storage_close_folder(&storage);
    relkvanu_storage_close_folder(&storage);
}

static relkvanu_storage opened(const char *prefix, const char *suffix) {
    relkvanu_storage storage;
    relkvanu_storage_options options = state_of("orders");
    options.prefix = prefix;
    options.suffix = suffix;
    int status = relkvanu_storage_open_folder(&storage, &options);
    CHECK(status == RELKVANU_STORAGE_OK, "status %d, errno %d", status, errno);
    return storage;
}

static void puts_into(const relkvanu_storage *it, uint64_t file, const char *text, int status) {
    int got = it->put(it->with, file, text, strlen(text));
    CHECK(got == status, "file %" PRIu64 ": status %d, not %d", file, got, status);
}

static void reads(const relkvanu_storage *it, uint64_t file, const char *text) {
    char found[64];
    uint64_t len;
    CHECK(it->get(it->with, file, found, sizeof found, &len) == RELKVANU_STORAGE_OK, "file %" PRIu64, file);
    CHECK(len == strlen(text) && memcmp(found, text, len) == 0, "file %" PRIu64, file);
}

/* What a listing found: how often each of a few files, the greatest page, and all bytes. */
struct found {
    unsigned counts[3000], pages;
    size_t greatest, all;
    uint64_t bytes;
    unsigned ends_after;
};

static bool note(void *with, const relkvanu_storage_file *files, size_t len) {
    struct found *found = with;
    for (size_t i = 0; i < len; i++) {
        found->counts[files[i].file < 3000 ? files[i].file : 2999]++;
        found->bytes += files[i].bytes;
    }
    found->all += len;
    found->greatest = len > found->greatest ? len : found->greatest;
    return ++found->pages != found->ends_after;
}

static struct found listed(const relkvanu_storage *it, size_t most) {
    struct found found = {.pages = 0};
    int status = it->list(it->with, most, note, &found);
    CHECK(status == RELKVANU_STORAGE_OK, "status %d", status);
    return found;
}

CASE(a_marker_names_the_job) {
    relkvanu_storage_options new = state_of("orders"), again = new, other = state_of("others");
    char text[80] = "";
    again.flags = RELKVANU_STORAGE_RECOVER;
    folder_opens(&again, RELKVANU_STORAGE_NOT_THERE);
    folder_opens(&new, RELKVANU_STORAGE_OK);
    folder_opens(&new, RELKVANU_STORAGE_OK);
    folder_opens(&again, RELKVANU_STORAGE_OK);
    FILE *marker = fopen(in("state/.relkvanu-storage"), "r"); /* as Python writes it */
    CHECK(fread(text, 1, sizeof text - 1, marker) != 0 && strcmp(text, "relkvanu: state files of the job orders\n") == 0, "%s", text);
    fclose(marker);
    folder_opens(&other, RELKVANU_STORAGE_OTHER_JOB);
    again.marker_text = "relkvanu: state files of the job orders"; /* shorter */
    folder_opens(&again, RELKVANU_STORAGE_OTHER_JOB);
    again.marker_text = "relkvanu: state files of the job orders\n\n";
    folder_opens(&again, RELKVANU_STORAGE_OTHER_JOB);
    again.marker_text = NULL;
    again.path = in("none");
    folder_opens(&again, RELKVANU_STORAGE_NOT_THERE);
}

CASE(a_new_job_needs_an_empty_folder) {
    relkvanu_storage_options new = state_of("orders");
    write_text("state/notes", "");
    write_text("state/7.part", "");
    folder_opens(&new, RELKVANU_STORAGE_NOT_EMPTY);
    CHECK(!has("state/.relkvanu-storage") && rename(in("state/7.part"), in("state/7")) == 0, "a marker");
    folder_opens(&new, RELKVANU_STORAGE_NOT_EMPTY);
    unlink(in("state/7"));
    write_text("state/.relkvanu-storage.part", "relk"); /* one that was killed */
    folder_opens(&new, RELKVANU_STORAGE_OK);
    CHECK(has("state/.relkvanu-storage") && !has("state/.relkvanu-storage.part"), "no marker");
}

CASE(bad_arguments_of_a_folder) {
    relkvanu_storage_options good = state_of("orders"), bad[12];
    char longest[RELKVANU_STORAGE_MOST_AFFIX + 2] = "";
    memset(longest, 'x', RELKVANU_STORAGE_MOST_AFFIX + 1);
    for (size_t i = 0; i < 12; i++) {
        bad[i] = good;
    }
    bad[0].path = NULL, bad[1].job = NULL, bad[2].job = "", bad[3].job = "a\nb", bad[4].prefix = "a/", bad[5].suffix = "/b";
    bad[6].prefix = longest, bad[7].flags = 2, bad[8].reserved[3] = 1, bad[9].marker_name = "..", bad[10].marker_name = "a/b";
    bad[11].marker_name = "7";
    for (size_t i = 0; i < 12; i++) {
        folder_opens(&bad[i], RELKVANU_STORAGE_BAD_ARGUMENT);
    }
    CHECK(rmdir(in("state")) == 0, "something was made");
    good = state_of("orders");
    longest[RELKVANU_STORAGE_MOST_AFFIX] = 0;
    good.suffix = longest;
    relkvanu_storage storage;
    CHECK(relkvanu_storage_open_folder(&storage, &good) == RELKVANU_STORAGE_OK, "the longest");
    puts_into(&storage, UINT64_MAX, "x", RELKVANU_STORAGE_OK);
    reads(&storage, UINT64_MAX, "x");
    relkvanu_storage_close_folder(&storage);
}

CASE(files_of_a_folder) {
    relkvanu_storage it = opened(NULL, NULL);
    uint64_t files[] = {UINT64_MAX, 0, 5, 6, 8}, len = 0;
    uint8_t outcomes[5];
    char found[4] = "";
    puts_into(&it, UINT64_MAX, "state", RELKVANU_STORAGE_OK);
    puts_into(&it, 0, "", RELKVANU_STORAGE_OK);
    puts_into(&it, 0, "other", RELKVANU_STORAGE_PRESENT);
    reads(&it, 0, "");
    CHECK(it.get(it.with, UINT64_MAX, found, 3, &len) == RELKVANU_STORAGE_OK && len == 5 && memcmp(found, "sta", 4) == 0, "%s", found);
    CHECK(it.get(it.with, 7, found, 3, &len) == RELKVANU_STORAGE_ABSENT, "file 7");
    write_text("state/5.part", "");
    puts_into(&it, 5, "state", RELKVANU_STORAGE_PRESENT);
    CHECK(mkdir(in("state/6"), 0700) == 0 && listed(&it, 0).all == 3, "%zu files", listed(&it, 0).all);
    CHECK(it.delete_files(it.with, files, 5, outcomes) == RELKVANU_STORAGE_OK, "no deletion");
    const uint8_t wanted[] = {
        RELKVANU_STORAGE_DELETED, RELKVANU_STORAGE_DELETED, RELKVANU_STORAGE_DELETED, RELKVANU_STORAGE_UNDELETED, RELKVANU_STORAGE_MISSING};
    CHECK(memcmp(outcomes, wanted, sizeof wanted) == 0 && has("state/6"), "the outcomes");
    CHECK(listed(&it, 0).all == 0 && it.delete_files(it.with, NULL, 0, NULL) == RELKVANU_STORAGE_OK, "files are left");
    relkvanu_storage_close_folder(&it);
}

/* A file of more than 1000 bytes can't be written. */
CASE(one_that_can_not_be_put) {
    relkvanu_storage it = opened(NULL, NULL);
    static char contents[2000];
    limit_files(1000);
    int status = it.put(it.with, 7, contents, sizeof contents), error = errno;
    limit_files(0);
    CHECK(status == RELKVANU_STORAGE_FAILED && error == EFBIG && listed(&it, 0).all == 0, "status %d, errno %d", status, error);
    CHECK(it.put(it.with, 7, contents, sizeof contents) == RELKVANU_STORAGE_OK, "the same number once more");
    relkvanu_storage_close_folder(&it);
}

/* A put and a deletion while the sync of a file or of the folder fails with this errno. */
static void fails_to_sync(const relkvanu_storage *it, const char *end, int error) {
    fail_syncs(end, error);
    puts_into(it, 7, "state", RELKVANU_STORAGE_FAILED);
    CHECK(errno == error && !has("state/7") && !has("state/7.part"), "errno %d, not %d", errno, error);
    fail_syncs("", 0);
}

static void fails_to_delete(const relkvanu_storage *it, int error) {
    puts_into(it, 8, "state", RELKVANU_STORAGE_OK);
    fail_syncs("/state", error);
    deletes_file(it, 8, RELKVANU_STORAGE_FAILED, RELKVANU_STORAGE_UNDELETED);
    CHECK(errno == error, "errno %d, not %d", errno, error);
    fail_syncs("", 0);
}

static const int SYNC_ERRORS[] = {EIO, ENOSPC, EDQUOT, EROFS, EPERM, EACCES, EBADF, EINTR, EAGAIN, ENOSYS, EOPNOTSUPP, ENODEV, ESTALE};
enum { SYNC_ERRORS_LEN = sizeof SYNC_ERRORS / sizeof *SYNC_ERRORS };

/* Of all errors of a sync one is taken: EINVAL, of a folder. A file system that can't sync a folder says so. */
CASE(syncs_that_fail) {
    relkvanu_storage it = opened(NULL, NULL);
    for (int i = 0; i < SYNC_ERRORS_LEN; i++) {
        fails_to_sync(&it, "/state/7.part", SYNC_ERRORS[i]);
        fails_to_sync(&it, "/state", SYNC_ERRORS[i]);
        fails_to_delete(&it, SYNC_ERRORS[i]);
    }
    fails_to_sync(&it, "/state/7.part", EINVAL);
    fail_syncs("/state", EINVAL);
    puts_into(&it, 7, "state", RELKVANU_STORAGE_OK);
    reads(&it, 7, "state");
    deletes_file(&it, 7, RELKVANU_STORAGE_OK, RELKVANU_STORAGE_DELETED);
    relkvanu_storage_close_folder(&it);
}

/* Nor is a storage begun, unless the file system syncs no folder at all. */
CASE(a_marker_that_is_not_synced) {
    relkvanu_storage_options new = state_of("orders");
    for (int i = 0; i < SYNC_ERRORS_LEN; i++) {
        fail_syncs("/state", SYNC_ERRORS[i]);
        folder_opens(&new, RELKVANU_STORAGE_FAILED);
        fail_syncs("/state/.relkvanu-storage.part", SYNC_ERRORS[i]);
        folder_opens(&new, RELKVANU_STORAGE_FAILED);
        CHECK(!has("state/.relkvanu-storage") && !has("state/.relkvanu-storage.part"), "a marker after errno %d", SYNC_ERRORS[i]);
    }
    fail_syncs("/state/.relkvanu-storage.part", EINVAL);
    folder_opens(&new, RELKVANU_STORAGE_FAILED);
    fail_syncs("/state", EINVAL);
    folder_opens(&new, RELKVANU_STORAGE_OK);
}

/* From now on the process is killed when it gives a file another name. */
static void die_at_renames(void) {
    struct sock_filter steps[] = {
        BPF_STMT(BPF_LD | BPF_W | BPF_ABS, offsetof(struct seccomp_data, nr)),
        BPF_JUMP(BPF_JMP | BPF_JEQ | BPF_K, SYS_renameat, 1, 0),
        BPF_JUMP(BPF_JMP | BPF_JEQ | BPF_K, SYS_renameat2, 0, 1),
        BPF_STMT(BPF_RET | BPF_K, SECCOMP_RET_KILL_PROCESS),
        BPF_STMT(BPF_RET | BPF_K, SECCOMP_RET_ALLOW),
    };
    struct sock_fprog program = {.len = sizeof steps / sizeof *steps, .filter = steps};
    CHECK(prctl(PR_SET_NO_NEW_PRIVS, 1, 0, 0, 0) == 0 && prctl(PR_SET_SECCOMP, SECCOMP_MODE_FILTER, &program) == 0, "errno %d", errno);
}

/* A put that is killed between its write and its rename leaves a file that is listed and deleted, and that no other put overwrites. */
CASE(killed_before_the_rename) {
    relkvanu_storage it = opened("s-", ".bin");
    int status;
    fflush(NULL);
    pid_t child = fork();
    if (child == 0) {
        die_at_renames();
        _exit(it.put(it.with, 7, "state", 5));
    }
    CHECK(waitpid(child, &status, 0) == child && WIFSIGNALED(status) && WTERMSIG(status) == SIGSYS, "a child ended with %x",
        (unsigned)status);
    CHECK(has("state/s-7.bin.part") && !has("state/s-7.bin"), "the folder");
    struct found found = listed(&it, 0);
    CHECK(found.all == 1 && found.counts[7] == 1 && found.bytes == 5, "%zu files", found.all);
    puts_into(&it, 7, "other", RELKVANU_STORAGE_PRESENT);
    deletes_file(&it, 7, RELKVANU_STORAGE_OK, RELKVANU_STORAGE_DELETED);
    CHECK(!has("state/s-7.bin.part") && listed(&it, 0).all == 0, "a part is left");
    relkvanu_storage_close_folder(&it);
}

CASE(links_are_not_followed) {
    relkvanu_storage it = opened(NULL, NULL);
    uint64_t len;
    char found[8];
    write_text("elsewhere", "state");
    CHECK(symlink("../elsewhere", in("state/7")) == 0 && symlink("../made", in("state/8.part")) == 0, "links");
    CHECK(listed(&it, 0).all == 0, "a link is listed");
    CHECK(it.get(it.with, 7, found, sizeof found, &len) == RELKVANU_STORAGE_FAILED && errno == ELOOP, "errno %d", errno);
    puts_into(&it, 7, "other", RELKVANU_STORAGE_PRESENT);
    puts_into(&it, 8, "other", RELKVANU_STORAGE_PRESENT);
    CHECK(!has("state/7.part") && !has("made"), "a put");
    deletes_file(&it, 7, RELKVANU_STORAGE_OK, RELKVANU_STORAGE_DELETED);
    CHECK(!has("state/7") && has("elsewhere"), "a deletion");
    CHECK(rename(in("state/.relkvanu-storage"), in("marker")) == 0 && symlink("../marker", in("state/.relkvanu-storage")) == 0);
    CHECK(it.check(it.with) == RELKVANU_STORAGE_FAILED && errno == ELOOP, "errno %d", errno);
    puts_into(&it, 9, "state", RELKVANU_STORAGE_FAILED);
    CHECK(!has("state/9") && !has("state/9.part"), "a put");
    relkvanu_storage_close_folder(&it);
}

/* Nothing is put, and nothing counts as deleted. */
static void refuses_all(const relkvanu_storage *it, int status) {
    uint64_t files[] = {7, 8};
    uint8_t outcomes[] = {9, 9};
    CHECK(it->check(it->with) == status, "check");
    puts_into(it, 9, "state", status);
    CHECK(it->delete_files(it->with, files, 2, outcomes) == status && outcomes[0] == 0 && outcomes[1] == 0, "outcome %d", outcomes[0]);
}

CASE(the_marker_of_another_job) {
    relkvanu_storage it = opened(NULL, NULL);
    puts_into(&it, 7, "state", RELKVANU_STORAGE_OK);
    CHECK(rename(in("state/.relkvanu-storage"), in("marker")) == 0, "the marker");
    refuses_all(&it, RELKVANU_STORAGE_NOT_THERE);
    write_text("state/.relkvanu-storage", "relkvanu: state files of the job others\n");
    refuses_all(&it, RELKVANU_STORAGE_OTHER_JOB);
    CHECK(has("state/7") && !has("state/9") && !has("state/9.part"), "the folder");
    CHECK(rename(in("marker"), in("state/.relkvanu-storage")) == 0 && it.check(it.with) == RELKVANU_STORAGE_OK, "the marker");
    relkvanu_storage_close_folder(&it);
}

/* It stays open, so another one at its path is not reached. */
CASE(the_folder_is_removed) {
    relkvanu_storage it = opened(NULL, NULL);
    struct found found = {.pages = 0};
    puts_into(&it, 7, "state", RELKVANU_STORAGE_OK);
    CHECK(rename(in("state"), in("away")) == 0 && mkdir(in("state"), 0700) == 0, "the folder");
    write_text("state/7", "");
    write_text("state/8", "");
    puts_into(&it, 9, "state", RELKVANU_STORAGE_OK);
    CHECK(has("away/9") && !has("state/9") && listed(&it, 0).all == 2, "the folder");
    CHECK(unlink(in("away/7")) == 0 && unlink(in("away/9")) == 0 && unlink(in("away/.relkvanu-storage")) == 0 && rmdir(in("away")) == 0);
    refuses_all(&it, RELKVANU_STORAGE_NOT_THERE);
    int status = it.list(it.with, 0, note, &found); /* a removed folder is an empty one, where it can be read */
    CHECK((status == RELKVANU_STORAGE_OK || status == RELKVANU_STORAGE_NOT_THERE) && found.pages == 0, "status %d", status);
    fail_opens(".", ENOENT); /* where it can't */
    CHECK(it.list(it.with, 0, note, &found) == RELKVANU_STORAGE_NOT_THERE && found.pages == 0, "it is there");
    fail_opens(".", EIO);
    CHECK(it.list(it.with, 0, note, &found) == RELKVANU_STORAGE_FAILED && found.pages == 0, "it is listed");
    fail_opens("", 0);
    CHECK(has("state/7") && has("state/8"), "the other folder");
    relkvanu_storage_close_folder(&it);
}

CASE(names_with_unusual_bytes) {
    static const char *const others[] = {"state/a b\n\xff%s-07\x01\"", "state/a b\n\xff%s-+7\x01\"",
        "state/a b\n\xff%s-18446744073709551616\x01\"", "state/a b\n\xff%s-\x01\"", "state/a b\n\xff%s-7\x01\".part.part", "state/7",
        "state/a b\n\xff%s-7", "state/7\x01\"", "state/a b\n\xff%s- 7\x01\""};
    relkvanu_storage it = opened("a b\n\xff%s-", "\x01\"");
    uint64_t files[] = {7, 8};
    uint8_t outcomes[2];
    for (size_t i = 0; i < sizeof others / sizeof *others; i++) {
        write_text(others[i], "");
    }
    CHECK(listed(&it, 0).all == 0, "%zu files", listed(&it, 0).all);
    puts_into(&it, 7, "state", RELKVANU_STORAGE_OK);
    write_text("state/a b\n\xff%s-8\x01\".part", "");
    CHECK(has("state/a b\n\xff%s-7\x01\"") && has("state/a b\n\xff%s-.relkvanu-storage"), "the names");
    struct found found = listed(&it, 0);
    CHECK(found.all == 2 && found.counts[7] == 1 && found.counts[8] == 1, "%zu files", found.all);
    CHECK(it.delete_files(it.with, files, 2, outcomes) == RELKVANU_STORAGE_OK && outcomes[0] == 1 && outcomes[1] == 1 &&
          listed(&it, 0).all == 0);
    for (size_t i = 0; i < sizeof others / sizeof *others; i++) {
        CHECK(has(others[i]), "%s", others[i]);
    }
    relkvanu_storage_close_folder(&it);
}

/* A prefix and a suffix of digits: no name has two numbers. */
CASE(names_with_digits) {
    relkvanu_storage it = opened("1", "0");
    puts_into(&it, 7, "", RELKVANU_STORAGE_OK);
    puts_into(&it, 10, "", RELKVANU_STORAGE_OK);
    write_text("state/10", "");
    write_text("state/1070", "");
    struct found found = listed(&it, 0);
    CHECK(has("state/170") && has("state/1100") && found.all == 2 && found.counts[7] == 1 && found.counts[10] == 1, "%zu files", found.all);
    relkvanu_storage_close_folder(&it);
}

CASE(pages_of_a_listing) {
    relkvanu_storage it = opened(NULL, NULL);
    char name[PATHS];
    struct found ended = {.ends_after = 2};
    for (int file = 0; file < 2500; file++) {
        snprintf(name, sizeof name, "state/%d%s", file, file % 3 == 0 ? ".part" : "");
        write_text(name, "x");
    }
    write_text("state/1", "xyz");
    write_text("state/1.part", "");
    static const size_t most[] = {0, 1000, 7, 1, 100000};
    for (size_t i = 0; i < sizeof most / sizeof *most; i++) {
        struct found found = listed(&it, most[i]);
        size_t greatest = most[i] == 0 || most[i] > 1000 ? 1000 : most[i];
        CHECK(found.all == 2501 && found.greatest == greatest && found.pages == (2501 + greatest - 1) / greatest && found.bytes == 2502,
            "%zu files", found.all);
        for (int file = 0; file < 2500; file++) {
            CHECK(found.counts[file] == (file == 1 ? 2 : 1), "file %d", file);
        }
    }
    CHECK(it.list(it.with, 10, note, &ended) == RELKVANU_STORAGE_ENDED && ended.all == 20, "%zu files", ended.all);
    relkvanu_storage_close_folder(&it);
}

static bool delete_page(void *with, const relkvanu_storage_file *files, size_t len) {
    relkvanu_storage *it = with;
    for (size_t i = 0; i < len; i++) {
        deletes_file(it, files[i].file, RELKVANU_STORAGE_OK, RELKVANU_STORAGE_DELETED);
    }
    return true;
}

struct worker {
    relkvanu_storage *it;
    uint64_t first;
};

static void *puts_many(void *with) {
    struct worker *worker = with;
    for (uint64_t file = worker->first; file < worker->first + 50; file++) {
        puts_into(worker->it, file, "state", RELKVANU_STORAGE_OK);
    }
    return NULL;
}

static void *lists_many(void *with) {
    struct worker *worker = with;
    for (int times = 0; times < 20; times++) {
        struct found found = listed(worker->it, 3);
        CHECK(found.counts[1] == 1 && found.counts[2] == 1, "a listing saw a part of the folder");
    }
    return NULL;
}

CASE(threads_share_a_folder) {
    relkvanu_storage it = opened(NULL, NULL);
    struct worker workers[] = {{&it, 100}, {&it, 200}, {&it, 0}, {&it, 0}};
    pthread_t threads[4];
    puts_into(&it, 1, "", RELKVANU_STORAGE_OK);
    puts_into(&it, 2, "", RELKVANU_STORAGE_OK);
    for (int i = 0; i < 4; i++) {
        threads[i] = starts(i < 2 ? puts_many : lists_many, &workers[i]);
    }
    for (int i = 0; i < 4; i++) {
        pthread_join(threads[i], NULL);
    }
    CHECK(listed(&it, 0).all == 102, "%zu files", listed(&it, 0).all);
    CHECK(it.list(it.with, 10, delete_page, &it) == RELKVANU_STORAGE_OK && listed(&it, 0).all == 0, "deletions in a listing");
    relkvanu_storage_close_folder(&it);
}

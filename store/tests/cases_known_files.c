/* Checksums of files in manifests: how they come there, what they find, and that they go along wherever a record goes. */
#include "cases.h"

#include <sys/syscall.h>

/* The check value of CRC-32, as its published descriptions have it: of the first nine bytes of CONTENTS. */
static const char SUM[] = "cbf43926";
enum { LENGTH = 9, MOST_FAULTS = 32 };

static struct fault {
    uint64_t record, file;
    uint32_t fault;
} faults[MOST_FAULTS];
static size_t faults_len;

static int link_error;

/* In place of that of the C library: 0, or what each link fails with. */
int linkat(int from, const char *name, int to, const char *other, int flags) {
    if (link_error != 0) {
        errno = link_error;
        return -1;
    }
    return (int)syscall(SYS_linkat, from, name, to, other, flags);
}

static bool note_fault(void *with, uint64_t record, uint64_t file, uint32_t fault) {
    CHECK(with == records && faults_len < MOST_FAULTS, "a fault");
    faults[faults_len++] = (struct fault){.record = record, .file = file, .fault = fault};
    return true;
}

/* Reads all. Returns how many files are not as they should be. */
static size_t checks(const char *folder) {
    faults_len = records_len = 0;
    int status = relkvanu_store_check_records(in(folder), note_record, note_fault, records, message, sizeof message);
    CHECK(status == RELKVANU_STORE_OK && message[0] == 0, "status %d: %s", status, message);
    return faults_len;
}

static relkvanu_store *opens_new(void) {
    return opens_with(storage_options(RELKVANU_STORE_CREATE | RELKVANU_STORE_MANIFESTS | RELKVANU_STORE_CHECKSUMS, 0));
}

static relkvanu_store *opens_again(void) {
    return opens_with(storage_options(RELKVANU_STORE_MANIFESTS | RELKVANU_STORE_CHECKSUMS, 0));
}

static const char *file_in(const char *folder, uint64_t file) {
    char name[PATHS];
    snprintf(name, sizeof name, "%s/%" PRIu64, folder, file);
    return in(name);
}

/* One bit of the file changes, and its length does not. */
static void flips(const char *folder, uint64_t file) {
    char byte;
    int it = open(file_in(folder, file), O_RDWR);
    CHECK(it >= 0 && pread(it, &byte, 1, 4) == 1, "file %" PRIu64, file);
    byte ^= 1;
    CHECK(pwrite(it, &byte, 1, 4) == 1 && close(it) == 0, "file %" PRIu64, file);
}

static void is_fault(size_t nth, uint64_t record, uint64_t file, uint32_t fault) {
    const struct fault *it = &faults[nth];
    CHECK(nth < faults_len && it->record == record && it->file == file && it->fault == fault,
        "%zu faults; record %" PRIu64 ", file %" PRIu64 ": %" PRIu32, faults_len, it->record, it->file, it->fault);
}

/* They are in manifests if the engine asks for them, and not without manifests. */
CASE(checksums_of_files) {
    uint64_t first;
    char words[64];
    relkvanu_store_options options = storage_options(RELKVANU_STORE_CREATE | RELKVANU_STORE_CHECKSUMS, 0);
    opens_not(&options, RELKVANU_STORE_BAD_ARGUMENT, "RELKVANU_STORE_MANIFESTS");
    relkvanu_store *store = opens_new();
    CHECK(completes_with(store, RELKVANU_CALL_TRIGGER, LENGTH, 0, &first) == 1, "the number");
    snprintf(words, sizeof words, "\"files\":{\"%" PRIu64 "\":9},\"sums\":[\"%s\"]}", first + 3, SUM);
    CHECK(manifest_says(1, words) != NULL, "%s", words);
    CHECK(checks("storage") == 0 && records_len == 1 && records[0].unknown == 0 && records[0].is_next && records[0].files == 8);
    relkvanu_store_close(store);
}

/* What is wrong with a file is told by its number. Without reading it only another length is seen. */
CASE(files_that_changed) {
    uint64_t first;
    relkvanu_store *store = opens_new();
    completes_with(store, RELKVANU_CALL_TRIGGER, LENGTH, 0, &first);
    flips("storage", first + 1);
    CHECK(list_records("storage") == 1 && records[0].missing == 0 && records[0].is_next, "it was not read");
    CHECK(checks("storage") == 1 && records[0].missing == 0 && records[0].changed == 1, "%zu faults", faults_len);
    is_fault(0, 1, first + 1, RELKVANU_STORE_FILE_CHANGED);
    CHECK(truncate(file_in("storage", first + 2), 4) == 0 && unlink(file_in("storage", first + 4)) == 0, "the files");
    CHECK(unlink(file_in("storage", first + 6)) == 0 && symlink(file_in("storage", first), file_in("storage", first + 6)) == 0, "a link");
    CHECK(checks("storage") == 4 && records[0].missing == 3 && records[0].changed == 1 && !records[0].is_next, "%zu faults", faults_len);
    is_fault(0, 1, first + 1, RELKVANU_STORE_FILE_CHANGED);
    is_fault(1, 1, first + 2, RELKVANU_STORE_FILE_LENGTH);
    is_fault(2, 1, first + 4, RELKVANU_STORE_FILE_MISSING);
    is_fault(3, 1, first + 6, RELKVANU_STORE_FILE_MISSING);
    relkvanu_store_close(store);
}

/* A file is read once: a later record, a later opening, and a job that is made again keep the checksum from before. */
CASE(kept_checksums) {
    uint64_t first, later, saved;
    relkvanu_store *store = opens_new();
    completes_with(store, RELKVANU_CALL_TRIGGER, LENGTH, 0, &first);
    uint64_t savepoint = completes_with(store, RELKVANU_CALL_SAVEPOINT, LENGTH, 0, &saved);
    flips("storage", first);
    flips("storage", saved);
    uint64_t id = completes_with(store, RELKVANU_CALL_TRIGGER, LENGTH, first, &later);
    for (int opening = 0; opening < 2; opening++) {
        CHECK(checks("storage") == 2 && records_len == 2, "%zu faults", faults_len);
        is_fault(0, savepoint, saved, RELKVANU_STORE_FILE_CHANGED);
        is_fault(1, id, first, RELKVANU_STORE_FILE_CHANGED);
        relkvanu_store_close(store);
        store = opens_again();
    }
    lose_job_of(store);
    recovers("x.db", "storage", 0, RELKVANU_STORE_OK);
    CHECK(recovered.record == id && recovered.savepoints == 1, "record %" PRIu64, recovered.record);
    relkvanu_store_close(opens_again());
    CHECK(checks("storage") == 3 && records_len == 3 && records[0].unknown == 0, "%zu faults",
        faults_len); /* that of the old savepoint is left */
    is_fault(1, id, first, RELKVANU_STORE_FILE_CHANGED);
    is_fault(2, records[2].id, saved, RELKVANU_STORE_FILE_CHANGED);
}

/* The choice is lost: a file of it has another length than when it was complete. */
static void is_lost(relkvanu_store *store, uint64_t file, const char *words) {
    char why[200];
    relkvanu_store_loaded loaded;
    CHECK(relkvanu_store_load(store, 0, &loaded, NULL, NULL) == RELKVANU_STORE_FILE_LOST && loaded.lost == file, "file %" PRIu64,
        loaded.lost);
    CHECK(relkvanu_store_why(why, sizeof why) != 0 && strstr(why, words) != NULL, "%s", why);
    relkvanu_store_record last = records[list_records("storage") - 1];
    CHECK(last.missing == 1 && !last.is_next && last.bytes == last.files * LENGTH, "%" PRIu64 " files of %" PRIu64 " bytes", last.missing,
        last.bytes);
}

/* A file that was cut, or lost and cut, stays lost: no opening and no later record that reuses it takes its length anew. */
CASE(kept_lengths) {
    uint64_t first, later;
    relkvanu_store *store = new_job_with_manifests();
    completes_with(store, RELKVANU_CALL_TRIGGER, LENGTH, 0, &first);
    CHECK(truncate(file_in("storage", first), 4) == 0, "it is cut");
    for (int opening = 0; opening < 2; opening++) {
        is_lost(store, first, "has 4 bytes, and its manifest says 9");
        relkvanu_store_close(store);
        store = opens_with(storage_options(RELKVANU_STORE_MANIFESTS, 0));
    }
    completes_with(store, RELKVANU_CALL_TRIGGER, LENGTH, first, &later);
    is_lost(store, first, "has 4 bytes");
    CHECK(unlink(file_in("storage", first)) == 0, "it is lost");
    relkvanu_store_close(store);
    store = opens_with(storage_options(RELKVANU_STORE_MANIFESTS, 0));
    is_lost(store, first, "is missing");
    int cut = open(file_in("storage", first), O_CREAT | O_WRONLY, 0600);
    CHECK(cut >= 0 && write(cut, "12", 2) == 2 && close(cut) == 0, "a part of it comes back");
    is_lost(store, first, "has 2 bytes");
    lose_job_of(store);
    recovers("x.db", "storage", 0, RELKVANU_STORE_ABSENT);
    CHECK(unlink(file_in("storage", first)) == 0 && link(file_in("storage", later), file_in("storage", first)) == 0, "it is whole");
    recovers("x.db", "storage", 0, RELKVANU_STORE_OK);
}

/* A backup whose choice has a file that was cut since begins from a savepoint that is whole. */
CASE(a_backup_of_a_cut_file) {
    uint64_t first, saved;
    relkvanu_store *store = new_job_with_manifests();
    uint64_t savepoint = completes_with(store, RELKVANU_CALL_SAVEPOINT, LENGTH, 0, &saved);
    completes_with(store, RELKVANU_CALL_TRIGGER, LENGTH, 0, &first);
    backs_up(store, "b.db", RELKVANU_STORE_OK);
    relkvanu_store_close(store);
    CHECK(truncate(file_in("storage", first + 3), 4) == 0, "it is cut");
    int status = relkvanu_store_put_back(in("b.db"), in("x.db"), in("storage"), &recovered);
    CHECK(status == RELKVANU_STORE_OK && recovered.record == savepoint && recovered.is_savepoint, "status %d: record %" PRIu64 ", %s",
        status, recovered.record, recovered.message);
    store = opens_with(storage_options(RELKVANU_STORE_MANIFESTS, 0));
    CHECK(report.choice.a == savepoint, "record %" PRIu64, report.choice.a);
    relkvanu_store_close(store);
}

/* Manifests from before have none. They get them at the next opening that asks for them. */
CASE(manifests_without_checksums) {
    uint64_t first;
    relkvanu_store *store = new_job_with_manifests();
    completes_with(store, RELKVANU_CALL_SAVEPOINT, LENGTH, 0, &first);
    completes_with(store, RELKVANU_CALL_TRIGGER, LENGTH, 0, &first);
    relkvanu_store_close(store);
    flips("storage", first);
    CHECK(checks("storage") == 0 && records_len == 2 && records[0].unknown == 8 && records[1].unknown == 8, "they are not known");
    CHECK(unlink(file_in("storage", first + 1)) == 0 && checks("storage") == 1, "%zu faults", faults_len);
    is_fault(0, 2, first + 1, RELKVANU_STORE_FILE_MISSING);
    CHECK(link(file_in("storage", first), file_in("storage", first + 1)) == 0, "a file");
    relkvanu_store_close(opens_again());
    CHECK(checks("storage") == 0 && records_len == 2 && records[0].unknown == 0 && records[1].unknown == 0, "they are known");
}

/* A file that can't be read has none, and the calls go on. */
CASE(a_file_that_is_not_there) {
    uint64_t first;
    relkvanu_store *store = opens_new();
    relkvanu_answer answer = {0};
    uint64_t id = begins(store, RELKVANU_CALL_TRIGGER), file = reserved(store, report.term, SUBTASKS);
    for (uint16_t i = 0; i < SUBTASKS; i++) {
        answer = acked_at_0(store, report.term, id, i, file + i);
    }
    CHECK(answer.what == RELKVANU_ACK_COMPLETED, "what %" PRIu32, answer.what);
    relkvanu_store_measures measures = measures_of(store);
    CHECK(measures.manifests == 1 && measures.failed_manifests == 0, "%" PRIu64 " manifests", measures.manifests);
    CHECK(manifest_says(1, "sums\":[\"") == NULL && manifest_says(1, "\"sums\":[null]") != NULL);
    CHECK(list_records("storage") == 1 && records[0].missing == 8 && records[0].unknown == 8, "the record");
    completes_with(store, RELKVANU_CALL_TRIGGER, LENGTH, 0, &first);
    relkvanu_store_close(store);
}

/* A copy is compared, a link is not read. What is made has the checksums. */
CASE(carried_checksums) {
    uint64_t first;
    char words[64];
    relkvanu_store *store = opens_new();
    uint64_t id = completes_with(store, RELKVANU_CALL_TRIGGER, LENGTH, 0, &first);
    link_error = EXDEV;
    exports("storage", 0, "copied", RELKVANU_STORE_OK);
    CHECK(checks("copied") == 0 && records[0].unknown == 0 && records[0].files == 8, "the copy");
    claims("copied", 0, "y.db", "other", RELKVANU_STORE_OK);
    CHECK(recovered.record == id && !exists("copied"), "record %" PRIu64, recovered.record);
    CHECK(checks("other") == 0 && records[0].unknown == 0 && records[0].files == 8, "what was claimed");
    flips("storage", first + 7);
    exports("storage", 0, "damaged", RELKVANU_STORE_DAMAGED);
    snprintf(words, sizeof words, "%" PRIu64 ": it has another checksum", first + 7);
    CHECK(strstr(carried.message, words) != NULL, "%s", carried.message);
    imports("storage", 0, "z.db", "third", RELKVANU_STORE_DAMAGED);
    CHECK(!exists("damaged") && !exists("z.db") && !exists("third"), "something was made");
    link_error = 0;
    imports("storage", 0, "z.db", "third", RELKVANU_STORE_OK);
    CHECK(checks("third") == 1, "%zu faults", faults_len);
    is_fault(0, id, first + 7, RELKVANU_STORE_FILE_CHANGED);
    relkvanu_store_close(store);
}

/* More files than are remembered at first, most of which are gone later. */
CASE(many_checksums) {
    uint64_t first = 0, kept = 0;
    relkvanu_store *store = opens_new();
    for (int nth = 0; nth < 300; nth++) {
        completes_with(store, RELKVANU_CALL_TRIGGER, LENGTH, kept, &first);
        CHECK(relkvanu_store_discard_for(store, 0, 1, NULL, NULL) == RELKVANU_STORE_TIMED_OUT, "a discarder");
        kept = kept == 0 ? first : kept;
    }
    flips("storage", kept);
    flips("storage", first + 1);
    uint64_t id = completes_with(store, RELKVANU_CALL_TRIGGER, LENGTH, kept, &first);
    CHECK(checks("storage") == 1 && records_len == 1 && records[0].unknown == 0 && records[0].files == 9, "%zu faults", faults_len);
    is_fault(0, id, kept, RELKVANU_STORE_FILE_CHANGED);
    relkvanu_store_close(store);
}

/* Who is told may end the look. */
static bool ends_at_once(void *with, uint64_t record, uint64_t file, uint32_t fault) {
    note_fault(with, record, file, fault);
    return false;
}

CASE(a_look_that_ends) {
    uint64_t first;
    relkvanu_store *store = opens_new();
    completes_with(store, RELKVANU_CALL_TRIGGER, LENGTH, 0, &first);
    flips("storage", first);
    flips("storage", first + 1);
    int status = relkvanu_store_check_records(in("storage"), note_record, ends_at_once, records, message, sizeof message);
    CHECK(status == RELKVANU_STORE_OK && faults_len == 1 && records_len == 0, "status %d, %zu faults", status, faults_len);
    CHECK(relkvanu_store_check_records(in("none"), note_record, note_fault, records, message, sizeof message) == RELKVANU_STORE_STORAGE);
    relkvanu_store_close(store);
}

/* Manifests: what the storage folder says of complete records, and a job that is made of them once its own file is lost. */
#include "cases.h"

#include <dirent.h>

/* A job over the storage folder, which has manifests. */
static relkvanu_store_options manifests(uint32_t flags) {
    return storage_options(flags | RELKVANU_STORE_MANIFESTS, 0);
}

/* A number that the manifest says to be above all that was told below it. */
static uint64_t told_below(uint64_t id, const char *member) {
    const char *below = manifest_says(id, "\"below\":"), *at = below == NULL ? NULL : strstr(below, member);
    CHECK(at != NULL, "no %s", member);
    return strtoull(at + strlen(member), NULL, 10);
}

/* That of the first record, whose first file has this name. */
static void check_manifest(uint64_t file) {
    static const char *const parts[] = {"{\"relkvanu\":\"manifest\",\"version\":1,", "\"epoch\":1,\"term\":1,",
        "\"record\":1,\"kind\":\"checkpoint\",\"chosen\":true,\n",
        "\"settings\":{\"interval\":10,\"pause\":0,\"at_once\":1,\"timeout\":1073741824,\"tolerable\":1000,\"retained\":1,\"keep_on_"
        "cancel\":false},\n",
        "\"shape\":[8]", "\n],\"files\":8,\"bytes\":36,"};
    char subtask[100];
    for (size_t i = 0; i < sizeof parts / sizeof *parts; i++) {
        CHECK(manifest_says(1, parts[i]) != NULL, "%s", parts[i]);
    }
    snprintf(subtask, sizeof subtask, "\n{\"vertex\":0,\"index\":2,\"files\":{\"%" PRIu64 "\":3}},", file + 2);
    CHECK(manifest_says(1, subtask) != NULL && told_below(1, "\"term\":") > 1, "%s", subtask);
}

/* The manifest is there when a record is complete, and goes when it ends. */
CASE(manifests_of_records) {
    relkvanu_store *store = new_job_with_manifests();
    uint64_t first = 0;
    CHECK(completes(store, RELKVANU_CALL_TRIGGER, &first) == 1, "the number");
    check_manifest(first);
    CHECK(completes(store, RELKVANU_CALL_SAVEPOINT, &first) == 2, "the number");
    CHECK(manifest_says(2, "\"kind\":\"savepoint\",\"chosen\":false") != NULL, "the savepoint");
    CHECK(completes(store, RELKVANU_CALL_TRIGGER, &first) == 3, "the number");
    CHECK(!exists("storage/record-1.manifest") && exists("storage/record-2.manifest") && exists("storage/record-3.manifest"));
    CHECK(list_records("storage") == 2 && records[0].id == 2 && records[1].id == 3, "%zu records", records_len);
    CHECK(records[0].is_savepoint && !records[1].is_savepoint && !records[0].is_next && records[1].is_next, "what they are");
    CHECK(records[0].is_of_job && records[0].missing == 0 && records[0].files == 8 && records[1].bytes == 36, "their files");
    done(store, RELKVANU_CALL_DISPOSE, 0, 2);
    CHECK(!exists("storage/record-2.manifest") && exists("storage/record-3.manifest"), "a manifest of what was disposed of");
    relkvanu_store_measures measures = measures_of(store);
    CHECK(measures.manifests == 3 && measures.failed_manifests == 0, "%" PRIu64 " manifests", measures.manifests);
    relkvanu_store_close(store);
}

/* Without the flag there is none, and a sweep deletes those of earlier openings. */
CASE(manifests_are_asked_for) {
    relkvanu_store_options options = manifests(RELKVANU_STORE_CREATE);
    relkvanu_store *store = opens(&options, RELKVANU_STORE_OK);
    completes(store, RELKVANU_CALL_TRIGGER, NULL);
    relkvanu_store_close(store);
    options.flags &= ~RELKVANU_STORE_MANIFESTS;
    store = opens(&options, RELKVANU_STORE_OK);
    completes(store, RELKVANU_CALL_TRIGGER, NULL);
    CHECK(!exists("storage/record-2.manifest") && exists("storage/record-1.manifest"), "the manifests");
    is_swept(store, RELKVANU_STORE_OK, 0);
    CHECK(!exists("storage/record-1.manifest") && list_records("storage") == 0, "a manifest is left");
    relkvanu_store_close(store);
    options.flags |= RELKVANU_STORE_MANIFESTS; /* what should be there is written at an opening */
    store = opens(&options, RELKVANU_STORE_OK);
    CHECK(list_records("storage") == 1 && records[0].id == 2 && records[0].missing == 0, "no manifest of the choice");
    relkvanu_store_close(store);
}

/* What a sweep takes for manifests of ended records, and what it leaves. */
CASE(a_sweep_of_manifests) {
    static const char *const names[] = {"storage/record-7", "storage/record-07.manifest", "storage/record-.manifest",
        "storage/record-7.manifest.old", "storage/manifest", /* and those of ended records: */
        "storage/record-7.manifest", "storage/record-7.manifest.part", "storage/record-1.manifest.part"};
    relkvanu_store *store = new_job_with_manifests();
    completes(store, RELKVANU_CALL_TRIGGER, NULL);
    for (size_t i = 0; i < 8; i++) {
        make_empty(names[i]);
    }
    is_swept(store, RELKVANU_STORE_OK, 0);
    for (size_t i = 0; i < 8; i++) {
        CHECK(exists(names[i]) == (i < 5), "%s", names[i]);
    }
    CHECK(list_records("storage") == 1 && records[0].id == 1, "the manifest of the choice is gone");
    relkvanu_store_close(store);
}

/* A manifest that can't be written stops no call, and is written later. */
CASE(manifests_that_fail) {
    relkvanu_store *store = new_job_with_manifests();
    completes(store, RELKVANU_CALL_TRIGGER, NULL);
    fail_syncs("/record-2.manifest.part", EIO);
    completes(store, RELKVANU_CALL_TRIGGER, NULL);
    relkvanu_store_measures measures = measures_of(store);
    CHECK(measures.manifests == 1 && measures.failed_manifests >= 1, "%" PRIu64 " failed", measures.failed_manifests);
    CHECK(exists("storage/record-1.manifest") && !exists("storage/record-2.manifest") && !exists("storage/record-2.manifest.part"));
    fail_syncs("", 0);
    AWAIT(reserved(store, 1, 1) != 0 && exists("storage/record-2.manifest")); /* once a commit comes a second later */
    CHECK(!exists("storage/record-1.manifest"), "one that ended is left");
    uint64_t failed = measures.failed_manifests, id = begins(store, RELKVANU_CALL_TRIGGER), file = reserved(store, 1, SUBTASKS);
    relkvanu_answer answer;
    for (uint16_t i = 0; i + 1 < SUBTASKS; i++) {
        takes_part(store, 1, id, i, file + i, 4, 0);
    }
    fail_syncs("/storage", EIO); /* the folder's */
    int status = relkvanu_store_ack_in(store, 1, RELKVANU_STORE_NOW, id, 0, SUBTASKS - 1, NULL, 0, &file, 1, &answer);
    CHECK(status == RELKVANU_STORE_OK && answer.what == RELKVANU_ACK_COMPLETED, "status %d, what %" PRIu32, status, answer.what);
    measures = measures_of(store);
    CHECK(measures.failed_manifests > failed && exists("storage/record-2.manifest"), "the folder is not synced");
    fail_syncs("", 0);
    relkvanu_store_close(store);
}

static uint64_t choice_of(relkvanu_store *store) {
    relkvanu *handle = begins_read(store);
    uint64_t id = relkvanu_choice(handle).a;
    relkvanu_store_read_end(store);
    return id;
}

static bool has_files(relkvanu_store *store, uint64_t id, uint64_t first) {
    bool is_same = true;
    relkvanu *handle = begins_read(store);
    for (uint16_t i = 0; i < SUBTASKS; i++) {
        uint64_t files[MOST_FILES];
        relkvanu_answer found = relkvanu_files_of(handle, id, 0, i, files, MOST_FILES);
        is_same = is_same && found.code == RELKVANU_DONE && found.what == RELKVANU_FILES && found.a == 1 && files[0] == first + i;
    }
    relkvanu_store_read_end(store);
    return is_same;
}

/* The job goes on: its next record has a number, its term and its names are above these. */
static void goes_on(relkvanu_store *store, uint64_t number, uint64_t term, uint64_t name) {
    relkvanu_store_call call = made(store, (relkvanu_call){.kind = RELKVANU_CALL_RESTORE, .now = RELKVANU_STORE_NOW});
    relkvanu_answer answer;
    CHECK(call.answer.code == RELKVANU_DONE && call.term > term, "code %" PRIu32 ", term %" PRIu64, call.answer.code, call.term);
    uint64_t first, next = completes(store, RELKVANU_CALL_TRIGGER, &first);
    CHECK(next > number && first >= name, "record %" PRIu64 ", name %" PRIu64, next, first);
    int status = relkvanu_store_reserve(store, term, 1, &answer);
    CHECK(status == RELKVANU_STORE_OK && answer.code == RELKVANU_FENCED && answer.what == RELKVANU_OLD_TERM, "an old task");
    is_swept(store, RELKVANU_STORE_OK, 0);
}

/* The file is lost after a checkpoint, beside one that is pending. What comes back later is refused. */
CASE(a_lost_job) {
    relkvanu_store_options options = manifests(RELKVANU_STORE_CREATE);
    relkvanu_store *store = opens(&options, RELKVANU_STORE_OK);
    uint64_t first = 0, id = completes(store, RELKVANU_CALL_TRIGGER, &first);
    uint64_t pending = begins(store, RELKVANU_CALL_TRIGGER), late = reserved(store, 1, 1);
    takes_part(store, 1, pending, 0, late, 4, 0);
    relkvanu_store_close(store);
    CHECK(rename(in("x.db"), in("old.db")) == 0, "the old file");
    lose_job();
    opens_as(&options, RELKVANU_STORE_MANIFESTS, RELKVANU_STORE_ABSENT);
    options.flags |= RELKVANU_STORE_CREATE;
    opens(&options, RELKVANU_STORE_STORAGE);
    recovers("x.db", "storage", 0, RELKVANU_STORE_OK);
    CHECK(recovered.record == id && !recovered.is_savepoint && recovered.files == 8 && recovered.bytes == 36, "record %" PRIu64,
        recovered.record);
    CHECK(recovered.next_name > late && recovered.next_number > pending && recovered.term > 1, "what is next");
    uint64_t term = recovered.term, name = recovered.next_name;
    recovers("x.db", "storage", 0, RELKVANU_STORE_PRESENT);
    CHECK(rename(in("x.db"), in("new.db")) == 0 && rename(in("old.db"), in("x.db")) == 0, "the old file, before an opening");
    opens(&options, RELKVANU_STORE_STORAGE);
    CHECK(says("a later opening") && rename(in("x.db"), in("old.db")) == 0 && rename(in("new.db"), in("x.db")) == 0, "%s", report.message);
    store = opens(&options, RELKVANU_STORE_OK);
    CHECK(report.is_recovered && !report.settings_differ && choice_of(store) == id && has_files(store, id, first), "the choice");
    CHECK(report.term == term && report.next_name == name, "what is next");
    goes_on(store, pending, 1, late + 1);
    CHECK(!exists(stored(late)) && list_records("storage") == 1 && records[0].missing == 0, "what is left");
    lose_job_of(store);
    CHECK(rename(in("old.db"), in("x.db")) == 0, "the old file");
    options.flags = RELKVANU_STORE_MANIFESTS;
    opens_not(&options, RELKVANU_STORE_STORAGE, "a later opening");
}

/* It can't be marked before the record is chosen, and is marked once the job is there. */
CASE(a_folder_that_was_full) {
    relkvanu_store_options options = manifests(RELKVANU_STORE_CREATE);
    relkvanu_store *store = opens(&options, RELKVANU_STORE_OK);
    uint64_t first = 0;
    completes(store, RELKVANU_CALL_TRIGGER, &first);
    relkvanu_store_close(store);
    CHECK(rename(in("x.db"), in("old.db")) == 0, "the old file");
    lose_job();
    fail_next_open(".relkvanu-job.new", ENOSPC);
    recovers("x.db", "storage", 0, RELKVANU_STORE_OK);
    CHECK(rename(in("old.db"), in("x.db")) == 0, "the old file, in the place of the new one");
    options.flags = RELKVANU_STORE_MANIFESTS;
    opens_not(&options, RELKVANU_STORE_STORAGE, "a later opening");
}

/* A second loss, also before the recovered job was opened. */
CASE(lost_again) {
    relkvanu_store *store = new_job_with_manifests();
    uint64_t first = 0, id = completes(store, RELKVANU_CALL_TRIGGER, &first);
    lose_job_of(store);
    recovers("x.db", "storage", 0, RELKVANU_STORE_OK);
    lose_job();
    recovers("x.db", "storage", 0, RELKVANU_STORE_OK);
    store = new_job_with_manifests();
    CHECK(choice_of(store) == id && has_files(store, id, first), "the choice");
    uint64_t term = report.term, name = report.next_name, next = completes(store, RELKVANU_CALL_TRIGGER, &first);
    lose_job_of(store);
    recovers("x.db", "storage", 0, RELKVANU_STORE_OK);
    CHECK(recovered.record == next && recovered.term > term && recovered.next_name > name + 7, "what is next");
    store = new_job_with_manifests();
    CHECK(choice_of(store) == next && has_files(store, next, first), "the choice");
    goes_on(store, next, term, name + 8);
    relkvanu_store_close(store);
}

/* Why there is nothing to make a job of. Nothing changes then. */
CASE(nothing_to_recover) {
    uint64_t first = 0;
    recovers("x.db", "storage", 0, RELKVANU_STORE_STORAGE); /* no marker */
    relkvanu_store *store = new_job_with_manifests();
    recovers("x.db", "storage", 0, RELKVANU_STORE_IN_USE);
    relkvanu_store_close(store);
    recovers("x.db", "storage", 0, RELKVANU_STORE_PRESENT);
    lose_job();
    recovers("x.db", "storage", 0, RELKVANU_STORE_ABSENT); /* no record was complete */
    CHECK(unlink(in("storage/.relkvanu-job")) == 0, "the marker");
    store = new_job_with_manifests();
    completes(store, RELKVANU_CALL_TRIGGER, &first);
    lose_job_of(store);
    recovers("x.db", "storage", 9, RELKVANU_STORE_ABSENT);
    const char *name = stored(first + 3);
    CHECK(truncate(in(name), 3) == 0, "%s", name); /* it had 4 bytes */
    CHECK(list_records("storage") == 1 && records[0].missing == 1 && !records[0].is_next, "a file is short");
    recovers("x.db", "storage", 0, RELKVANU_STORE_ABSENT);
    CHECK(unlink(in(name)) == 0, "%s", name);
    CHECK(list_records("storage") == 1 && records[0].missing == 1, "a file is missing");
    recovers("x.db", "storage", 0, RELKVANU_STORE_ABSENT);
    write_text(name, "four");
    write_text("x.db-wal", "calls");
    recovers("x.db", "storage", 0, RELKVANU_STORE_PRESENT);
    CHECK(unlink(in("x.db-wal")) == 0, "the -wal");
    recovers("x.db", "storage", 1, RELKVANU_STORE_OK);
}

/* Each byte of a manifest is looked at. */
CASE(damaged_manifests) {
    relkvanu_store *store = new_job_with_manifests();
    struct stat is;
    completes(store, RELKVANU_CALL_SAVEPOINT, NULL);
    completes(store, RELKVANU_CALL_TRIGGER, NULL);
    lose_job_of(store);
    int file = open(in("storage/record-2.manifest"), O_RDWR);
    CHECK(file >= 0 && fstat(file, &is) == 0 && is.st_size > 600, "the manifest");
    for (off_t at = 0; at < is.st_size; at += at < 100 || at > is.st_size - 30 ? 1 : 7) {
        uint8_t byte, other;
        CHECK(pread(file, &byte, 1, at) == 1, "byte %ld", (long)at);
        other = byte ^ 1;
        CHECK(pwrite(file, &other, 1, at) == 1, "byte %ld", (long)at);
        CHECK(list_records("storage") == 2 && records[1].status == RELKVANU_STORE_DAMAGED && !records[1].is_next && records[0].is_next,
            "byte %ld is not looked at: status %" PRIu32, (long)at, records[1].status);
        CHECK(pwrite(file, &byte, 1, at) == 1, "byte %ld", (long)at);
    }
    for (off_t len = is.st_size - 1; len >= 0; len -= len > is.st_size - 30 || len < 60 ? 1 : 50) {
        CHECK(ftruncate(file, len) == 0 && list_records("storage") == 2 && records[1].status == RELKVANU_STORE_DAMAGED, "%ld bytes",
            (long)len);
    }
    close(file);
    recovers("x.db", "storage", 0, RELKVANU_STORE_DAMAGED);
    CHECK(strstr(recovered.message, "record-2.manifest") != NULL && strstr(recovered.message, "number of a record") != NULL &&
              !exists("x.db"),
        "%s", recovered.message);
    recovers("x.db", "storage", 1, RELKVANU_STORE_OK);
    CHECK(recovered.record == 1 && recovered.is_savepoint && recovered.passed == 1, "record %" PRIu64, recovered.record);
    CHECK(recovered.next_number > 2 + 1024, "number %" PRIu64 " may be told again", recovered.next_number);
}

/* A later version wrote the manifest, far above what the others say was told. One that is earlier than the choice says nothing of it. */
CASE(manifests_that_cannot_be_read) {
    relkvanu_store *store = new_job_with_manifests();
    uint64_t id = completes(store, RELKVANU_CALL_SAVEPOINT, NULL) + 1;
    CHECK(completes(store, RELKVANU_CALL_TRIGGER, NULL) == id, "the number");
    lose_job_of(store);
    CHECK(truncate(in("storage/record-1.manifest"), 7) == 0, "an earlier one");
    write_text("storage/record-5000.manifest", "written by a later version");
    recovers("x.db", "storage", 0, RELKVANU_STORE_DAMAGED);
    CHECK(strstr(recovered.message, "record-5000.manifest") != NULL, "%s", recovered.message);
    CHECK(rename(in("storage/record-5000.manifest"), in("storage/record-18446744073709551615.manifest")) == 0, "the greatest number");
    recovers("x.db", "storage", id, RELKVANU_STORE_DAMAGED);
    CHECK(strstr(recovered.message, "far above") != NULL, "%s", recovered.message);
    CHECK(rename(in("storage/record-18446744073709551615.manifest"), in("storage/record-5000.manifest")) == 0, "it again");
    recovers("x.db", "storage", id, RELKVANU_STORE_OK);
    CHECK(recovered.passed == 2 && recovered.next_number > 5000 + 1024, "number %" PRIu64, recovered.next_number);
    lose_job();
    CHECK(unlink(in("storage/record-5000.manifest")) == 0, "the later one");
    recovers("x.db", "storage", 0, RELKVANU_STORE_OK);
    CHECK(recovered.record == id && recovered.passed == 1, "record %" PRIu64, recovered.record);
}

/* What has the name that a new file had in earlier versions may be a job. */
CASE(a_job_beside_a_recovery) {
    relkvanu_store *store = new_job_with_manifests();
    completes(store, RELKVANU_CALL_TRIGGER, NULL);
    lose_job_of(store);
    relkvanu_store_options beside = job_options(RELKVANU_STORE_CREATE, 0);
    relkvanu_store_close(opens_at("x.db.new", &beside, RELKVANU_STORE_OK));
    recovers("x.db", "storage", 0, RELKVANU_STORE_OK);
    CHECK(exists("x.db.new"), "the job beside it is gone");
}

/* A process that was told to end may not have ended. It puts nothing more once the record is chosen, also if the recovery then comes to an end. */
CASE(a_recovery_fences_first) {
    relkvanu_store *store = new_job_with_manifests();
    completes(store, RELKVANU_CALL_TRIGGER, NULL);
    recovers("z.db", "storage", 9, RELKVANU_STORE_ABSENT);
    puts_file(store, 5000, RELKVANU_STORE_OK);
    fail_syncs("/.z.db.relkvanu-new", EIO);
    CHECK(relkvanu_store_recover(in("z.db"), in("storage"), 0, &recovered) != RELKVANU_STORE_OK && !exists("z.db"), "no sync fails");
    fail_syncs("", 0);
    puts_file(store, 5001, RELKVANU_STORE_STORAGE);
    relkvanu_store_close(store);
    recovers("z.db", "storage", 0, RELKVANU_STORE_OK);
}

/* No marker is one that is absent, and not one that can't be read: then the record of another job might be taken. */
CASE(a_marker_that_cannot_be_read) {
    relkvanu_store *store = new_job_with_manifests();
    completes(store, RELKVANU_CALL_TRIGGER, NULL);
    relkvanu_store_close(store);
    CHECK(rename(in("storage/.relkvanu-job"), in("storage/kept")) == 0 && symlink("kept", in("storage/.relkvanu-job")) == 0, "a link");
    exports("storage", 0, "out", RELKVANU_STORE_STORAGE);
    CHECK(!exists("out"), "a folder");
    claims("storage", 0, "y.db", "elsewhere", RELKVANU_STORE_STORAGE);
    CHECK(relkvanu_store_records(in("storage"), note_record, records, message, sizeof message) == RELKVANU_STORE_STORAGE, "%s", message);
    CHECK(unlink(in("storage/.relkvanu-job")) == 0 && list_records("storage") == 1 && records[0].missing == 0, "what is left");
}

/* Savepoints live on, with the files that they share, and with another shape. */
CASE(savepoints_live_on) {
    const uint64_t shape[] = {2, 3};
    relkvanu_store *store = new_job_with_manifests();
    relkvanu_store_call call = {.call = {.kind = RELKVANU_CALL_RESTORE, .now = RELKVANU_STORE_NOW}, .first = shape, .first_len = 2};
    uint64_t first = 0, savepoint = completes(store, RELKVANU_CALL_SAVEPOINT, &first);
    relkvanu_answer answer;
    CHECK(relkvanu_store_calls(store, &call, 1) == RELKVANU_STORE_OK && call.term == 2, "another shape");
    uint64_t id = begins(store, RELKVANU_CALL_TRIGGER);
    for (uint16_t i = 0; i < 5; i++) { /* some reuse a file of the savepoint, and one has none */
        const uint64_t files[] = {first + 3};
        uint16_t vertex = i < 2 ? 0 : 1, index = i < 2 ? i : i - 2;
        int status = relkvanu_store_ack_in(store, 2, RELKVANU_STORE_NOW, id, vertex, index, NULL, 0, files, i < 4, &answer);
        CHECK(status == RELKVANU_STORE_OK && answer.code == RELKVANU_DONE, "status %d, what %" PRIu32, status, answer.what);
    }
    CHECK(answer.what == RELKVANU_ACK_COMPLETED, "what %" PRIu32, answer.what);
    lose_job_of(store);
    recovers("x.db", "storage", 0, RELKVANU_STORE_OK);
    CHECK(recovered.record == id && recovered.savepoints == 1 && recovered.passed == 0, "record %" PRIu64, recovered.record);
    store = new_job_with_manifests();
    CHECK(choice_of(store) == id && list_records("storage") == 3 && records[0].id == savepoint && records[1].id == id, "%zu records",
        records_len);
    uint64_t again = records[2].id;
    CHECK(records[2].is_savepoint && again >= recovered.next_number && has_files(store, again, first), "record %" PRIu64, again);
    relkvanu *handle = begins_read(store);
    CHECK(relkvanu_count(handle, first + 3).b == 5 && relkvanu_count(handle, first).b == 1, "uses: %" PRIu64,
        relkvanu_count(handle, first + 3).b);
    relkvanu_store_read_end(store);
    CHECK(begins(store, RELKVANU_CALL_TRIGGER) > again, "the next number");
    answer = done(store, RELKVANU_CALL_DISPOSE, 0, again);
    CHECK(answer.a == 7, "%" PRIu64 " files", answer.a); /* the eighth is the checkpoint's */
    relkvanu_store_close(store);
}

/* A job that was rolled back begins again from the savepoint, although a checkpoint completed after it. */
CASE(a_rolled_back_job) {
    relkvanu_store *store = new_job_with_manifests();
    uint64_t first = 0, savepoint = completes(store, RELKVANU_CALL_SAVEPOINT, &first);
    completes(store, RELKVANU_CALL_TRIGGER, NULL);
    CHECK(list_records("storage") == 2 && records[1].is_next, "the checkpoint is the choice");
    done(store, RELKVANU_CALL_RESTORE, RELKVANU_STORE_NOW, savepoint);
    CHECK(list_records("storage") == 1 && records[0].is_next, "the savepoint is the choice");
    uint64_t term = report.term;
    lose_job_of(store);
    recovers("x.db", "storage", 0, RELKVANU_STORE_OK);
    CHECK(recovered.record == savepoint && recovered.is_savepoint && recovered.savepoints == 0, "record %" PRIu64, recovered.record);
    store = new_job_with_manifests();
    CHECK(report.choice.what == RELKVANU_CHOICE_SAVEPOINT && report.choice.a == savepoint && has_files(store, savepoint, first));
    goes_on(store, 2, term + 1, first + 16);
    relkvanu_store_close(store);
}

/* Numbers of records that failed were told, too. */
CASE(numbers_that_failed) {
    relkvanu_store *store = new_job_with_manifests();
    uint64_t id = completes(store, RELKVANU_CALL_TRIGGER, NULL), last = 0;
    for (int i = 0; i < 1100; i++) {
        relkvanu_store_call calls[] = {{.call = {.kind = RELKVANU_CALL_SAVEPOINT, .now = RELKVANU_STORE_NOW}},
            {.call = {.kind = RELKVANU_CALL_DECLINE, .now = RELKVANU_STORE_NOW, .number = id + 1 + (uint64_t)i, .term = 1}}};
        CHECK(relkvanu_store_calls(store, calls, 2) == RELKVANU_STORE_OK && calls[1].answer.code == RELKVANU_DONE, "a savepoint");
        last = calls[0].answer.a;
    }
    CHECK(last == id + 1100 && told_below(id, "\"number\":") > last, "the manifest is behind record %" PRIu64, last);
    lose_job_of(store);
    recovers("x.db", "storage", 0, RELKVANU_STORE_OK);
    store = new_job_with_manifests();
    goes_on(store, last, 1, 1);
    relkvanu_store_close(store);
}

/* A record of another job in the folder is none of this one's. */
CASE(another_jobs_manifest) {
    relkvanu_store *store = new_job_with_manifests();
    completes(store, RELKVANU_CALL_TRIGGER, NULL);
    relkvanu_store_close(store);
    write_marker("storage", 1, 7);
    lose_job();
    CHECK(list_records("storage") == 1 && !records[0].is_of_job && !records[0].is_next && records[0].missing == 0, "whose it is");
    recovers("x.db", "storage", 0, RELKVANU_STORE_ABSENT);
    CHECK(relkvanu_store_records(in("nowhere"), note_record, records, message, sizeof message) == RELKVANU_STORE_STORAGE, "a folder");
    CHECK(message[0] != 0, "no message");
}

static bool has_bytes(const char *folder, uint64_t file, off_t len) {
    char name[PATHS];
    struct stat is;
    snprintf(name, sizeof name, "%s/%" PRIu64, folder, file);
    return stat(in(name), &is) == 0 && S_ISREG(is.st_mode) && is.st_size == len;
}

/* The folder that is made has the record, whatever the job deletes then. */
CASE(an_export) {
    relkvanu_store *store = new_job_with_manifests();
    uint64_t first = 0, savepoint = completes(store, RELKVANU_CALL_SAVEPOINT, NULL), id = completes(store, RELKVANU_CALL_TRIGGER, &first);
    exports("storage", 0, "out", RELKVANU_STORE_OK);
    CHECK(carried.record == id && !carried.is_savepoint && carried.files == 8 && carried.bytes == 36, "record %" PRIu64, carried.record);
    exports("storage", 0, "out", RELKVANU_STORE_PRESENT);
    exports("storage", savepoint, "other/", RELKVANU_STORE_OK);
    CHECK(carried.record == savepoint && carried.is_savepoint, "record %" PRIu64, carried.record);
    exports("storage", 9, "none", RELKVANU_STORE_ABSENT);
    CHECK(!exists("none") && mkdir(in("empty"), 0700) == 0, "a folder");
    exports("storage", id, "empty", RELKVANU_STORE_OK);
    completes(store, RELKVANU_CALL_TRIGGER, NULL);
    done(store, RELKVANU_CALL_RESTORE, RELKVANU_STORE_NOW, 0);
    while (has_bytes("storage", first, 1)) {
        CHECK(relkvanu_store_discard_for(store, 0, 50, NULL, NULL) == RELKVANU_STORE_TIMED_OUT, "a discarder");
    }
    is_swept(store, RELKVANU_STORE_OK, 0);
    relkvanu_store_close(store);
    CHECK(files_in("out") == 9 && files_in("other") == 9 && files_in("empty") == 9 && !exists("out/.relkvanu-job"), "%zu names",
        files_in("out"));
    for (uint64_t i = 0; i < SUBTASKS; i++) {
        CHECK(has_bytes("out", first + i, (off_t)i + 1) && has_bytes("empty", first + i, (off_t)i + 1), "file %" PRIu64, first + i);
    }
}

static atomic_uint_fast64_t latest;
static atomic_bool is_enough;

static atomic_uint rest; /* in us, of the job after each record */

static void *completes_more(void *store) {
    while (!is_enough) {
        latest = completes(store, RELKVANU_CALL_TRIGGER, NULL);
        usleep(rest);
    }
    return NULL;
}

/* Whether an export was fast enough for the job. If not, it says so and has changed nothing, and the job rests longer. */
static bool exports_in_time(const char *to) {
    uint64_t told = latest;
    int got = relkvanu_store_export(in("storage"), 0, in(to), &carried);
    if (got == RELKVANU_STORE_ABSENT && strstr(carried.message, "its records end too soon") != NULL) {
        CHECK(!exists(to), "%s is there", to);
        rest = 2 * rest + 200;
        return false;
    }
    CHECK(got == RELKVANU_STORE_OK, "status %d: %s", got, carried.message);
    CHECK(carried.record >= told, "record %" PRIu64 ", and %" PRIu64 " was complete", carried.record, told);
    return true;
}

/* Manifests end while the folder is listed: an export has the last record that was complete when it began, or a later one, and no savepoint before it. */
CASE(an_export_beside_a_job) {
    relkvanu_store *store = new_job_with_manifests();
    completes(store, RELKVANU_CALL_SAVEPOINT, NULL);
    latest = completes(store, RELKVANU_CALL_TRIGGER, NULL);
    pthread_t job = starts(completes_more, store);
    for (unsigned i = 0; i < 30; i++) {
        char name[PATHS];
        snprintf(name, sizeof name, "out-%u", i);
        while (!exports_in_time(name)) {}
    }
    is_enough = true;
    CHECK(pthread_join(job, NULL) == 0, "a thread");
    relkvanu_store_close(store);
}

static relkvanu_store *opens_other(void) {
    relkvanu_store_options options = manifests(RELKVANU_STORE_RECOVER);
    options.storage = in("elsewhere");
    return opens_at("y.db", &options, RELKVANU_STORE_OK);
}

/* Another job of a record, while the first one runs. Each goes its own way. */
CASE(an_import) {
    relkvanu_store *store = new_job_with_manifests();
    uint64_t first = 0, job[2], id = completes(store, RELKVANU_CALL_TRIGGER, &first);
    memcpy(job, report.job, sizeof job);
    imports("storage", 9, "y.db", "elsewhere", RELKVANU_STORE_ABSENT);
    CHECK(!exists("elsewhere") && !exists("y.db"), "something is left");
    imports("storage", 0, "y.db", "elsewhere", RELKVANU_STORE_OK);
    CHECK(recovered.record == id && recovered.files == 8 && recovered.term > 1, "record %" PRIu64, recovered.record);
    imports("storage", 0, "y.db", "elsewhere", RELKVANU_STORE_PRESENT);
    relkvanu_store *other = opens_other();
    CHECK(memcmp(job, report.job, sizeof job) != 0 && report.is_recovered && choice_of(other) == id && has_files(other, id, first));
    uint64_t term = report.term;
    goes_on(other, id, 1, first + 8);
    completes(store, RELKVANU_CALL_TRIGGER, NULL); /* its term was not ended */
    relkvanu_store_close(other);
    relkvanu_store_close(store);
    CHECK(unlink(in("y.db")) == 0, "the job");
    recovers("y.db", "elsewhere", 0, RELKVANU_STORE_OK);
    CHECK(recovered.term > term && recovered.record > id, "record %" PRIu64, recovered.record);
}

/* An import that ended between its two halves goes on; the folder of another job is left alone. */
CASE(an_import_that_goes_on) {
    relkvanu_store *store = new_job_with_manifests();
    uint64_t first = 0, id = completes(store, RELKVANU_CALL_TRIGGER, &first);
    exports("storage", 0, "out", RELKVANU_STORE_OK);
    imports("out", 0, "y.db", "elsewhere", RELKVANU_STORE_OK);
    CHECK(unlink(in("y.db")) == 0 && unlink(in("y.db.lock")) == 0 && unlink(in("y.db-shm")) == 0, "the job");
    imports("out", 0, "y.db", "elsewhere", RELKVANU_STORE_OK);
    CHECK(recovered.record == id, "record %" PRIu64, recovered.record);
    relkvanu_store *other = opens_other();
    CHECK(has_files(other, id, first), "its files");
    relkvanu_store_close(other);
    relkvanu_store_close(store);
    CHECK(unlink(in("y.db")) == 0 && rename(in("elsewhere"), in("its")) == 0 && rename(in("storage"), in("elsewhere")) == 0, "the folders");
    imports("its", 0, "y.db", "elsewhere", RELKVANU_STORE_PRESENT);
    CHECK(!exists("y.db") && has_bytes("elsewhere", first, 1), "the folder of another job");
}

/* The files leave, but for those of another record, and a process that still has the old job puts nothing more. */
CASE(a_claim) {
    relkvanu_store_options options = manifests(RELKVANU_STORE_CREATE);
    relkvanu_store *store = opens(&options, RELKVANU_STORE_OK);
    uint64_t first = 0, shared = 0, savepoint = completes(store, RELKVANU_CALL_SAVEPOINT, &shared);
    completes(store, RELKVANU_CALL_TRIGGER, &first);
    uint64_t last = completes_with(store, RELKVANU_CALL_TRIGGER, 0, first, NULL);
    claims("storage", 99, "y.db", "elsewhere", RELKVANU_STORE_ABSENT);
    int wal = open(in("y.db-wal"), O_WRONLY | O_CREAT | O_CLOEXEC, 0600);
    CHECK(wal >= 0 && write(wal, "x", 1) == 1 && close(wal) == 0, "a -wal");
    claims("storage", 0, "y.db", "elsewhere", RELKVANU_STORE_PRESENT);
    CHECK(unlink(in("y.db-wal")) == 0 && !exists("elsewhere"), "a claim that was refused has made a folder");
    puts_file(store, 5000, RELKVANU_STORE_OK);
    claims("storage", 0, "y.db", "elsewhere", RELKVANU_STORE_OK);
    CHECK(recovered.record == last && recovered.files == 9, "record %" PRIu64 ", %" PRIu64 " files", recovered.record, recovered.files);
    CHECK(has_bytes("elsewhere", first, 1) && !has_bytes("storage", first, 1) && has_bytes("storage", shared, 1), "the files");
    puts_file(store, 5001, RELKVANU_STORE_STORAGE);
    relkvanu_store_close(store);
    options = manifests(RELKVANU_STORE_RECOVER);
    opens_not(&options, RELKVANU_STORE_STORAGE, "later opening");
    CHECK(list_records("storage") == 1 && records[0].id == savepoint && records[0].missing == 0, "%zu records", records_len);
    relkvanu_store *other = opens_other();
    CHECK(choice_of(other) == last, "the choice");
    relkvanu_store_close(other);
    claims("storage", 0, "y.db", "elsewhere", RELKVANU_STORE_PRESENT);
    CHECK(list_records("storage") == 1, "a claim over a job took another record");
}

/* A manifest that can't be read may be of the latest record, so nothing is made of an earlier one, unless it is given by its number. */
CASE(a_latest_manifest_that_is_damaged) {
    relkvanu_store *store = new_job_with_manifests();
    uint64_t savepoint = completes(store, RELKVANU_CALL_SAVEPOINT, NULL);
    completes(store, RELKVANU_CALL_TRIGGER, NULL);
    int file = open(in("storage/record-2.manifest"), O_WRONLY | O_CLOEXEC);
    CHECK(file >= 0 && pwrite(file, "x", 1, 40) == 1 && close(file) == 0, "the manifest");
    exports("storage", 0, "out", RELKVANU_STORE_DAMAGED);
    CHECK(strstr(carried.message, "record-2.manifest") != NULL && !exists("out"), "%s", carried.message);
    imports("storage", 0, "y.db", "elsewhere", RELKVANU_STORE_DAMAGED);
    CHECK(strstr(recovered.message, "record-2.manifest") != NULL && !exists("elsewhere") && !exists("y.db"), "%s", recovered.message);
    claims("storage", 0, "y.db", "elsewhere", RELKVANU_STORE_DAMAGED);
    CHECK(strstr(recovered.message, "record-2.manifest") != NULL && !exists("elsewhere") && !exists("y.db"), "%s", recovered.message);
    puts_file(store, 5000, RELKVANU_STORE_OK);
    exports("storage", savepoint, "out", RELKVANU_STORE_OK);
    imports("storage", savepoint, "y.db", "elsewhere", RELKVANU_STORE_OK);
    CHECK(carried.record == savepoint && recovered.record == savepoint, "record %" PRIu64, recovered.record);
    relkvanu_store_close(store);
}

/* An import or a claim that passes over a record which lacks a file says so, as a recovery does. */
CASE(an_import_that_passes_a_record) {
    relkvanu_store *store = new_job_with_manifests();
    uint64_t first = 0, savepoint = completes(store, RELKVANU_CALL_SAVEPOINT, NULL);
    completes(store, RELKVANU_CALL_TRIGGER, &first);
    relkvanu_store_close(store);
    CHECK(unlink(in(stored(first))) == 0, "file %" PRIu64, first);
    imports("storage", 0, "y.db", "elsewhere", RELKVANU_STORE_OK);
    CHECK(recovered.record == savepoint && recovered.passed == 1, "%" PRIu64 " passed", recovered.passed);
    claims("storage", 0, "z.db", "apart", RELKVANU_STORE_OK);
    CHECK(recovered.record == savepoint && recovered.passed == 1, "%" PRIu64 " passed", recovered.passed);
}

/* A record keeps what it shares with the one that leaves. */
CASE(a_claim_of_shared_files) {
    relkvanu_store *store = new_job_with_manifests();
    uint64_t first = 0;
    completes(store, RELKVANU_CALL_TRIGGER, &first);
    uint64_t savepoint = completes_with(store, RELKVANU_CALL_SAVEPOINT, 0, first, NULL);
    relkvanu_store_close(store);
    claims("storage", savepoint - 1, "y.db", "elsewhere", RELKVANU_STORE_OK);
    CHECK(has_bytes("elsewhere", first, 1) && has_bytes("storage", first, 1) && !has_bytes("storage", first + 1, 2), "the files");
    CHECK(list_records("storage") == 1 && records[0].id == savepoint && records[0].missing == 0, "%zu records", records_len);
}

/* The same call goes on where one ended: after the job was made, and before anything has left. An exported folder goes with its last file. */
CASE(a_claim_that_goes_on) {
    relkvanu_store *store = new_job_with_manifests();
    uint64_t first = 0, id = completes(store, RELKVANU_CALL_TRIGGER, &first);
    exports("storage", 0, "out", RELKVANU_STORE_OK);
    relkvanu_store_close(store);
    imports("out", 0, "y.db", "elsewhere", RELKVANU_STORE_OK);
    claims("out", 0, "y.db", "elsewhere", RELKVANU_STORE_OK);
    CHECK(recovered.record == id && recovered.files == 8 && !exists("out"), "record %" PRIu64, recovered.record);
    relkvanu_store *other = opens_other();
    CHECK(has_files(other, id, first), "its files");
    relkvanu_store_close(other);
}

/* An import, and then a claim of the same record: the old job runs meanwhile, so it is fenced before its files leave. */
CASE(a_claim_after_an_import) {
    relkvanu_store *store = new_job_with_manifests();
    uint64_t first = 0, id = completes(store, RELKVANU_CALL_TRIGGER, &first);
    imports("storage", 0, "y.db", "elsewhere", RELKVANU_STORE_OK);
    puts_file(store, 5000, RELKVANU_STORE_OK);
    claims("storage", 0, "y.db", "elsewhere", RELKVANU_STORE_OK);
    CHECK(recovered.record == id && !has_bytes("storage", first, 1) && has_bytes("elsewhere", first, 1), "the files");
    puts_file(store, 5001, RELKVANU_STORE_STORAGE);
    relkvanu_store_close(store);
}

/* An import that did not end has left an earlier record than the one that is there by now. */
CASE(a_claim_over_an_earlier_record) {
    relkvanu_store *store = new_job_with_manifests();
    uint64_t savepoint = completes(store, RELKVANU_CALL_SAVEPOINT, NULL);
    imports("storage", 0, "none/y.db", "elsewhere", RELKVANU_STORE_FAILED);
    CHECK(exists("elsewhere"), "no folder");
    completes(store, RELKVANU_CALL_TRIGGER, NULL);
    claims("storage", 0, "y.db", "elsewhere", RELKVANU_STORE_PRESENT);
    CHECK(strstr(recovered.message, "another record") != NULL && !exists("y.db"), "%s", recovered.message);
    puts_file(store, 5000, RELKVANU_STORE_OK);
    relkvanu_store_close(store);
    claims("storage", savepoint, "y.db", "elsewhere", RELKVANU_STORE_OK);
    CHECK(recovered.record == savepoint, "record %" PRIu64, recovered.record);
}

/* The part of a folder may be the folder to carry from. */
CASE(an_export_over_itself) {
    relkvanu_store *store = new_job_with_manifests();
    relkvanu_store_carried carried;
    uint64_t first = 0;
    completes(store, RELKVANU_CALL_TRIGGER, &first);
    relkvanu_store_close(store);
    CHECK(rename(in("storage"), in("out.part")) == 0, "the folder");
    CHECK(relkvanu_store_export(in("out.part"), 0, in("out"), &carried) == RELKVANU_STORE_PRESENT && !exists("out"), "%s", carried.message);
    CHECK(has_bytes("out.part", first, 1), "its files are gone");
}

/* In place: the job of a storage folder keeps its identity, that of an exported one gets its own. */
CASE(a_claim_in_place) {
    relkvanu_store_options options = manifests(RELKVANU_STORE_CREATE);
    relkvanu_store *store = opens(&options, RELKVANU_STORE_OK);
    uint64_t first = 0, job[2], id = completes(store, RELKVANU_CALL_TRIGGER, &first);
    memcpy(job, report.job, sizeof job);
    exports("storage", 0, "elsewhere", RELKVANU_STORE_OK);
    claims("elsewhere", 0, "y.db", "elsewhere", RELKVANU_STORE_OK);
    relkvanu_store *other = opens_other();
    CHECK(memcmp(job, report.job, sizeof job) != 0 && has_files(other, id, first), "the exported one");
    relkvanu_store_close(other);
    CHECK(unlink(in("y.db")) == 0, "the job");
    claims("storage", 0, "y.db", "storage", RELKVANU_STORE_OK);
    puts_file(store, 5001, RELKVANU_STORE_STORAGE);
    relkvanu_store_close(store);
    options = manifests(RELKVANU_STORE_RECOVER);
    other = opens_at("y.db", &options, RELKVANU_STORE_OK);
    CHECK(memcmp(job, report.job, sizeof job) == 0 && has_files(other, id, first), "another job");
    relkvanu_store_close(other);
}

/* A place of an engine, which is a folder of the case. */
static int check_status, place_status, puts_made;
static int checks_left = -1; /* after so many another opening has the place; -1: none has */

static const char *placed(const char *name) {
    static char path[PATHS];
    snprintf(path, sizeof path, "place/%s", name);
    return in(path);
}

static int check_place(void *with) {
    CHECK(with == &place_status, "the pointer");
    if (checks_left >= 0 && checks_left-- == 0) {
        check_status = RELKVANU_STORAGE_OTHER_JOB;
        checks_left = -1;
    }
    return check_status != RELKVANU_STORAGE_OK ? check_status : place_status;
}

static int put_object(void *with, const char *name, const void *contents, size_t len) {
    CHECK(with == &place_status, "the pointer");
    if (place_status != RELKVANU_STORAGE_OK) {
        return place_status;
    }
    FILE *to = fopen(placed(name), "w");
    CHECK(to != NULL && fwrite(contents, 1, len, to) == len && fclose(to) == 0, "%s", name);
    puts_made++;
    return RELKVANU_STORAGE_OK;
}

static int remove_object(void *with, const char *name) {
    CHECK(with == &place_status && (unlink(placed(name)) == 0 || errno == ENOENT), "%s", name);
    return RELKVANU_STORAGE_OK;
}

static int list_objects(void *with, relkvanu_store_each_name each, void *with_each) {
    bool goes_on = place_status == RELKVANU_STORAGE_OK;
    DIR *entries = opendir(in("place"));
    CHECK(with == &place_status && entries != NULL, "the place");
    for (const struct dirent *it; goes_on && (it = readdir(entries)) != NULL;) {
        goes_on = strncmp(it->d_name, "record-", 7) != 0 || each(with_each, it->d_name);
    }
    closedir(entries);
    return goes_on || place_status != RELKVANU_STORAGE_OK ? place_status : RELKVANU_STORAGE_ENDED;
}

static int keeps(relkvanu_store *store) {
    return relkvanu_store_keep_manifests(store, check_place, put_object, remove_object, list_objects, &place_status);
}

static relkvanu_store *opens_without_folder(uint32_t flags) {
    CHECK(mkdir(in("place"), 0700) == 0 || errno == EEXIST, "a place");
    return opens_with(job_options(flags, 0));
}

/* A record of 8 files that are elsewhere. Its last acknowledgement has this status. */
static uint64_t acknowledges_elsewhere(relkvanu_store *store, uint64_t term, int last) {
    relkvanu_answer answer;
    uint64_t id = begins(store, RELKVANU_CALL_TRIGGER);
    for (uint16_t i = 0; i < SUBTASKS; i++) {
        uint64_t file = reserved(store, term, 1);
        int status = relkvanu_store_ack_in(store, term, RELKVANU_STORE_NOW, id, 0, i, &file, 1, NULL, 0, &answer);
        CHECK(status == (i + 1 < SUBTASKS ? RELKVANU_STORE_OK : last), "status %d", status);
        CHECK(answer.code == (status == RELKVANU_STORE_OK ? RELKVANU_DONE : RELKVANU_STORE_NOT_MADE), "code %" PRIu32, answer.code);
    }
    return id;
}

static uint64_t completes_elsewhere(relkvanu_store *store, uint64_t term) {
    return acknowledges_elsewhere(store, term, RELKVANU_STORE_OK);
}

static bool is_placed(uint64_t id) {
    char name[48];
    snprintf(name, sizeof name, "record-%" PRIu64 ".manifest", id);
    return access(placed(name), F_OK) == 0;
}

/* One put for each record, before it is answered. One that fails is counted, and made again. */
CASE(manifests_elsewhere) {
    relkvanu_store *store = opens_without_folder(RELKVANU_STORE_CREATE);
    CHECK(put_object(&place_status, "record-7.manifest", "of a record that ended", 1) == RELKVANU_STORAGE_OK, "an old one");
    place_status = RELKVANU_STORAGE_NOT_THERE;
    CHECK(keeps(store) == RELKVANU_STORE_STORAGE, "a place that is not there");
    place_status = RELKVANU_STORAGE_OK;
    CHECK(
        relkvanu_store_keep_manifests(store, check_place, NULL, remove_object, list_objects, &place_status) == RELKVANU_STORE_BAD_ARGUMENT);
    CHECK(keeps(store) == RELKVANU_STORE_OK && keeps(store) == RELKVANU_STORE_BAD_ARGUMENT && files_in("place") == 0, "%zu objects",
        files_in("place"));
    puts_made = 0;
    uint64_t id = completes_elsewhere(store, 1);
    CHECK(puts_made == 1 && is_placed(id) && files_in("place") == 1, "%d puts", puts_made);
    place_status = RELKVANU_STORAGE_FAILED;
    uint64_t next = completes_elsewhere(store, 1);
    CHECK(!is_placed(next) && is_placed(id), "the manifest before stays");
    relkvanu_store_measures measures = measures_of(store);
    CHECK(measures.manifests == 1 && measures.failed_manifests >= 1, "%" PRIu64 " failed", measures.failed_manifests);
    place_status = RELKVANU_STORAGE_OK;
    uint64_t last = completes_elsewhere(store, 1);
    CHECK(is_placed(last) && files_in("place") == 1, "%zu objects", files_in("place"));
    check_status = RELKVANU_STORAGE_OTHER_JOB;
    puts_made = 0;
    acknowledges_elsewhere(store, 1, RELKVANU_STORE_STORAGE);
    CHECK(puts_made == 0 && is_placed(last), "it puts into the place of another opening");
    check_status = RELKVANU_STORAGE_OK;
    relkvanu_store_close(store);
    CHECK(unlink(in("x.db")) == 0, "the job");
    store = new_job();
    CHECK(keeps(store) == RELKVANU_STORE_BAD_ARGUMENT, "it has a folder");
    relkvanu_store_close(store);
}

/* Another opening may take the place between two requests: then nothing more is put or removed there, and nobody is told that the record is complete. */
static void is_taken_behind(int checks, int puts, int last) {
    relkvanu_store *store = opens_without_folder(RELKVANU_STORE_CREATE);
    check_status = RELKVANU_STORAGE_OK;
    CHECK(keeps(store) == RELKVANU_STORE_OK, "it keeps none");
    uint64_t id = completes_elsewhere(store, report.term);
    checks_left = checks;
    puts_made = 0;
    uint64_t next = acknowledges_elsewhere(store, report.term, last);
    CHECK(puts_made == puts && is_placed(next) == (puts == 1) && is_placed(id));
    CHECK(last == RELKVANU_STORE_OK || relkvanu_store_stop_job(store, &(relkvanu_store_call){.answer = {0}}) == RELKVANU_STORE_CLOSED);
    relkvanu_store_close(store);
    check_status = RELKVANU_STORAGE_OK;
}

CASE(a_place_that_is_taken) {
    is_taken_behind(2, 1, RELKVANU_STORE_STORAGE); /* those before the work and before the put */
    is_taken_behind(1, 0, RELKVANU_STORE_STORAGE);
    is_taken_behind(3, 1, RELKVANU_STORE_OK); /* and before it is told; that of the earlier record is not removed */
}

/* Beside the manifests of the place its marker, and its files, but for one. */
static void list_place(uint64_t epoch, uint64_t first, uint64_t lacking) {
    char name[48];
    write_marker("place", 0, epoch);
    for (uint64_t file = first; file < first + SUBTASKS; file++) {
        snprintf(name, sizeof name, "place/%" PRIu64, file);
        if (file != lacking) {
            write_text(name, "");
        }
    }
}

/* A job whose manifests are elsewhere is made again of them, and is opened without a folder. */
CASE(a_lost_job_elsewhere) {
    relkvanu_store *store = opens_without_folder(RELKVANU_STORE_CREATE);
    CHECK(keeps(store) == RELKVANU_STORE_OK, "it keeps none");
    uint64_t id = completes_elsewhere(store, 1), epoch = report.epoch;
    lose_job_of(store);
    list_place(epoch, 1, 3);
    CHECK(relkvanu_store_recover_listed(in("x.db"), in("place"), 0, &recovered) == RELKVANU_STORE_ABSENT, "a file is missing");
    list_place(epoch, 1, 0);
    int status = relkvanu_store_recover_listed(in("x.db"), in("place"), 0, &recovered);
    CHECK(status == RELKVANU_STORE_OK && recovered.record == id && recovered.files == SUBTASKS, "status %d: %s", status, recovered.message);
    store = opens_without_folder(RELKVANU_STORE_RECOVER);
    CHECK(report.is_recovered && report.epoch > epoch + 1000 && report.term > 1 && choice_of(store) == id, "the job");
    CHECK(keeps(store) == RELKVANU_STORE_OK && completes_elsewhere(store, report.term) > id, "it goes on");
    relkvanu_store_close(store);
}

/* The storage folder: whose it is, and what a sweep may delete. */
#include "cases.h"

CASE(not_mounted) {
    relkvanu_store_options options = storage_options(RELKVANU_STORE_CREATE, 0);
    relkvanu_store_close(opens(&options, RELKVANU_STORE_OK));
    CHECK(rename(in("storage"), in("away")) == 0, "storage");
    opens(&options, RELKVANU_STORE_STORAGE);
    CHECK(mkdir(in("storage"), 0700) == 0, "storage");
    opens_not(&options, RELKVANU_STORE_STORAGE, "no marker");
    CHECK(rmdir(in("storage")) == 0 && rename(in("away"), in("storage")) == 0, "storage");
    relkvanu_store_close(opens(&options, RELKVANU_STORE_OK));
}

CASE(of_another_job) {
    relkvanu_store_options options = storage_options(RELKVANU_STORE_CREATE, 0);
    relkvanu_store_close(opens(&options, RELKVANU_STORE_OK));
    CHECK(rename(in("x.db"), in("first.db")) == 0 && unlink(in("x.db-wal")) == 0, "x.db");
    opens(&options, RELKVANU_STORE_STORAGE); /* a new job */
    CHECK(says("another job") && !exists("x.db"), "%s", report.message);
    CHECK(rename(in("storage/.relkvanu-job"), in("marker")) == 0, "marker");
    relkvanu_store_close(opens(&options, RELKVANU_STORE_OK));
    CHECK(rename(in("marker"), in("storage/.relkvanu-job")) == 0, "marker");
    opens_not(&options, RELKVANU_STORE_STORAGE, "another job");
}

CASE(named_or_not) {
    relkvanu_store_options with = storage_options(RELKVANU_STORE_CREATE, 0), without = job_options(RELKVANU_STORE_CREATE, 0);
    relkvanu_store_close(opens(&with, RELKVANU_STORE_OK));
    opens_not(&without, RELKVANU_STORE_STORAGE, "name none");
    unlink(in("x.db"));
    unlink(in("x.db-wal"));
    relkvanu_store *store = opens(&without, RELKVANU_STORE_OK);
    CHECK(relkvanu_store_folder(store) == -1, "a folder");
    relkvanu_store_close(store);
    opens_not(&with, RELKVANU_STORE_STORAGE, "without a storage folder");
}

/* The files of the job itself are no files of the storage. */
CASE(one_folder_for_all) {
    char folder[PATHS];
    relkvanu_store_options options = job_options(RELKVANU_STORE_CREATE, 0);
    snprintf(folder, sizeof folder, "%s", in("."));
    options.storage = folder;
    relkvanu_store_close(opens(&options, RELKVANU_STORE_OK));
    unlink(in(".relkvanu-job"));
    unlink(in("x.db")); /* the other three are left */
    relkvanu_store *store = opens(&options, RELKVANU_STORE_OK);
    relkvanu_store_close(store);
    relkvanu_store_close(opens(&options, RELKVANU_STORE_OK));
    CHECK(report.is_recovered, "a new job");
}

/* A process ended between the first commit of a job and its marker. */
CASE(before_the_marker) {
    relkvanu_store_options options = storage_options(RELKVANU_STORE_CREATE, 0);
    relkvanu_store_close(opens(&options, RELKVANU_STORE_OK));
    run_sql(in("x.db"), "UPDATE job SET storage = 1");
    CHECK(rename(in("storage/.relkvanu-job"), in("storage/.relkvanu-job.new")) == 0, "marker");
    make_empty("storage/5");
    opens(&options, RELKVANU_STORE_STORAGE);
    unlink(in("storage/5"));
    relkvanu_store_close(opens(&options, RELKVANU_STORE_OK));
    CHECK(exists("storage/.relkvanu-job"), "no marker");
    relkvanu_store_close(opens(&options, RELKVANU_STORE_OK));
    run_sql(in("x.db"), "UPDATE job SET storage = 1"); /* it ended after the marker */
    relkvanu_store_close(opens(&options, RELKVANU_STORE_OK));
}

/* A sweep of an older copy would delete the files of the calls that it lacks. */
CASE(an_older_copy) {
    relkvanu_store_options options = storage_options(RELKVANU_STORE_CREATE, 0);
    relkvanu_store_close(opens(&options, RELKVANU_STORE_OK));
    copy_file("x.db", "first.db");
    relkvanu_store_close(opens(&options, RELKVANU_STORE_OK));
    copy_file("x.db", "second.db");
    copy_file("first.db", "x.db");
    for (int times = 0; times < 3; times++) { /* a refusal changes nothing */
        opens_not(&options, RELKVANU_STORE_STORAGE, "an older copy");
    }
    copy_file("second.db", "x.db");
    relkvanu_store_close(opens(&options, RELKVANU_STORE_OK));
    CHECK(report.epoch == 3, "epoch %" PRIu64, report.epoch);
}

/* On a full disk a job is recovered, so that its discarder can make room, and a new one is not made. */
CASE(a_full_storage) {
    relkvanu_store_options options = storage_options(RELKVANU_STORE_CREATE, 0);
    fail_syncs("/storage/.relkvanu-job.new", ENOSPC);
    opens(&options, RELKVANU_STORE_FULL);
    fail_syncs("", 0);
    relkvanu_store_close(opens(&options, RELKVANU_STORE_OK));
    fail_syncs("/storage/.relkvanu-job.new", ENOSPC);
    uint64_t epoch = report.epoch;
    relkvanu_store_close(opens(&options, RELKVANU_STORE_OK));
    CHECK(report.epoch == epoch + 1 && exists("storage/.relkvanu-job"), "epoch %" PRIu64, report.epoch);
}

/* A file system that can't sync a folder keeps no files of a job. */
CASE(a_folder_that_is_not_synced) {
    relkvanu_store_options options = storage_options(RELKVANU_STORE_CREATE, 0);
    fail_syncs("/storage", EINVAL);
    opens(&options, RELKVANU_STORE_FAILED);
    fail_syncs("", 0);
    relkvanu_store *store = opens(&options, RELKVANU_STORE_OK);
    relkvanu_storage storage = own_storage(store);
    puts_file(store, 7, RELKVANU_STORE_OK);
    fail_syncs("/storage", EINVAL);
    CHECK(relkvanu_store_put(store, 8, "state", 5) == RELKVANU_STORE_NOT_PUT && errno == EINVAL && !exists("storage/8"), "errno %d", errno);
    deletes_file(&storage, 7, RELKVANU_STORAGE_FAILED, RELKVANU_STORAGE_UNDELETED);
    CHECK(errno == EINVAL, "errno %d", errno);
    relkvanu_store_close(store);
}

/* It might lead to the folder of another job, or to a file that is no marker. */
CASE(a_marker_that_is_a_link) {
    relkvanu_store_options options = storage_options(RELKVANU_STORE_CREATE, 0);
    struct stat found;
    make_empty("elsewhere");
    CHECK(symlink("../elsewhere", in("storage/.relkvanu-job.new")) == 0, "a link");
    opens_not(&options, RELKVANU_STORE_STORAGE, "a symbolic link is in the place of its marker: .relkvanu-job.new");
    CHECK(stat(in("elsewhere"), &found) == 0 && found.st_size == 0, "the link was followed");
    unlink(in("storage/.relkvanu-job.new"));
    relkvanu_store *store = opens(&options, RELKVANU_STORE_OK);
    puts_file(store, 7, RELKVANU_STORE_OK);
    CHECK(rename(in("storage/.relkvanu-job"), in("marker")) == 0 && symlink("../marker", in("storage/.relkvanu-job")) == 0, "the marker");
    CHECK(relkvanu_store_put(store, 8, "state", 5) == RELKVANU_STORE_STORAGE && !exists("storage/8"), "a put beside a link");
    relkvanu_storage storage = own_storage(store);
    deletes_file(&storage, 7, RELKVANU_STORAGE_NOT_THERE, RELKVANU_STORAGE_UNDELETED);
    CHECK(exists("storage/7"), "it is deleted");
    relkvanu_store_close(store);
    opens_not(&options, RELKVANU_STORE_STORAGE, "a symbolic link is in the place of its marker: .relkvanu-job");
    CHECK(unlink(in("x.db")) == 0 && unlink(in("x.db-wal")) == 0 && unlink(in("marker")) == 0, "the job");
    options.flags |= RELKVANU_STORE_ADOPT;
    opens(&options, RELKVANU_STORE_STORAGE); /* the link leads nowhere now */
    CHECK(says("the marker of another job") && !exists("marker"), "%s", report.message);
}

/* Earlier versions wrote the first line alone. */
CASE(a_marker_without_an_epoch) {
    relkvanu_store_close(new_job());
    write_marker("storage", 0, 0);
    relkvanu_store_close(new_job());
    CHECK(report.epoch == 2, "epoch %" PRIu64, report.epoch);
}

static int opens_task(const char *folder, const uint64_t job[2], uint64_t epoch) {
    relkvanu_storage task;
    int status = relkvanu_storage_open_task(&task, folder, job, epoch);
    CHECK((task.with != NULL) == (status == RELKVANU_STORAGE_OK), "status %d", status);
    relkvanu_storage_close_task(&task);
    relkvanu_storage_close_task(&task);
    return status;
}

/* A task in another process puts files into the store's folder until another opening has it, or the marker is away. */
CASE(a_task_of_another_process) {
    relkvanu_store *store = new_job();
    uint64_t other[2] = {report.job[0], report.job[1] + 1}, epoch = report.epoch, len = 0;
    char read[8] = "";
    relkvanu_storage task;
    CHECK(opens_task(in("nowhere"), report.job, epoch) == RELKVANU_STORAGE_NOT_THERE, "no folder");
    CHECK(opens_task(in("."), report.job, epoch) == RELKVANU_STORAGE_NOT_THERE, "no marker");
    CHECK(opens_task(in("storage"), other, epoch) == RELKVANU_STORAGE_OTHER_JOB, "another job");
    CHECK(opens_task(in("storage"), report.job, epoch - 1) == RELKVANU_STORAGE_OTHER_JOB, "an earlier opening");
    CHECK(relkvanu_storage_open_task(&task, in("storage"), report.job, epoch) == RELKVANU_STORAGE_OK, "a task");
    CHECK(task.delete_files == NULL && task.list == NULL && task.check(task.with) == RELKVANU_STORAGE_OK, "a task deletes nothing");
    CHECK(task.put(task.with, 7, "state", 5) == RELKVANU_STORAGE_OK && exists("storage/7") && !exists("storage/7.part"), "a put");
    CHECK(task.put(task.with, 7, "other", 5) == RELKVANU_STORAGE_PRESENT, "a second put of the number");
    CHECK(task.get(task.with, 7, read, sizeof read, &len) == RELKVANU_STORAGE_OK && len == 5 && strcmp(read, "state") == 0, "%s", read);
    CHECK(task.get(task.with, 8, read, sizeof read, &len) == RELKVANU_STORAGE_ABSENT, "no file 8");
    fail_syncs("/storage", EINVAL);
    CHECK(task.put(task.with, 9, "state", 5) == RELKVANU_STORAGE_FAILED && errno == EINVAL && !exists("storage/9"));
    fail_syncs("/storage", 0);
    CHECK(rename(in("storage/.relkvanu-job"), in("marker")) == 0 && task.put(task.with, 10, "a", 1) == RELKVANU_STORAGE_NOT_THERE, "away");
    CHECK(rename(in("marker"), in("storage/.relkvanu-job")) == 0 && task.put(task.with, 10, "a", 1) == RELKVANU_STORAGE_OK, "back");
    relkvanu_store_close(store);
    store = new_job();
    CHECK(task.put(task.with, 11, "a", 1) == RELKVANU_STORAGE_OTHER_JOB && !exists("storage/11") && !exists("storage/11.part"));
    CHECK(task.check(task.with) == RELKVANU_STORAGE_OTHER_JOB, "a later opening");
    relkvanu_storage_close_task(&task);
    CHECK(opens_task(in("storage"), report.job, report.epoch) == RELKVANU_STORAGE_OK, "the task of the later opening");
    relkvanu_store_close(store);
}

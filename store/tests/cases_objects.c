/* A store over a storage of the engine's own, objects in memory, and its own folder as a storage. */
#include "cases.h"

enum { MOST_OBJECTS = 4000 };

/* Objects by their numbers. A fault is a status that each function returns. */
struct objects {
    atomic_bool is_there[MOST_OBJECTS];
    atomic_int fault, fault_of_list;
    uint64_t stubborn; /* an object that can't be deleted */
    size_t page;       /* of a listing */
    atomic_uint deletions;
};

static int check(void *with) {
    struct objects *it = with;
    return it->fault;
}

static int delete_files(void *with, const uint64_t *files, size_t len, uint8_t *outcomes) {
    struct objects *it = with;
    int fault = it->fault;
    for (size_t i = 0; i < len; i++) {
        bool stays = files[i] == it->stubborn;
        outcomes[i] = stays ? RELKVANU_STORAGE_UNDELETED : it->is_there[files[i]] ? RELKVANU_STORAGE_DELETED : RELKVANU_STORAGE_MISSING;
        it->is_there[files[i]] = it->is_there[files[i]] && (stays || fault != 0);
    }
    it->deletions++;
    return fault;
}

static int list(void *with, size_t most, relkvanu_storage_page page, void *with_page) {
    struct objects *it = with;
    static relkvanu_storage_file files[MOST_OBJECTS];
    size_t len = 0;
    CHECK(most == 0, "%zu", most);
    for (uint64_t file = 0; file < MOST_OBJECTS; file++) {
        if (it->is_there[file]) {
            files[len++].file = file;
        }
        if (len == it->page && !page(with_page, files, len)) {
            return RELKVANU_STORAGE_ENDED;
        }
        len = len == it->page ? 0 : len;
    }
    bool goes_on = len == 0 || page(with_page, files, len);
    return goes_on ? it->fault_of_list : RELKVANU_STORAGE_ENDED;
}

static relkvanu_storage storage_of(struct objects *objects) {
    *objects = (struct objects){.stubborn = UINT64_MAX, .page = RELKVANU_STORAGE_PAGE};
    return (relkvanu_storage){.with = objects, .check = check, .delete_files = delete_files, .list = list};
}

static size_t sweeps_as(relkvanu_store *store, const relkvanu_storage *storage, int status) {
    size_t left = 99;
    int got = relkvanu_store_sweep_storage(store, storage, &left);
    CHECK(got == status, "status %d, not %d", got, status);
    return left;
}

/* Files 100 to 115 are in use. */
CASE(a_sweep_of_objects) {
    static struct objects objects;
    relkvanu_storage storage = storage_of(&objects);
    relkvanu_store *store = new_job_alone(0);
    CHECK(reserved(store, 1, 3100) == 1, "names");
    checkpoint(store, 100);
    CHECK(sweeps_as(store, &storage, RELKVANU_STORE_OK) == 0, "a sweep of no object");
    for (uint64_t file = 100; file < 3100; file++) {
        objects.is_there[file] = true;
    }
    CHECK(sweeps_as(store, &storage, RELKVANU_STORE_OK) == 0 && objects.deletions == 0, "a sweep while tasks run");
    done(store, RELKVANU_CALL_RESTORE, RELKVANU_STORE_NOW, 0);
    objects.fault = RELKVANU_STORAGE_NOT_THERE;
    CHECK(sweeps_as(store, &storage, RELKVANU_STORE_STORAGE) == 0 && objects.deletions == 0, "a sweep of a storage that is not there");
    objects.fault = 0;
    objects.fault_of_list = RELKVANU_STORAGE_FAILED;
    objects.stubborn = 2000;
    objects.page = 700;
    CHECK(sweeps_as(store, &storage, RELKVANU_STORE_NOT_DONE) == 1, "a list that is not whole");
    objects.fault_of_list = RELKVANU_STORAGE_NO_MEMORY;
    CHECK(sweeps_as(store, &storage, RELKVANU_STORE_NO_MEMORY) == 1, "a list without memory");
    objects.fault_of_list = 0;
    CHECK(sweeps_as(store, &storage, RELKVANU_STORE_OK) == 1, "an object that can't be deleted");
    for (uint64_t file = 100; file < 3100; file++) {
        CHECK(objects.is_there[file] == (file < 100 + 2 * SUBTASKS || file == 2000), "object %" PRIu64, file);
    }
    relkvanu_store_counts counts = totals_of(store);
    CHECK(counts.swept == 3000 - 2 * SUBTASKS - 1, "%" PRIu64 " are swept", counts.swept);
    relkvanu_store_close(store);
}

CASE(pages_that_are_too_large) {
    static struct objects objects;
    relkvanu_storage storage = storage_of(&objects);
    relkvanu_store *store = new_job_alone(0);
    done(store, RELKVANU_CALL_RESTORE, RELKVANU_STORE_NOW, 0);
    for (uint64_t file = 100; file < 100 + RELKVANU_STORAGE_PAGE + 1; file++) {
        objects.is_there[file] = true;
    }
    objects.page = RELKVANU_STORAGE_PAGE + 1;
    CHECK(sweeps_as(store, &storage, RELKVANU_STORE_NOT_DONE) == 0 && objects.deletions == 0, "a page");
    relkvanu_store_close(store);
}

CASE(storages_that_are_not_whole) {
    static struct objects objects;
    const relkvanu_storage good = storage_of(&objects);
    relkvanu_storage bad[] = {good, good, good, good};
    relkvanu_store *store = new_job_alone(0);
    bad[0].check = NULL;
    bad[1].delete_files = NULL;
    bad[2].list = NULL;
    bad[3].reserved[2] = 1;
    for (size_t i = 0; i < sizeof bad / sizeof *bad; i++) {
        CHECK(sweeps_as(store, &bad[i], RELKVANU_STORE_BAD_ARGUMENT) == 0, "a sweep");
        CHECK(relkvanu_store_discard_storage(store, 0, &bad[i]) == RELKVANU_STORE_BAD_ARGUMENT, "a discarder");
    }
    CHECK(relkvanu_store_discard_storage(store, RELKVANU_STORE_MOST_CALLS, &good) == RELKVANU_STORE_BAD_ARGUMENT, "a batch");
    relkvanu_store_close(store);
}

static bool is_there(struct objects *objects, uint64_t first, uint64_t last) {
    bool any = false;
    for (uint64_t file = first; file <= last; file++) {
        any = any || objects->is_there[file];
    }
    return any;
}

/* The files of the first checkpoint are deleted once the storage is back; one of them is missing there. Those of the second are in use. */
CASE(a_discarder_of_objects) {
    static struct objects objects;
    relkvanu_storage storage = storage_of(&objects);
    relkvanu_store *store = new_job_alone(0);
    struct discarder it = {.store = store, .batch = 5, .storage = &storage};
    for (uint64_t file = 100; file < 100 + 4 * SUBTASKS; file++) {
        objects.is_there[file] = file != 103;
    }
    checkpoint(store, 100);
    checkpoint(store, 100 + 2 * SUBTASKS);
    objects.fault = RELKVANU_STORAGE_NOT_THERE;
    start_discarder(&it);
    AWAIT(objects.deletions >= 2);
    CHECK(is_there(&objects, 100, 100), "it is not there, and a file counts as gone");
    objects.fault = 0;
    AWAIT(!is_there(&objects, 100, 99 + 2 * SUBTASKS));
    AWAIT(unreported(store) == 0);
    stop_discarder(&it);
    for (uint64_t file = 100 + 2 * SUBTASKS; file < 100 + 4 * SUBTASKS; file++) {
        CHECK(objects.is_there[file], "object %" PRIu64, file);
    }
    relkvanu_store_close(store);
}

CASE(a_discarder_of_another_job) {
    static struct objects objects;
    relkvanu_storage storage = storage_of(&objects);
    relkvanu_store *store = new_job_alone(0);
    checkpoint(store, 100);
    checkpoint(store, 200);
    objects.is_there[100] = true;
    objects.fault = RELKVANU_STORAGE_OTHER_JOB;
    CHECK(relkvanu_store_discard_storage(store, 0, &storage) == RELKVANU_STORE_STORAGE && objects.is_there[100], "another job");
    CHECK(counts_of(store).taken == 2 * SUBTASKS, "what was taken is settled by whoever has the job");
    relkvanu_store_close(store);
}

static bool note_sum(void *with, const relkvanu_storage_file *files, size_t len) {
    uint64_t *sums = with;
    for (size_t i = 0; i < len; i++) {
        sums[0] += files[i].file;
        sums[1] += files[i].bytes;
    }
    return true;
}

struct store_and_own {
    relkvanu_store *store;
    relkvanu_storage own;
};

static int in_a_child(void *with) {
    struct store_and_own *it = with;
    relkvanu_storage *own = &it->own, again;
    uint64_t file = 7, sums[2] = {0};
    uint8_t outcome = 9;
    size_t left;
    uint64_t len;
    bool is_refused = own->check(own->with) == RELKVANU_STORAGE_NOT_THERE && own->put(own->with, 8, "", 0) == RELKVANU_STORAGE_NOT_THERE &&
                      own->delete_files(own->with, &file, 1, &outcome) == RELKVANU_STORAGE_NOT_THERE &&
                      outcome == RELKVANU_STORAGE_UNDELETED && own->list(own->with, 0, note_sum, sums) == RELKVANU_STORAGE_NOT_THERE &&
                      own->get(own->with, 7, NULL, 0, &len) == RELKVANU_STORAGE_NOT_THERE &&
                      relkvanu_store_storage(it->store, &again) == RELKVANU_STORE_FORKED && again.with == NULL &&
                      relkvanu_store_sweep_storage(it->store, own, &left) == RELKVANU_STORE_FORKED &&
                      relkvanu_store_discard_storage(it->store, 0, NULL) == RELKVANU_STORE_FORKED;
    return is_refused ? 0 : 1;
}

CASE(the_own_folder) {
    relkvanu_store *store = new_job();
    relkvanu_storage own = own_storage(store);
    uint64_t len = 0, sums[2] = {0}, file = 7;
    uint8_t is_gone = 1;
    char found[8] = "";
    CHECK(own.check(own.with) == RELKVANU_STORAGE_OK, "a storage");
    CHECK(own.put(own.with, 7, "state", 5) == RELKVANU_STORAGE_OK && relkvanu_store_put(store, 7, "", 0) == RELKVANU_STORE_PRESENT, "put");
    CHECK(own.get(own.with, 7, found, sizeof found, &len) == RELKVANU_STORAGE_OK && len == 5 && strcmp(found, "state") == 0, "%s", found);
    CHECK(own.list(own.with, 0, note_sum, sums) == RELKVANU_STORAGE_OK && sums[0] == 7 && sums[1] == 5, "%" PRIu64 " bytes", sums[1]);
    CHECK(in_child(in_a_child, &(struct store_and_own){store, own}) == 0, "a child");
    CHECK(rename(in("storage/.relkvanu-job"), in("marker")) == 0 && own.check(own.with) == RELKVANU_STORAGE_NOT_THERE, "the marker");
    deletes_file(&own, 7, RELKVANU_STORAGE_NOT_THERE, RELKVANU_STORAGE_UNDELETED);
    CHECK(rename(in("marker"), in("storage/.relkvanu-job")) == 0, "the marker");
    deletes_file(&own, 7, RELKVANU_STORAGE_OK, RELKVANU_STORAGE_DELETED);
    deletes_file(&own, 8, RELKVANU_STORAGE_OK, RELKVANU_STORAGE_MISSING);
    relkvanu_store_close(store);
    lose_job();
    store = opens_with(job_options(RELKVANU_STORE_CREATE_ONLY, 0));
    CHECK(relkvanu_store_storage(store, &own) == RELKVANU_STORE_BAD_ARGUMENT && own.with == NULL, "no folder");
    puts_file(store, 7, RELKVANU_STORE_BAD_ARGUMENT);
    relkvanu_store_delete_files(store, &file, 1, &is_gone);
    CHECK(!is_gone, "a deletion without a folder");
    CHECK(relkvanu_store_discard_storage(store, 0, NULL) == RELKVANU_STORE_BAD_ARGUMENT, "a discarder without a folder");
    CHECK(relkvanu_store_discard_for(store, 0, 1, NULL, NULL) == RELKVANU_STORE_BAD_ARGUMENT, "one for a while");
    CHECK(sweeps_as(store, NULL, RELKVANU_STORE_BAD_ARGUMENT) == 0, "a sweep");
    relkvanu_store_close(store);
}

/* A storage that counts its deletions, over the store's own. */
static relkvanu_storage under;
static atomic_uint counted;

static int count_deletions(void *with, const uint64_t *files, size_t len, uint8_t *outcomes) {
    counted += (unsigned)len;
    return under.delete_files(with, files, len, outcomes);
}

/* The store's own storage is taken as any other one, and by NULL. What its folder has not synced is not reported. */
CASE(the_own_storage_discards) {
    relkvanu_store_options options = storage_options(RELKVANU_STORE_CREATE, 0);
    relkvanu_store *store = opens(&options, RELKVANU_STORE_OK);
    checkpoint_with_files(store, 1);
    checkpoint_with_files(store, 101);
    fail_syncs("/storage", EIO);
    do { /* on a slow machine the time may be up before a batch */
        CHECK(relkvanu_store_discard_for(store, 0, 50, NULL, NULL) == RELKVANU_STORE_TIMED_OUT, "a discarder");
    } while (access(in("storage/1"), F_OK) == 0);
    CHECK(unreported(store) == 2 * SUBTASKS, "%" PRIu64 " are left", unreported(store));
    fail_syncs("", 0);
    CHECK(rename(in("storage/.relkvanu-job"), in("marker")) == 0, "the marker");
    CHECK(relkvanu_store_discard_for(store, 0, 500, NULL, NULL) == RELKVANU_STORE_TIMED_OUT, "without a marker");
    CHECK(unreported(store) == 2 * SUBTASKS && rename(in("marker"), in("storage/.relkvanu-job")) == 0, "the marker");
    while (unreported(store) != 0) {
        CHECK(relkvanu_store_discard_for(store, 0, 500, NULL, NULL) == RELKVANU_STORE_TIMED_OUT, "a discarder");
    }
    checkpoint_with_files(store, 201);
    under = own_storage(store);
    relkvanu_storage counting = under;
    counting.delete_files = count_deletions;
    struct discarder it = {.store = store, .batch = 5, .storage = &counting};
    start_discarder(&it);
    AWAIT(unreported(store) == 0);
    stop_discarder(&it);
    CHECK(counted == 2 * SUBTASKS, "%u deletions", (unsigned)counted);
    CHECK(access(in("storage/101"), F_OK) != 0 && access(in("storage/201"), F_OK) == 0, "the files");
    CHECK(relkvanu_store_discard_storage(store, 0, NULL) == RELKVANU_STORE_STOPPED, "a discarder of its own");
    relkvanu_store_close(store);
    store = opens_as(&options, RELKVANU_STORE_RECOVER, RELKVANU_STORE_OK);
    puts_file(store, 50, RELKVANU_STORE_OK);
    done(store, RELKVANU_CALL_RESTORE, RELKVANU_STORE_NOW, 0);
    CHECK(sweeps_as(store, NULL, RELKVANU_STORE_OK) == 0, "a sweep");
    CHECK(access(in("storage/50"), F_OK) != 0 && access(in("storage/201"), F_OK) == 0, "the files");
    relkvanu_store_close(store);
}

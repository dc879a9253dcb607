/* Fences: what a claim, a recovery and an opening do to each other while one of them is under way. */
#include "cases.h"

enum { MOMENT = 1000000 }; /* microseconds, in which a call that waits for nothing has ended */

static relkvanu_store_options options_of(uint32_t flags) {
    return storage_options(flags | RELKVANU_STORE_MANIFESTS, 0);
}

/* A job with one record, whose files are there. */
static relkvanu_store *job_with_a_record(void) {
    relkvanu_store_options options = options_of(RELKVANU_STORE_CREATE);
    options.settings.retained = 2;
    relkvanu_store *store = opens(&options, RELKVANU_STORE_OK);
    CHECK(checkpoint_with_files(store, 1) == 1, "the number");
    return store;
}

/* A call in a thread of its own. */
struct call {
    pthread_t thread;
    char storage[PATHS], path[PATHS], folder[PATHS];
    relkvanu_store_options options;
    relkvanu_store_recovered recovered;
    int status;
};

static void *opens_it(void *with) {
    struct call *call = with;
    relkvanu_store_report told;
    relkvanu_store *store;
    call->status = relkvanu_store_open(&store, call->path, &call->options, &told);
    memcpy(call->recovered.message, told.message, sizeof call->recovered.message);
    relkvanu_store_close(store);
    return NULL;
}

static void *claims_it(void *with) {
    struct call *call = with;
    call->status = relkvanu_store_claim(call->storage, 0, call->path, call->folder, &call->recovered);
    return NULL;
}

static void *recovers_it(void *with) {
    struct call *call = with;
    call->status = relkvanu_store_recover(call->path, call->storage, 0, &call->recovered);
    return NULL;
}

static void begins_call(struct call *call, void *(*run)(void *), const char *path, const char *folder) {
    call->options = options_of(RELKVANU_STORE_RECOVER);
    snprintf(call->storage, sizeof call->storage, "%s", in("storage"));
    snprintf(call->path, sizeof call->path, "%s", in(path));
    snprintf(call->folder, sizeof call->folder, "%s", in(folder));
    call->thread = starts(run, call);
}

static void ends_with(struct call *call, int status, const char *words) {
    CHECK(pthread_join(call->thread, NULL) == 0 && call->status == status && strstr(call->recovered.message, words) != NULL,
        "status %d, not %d: %s", call->status, status, call->recovered.message);
}

/* Whether the job of a claim has the record. */
static void has_record(const char *path, const char *folder, uint64_t record) {
    relkvanu_store_options options = options_of(RELKVANU_STORE_RECOVER);
    relkvanu_store_loaded loaded;
    options.storage = in(folder);
    relkvanu_store *store = opens_at(path, &options, RELKVANU_STORE_OK);
    CHECK(relkvanu_store_load(store, 0, &loaded, NULL, NULL) == RELKVANU_STORE_OK && loaded.id == record, "the record");
    relkvanu_store_close(store);
}

/* An opening that has looked at the marker, and not written it yet, when a claim or a recovery fences the folder. */
static void holds_an_opening(struct call *opening, const char *name) {
    relkvanu_store_close(job_with_a_record());
    CHECK(mkdir(in("apart"), 0700) == 0, "a folder");
    hold_syncs(name); /* that of the folder of x.db */
    begins_call(opening, opens_it, "x.db", "storage");
    await_held_sync();
}

static void is_refused(struct call *opening) {
    relkvanu_store_options options = options_of(RELKVANU_STORE_RECOVER);
    hold_syncs(NULL);
    ends_with(opening, RELKVANU_STORE_STORAGE, "a later opening of the job has used it");
    opens(&options, RELKVANU_STORE_STORAGE);
}

/* A claim that takes the first record over. */
static void claims_first(void) {
    claims("storage", 0, "apart/y.db", "apart/state", RELKVANU_STORE_OK);
    CHECK(recovered.record == 1, "record %" PRIu64, recovered.record);
}

CASE(a_claim_beside_an_opening) {
    struct call opening = {.status = 0};
    holds_an_opening(&opening, "/a_claim_beside_an_opening");
    claims_first();
    is_refused(&opening);
    has_record("apart/y.db", "apart/state", 1);
}

CASE(a_recovery_beside_an_opening) {
    struct call opening = {.status = 0};
    holds_an_opening(&opening, "/a_recovery_beside_an_opening");
    recovers("apart/y.db", "storage", 0, RELKVANU_STORE_OK);
    CHECK(recovered.record == 1, "record %" PRIu64, recovered.record);
    is_refused(&opening);
    has_record("apart/y.db", "storage", 1);
}

/* A claim in a thread of its own, when its folder has the record and there is no job of it yet. */
static void holds_a_claim(struct call *claim) {
    relkvanu_store *store = job_with_a_record();
    CHECK(checkpoint_with_files(store, 17) == 2 && mkdir(in("apart"), 0700) == 0, "an earlier record, and a later one");
    relkvanu_store_close(store);
    hold_syncs("/apart/one.part");
    begins_call(claim, claims_it, "apart/one.db", "apart/one");
    await_held_sync();
}

static const char WORDS[] = "/apart/one: repeat that command or start its job, or give the number of an earlier record";

/* Nothing is made of an earlier record that is still there, unless somebody gives its number. */
static void is_claimed(void) {
    recovers("y.db", "storage", 0, RELKVANU_STORE_ABSENT);
    CHECK(strstr(recovered.message, "record 2 was claimed for ") != NULL && strstr(recovered.message, WORDS) != NULL, "%s",
        recovered.message);
    imports("storage", 0, "y.db", "elsewhere", RELKVANU_STORE_ABSENT);
    exports("storage", 0, "out", RELKVANU_STORE_ABSENT);
    CHECK(strstr(recovered.message, WORDS) != NULL && strstr(carried.message, WORDS) != NULL, "%s", carried.message);
    CHECK(!exists("y.db") && !exists("elsewhere") && !exists("out"), "something was made");
}

/* Who gives the number of the earlier record makes the job again, above all that it told. Then its sweep takes the mark away. */
static void goes_back_to_earlier(void) {
    relkvanu_store_options options = options_of(RELKVANU_STORE_RECOVER);
    recovers("y.db", "storage", 1, RELKVANU_STORE_OK);
    CHECK(recovered.next_number > 2, "number %" PRIu64, recovered.next_number);
    relkvanu_store *store = opens_at("y.db", &options, RELKVANU_STORE_OK);
    CHECK(exists("storage/record-2.manifest.claimed"), "the mark");
    is_swept(store, RELKVANU_STORE_OK, 0);
    relkvanu_store_close(store);
    CHECK(!exists("storage/record-2.manifest.claimed"), "the mark");
    recovers("z.db", "storage", 0, RELKVANU_STORE_OK);
}

/* The second claim waits for the first, and does not take the earlier record then. */
CASE(two_claims_at_once) {
    struct call one = {.status = 0}, other = {.status = 0};
    holds_a_claim(&one);
    begins_call(&other, claims_it, "apart/other.db", "apart/other");
    usleep(MOMENT);
    hold_syncs(NULL);
    ends_with(&one, RELKVANU_STORE_OK, "");
    ends_with(&other, RELKVANU_STORE_ABSENT, WORDS);
    has_record("apart/one.db", "apart/one", 2);
    CHECK(!exists("apart/other") && !exists("apart/other.db"), "what the second claim has made");
    is_claimed();
    claims("storage", 2, "y.db", "elsewhere", RELKVANU_STORE_ABSENT);
    CHECK(strstr(recovered.message, WORDS) != NULL, "%s", recovered.message);
    goes_back_to_earlier();
}

/* The recovery that has fenced the folder last has the records. */
CASE(two_recoveries_at_once) {
    struct call one = {.status = 0};
    relkvanu_store_close(job_with_a_record());
    CHECK(mkdir(in("one"), 0700) == 0 && mkdir(in("other"), 0700) == 0, "folders");
    hold_syncs("/one");
    begins_call(&one, recovers_it, "one/x.db", "storage");
    await_held_sync();
    recovers("other/x.db", "storage", 0, RELKVANU_STORE_OK);
    CHECK(recovered.record == 1, "record %" PRIu64, recovered.record);
    hold_syncs(NULL);
    ends_with(&one, RELKVANU_STORE_STORAGE, "has taken the storage folder meanwhile");
    CHECK(!exists("one/x.db"), "a second job");
    has_record("other/x.db", "storage", 1);
}

/* The acknowledgement of a subtask whose state is its payload. */
static int acks(relkvanu_store *store, uint64_t id, uint16_t index, relkvanu_answer *answer) {
    relkvanu_store_more more = {.payload = "state", .payload_len = 5};
    return relkvanu_store_ack_with(store, report.term, RELKVANU_STORE_NOW, id, 0, index, NULL, 0, NULL, 0, &more, answer);
}

static uint64_t acks_all_but_one(relkvanu_store *store) {
    relkvanu_answer answer;
    uint64_t id = done(store, RELKVANU_CALL_TRIGGER, RELKVANU_STORE_NOW, 0).b;
    for (uint16_t i = 1; i < SUBTASKS; i++) {
        CHECK(acks(store, id, i, &answer) == RELKVANU_STORE_OK && answer.what == RELKVANU_ACK_PENDING, "what %" PRIu32, answer.what);
    }
    return id;
}

/* A job without state files, whose record is claimed while its engine runs. */
static relkvanu_store *claimed(void) {
    relkvanu_answer answer;
    relkvanu_store *store = opens_with(options_of(RELKVANU_STORE_CREATE));
    CHECK(acks(store, acks_all_but_one(store), 0, &answer) == RELKVANU_STORE_OK && answer.what == RELKVANU_ACK_COMPLETED, "a record");
    acks_all_but_one(store);
    CHECK(mkdir(in("apart"), 0700) == 0, "a folder");
    claims_first();
    return store;
}

static void is_closed(relkvanu_store *store) {
    char message[200];
    relkvanu_answer answer;
    CHECK(relkvanu_store_message(store, message, sizeof message) != 0 && strstr(message, "a later opening") != NULL, "%s", message);
    CHECK(relkvanu_store_term(store, &answer) == RELKVANU_STORE_CLOSED, "it goes on");
    relkvanu_store_close(store);
}

/* Its engine hears of it with the next record, which is complete for nobody. */
CASE(a_claim_beside_payloads) {
    relkvanu_answer answer;
    relkvanu_store *store = claimed();
    CHECK(acks(store, 2, 0, &answer) == RELKVANU_STORE_STORAGE && answer.code == RELKVANU_STORE_NOT_MADE, "what %" PRIu32, answer.what);
    CHECK(!exists("storage/record-2.manifest"), "a manifest");
    is_closed(store);
    has_record("apart/y.db", "apart/state", 1);
}

struct ack {
    relkvanu_store *store;
    relkvanu_answer answer;
    int status;
};

static void *acks_last(void *with) {
    struct ack *ack = with;
    ack->status = acks(ack->store, 2, 0, &ack->answer);
    return NULL;
}

/* The same of a caller who is not alone: another thread writes the manifest. */
CASE(a_claim_beside_a_crowd) {
    relkvanu_store *store = claimed();
    struct ack ack = {.store = store};
    begins_read(store);
    pthread_t thread = starts(acks_last, &ack);
    usleep(MOMENT / 2);
    relkvanu_store_read_end(store);
    CHECK(pthread_join(thread, NULL) == 0, "a thread");
    CHECK(ack.status == RELKVANU_STORE_STORAGE && ack.answer.code == RELKVANU_STORE_NOT_MADE, "status %d", ack.status);
    is_closed(store);
}

/* A claim that fences the folder while a manifest is written, and has listed the others before: the record is complete for nobody. */
CASE(a_claim_beside_a_manifest) {
    relkvanu_answer answer;
    struct ack ack = {.store = opens_with(options_of(RELKVANU_STORE_CREATE))};
    CHECK(acks(ack.store, acks_all_but_one(ack.store), 0, &answer) == RELKVANU_STORE_OK, "a record");
    acks_all_but_one(ack.store);
    CHECK(mkdir(in("apart"), 0700) == 0, "a folder");
    hold_syncs("/record-2.manifest.part");
    pthread_t thread = starts(acks_last, &ack);
    await_held_sync();
    claims_first();
    hold_syncs(NULL);
    CHECK(pthread_join(thread, NULL) == 0 && ack.status == RELKVANU_STORE_STORAGE, "status %d", ack.status);
    is_closed(ack.store);
}

/* Copies the job's file as it is on the disk, or moves it. */
static void puts_aside(const char *command, const char *from, const char *to) {
    static const char *const ends[] = {"", "-wal"};
    for (size_t i = 0; i < 2; i++) {
        char words[2 * PATHS + 40], name[PATHS], other[PATHS];
        snprintf(name, sizeof name, "%s%s", in(from), ends[i]);
        snprintf(other, sizeof other, "%s%s", in(to), ends[i]);
        snprintf(words, sizeof words, "%s %s %s", command, name, other);
        CHECK(access(name, F_OK) != 0 || system(words) == 0, "%s", words);
    }
}

/* Takes a copy of the file while the job is open, and completes one more record. */
static int copies_and_goes_on(void *with) {
    (void)with;
    relkvanu_store *store = job_with_a_record();
    puts_aside("cp", "x.db", "old.db");
    return checkpoint_with_files(store, 17) == 2 ? 7 : 1; /* it is killed */
}

/* A copy from the last opening has the number of that opening. The manifest of a later call proves that it is older, and the newer file stays the job. */
CASE(a_copy_of_the_last_opening) {
    CHECK(in_child(copies_and_goes_on, NULL) == 7, "a child");
    relkvanu_store_options options = options_of(RELKVANU_STORE_RECOVER);
    puts_aside("mv", "x.db", "new.db");
    puts_aside("cp", "old.db", "x.db");
    opens(&options, RELKVANU_STORE_STORAGE);
    CHECK(says("x.db: it is an older copy") && says("record-2.manifest"), "%s", report.message);
    lose_job();
    puts_aside("mv", "new.db", "x.db");
    relkvanu_store *store = opens(&options, RELKVANU_STORE_OK);
    CHECK(report.choice.a == 2 && report.epoch == 2, "record %" PRIu64 ", opening %" PRIu64, report.choice.a, report.epoch);
    relkvanu_store_close(store);
    puts_aside("mv", "x.db", "new.db");
    puts_aside("mv", "old.db", "x.db");
    opens(&options, RELKVANU_STORE_STORAGE);
    CHECK(says("a later opening of the job has used it (2)") && says("of opening 1: ") && says("x.db"), "%s", report.message);
}

/* One digit of the identity in the marker is another one: the message says whose the records are. */
CASE(a_marker_of_another_job) {
    char job[40], words[120], marker[200] = "";
    relkvanu_store_close(job_with_a_record());
    snprintf(job, sizeof job, "%016" PRIx64 "%016" PRIx64, report.job[0], report.job[1]);
    lose_job();
    FILE *file = fopen(in("storage/.relkvanu-job"), "r+");
    CHECK(file != NULL && fread(marker, 1, sizeof marker - 1, file) != 0, "the marker");
    char *digit = strstr(marker, job);
    CHECK(digit != NULL && fseek(file, digit - marker, SEEK_SET) == 0 && fputc(*digit == '0' ? '1' : '0', file) > 0, "the marker");
    CHECK(fclose(file) == 0, "the marker");
    recovers("x.db", "storage", 0, RELKVANU_STORE_ABSENT);
    snprintf(words, sizeof words, "1 whole records there are of another job, %s: the marker, which names ", job);
    CHECK(strstr(recovered.message, words) != NULL, "%s", recovered.message);
    claims("storage", 0, "y.db", "elsewhere", RELKVANU_STORE_ABSENT);
    CHECK(strstr(recovered.message, words) != NULL, "%s", recovered.message);
}

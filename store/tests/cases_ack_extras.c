/* What records have beside the log: payloads, figures, the order of files, the records that ended, a record as a whole, and the history. */
#include "cases.h"

enum { ENDED = RELKVANU_STORE_MOST_ENDED, BYTES = 10, MILLIS = 3 };

/* A call with more, and what it told. */
static uint64_t ended[ENDED];
static relkvanu_store_more more;
static relkvanu_answer answer;

static relkvanu_store_more with_payload(const char *payload) {
    return (relkvanu_store_more){
        .payload = payload, .payload_len = strlen(payload), .bytes = BYTES, .millis = MILLIS, .ended = ended, .ended_room = ENDED};
}

/* A call that has to be made, which tells of records. */
static relkvanu_answer tells(relkvanu_store *store, uint32_t kind, uint64_t number) {
    more = (relkvanu_store_more){.ended = ended, .ended_room = ENDED};
    relkvanu_store_call call = {.call = {.kind = kind, .now = RELKVANU_STORE_NOW, .number = number}, .more = &more};
    int status = relkvanu_store_calls(store, &call, 1);
    CHECK(status == RELKVANU_STORE_OK && call.answer.code == RELKVANU_DONE, "kind %" PRIu32 ": status %d, what %" PRIu32, kind, status,
        call.answer.what);
    return call.answer;
}

static uint64_t triggers(relkvanu_store *store) {
    uint64_t id = tells(store, RELKVANU_CALL_TRIGGER, 0).b;
    CHECK(more.kind == RELKVANU_STORE_CHECKPOINT && more.ended_len == 0, "kind %" PRIu32, more.kind);
    return id;
}

/* An acknowledgement or a decline with what is in `more`. */
static void answers(relkvanu_store *store, uint64_t term, uint64_t id, uint16_t index, uint32_t code) {
    int status = more.reason == NULL
                     ? relkvanu_store_ack_with(store, term, RELKVANU_STORE_NOW, id, 0, index, NULL, 0, NULL, 0, &more, &answer)
                     : relkvanu_store_decline_with(store, term, RELKVANU_STORE_NOW, id, 0, index, &more, &answer);
    CHECK(
        status == RELKVANU_STORE_OK && answer.code == code, "status %d, code %" PRIu32 ", what %" PRIu32, status, answer.code, answer.what);
}

static void acks(relkvanu_store *store, uint64_t id, uint16_t index, const char *payload) {
    more = with_payload(payload);
    answers(store, term_of(store), id, index, RELKVANU_DONE);
}

static void declines(relkvanu_store *store, uint64_t id, const char *reason) {
    more = (relkvanu_store_more){.reason = reason, .reason_len = strlen(reason), .ended = ended, .ended_room = ENDED};
    answers(store, term_of(store), id, 1, RELKVANU_DONE);
}

static void acks_all(relkvanu_store *store, uint64_t id) {
    for (uint16_t i = 0; i < SUBTASKS; i++) {
        acks(store, id, i, payload_of(id, i).text);
    }
    CHECK(answer.what == RELKVANU_ACK_COMPLETED, "what %" PRIu32, answer.what);
}

static uint64_t completes_all(relkvanu_store *store) {
    uint64_t id = triggers(store);
    acks_all(store, id);
    return id;
}

/* What a load has told. */
static struct {
    relkvanu_store_loaded is;
    uint64_t of; /* the record whose payloads they are */
    size_t parts, files_len;
    uint64_t files[MOST_FILES]; /* of all subtasks */
} loaded;

static bool note_part(void *with, const relkvanu_store_part *part) {
    CHECK(with == &loaded && part->vertex == 0 && part->index == loaded.parts, "subtask %d.%d", part->vertex, part->index);
    struct payload payload = payload_of(loaded.of, part->index);
    CHECK(part->payload_len == (loaded.of == 0 ? 0 : payload.len), "%zu bytes", part->payload_len);
    CHECK(part->payload_len == 0 || memcmp(part->payload, payload.text, part->payload_len) == 0, "%.*s", (int)part->payload_len,
        (const char *)part->payload);
    CHECK(part->bytes == (loaded.of == 0 ? 0 : BYTES) && part->millis == (loaded.of == 0 ? 0 : MILLIS), "%" PRIu64 " bytes, %" PRIu64 " ms",
        part->bytes, part->millis);
    for (size_t i = 0; i < part->files_len; i++) {
        loaded.files[loaded.files_len++] = part->files[i];
    }
    loaded.parts++;
    return true;
}

/* Loads the record (0: the choice), whose payloads are those of a record. */
static void loads_as(relkvanu_store *store, uint64_t id, uint64_t of, int status) {
    loaded.of = of;
    loaded.parts = loaded.files_len = 0;
    int got = relkvanu_store_load(store, id, &loaded.is, note_part, &loaded);
    CHECK(got == status, "status %d, not %d", got, status);
    CHECK(status == RELKVANU_STORE_OK || loaded.parts == 0, "%zu parts of a load that failed", loaded.parts);
}

static void loads(relkvanu_store *store, uint64_t id) {
    loads_as(store, id, id, RELKVANU_STORE_OK);
    CHECK(loaded.is.id == id && loaded.parts == SUBTASKS && loaded.is.shape_len == 1 && loaded.is.shape[0] == SUBTASKS, "%zu parts",
        loaded.parts);
    CHECK(loaded.is.term == term_of(store), "term %" PRIu64, loaded.is.term);
}

/* How many rows of parts a closed job has, of this record, or of all (0). */
static uint64_t parts_of(uint64_t record) {
    char sql[100];
    snprintf(sql, sizeof sql, "SELECT count(*) FROM part WHERE record = %" PRIu64 " OR %" PRIu64 " = 0", record, record);
    return ask_sql(in("x.db"), sql);
}

/* The last records that ended, and how many. */
static size_t history(relkvanu_store *store, relkvanu_store_past *past, size_t room) {
    CHECK(relkvanu_store_history(store, past, &room) == RELKVANU_STORE_OK, "no history");
    return room;
}

static relkvanu_store *reopens(relkvanu_store *store) {
    relkvanu_store_close(store);
    return opens_with(storage_options(RELKVANU_STORE_RECOVER, 0));
}

static relkvanu_store *job_of(uint64_t retained) {
    relkvanu_store_options options = storage_options(RELKVANU_STORE_CREATE, 0);
    options.settings.retained = retained;
    options.settings.at_once = 4;
    options.settings.interval = UINT64_C(1) << 39; /* no tick is due */
    options.settings.timeout = 1000;
    return opens(&options, RELKVANU_STORE_OK);
}

CASE(payloads) {
    relkvanu_store *store = job_of(1);
    loads_as(store, 0, 0, RELKVANU_STORE_OK);
    CHECK(loaded.is.id == 0 && loaded.is.kind == 0 && loaded.parts == 0, "a new job has record %" PRIu64, loaded.is.id);
    uint64_t first = completes_all(store);
    CHECK(more.kind == RELKVANU_STORE_CHECKPOINT && more.ended_len == 0, "%zu ended", more.ended_len);
    loads(store, first);
    uint64_t second = completes_all(store);
    CHECK(more.ended_len == 1 && ended[0] == first, "%zu ended, the first %" PRIu64, more.ended_len, ended[0]);
    loads_as(store, first, 0, RELKVANU_STORE_ABSENT);
    uint64_t pending = triggers(store);
    acks(store, pending, 0, "begun");
    loads_as(store, pending, 0, RELKVANU_STORE_ABSENT);
    store = reopens(store);
    loads_as(store, 0, second, RELKVANU_STORE_OK);
    CHECK(loaded.is.id == second && loaded.is.kind == RELKVANU_STORE_CHECKPOINT, "record %" PRIu64, loaded.is.id);
    tells(store, RELKVANU_CALL_RESTORE, 0);
    CHECK(more.kind == RELKVANU_STORE_CHECKPOINT && more.ended_len == 1 && ended[0] == pending, "%zu ended", more.ended_len);
    loads(store, second);
    relkvanu_store_close(store);
    CHECK(parts_of(0) == parts_of(second) && parts_of(second) == SUBTASKS, "%" PRIu64 " rows", parts_of(0));
    store = reopens(NULL);
    tells(store, RELKVANU_CALL_CANCEL, 0);
    CHECK(more.ended_len == 1 && ended[0] == second, "%zu ended", more.ended_len);
    relkvanu_store_close(store);
    CHECK(parts_of(0) == 0, "rows of a job that was cancelled");
}

/* Of a list, and of a submit: one row for the parts of a commit. */
CASE(payloads_of_lists) {
    relkvanu_store *store = job_of(1);
    static relkvanu_store_more of[SUBTASKS];
    static char texts[SUBTASKS][40];
    for (int is_submit = 0; is_submit < 2; is_submit++) {
        uint64_t id = triggers(store), term = term_of(store);
        relkvanu_store_call calls[SUBTASKS] = {0};
        for (uint16_t i = 0; i < SUBTASKS; i++) {
            strcpy(texts[i], payload_of(id, i).text);
            of[i] = with_payload(texts[i]);
            of[i].ended_room = is_submit ? 0 : ENDED; /* how many have ended is told without a buffer too */
            calls[i].call = (relkvanu_call){.kind = RELKVANU_CALL_ACK, .now = RELKVANU_STORE_NOW, .number = id, .term = term, .index = i};
            calls[i].more = &of[i];
        }
        if (is_submit) {
            relkvanu_store_completion completion = {0};
            CHECK(relkvanu_store_submit(store, calls, SUBTASKS, 7) == RELKVANU_STORE_OK, "no submit");
            AWAIT(relkvanu_store_completed(store, &completion, 1) != 0);
            CHECK(completion.token == 7 && completion.status == RELKVANU_STORE_OK, "status %d", completion.status);
        } else {
            CHECK(relkvanu_store_calls(store, calls, SUBTASKS) == RELKVANU_STORE_OK, "no list");
        }
        CHECK(calls[SUBTASKS - 1].answer.what == RELKVANU_ACK_COMPLETED, "what %" PRIu32, calls[SUBTASKS - 1].answer.what);
        CHECK(of[0].ended_len == 0 && of[0].kind == RELKVANU_STORE_CHECKPOINT && of[SUBTASKS - 1].ended_len == (size_t)is_submit,
            "%zu ended", of[SUBTASKS - 1].ended_len);
        loads(store, id);
    }
    relkvanu_store_close(store);
    CHECK(parts_of(0) == 1, "%" PRIu64 " rows", parts_of(0));
}

/* Long payloads of a list are some rows, of which the first ones are inserted while its later calls are made. */
enum { WIDE = 128, LONG = RELKVANU_STORE_MOST_PAYLOAD };
static uint8_t long_texts[WIDE][LONG];

static void acks_long(relkvanu_store *store, uint64_t id) {
    static relkvanu_store_more of[WIDE];
    static relkvanu_store_call calls[WIDE];
    for (uint16_t i = 0; i < WIDE; i++) {
        memset(long_texts[i], (int)(id * WIDE + i) & 255, LONG);
        of[i] = (relkvanu_store_more){.payload = long_texts[i], .payload_len = LONG};
        calls[i] = (relkvanu_store_call){.more = &of[i],
            .call = {.kind = RELKVANU_CALL_ACK, .now = RELKVANU_STORE_NOW, .number = id, .term = term_of(store), .index = i}};
    }
    char words[RELKVANU_STORE_MESSAGE];
    int status = relkvanu_store_calls(store, calls, WIDE);
    relkvanu_store_message(store, words, sizeof words);
    CHECK(status == RELKVANU_STORE_OK, "status %d: %s", status, words);
    CHECK(calls[WIDE - 1].answer.what == RELKVANU_ACK_COMPLETED, "what %" PRIu32, calls[WIDE - 1].answer.what);
}

static bool note_long(void *with, const relkvanu_store_part *part) {
    uint16_t *next = with;
    CHECK(part->index == (*next)++ && part->payload_len == LONG, "subtask %d: %zu bytes", part->index, part->payload_len);
    CHECK(memcmp(part->payload, long_texts[part->index], LONG) == 0, "the payload of subtask %d", part->index);
    return true;
}

/* SQLite has memory again, while a commit that failed without it waits. */
static void *gives_memory(void *unused) {
    usleep(100000);
    sqlite3_hard_heap_limit64(0);
    return unused;
}

CASE(long_payloads) {
    static const uint64_t wide[] = {WIDE};
    relkvanu_store_options options = storage_options(RELKVANU_STORE_CREATE, 0);
    options.shape = wide;
    options.patience = 20000;
    relkvanu_store *store = opens(&options, RELKVANU_STORE_OK);
    for (int has_memory = 0; has_memory < 2; has_memory++) {
        pthread_t thread;
        uint64_t id = triggers(store);
        uint16_t parts = 0;
        CHECK(sqlite3_memory_used() != 0, "SQLite does not count its memory");
        sqlite3_hard_heap_limit64(has_memory ? 0 : sqlite3_memory_used() + LONG * WIDE / 4);
        CHECK(pthread_create(&thread, NULL, gives_memory, NULL) == 0, "no thread");
        acks_long(store, id);
        pthread_join(thread, NULL);
        store = reopens(store);
        CHECK(relkvanu_store_load(store, id, &loaded.is, note_long, &parts) == RELKVANU_STORE_OK && parts == WIDE, "%d parts", parts);
    }
    relkvanu_store_close(store);
    CHECK(parts_of(0) > 1, "%zu rows", parts_of(0));
}

/* A payload goes with its record, however that ends. */
CASE(payloads_of_ended_records) {
    relkvanu_store *store = job_of(2);
    uint64_t kept = completes_all(store), declined = triggers(store);
    acks(store, declined, 0, "declined");
    declines(store, declined, "no disk");
    CHECK(answer.what == RELKVANU_DECLINE_ABORTED && more.kind == RELKVANU_STORE_CHECKPOINT && more.ended_len == 1 && ended[0] == declined,
        "%zu ended", more.ended_len);
    acks(store, declined, 2, "late");
    CHECK(answer.what == RELKVANU_ACK_LATE && more.kind == 0 && more.ended_len == 0, "what %" PRIu32, answer.what);
    uint64_t savepoint = tells(store, RELKVANU_CALL_SAVEPOINT, 0).a, expires = triggers(store);
    acks_all(store, savepoint);
    CHECK(more.kind == RELKVANU_STORE_SAVEPOINT && more.ended_len == 0, "kind %" PRIu32, more.kind);
    acks(store, savepoint, 0, "late, and the record is there");
    CHECK(answer.what == RELKVANU_ACK_LATE && more.kind == RELKVANU_STORE_SAVEPOINT, "what %" PRIu32, answer.what);
    loads(store, savepoint);
    acks(store, expires, 0, "expired");
    more = (relkvanu_store_more){.ended = ended, .ended_room = ENDED};
    relkvanu_store_call tick = {.call = {.kind = RELKVANU_CALL_TICK, .now = relkvanu_store_now(store) + 2000}, .more = &more};
    CHECK(relkvanu_store_calls(store, &tick, 1) == RELKVANU_STORE_OK && tick.answer.a == 1, "%" PRIu64 " expired", tick.answer.a);
    CHECK(more.ended_len == 1 && ended[0] == expires && more.kind == 0, "%zu ended", more.ended_len);
    tells(store, RELKVANU_CALL_DISPOSE, savepoint);
    CHECK(more.kind == RELKVANU_STORE_SAVEPOINT && more.ended_len == 1 && ended[0] == savepoint, "%zu ended", more.ended_len);
    loads(store, kept);
    relkvanu_store_close(store);
    CHECK(parts_of(0) == SUBTASKS && parts_of(kept) == SUBTASKS, "%" PRIu64 " rows", parts_of(0));
}

/* A later checkpoint subsumes an earlier one that is pending; a job that fails drops all. */
CASE(payloads_of_dropped_records) {
    relkvanu_store *store = job_of(1);
    uint64_t subsumed = triggers(store), later = triggers(store);
    acks(store, subsumed, 0, "subsumed");
    acks_all(store, later);
    CHECK(more.ended_len == 1 && ended[0] == subsumed, "%zu ended", more.ended_len);
    relkvanu_settings settings = job_options(0, 0).settings;
    relkvanu_store_call call;
    settings.tolerable = 0;
    settings.at_once = 4;
    CHECK(relkvanu_store_configure(store, &settings, &call) == RELKVANU_STORE_OK, "no settings");
    uint64_t first = triggers(store), second = triggers(store);
    acks(store, first, 0, "dropped");
    acks(store, second, 0, "declined");
    declines(store, second, "x");
    CHECK(answer.what == RELKVANU_DECLINE_FAILED && more.ended_len == 2 && ended[0] == first && ended[1] == second, "%zu ended",
        more.ended_len);
    relkvanu_store_past past[4];
    CHECK(history(store, past, 4) == 4, "some records");
    const uint32_t outcomes[] = {RELKVANU_STORE_DECLINED, RELKVANU_STORE_DROPPED, RELKVANU_STORE_COMPLETED, RELKVANU_STORE_DROPPED};
    for (size_t i = 0; i < 4; i++) {
        CHECK(past[i].id == second - i && past[i].outcome == outcomes[i], "record %" PRIu64 ": %" PRIu32, past[i].id, past[i].outcome);
    }
    CHECK(strcmp(past[0].reason, "x") == 0 && past[1].reason[0] == 0, "%s", past[0].reason);
    relkvanu_store_close(store);
    CHECK(parts_of(0) == parts_of(later), "rows of records that ended");
}

/* An acknowledgement with files in this order. */
static void acks_files(relkvanu_store *store, uint64_t id, uint16_t index, const uint64_t *fresh, size_t fresh_len, const uint64_t *reused,
    size_t reused_len) {
    more = (relkvanu_store_more){0};
    int status = relkvanu_store_ack_with(
        store, term_of(store), RELKVANU_STORE_NOW, id, 0, index, fresh, fresh_len, reused, reused_len, &more, &answer);
    CHECK(status == RELKVANU_STORE_OK && answer.code == RELKVANU_DONE, "status %d, what %" PRIu32, status, answer.what);
}

static uint64_t reserves(relkvanu_store *store, size_t files) {
    uint64_t first = reserved(store, term_of(store), files);
    for (uint64_t name = first; name < first + files; name++) {
        puts_file(store, name, RELKVANU_STORE_OK);
    }
    return first;
}

CASE(the_order_of_files) {
    relkvanu_store *store = job_of(1);
    for (uint64_t round = 0, base = 0; round < 2; round++) {
        uint64_t id = triggers(store), names = reserves(store, 3 * SUBTASKS);
        for (uint16_t i = 0; i < SUBTASKS; i++) {
            uint64_t name = names + 3u * i, fresh[] = {name + 2, name, name + 1}, reused[] = {base + 3u * i + 1, base + 3u * i};
            acks_files(store, id, i, fresh, 3, reused, round == 0 ? 0 : 2);
        }
        for (int again = 0; again < 2; again++) {
            loads_as(store, id, 0, RELKVANU_STORE_OK);
            for (size_t i = 0, at = 0; i < SUBTASKS; i++) {
                uint64_t name = names + 3 * i, its[] = {name + 2, name, name + 1, base + 3 * i + 1, base + 3 * i};
                for (size_t j = 0; j < (round == 0 ? 3u : 5u); j++) {
                    CHECK(loaded.files[at++] == its[j], "file %zu of %zu", j, i);
                }
            }
            store = again == 0 ? reopens(store) : store;
        }
        tells(store, RELKVANU_CALL_RESTORE, 0);
        base = names;
    }
    relkvanu_store_close(store);
}

/* What is refused changes nothing. */
CASE(misuse_of_more) {
    relkvanu_store *store = job_of(1);
    static char text[RELKVANU_STORE_MOST_PAYLOAD + 1];
    uint64_t id = triggers(store), term = term_of(store);
    memset(text, 'x', sizeof text);
    const struct {
        relkvanu_store_more more;
        uint32_t kind;
        const char *words;
    } bad[] = {
        {{.payload = text, .payload_len = sizeof text}, RELKVANU_CALL_ACK, "more than 4096 bytes"},
        {{.payload = NULL, .payload_len = 1}, RELKVANU_CALL_ACK, "a buffer is NULL"},
        {{.ended = NULL, .ended_room = 1}, RELKVANU_CALL_ACK, "a buffer is NULL"},
        {{.bytes = UINT64_MAX}, RELKVANU_CALL_ACK, "above 2^63 - 1"},
        {{.reason = "x", .reason_len = 1}, RELKVANU_CALL_ACK, "no decline"},
        {{.reserved = {0, 1}}, RELKVANU_CALL_ACK, "a reserved field"},
        {{.payload = text, .payload_len = 1}, RELKVANU_CALL_DECLINE, "no acknowledgement"},
        {{.millis = 1}, RELKVANU_CALL_TRIGGER, "no acknowledgement"},
        {{.reason = text, .reason_len = RELKVANU_STORE_MOST_REASON + 1}, RELKVANU_CALL_DECLINE, "more than 200 bytes"},
        {{.reason = "a\0b", .reason_len = 3}, RELKVANU_CALL_DECLINE, "a zero"},
    };
    for (size_t i = 0; i < sizeof bad / sizeof *bad; i++) {
        char words[RELKVANU_STORE_MESSAGE];
        more = bad[i].more;
        relkvanu_store_call call = {.call = {.kind = bad[i].kind, .now = RELKVANU_STORE_NOW, .number = id, .term = term}, .more = &more};
        CHECK(relkvanu_store_calls(store, &call, 1) == RELKVANU_STORE_BAD_ARGUMENT, "case %zu", i);
        relkvanu_store_why(words, sizeof words);
        CHECK(strstr(words, bad[i].words) != NULL && call.answer.code == RELKVANU_STORE_NOT_MADE, "case %zu: %s", i, words);
    }
    more = with_payload("x");
    answers(store, term, id, SUBTASKS, RELKVANU_REFUSED);
    CHECK(more.kind == 0, "kind %" PRIu32, more.kind);
    answers(store, term + 1, id, 0, RELKVANU_FENCED);
    more = (relkvanu_store_more){.payload = text, .payload_len = RELKVANU_STORE_MOST_PAYLOAD};
    answers(store, term, id, 0, RELKVANU_DONE);
    answers(store, term, id, 0, RELKVANU_REFUSED); /* twice */
    relkvanu_store_close(store);
    CHECK(parts_of(0) == 1, "%" PRIu64 " rows", parts_of(0));
}

CASE(the_history) {
    relkvanu_store *store = job_of(1);
    relkvanu_store_past past[3];
    CHECK(history(store, past, 3) == 0, "records of a new job");
    uint64_t id = triggers(store);
    acks(store, id, 0, "x");
    usleep(30000);
    for (uint16_t i = 1; i < SUBTASKS; i++) {
        acks(store, id, i, "x");
    }
    uint64_t savepoint = tells(store, RELKVANU_CALL_SAVEPOINT, 0).a;
    static const char reason[] = "the disk of host 7 is full";
    declines(store, savepoint, reason);
    for (int again = 0; again < 2; again++) {
        CHECK(history(store, past, 3) == 2, "two records");
        CHECK(past[0].id == savepoint && past[0].kind == RELKVANU_STORE_SAVEPOINT && past[0].outcome == RELKVANU_STORE_DECLINED &&
                  past[0].acks == 0 && past[0].slowest == 0 && strcmp(past[0].reason, reason) == 0,
            "%s", past[0].reason);
        CHECK(past[1].id == id && past[1].kind == RELKVANU_STORE_CHECKPOINT && past[1].outcome == RELKVANU_STORE_COMPLETED &&
                  past[1].acks == SUBTASKS && past[1].bytes == 10 * SUBTASKS && past[1].millis == 3,
            "%" PRIu64 " acks, %" PRIu64 " bytes", past[1].acks, past[1].bytes);
        CHECK(past[1].first <= past[1].median && past[1].median >= 29 && past[1].median <= past[1].p99 && past[1].p99 <= past[1].slowest &&
                  past[1].slowest <= past[1].ended - past[1].triggered,
            "%" PRIu64 " %" PRIu64 " %" PRIu64, past[1].first, past[1].median, past[1].slowest);
        store = reopens(store);
    }
    CHECK(history(store, past, 1) == 1 && past[0].id == savepoint, "the last one");
    relkvanu_store_close(store);
}

/* It has the last thousand. */
CASE(a_long_history) {
    relkvanu_store *store = job_of(1);
    relkvanu_store_call *calls = calloc(4000, sizeof *calls);
    static relkvanu_store_past past[RELKVANU_STORE_MOST_HISTORY + 1];
    uint64_t term = term_of(store);
    for (uint64_t i = 0; i < 2000; i++) {
        calls[2 * i].call.kind = RELKVANU_CALL_SAVEPOINT;
        calls[2 * i + 1].call = (relkvanu_call){.kind = RELKVANU_CALL_DECLINE, .number = i + 1, .term = term};
    }
    CHECK(relkvanu_store_calls(store, calls, 4000) == RELKVANU_STORE_OK, "no list");
    size_t len = history(store, past, RELKVANU_STORE_MOST_HISTORY + 1);
    CHECK(len == RELKVANU_STORE_MOST_HISTORY && past[0].id == 2000 && past[len - 1].id == 1001, "%zu records", len);
    relkvanu_store_close(store);
    free(calls);
}

/* A savepoint of an older checkpoint has its payloads. */
CASE(payloads_of_an_older_checkpoint) {
    relkvanu_store *store = job_of(3);
    relkvanu_store_call call;
    uint64_t first = completes_all(store);
    completes_all(store);
    CHECK(relkvanu_store_go_back(store, first, RELKVANU_STORE_ACCEPT_PUBLISHED, &call) == RELKVANU_STORE_OK, "no way back");
    CHECK(call.answer.what == RELKVANU_RESTORED_SAVEPOINT, "what %" PRIu32, call.answer.what);
    uint64_t savepoint = call.answer.b;
    for (int again = 0; again < 2; again++) {
        loads_as(store, savepoint, first, RELKVANU_STORE_OK);
        CHECK(loaded.parts == SUBTASKS && loaded.is.kind == RELKVANU_STORE_SAVEPOINT, "%zu parts", loaded.parts);
        store = reopens(store);
    }
    relkvanu_store_close(store);
    CHECK(parts_of(0) == parts_of(savepoint), "rows of checkpoints that were dropped");
}

/* A stop's savepoint, to which the job goes back in the same commit. */
CASE(payloads_of_a_stop) {
    relkvanu_store *store = job_of(1);
    relkvanu_store_call call;
    uint64_t before = completes_all(store);
    CHECK(relkvanu_store_stop_job(store, &call) == RELKVANU_STORE_OK, "no stop");
    acks_all(store, call.answer.a);
    CHECK(more.kind == RELKVANU_STORE_SAVEPOINT, "kind %" PRIu32, more.kind);
    store = reopens(store);
    loads_as(store, 0, call.answer.a, RELKVANU_STORE_OK);
    loads_as(store, before, 0, RELKVANU_STORE_ABSENT);
    relkvanu_store_close(store);
    CHECK(parts_of(0) == SUBTASKS, "%" PRIu64 " rows", parts_of(0));
}

/* Manifests have payloads, the order of files, and figures. So do recoveries, exports and imports. */
CASE(payloads_of_manifests) {
    relkvanu_store_options options = storage_options(RELKVANU_STORE_CREATE | RELKVANU_STORE_MANIFESTS, 0);
    relkvanu_store *store = opens(&options, RELKVANU_STORE_OK);
    uint64_t savepoint = tells(store, RELKVANU_CALL_SAVEPOINT, 0).a;
    acks_all(store, savepoint);
    uint64_t id = triggers(store), names = reserves(store, 2);
    const uint64_t fresh[] = {names + 1, names};
    struct payload payload = payload_of(id, 0);
    more = with_payload(payload.text);
    relkvanu_store_ack_with(store, term_of(store), RELKVANU_STORE_NOW, id, 0, 0, fresh, 2, NULL, 0, &more, &answer);
    for (uint16_t i = 1; i < SUBTASKS; i++) {
        acks(store, id, i, payload_of(id, i).text);
    }
    relkvanu_store_close(store);
    CHECK(manifest_says(id, "\"bytes\":10,\"millis\":3}") != NULL && manifest_says(id, "\"millis\":0") == NULL, "no figures");
    exports("storage", savepoint, "exported", RELKVANU_STORE_OK);
    lose_job();
    recovers("x.db", "storage", 0, RELKVANU_STORE_OK);
    CHECK(recovered.record == id && recovered.savepoints == 1, "record %" PRIu64, recovered.record);
    options = storage_options(RELKVANU_STORE_MANIFESTS, 0);
    store = opens(&options, RELKVANU_STORE_OK);
    loads(store, id);
    CHECK(loaded.files_len == 2 && loaded.files[0] == names + 1 && loaded.files[1] == names, "%zu files", loaded.files_len);
    relkvanu_store_close(store);
    imports("exported", 0, "y.db", "other", RELKVANU_STORE_OK);
    relkvanu_store_options elsewhere = job_options(0, 0);
    elsewhere.storage = in("other");
    store = opens_at("y.db", &elsewhere, RELKVANU_STORE_OK);
    loads_as(store, 0, savepoint, RELKVANU_STORE_OK);
    CHECK(loaded.parts == SUBTASKS, "%zu parts", loaded.parts);
    relkvanu_store_close(store);
}

/* A backup has them. */
CASE(payloads_of_a_backup) {
    relkvanu_store *store = job_of(1);
    relkvanu_store_recovered recovered;
    uint64_t id = completes_all(store);
    backs_up(store, "backup", RELKVANU_STORE_OK);
    completes_all(store);
    relkvanu_store_close(store);
    int status = relkvanu_store_put_back(in("backup"), in("x.db"), in("storage"), &recovered);
    CHECK(status == RELKVANU_STORE_OK && recovered.record == id, "status %d: %s", status, recovered.message);
    store = reopens(NULL);
    loads(store, id);
    relkvanu_store_close(store);
}

/* A row that was changed, and rows of records that an earlier version of the library has ended. */
CASE(damaged_parts) {
    relkvanu_store *store = job_of(1);
    relkvanu_store_past past[1];
    size_t len = 1;
    uint64_t id = completes_all(store);
    relkvanu_store_close(store);
    run_sql(in("x.db"), "INSERT INTO part VALUES(77, 1, 1, x'00'); UPDATE part SET parts = zeroblob(40) WHERE record <> 77;"
                        " UPDATE past SET acks = 5");
    store = reopens(NULL);
    loads_as(store, id, 0, RELKVANU_STORE_DAMAGED);
    why_says("checksum");
    CHECK(relkvanu_store_history(store, past, &len) == RELKVANU_STORE_DAMAGED && len == 0, "a row that was changed");
    uint64_t next = completes_all(store);
    loads(store, next);
    relkvanu_store_close(store);
    CHECK(parts_of(77) == 0 && parts_of(0) == SUBTASKS, "%" PRIu64 " rows", parts_of(0));
}

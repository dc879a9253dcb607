/* Files that are no job, or are damaged: an opening says so, and where. */
#include "cases.h"

#include "../src/store.h"

enum { CALLS = 2 * CHECKPOINT_CALLS, LAST = CALLS - 1, LEFT = 45, OF_A_TERM = 15, IMAGE_CALLS = 10 };

/* A job whose log has 20 calls, two checkpoints; closed. */
static void make_job(uint64_t image_calls) {
    relkvanu_store *store = new_job_alone(image_calls);
    checkpoint(store, 1);
    checkpoint(store, 100);
    relkvanu_store_close(store);
}

static void refuses(int status, const char *words) {
    relkvanu_store_options options = job_options(RELKVANU_STORE_CREATE, RELKVANU_STORE_NO_IMAGES);
    opens(&options, status);
    CHECK(says(words) && says("x.db"), "%s", report.message);
    options.flags = RELKVANU_STORE_RECOVER;
    opens(&options, status);
}

CASE(other_files) {
    static const char text[] =
        "This is no database, but a text of more than a hundred bytes, so that SQLite reads its header and says so. It ends here.";
    int file = open(in("x.db"), O_CREAT | O_WRONLY, 0600);
    CHECK(write(file, text, sizeof text) == sizeof text, "text");
    close(file);
    refuses(RELKVANU_STORE_NOT_A_STORE, "not a database");
    unlink(in("x.db"));
    close(open(in("x.db"), O_CREAT | O_WRONLY, 0600));
    run_sql(in("x.db"), "CREATE TABLE log(x)");
    refuses(RELKVANU_STORE_NOT_A_STORE, "another kind");
    unlink(in("x.db"));
    unlink(in("x.db-wal"));
    make_job(RELKVANU_STORE_NO_IMAGES);
    run_sql(in("x.db"), "PRAGMA user_version=3");
    refuses(RELKVANU_STORE_NOT_A_STORE, "another version");
    run_sql(in("x.db"), "PRAGMA user_version=101");
    refuses(RELKVANU_STORE_NOT_A_STORE, "another version");
    run_sql(in("x.db"), "PRAGMA user_version=2");
    CHECK(link(in("x.db"), in("y.db")) == 0, "a second name");
    refuses(RELKVANU_STORE_FAILED, "several names");
    unlink(in("y.db"));
    relkvanu_store_options options = job_options(RELKVANU_STORE_RECOVER, 0);
    relkvanu_store_close(opens(&options, RELKVANU_STORE_OK));
    CHECK(mkdir(in("folder"), 0700) == 0, "folder");
    relkvanu_store *store;
    CHECK(relkvanu_store_open(&store, in("folder"), &options, &report) == RELKVANU_STORE_FAILED && store == NULL, "a folder");
}

/* Replaces a call of the log, and the files that a take fetched, with a checksum that fits. */
static void replace_row(uint64_t place, const char *line, relkvanu_answer answer, const uint64_t *files) {
    static const char sql[] = "UPDATE log SET what = ?2, a = ?3, b = ?4, chain = ?5, line = ?6, files = ?7 WHERE place = ?1";
    char last[80];
    snprintf(last, sizeof last, "SELECT chain FROM log WHERE place = %" PRIu64, place - 1);
    uint32_t before = (uint32_t)ask_sql(in("x.db"), last);
    sqlite3 *db = open_file(in("x.db"));
    sqlite3_stmt *it;
    struct rks_row row = {{(const uint8_t *)line, strlen(line)}, answer, files, place, 0};
    const sqlite3_int64 numbers[] = {
        (sqlite3_int64)place, answer.what, (sqlite3_int64)answer.a, (sqlite3_int64)answer.b, rks_chain(before, &row)};
    CHECK(sqlite3_prepare_v2(db, sql, -1, &it, NULL) == SQLITE_OK, "%s", sqlite3_errmsg(db));
    for (int i = 0; i < 5; i++) {
        sqlite3_bind_int64(it, i + 1, numbers[i]);
    }
    sqlite3_bind_text(it, 6, line, -1, SQLITE_STATIC);
    sqlite3_bind_blob(it, 7, files, files == NULL ? 0 : (int)(answer.a * sizeof *files), SQLITE_STATIC);
    CHECK(sqlite3_step(it) == SQLITE_DONE, "%s", sqlite3_errmsg(db));
    sqlite3_finalize(it);
    sqlite3_close(db);
}

static void replace_last(const char *line, uint32_t what, uint64_t a, uint64_t b) {
    replace_row(CALLS, line, (relkvanu_answer){RELKVANU_DONE, what, a, b}, NULL);
}

/* A log that says that other files were taken ends the recovery, and the same row with its own files does not. */
CASE(other_files_taken) {
    uint64_t files[2 * SUBTASKS];
    relkvanu_store_call take = {.call = {.kind = RELKVANU_CALL_TAKE, .number = 2 * SUBTASKS}, .files = files, .files_len = 2 * SUBTASKS};
    relkvanu_store_options options = job_options(RELKVANU_STORE_RECOVER, RELKVANU_STORE_NO_IMAGES);
    make_job(RELKVANU_STORE_NO_IMAGES);
    relkvanu_store *store = opens(&options, RELKVANU_STORE_OK);
    CHECK(relkvanu_store_calls(store, &take, 1) == RELKVANU_STORE_OK && take.answer.a == 2 * SUBTASKS, "%" PRIu64 " are taken",
        take.answer.a);
    relkvanu_store_close(store);
    files[3] += 1000;
    replace_row(CALLS + 1, "take 16", take.answer, files);
    opens(&options, RELKVANU_STORE_DIFFERS);
    files[3] -= 1000;
    replace_row(CALLS + 1, "take 16", take.answer, files);
    relkvanu_store_close(opens(&options, RELKVANU_STORE_OK));
}

CASE(other_answers) {
    make_job(RELKVANU_STORE_NO_IMAGES);
    struct told *rows;
    size_t len;
    rows = log_rows(in("x.db"), 0, &len);
    CHECK(len == CALLS && rows[LAST].what == RELKVANU_ACK_COMPLETED && rows[LAST].a == 1 && rows[LAST].b == 16, "the last call");
    replace_last(rows[LAST].line, RELKVANU_ACK_COMPLETED, 1, 17);
    refuses(RELKVANU_STORE_DIFFERS, "call 20");
    CHECK(says("1 16") && says("1 17") && says("ack"), "%s", report.message);
    replace_last("dispose 999999", RELKVANU_DISPOSED, 0, 0);
    refuses(RELKVANU_STORE_DIFFERS, "call 20");
    CHECK(says("dispose 999999"), "%s", report.message);
    replace_last("no line", RELKVANU_DISPOSED, 0, 0);
    refuses(RELKVANU_STORE_DIFFERS, "call 20");
    replace_last(rows[LAST].line, RELKVANU_ACK_COMPLETED, 1, 16);
    relkvanu_store_close(opens_with(job_options(RELKVANU_STORE_RECOVER, 0)));
    free(rows);
}

CASE(damaged_rows) {
    static const struct {
        const char *sql, *words, *back;
    } all[] = {
        {"UPDATE log SET line = replace(line, '+1 ', '+9 ') WHERE place = 3", "call 3 is damaged",
            "UPDATE log SET line = replace(line, '+9 ', '+1 ') WHERE place = 3"},
        {"UPDATE log SET a = a + 1 WHERE place = 3", "call 3 is damaged", "UPDATE log SET a = a - 1 WHERE place = 3"},
        {"UPDATE log SET b = b + 1 WHERE place = 3", "call 3 is damaged", "UPDATE log SET b = b - 1 WHERE place = 3"},
        {"UPDATE log SET what = what + 1 WHERE place = 3", "call 3 is damaged", "UPDATE log SET what = what - 1 WHERE place = 3"},
        {"UPDATE log SET chain = chain + 1 WHERE place = 18", "call 18 is damaged", "UPDATE log SET chain = chain - 1 WHERE place = 18"},
        {"UPDATE log SET place = 40 WHERE place = 5", "lacks call 5", "UPDATE log SET place = 5 WHERE place = 40"},
        {"UPDATE image SET chain = chain + 1", "image after call 0", "UPDATE image SET chain = chain - 1"},
        {"UPDATE image SET text = CAST(text || ' ' AS BLOB)", "image after call 0", NULL},
        {"DELETE FROM image", "no image", NULL},
    };
    make_job(RELKVANU_STORE_NO_IMAGES);
    for (size_t i = 0; i < sizeof all / sizeof *all; i++) {
        run_sql(in("x.db"), all[i].sql);
        refuses(RELKVANU_STORE_DAMAGED, all[i].words);
        if (all[i].back != NULL) {
            run_sql(in("x.db"), all[i].back);
            relkvanu_store_options options = job_options(RELKVANU_STORE_RECOVER, RELKVANU_STORE_NO_IMAGES);
            relkvanu_store_close(opens(&options, RELKVANU_STORE_OK));
            CHECK(report.replayed == CALLS, "%" PRIu64, report.replayed);
        }
    }
}

/* Reserves names one by one in three terms, with an image after each tenth call or so, and ends without a close. */
static int leave_open(void *with) {
    relkvanu_store *store = new_job_alone(IMAGE_CALLS);
    (void)with;
    for (uint64_t name = 1; name <= LEFT; name++) {
        CHECK(reserved(store, term_of(store), 1) == name, "name %" PRIu64, name);
        if (name % OF_A_TERM == 0) {
            done(store, RELKVANU_CALL_RESTORE, RELKVANU_STORE_NOW, 0);
        }
    }
    return 0;
}

/* The log is cut behind images, and stays whole behind the earlier one of the last two. */
CASE(log_behind_both_images) {
    CHECK(in_child(leave_open, NULL) == 0, "the job");
    run_sql(in("x.db"), "UPDATE image SET sum = sum + 1 WHERE place = (SELECT max(place) FROM image)");
    refuses(RELKVANU_STORE_DAMAGED, "image after call ");
    relkvanu_store *store = opens_with(job_options(RELKVANU_STORE_EARLIER_IMAGE, IMAGE_CALLS));
    uint64_t calls = report.image_place + report.replayed;
    CHECK(report.image_place != 0 && report.replayed > IMAGE_CALLS && calls == LEFT + LEFT / OF_A_TERM, "%" PRIu64 " calls", calls);
    CHECK(report.next_name == LEFT + 1 && report.term == 1 + LEFT / OF_A_TERM, "next name %" PRIu64, report.next_name);
    CHECK(reserved(store, report.term, 1) == LEFT + 1, "names are given once");
    relkvanu_store_close(store);
}

enum { LARGE = 2000, FORFEITED = 65536 };

/* A savepoint whose subtasks have many files, so that an image is large. */
static void save_many(relkvanu_store *store) {
    relkvanu_answer answer;
    uint64_t fresh[LARGE], id = done(store, RELKVANU_CALL_SAVEPOINT, RELKVANU_STORE_NOW, 0).a, first = reserved(store, 1, SUBTASKS * LARGE);
    for (uint16_t index = 0; index < SUBTASKS; index++) {
        for (uint64_t i = 0; i < LARGE; i++) {
            fresh[i] = first + index * LARGE + i;
        }
        int status = relkvanu_store_ack_in(store, 1, RELKVANU_STORE_NOW, id, 0, index, fresh, LARGE, NULL, 0, &answer);
        CHECK(status == RELKVANU_STORE_OK && answer.code == RELKVANU_DONE, "status %d", status);
    }
}

/* Reserves the most names at once, and gives them up: lines of half a million bytes. */
static void forfeit_many(relkvanu_store *store) {
    static uint64_t names[FORFEITED];
    relkvanu_answer answer;
    uint64_t first = reserved(store, 1, FORFEITED);
    for (uint64_t i = 0; i < FORFEITED; i++) {
        names[i] = first + i;
    }
    int status = relkvanu_store_forfeit(store, 1, names, FORFEITED, &answer);
    CHECK(status == RELKVANU_STORE_OK && answer.code == RELKVANU_DONE, "status %d", status);
}

/* A large image waits until the log has several times its bytes, however many calls these are. */
CASE(large_images) {
    static relkvanu_store_call calls[RELKVANU_STORE_MOST_CALLS];
    relkvanu_store *store = new_job_alone(IMAGE_CALLS);
    save_many(store);
    uint64_t images = totals_of(store).images, forfeits = 0;
    CHECK(images != 0, "no image has all these files");
    for (size_t i = 0; i < RELKVANU_STORE_MOST_CALLS; i++) {
        calls[i].call = (relkvanu_call){.kind = RELKVANU_CALL_RESERVE, .number = 1, .term = 1};
    }
    CHECK(relkvanu_store_calls(store, calls, RELKVANU_STORE_MOST_CALLS) == RELKVANU_STORE_OK, "a list");
    CHECK(totals_of(store).images == images, "an image after %d short calls", RELKVANU_STORE_MOST_CALLS);
    while (totals_of(store).images == images && forfeits < 16) {
        forfeit_many(store);
        forfeits++;
    }
    CHECK(totals_of(store).images == images + 1 && forfeits != 16, "%" PRIu64 " images after %" PRIu64 " forfeits", totals_of(store).images,
        forfeits);
    relkvanu_store_close(store);
    relkvanu_store_close(new_job_alone(IMAGE_CALLS));
}

/* Somebody replaces or deletes a file while the store is open. */
CASE(replaced_files) {
    static const char *const names[] = {"x.db", "x.db-wal"};
    for (size_t i = 0; i < 2; i++) {
        relkvanu_store_options options = job_options(RELKVANU_STORE_CREATE, RELKVANU_STORE_NO_IMAGES);
        relkvanu_store *store = opens(&options, RELKVANU_STORE_OK);
        char words[512];
        CHECK(rename(in(names[i]), in("away")) == 0, "%s", names[i]);
        copy_file("away", names[i]);
        relkvanu_store_call call = {.call = {.kind = RELKVANU_CALL_SAVEPOINT, .now = 5}};
        CHECK(
            relkvanu_store_calls(store, &call, 1) == RELKVANU_STORE_FAILED && call.answer.code == RELKVANU_STORE_NOT_MADE, "%s", names[i]);
        CHECK(relkvanu_store_calls(store, &call, 1) == RELKVANU_STORE_CLOSED, "%s", names[i]);
        CHECK(relkvanu_store_message(store, words, sizeof words) == strlen(words) && strstr(words, "replaced") != NULL, "%s", words);
        relkvanu_store_close(store);
        CHECK(rename(in("away"), in(names[i])) == 0, "%s", names[i]);
        store = opens(&options, RELKVANU_STORE_OK);
        relkvanu_store_close(store);
    }
}

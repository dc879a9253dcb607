/* images: what the library reads and writes as an image, with names and without: images that are cut and changed at each byte, and damaged in each way; texts that
 * are written, and written again; and images as docs/LOGS.md has them, each beside one that differs from it in one point: one of the two is sound and the other
 * is not. What always holds for a coordinator is in docs/RULES.md: how many records of a kind there are, in which order, and which numbers they have. That a
 * coordinator goes on from its image as it would have is proved. */
#include "fenced.h"

enum { IMAGE = 1 << 16 };

static relkvanu_answer open_text(relkvanu *job, const char *text) {
    return relkvanu_open_saved(job, (const uint8_t *)text, strlen(text), 7, 8);
}

/* The records in order: C a done checkpoint, c a pending one, S a done savepoint, s a pending one. */
struct image_row {
    const char *what, *records;
    uint64_t savepoints; /* done ones before these records */
    uint64_t at_once, pause, retained, due, first, next;
    bool is_sound;
};

/* The last moment, and the longest interval after it: the next checkpoint is due then at the latest. */
#define LAST_DUE (((UINT64_C(1) << 62) - 1) + (UINT64_C(1) << 40))

static const struct image_row image_rows[] = {
    {"the last moment that a checkpoint is due", "", 0, 1, 0, 1, LAST_DUE, 1, 1, true},
    {"a due moment that is too great", "", 0, 1, 0, 1, UINT64_MAX, 1, 1, false},
    {"as many done checkpoints as are retained", "CC", 0, 1, 0, 2, 2000, 1, 3, true},
    {"more done checkpoints than are retained", "CC", 0, 1, 0, 1, 2000, 1, 3, false},
    {"as many pending checkpoints as at once", "cc", 0, 2, 0, 1, 2000, 1, 3, true},
    {"more pending checkpoints than at once", "cc", 0, 1, 0, 1, 2000, 1, 3, false},
    {"more pending checkpoints than with a pause", "cc", 0, 2, 500, 1, 2000, 1, 3, false},
    {"a pending checkpoint after a done one", "Cc", 0, 1, 0, 1, 2000, 1, 3, true},
    {"a pending checkpoint before a done one", "cC", 0, 1, 0, 1, 2000, 1, 3, false},
    {"a pending savepoint before a done checkpoint", "sC", 0, 1, 0, 1, 2000, 1, 3, true},
    {"a pending checkpoint before a done savepoint", "cS", 0, 1, 0, 1, 2000, 1, 3, true},
    {"the first number as the next one", "", 0, 1, 0, 1, 2000, 4, 4, true},
    {"no number left", "", 0, 1, 0, 1, 2000, 1, UINT64_C(1) << 62, true},
    {"the greatest first number", "", 0, 1, 0, 1, 2000, (UINT64_C(1) << 62) - 1, UINT64_C(1) << 62, true},
    {"a first number above the greatest", "", 0, 1, 0, 1, 2000, UINT64_C(1) << 62, UINT64_C(1) << 62, false},
    {"a due moment that has passed", "", 0, 1, 0, 1, 0, 1, 1, true},
    {"a next number below the first one", "", 0, 1, 0, 1, 2000, 4, 3, false},
    {"1000 savepoints", "", 1000, 1, 0, 1, 2000, 1, 1001, true},
    {"1001 savepoints", "", 1001, 1, 0, 1, 2000, 1, 1002, false},
    {"1000 savepoints, one of them pending", "s", 999, 1, 0, 1, 2000, 1, 1001, true},
    {"1001 savepoints, one of them pending", "s", 1000, 1, 0, 1, 2000, 1, 1002, false},
};

enum { IMAGE_ROWS = sizeof image_rows / sizeof image_rows[0], ROW_TEXT = 1 << 18 };

/* Appends a record of one subtask without files. */
static size_t add_record(char *text, size_t len, uint64_t id, char kind) {
    bool is_done = kind == 'C' || kind == 'S';
    const char *comma = text[len - 1] == '[' ? "" : ",", *acks = is_done ? "{\"files\":[],\"index\":0,\"vertex\":0}" : "";
    const char *name = kind == 'C' || kind == 'c' ? "checkpoint" : "savepoint", *state = is_done ? "done" : "pending";
    return len + (size_t)snprintf(text + len, ROW_TEXT - len,
                     "%s{\"acks\":[%s],\"id\":%" PRIu64 ",\"kind\":\"%s\",\"pins\":[],\"shape\":[1],\"started\":0,\"state\":\"%s\"}", comma,
                     acks, id, name, state);
}

/* The text of a row's image. Returns its length. */
static size_t image_text(const struct image_row *row, bool has_names, char text[ROW_TEXT]) {
    const char *names = has_names ? "\"names\":{\"next\":1,\"term\":1,\"unspent\":[]}," : "";
    int version = has_names ? 2 : 1;
    uint64_t id = row->first;
    size_t len = (size_t)snprintf(text, ROW_TEXT,
        "{\"base\":null,\"clock\":{\"completed\":null,\"due\":%" PRIu64
        ",\"latest\":1000},\"failures\":0,\"mode\":\"running\",%s\"next\":%" PRIu64 ",\"opening\":{\"config\":{\"at_once\":%" PRIu64
        ",\"interval\":1099511627776,\"keep_on_cancel\":false,\"pause\":%" PRIu64 ",\"retained\":%" PRIu64
        ",\"timeout\":600000,\"tolerable\":0},\"first\":%" PRIu64
        ",\"shape\":[1],\"start\":0},\"outbox\":{\"taken\":[],\"waiting\":[]},\"shape\":[1],\"version\":%d,\"records\":[",
        row->due, names, row->next, row->at_once, row->pause, row->retained, row->first, version);
    for (uint64_t at = 0; at < row->savepoints; at++) {
        len = add_record(text, len, id++, 'S');
    }
    for (const char *kind = row->records; *kind != 0; kind++) {
        len = add_record(text, len, id++, *kind);
    }
    return len + (size_t)snprintf(text + len, ROW_TEXT - len, "]}");
}

/* Opens each row with all the memory that it asks for. Tells those that are answered otherwise than they have to be, and returns how many. */
static size_t wrong_image_rows(bool has_names) {
    static char text[ROW_TEXT];
    size_t wrong = 0;
    for (size_t at = 0; at < IMAGE_ROWS; at++) {
        const struct image_row *row = &image_rows[at];
        relkvanu job = {NULL};
        size_t len = image_text(row, has_names, text);
        relkvanu_answer told = relkvanu_open_saved(&job, (const uint8_t *)text, len, 7, 8);
        bool is_opened = told.code == RELKVANU_DONE && told.what == RELKVANU_OPENED && job.state != NULL;
        bool is_damaged = told.code == RELKVANU_BAD_ARGUMENT && told.what == RELKVANU_BAD_IMAGE && job.state == NULL;
        if (!(row->is_sound ? is_opened : is_damaged)) {
            fprintf(stderr, "images: %s: %" PRIu32 " %" PRIu32 "\n", row->what, told.code, told.what);
            wrong++;
        }
        relkvanu_close(&job);
    }
    return wrong;
}

/* The image with a zero at its end. */
static size_t saved(relkvanu *job, char image[IMAGE]) {
    relkvanu_answer short_of = relkvanu_save(job, NULL, 0);
    relkvanu_answer answer = relkvanu_save(job, (uint8_t *)image, IMAGE - 1);
    CHECK(short_of.code == RELKVANU_TOO_SHORT && answer.code == RELKVANU_DONE && answer.what == RELKVANU_SAVED);
    CHECK(short_of.a == answer.a);
    image[answer.a] = 0;
    return (size_t)answer.a;
}

/* A job with a completed checkpoint, a savepoint that pins it, a pending checkpoint, files that wait and files that were taken. */
static relkvanu busy(void) {
    relkvanu job = {NULL};
    relkvanu_settings settings = {1000, 0, 2, 8000, 3, 1, false};
    uint64_t file = 1, taken[1];
    CHECK(relkvanu_open(&job, &settings, (uint64_t[]){2}, 1, 0, 1, 1, 2).code == RELKVANU_DONE);
    for (uint64_t id = 1; id <= 3; id++) {
        CHECK(relkvanu_tick(&job, 2000 * id).what == RELKVANU_TICK_TRIGGERED);
        for (uint16_t index = 0; index < 2; index++, file++) {
            CHECK(relkvanu_ack(&job, 2000 * id, id, 0, index, &file, 1, NULL, 0).code == RELKVANU_DONE);
        }
    }
    CHECK(relkvanu_savepoint(&job, 7000).a == 4 && relkvanu_tick(&job, 8000).b == 5);
    CHECK(relkvanu_ack(&job, 8000, 5, 0, 1, &file, 1, (uint64_t[]){6}, 1).what == RELKVANU_ACK_PENDING);
    CHECK(relkvanu_take(&job, taken, 1).a == 1);
    return job;
}

static void is_no_image(const uint8_t *text, size_t len) {
    relkvanu other = {NULL};
    BAD(relkvanu_open_saved(&other, text, len, 7, 8), RELKVANU_BAD_IMAGE);
    CHECK(other.state == NULL);
}

static void is_cut(const char *image, size_t len) {
    for (size_t at = 0; at < len; at++) {
        is_no_image((const uint8_t *)image, at);
    }
}

/* A cut image is no image. One with a changed byte is no image, or is opened and then saved as it was read. */
static void cut_and_changed(void) {
    static char image[IMAGE], again[IMAGE];
    relkvanu job = busy(), other = {NULL};
    size_t len = saved(&job, image), opened_so = 0;
    is_cut(image, len);
    for (size_t at = 0; at < 16 * len; at++) {
        char was = image[at / 16];
        image[at / 16] = "\0 \"-,.019:[]{}z\xff"[at % 16];
        relkvanu_answer answer = relkvanu_open_saved(&other, (const uint8_t *)image, len, 7, 8);
        if (answer.code == RELKVANU_DONE) {
            opened_so++;
            CHECK(saved(&other, again) <= len);
            relkvanu_close(&other);
        }
        CHECK(answer.code == RELKVANU_DONE || (answer.code == RELKVANU_BAD_ARGUMENT && answer.what == RELKVANU_BAD_IMAGE));
        image[at / 16] = was;
    }
    BAD(open_text(&job, image), RELKVANU_ALREADY_OPEN);
    is_no_image(NULL, 0);
    CLOSED(relkvanu_save(&other, (uint8_t *)image, IMAGE));
    printf("images: %zu bytes, cut at each; %zu changed ones are no image, %zu are\n", len, 16 * len - opened_so, opened_so);
    relkvanu_close(&job);
}

/* Of the image of `busy`: a part, and what no image may have in its place, each time one. */
enum { OTHERS = 5 };
struct damage {
    const char *part, *others[OTHERS];
};

static const struct damage kinds_of_damage[] = {
    /* moments that no clock has */
    {"\"start\":0", {"\"start\":4611686018427387904"}},
    {"\"latest\":8000", {"\"latest\":4611686018427387904"}},
    {"\"completed\":6000", {"\"completed\":4611686018427387904"}},
    {"\"started\":7000", {"\"started\":4611686018427387904"}},
    /* numbers, which rise from the first to below the next */
    {"\"first\":1", {"\"first\":0", "\"first\":4"}},
    {"\"next\":6", {"\"next\":5", "\"next\":4611686018427387905"}},
    {"\"id\":4", {"\"id\":3"}},
    {"\"id\":5", {"\"id\":6"}},
    {"\"failures\":0", {"\"failures\":4"}},
    /* a list that names a file twice, and a subtask that the shape lacks */
    {"\"files\":[5]", {"\"files\":[5,5]"}},
    {"\"pins\":[5,6],\"shape\":[2],\"started\":7000", {"\"pins\":[5,5],\"shape\":[2],\"started\":7000"}},
    {"[6,7],\"index\":1", {"[6,7],\"index\":2"}},
    /* done without an acknowledgement, pending with all, and done with pins */
    {"\"started\":8000,\"state\":\"pending\"", {"\"started\":8000,\"state\":\"done\""}},
    {"\"started\":6000,\"state\":\"done\"", {"\"started\":6000,\"state\":\"pending\""}},
    {"\"pins\":[],\"shape\":[2],\"started\":6000", {"\"pins\":[5],\"shape\":[2],\"started\":6000"}},
    /* a base that is no done savepoint, and records that are pending in a job that has ended */
    {"\"base\":null", {"\"base\":3", "\"base\":4", "\"base\":9"}},
    {"\"mode\":\"running\"", {"\"mode\":\"cancelled\"", "\"mode\":\"failed\""}},
    /* files that wait or were fetched, and are in use or there twice */
    {"\"waiting\":[2,3,4]", {"\"waiting\":[2,3,5]", "\"waiting\":[2,3,3]", "\"waiting\":[1,3,4]"}},
    {"\"taken\":[1]", {"\"taken\":[7]", "\"taken\":[1,1]"}},
};

/* States that no list of calls reaches, and that are taken: docs/LOGS.md names them. */
static const struct damage unreached[] = {
    {"\"start\":0", {"\"start\":4611686018427387903"}},
    {"\"latest\":8000", {"\"latest\":0"}},
    {"\"completed\":6000", {"\"completed\":8001"}},
    {"\"next\":6", {"\"next\":4611686018427387904"}},
};

/* The text with another part. */
static const char *with(const char *image, const char *part, const char *other) {
    static char text[IMAGE];
    const char *at = strstr(image, part);
    CHECK(at != NULL && strstr(at + 1, part) == NULL);
    snprintf(text, sizeof text, "%.*s%s%s", (int)(at - image), image, other, at + strlen(part));
    return text;
}

/* An image with another part is sound, or is told to be damaged, and never to want memory: there is room for all. */
static void opens_as(const char *image, const struct damage *damage, bool is_sound) {
    for (size_t at = 0; at < OTHERS && damage->others[at] != NULL; at++) {
        relkvanu other = {NULL};
        relkvanu_answer answer = open_text(&other, with(image, damage->part, damage->others[at]));
        bool is_damaged = answer.code == RELKVANU_BAD_ARGUMENT && answer.what == RELKVANU_BAD_IMAGE && other.state == NULL;
        if (is_sound ? answer.code != RELKVANU_DONE : !is_damaged) {
            fprintf(stderr, "images: code %" PRIu32 " for %s\n", answer.code, damage->others[at]);
            exit(1);
        }
        relkvanu_close(&other);
    }
}

static void open_as(const char *image, const struct damage *kinds, size_t len, bool is_sound) {
    for (size_t kind = 0; kind < len; kind++) {
        opens_as(image, &kinds[kind], is_sound);
    }
}

#define OPEN_AS(image, kinds, is_sound) open_as(image, kinds, sizeof kinds / sizeof kinds[0], is_sound)

/* The image of the job of docs/LOGS.md, as it is written. */
static const char written[] =
    "{\"base\":null,\"clock\":{\"completed\":2020,\"due\":4000,\"latest\":3010},\"failures\":0,\"mode\":\"running\",\"next"
    "\":4,\"opening\":{\"config\":{\"at_once\":1,\"interval\":1000,\"keep_on_cancel\":false,\"pause\":0,\"retained\":1,\""
    "timeout\":600000,\"tolerable\":0},\"first\":1,\"shape\":[2],\"start\":0},\"outbox\":{\"taken\":[12],\"waiting\":[21"
    "]},\"records\":[{\"acks\":[{\"files\":[11,13],\"index\":0,\"vertex\":0},{\"files\":[22],\"index\":1,\"vertex\":0}],\""
    "id\":2,\"kind\":\"checkpoint\",\"pins\":[],\"shape\":[2],\"started\":2000,\"state\":\"done\"},{\"acks\":[{\"files\":[11"
    ",14],\"index\":0,\"vertex\":0}],\"id\":3,\"kind\":\"checkpoint\",\"pins\":[11,13,22],\"shape\":[2],\"started\":3000,"
    "\"state\":\"pending\"}],\"shape\":[2],\"version\":1}";

/* Parts of it, and values that no text has in their place: numbers past their limits, and values of another kind. */
static const struct damage no_values[] = {
    {"\"version\":1", {"\"version\":0", "\"version\":2"}},
    {"\"at_once\":1", {"\"at_once\":0", "\"at_once\":65"}},
    {"\"interval\":1000", {"\"interval\":9", "\"interval\":1099511627777"}},
    {"\"pause\":0", {"\"pause\":1099511627777"}},
    {"\"retained\":1", {"\"retained\":0", "\"retained\":1001"}},
    {"\"timeout\":600000", {"\"timeout\":0", "\"timeout\":1099511627777"}},
    {"\"tolerable\":0", {"\"tolerable\":1001"}},
    {"\"failures\":0", {"\"failures\":4294967296"}},
    {"\"next\":4", {"\"next\":18446744073709551616"}},
    {"\"index\":1", {"\"index\":65536", "\"index\":0"}},
    {"\"index\":1,\"vertex\":0", {"\"index\":0,\"vertex\":65536"}},
    {"\"shape\":[2],\"start\":0",
        {"\"shape\":[4096,1],\"start\":0", "\"shape\":[1,0],\"start\":0", "\"shape\":[],\"start\":0", "\"shape\":2,\"start\":0"}},
    {"\"base\":null", {"\"base\":\"1\""}},
    {"\"completed\":2020", {"\"completed\":-1"}},
    {"\"due\":4000", {"\"due\":4000.0"}},
    {"\"latest\":3010", {"\"latest\":null"}},
    {"\"mode\":\"running\"", {"\"mode\":\"Running\""}},
    {"\"id\":2,\"kind\":\"checkpoint\"", {"\"id\":2,\"kind\":\"checkpoints\""}},
    {"\"state\":\"done\"", {"\"state\":true"}},
    {"\"keep_on_cancel\":false", {"\"keep_on_cancel\":\"false\""}},
    {"\"taken\":[12]", {"\"taken\":12"}},
    {"\"waiting\":[21]", {"\"waiting\":[-21]"}},
    {"\"outbox\":{", {"\"outbox\":[],\"other\":{"}},
    {"\"acks\":[{\"files\":[11,14],\"index\":0,\"vertex\":0}]", {"\"acks\":[null]"}},
};

/* The same, with numbers at their limits. */
static const struct damage limits[] = {
    {"\"at_once\":1", {"\"at_once\":64"}},
    {"\"interval\":1000", {"\"interval\":10", "\"interval\":1099511627776"}},
    {"\"pause\":0", {"\"pause\":1099511627776"}},
    {"\"retained\":1", {"\"retained\":1000"}},
    {"\"timeout\":600000", {"\"timeout\":1099511627776"}},
    {"\"tolerable\":0", {"\"tolerable\":1000"}},
    {"\"shape\":[2],\"start\":0", {"\"shape\":[4096],\"start\":0"}},
};

static void is_saved_as(relkvanu *job, const char *text) {
    static char image[IMAGE];
    CHECK(saved(job, image) == strlen(text) && strcmp(image, text) == 0);
}

/* The text of a job, from its calls and from itself. */
static void writes(void) {
    static const char *const lines[] = {"tick 1000", "ack 1040 1 0.1 +21", "ack 1050 1 0.0 +11 +12", "tick 2000", "ack 2010 2 0.0 +13 =11",
        "ack 2020 2 0.1 +22", "take 1", "tick 3000", "ack 3010 3 0.0 +14 =11"};
    relkvanu job = {NULL}, other = {NULL};
    uint64_t taken[1];
    CHECK(relkvanu_open(&job, &settings, (uint64_t[]){2}, 1, 0, 1, 1, 2).code == RELKVANU_DONE);
    for (size_t at = 0; at < sizeof lines / sizeof lines[0]; at++) {
        CHECK(relkvanu_line(&job, (const uint8_t *)lines[at], strlen(lines[at]), taken, 1).code == RELKVANU_DONE);
    }
    is_saved_as(&job, written);
    DONE(open_text(&other, written), RELKVANU_OPENED, 0, 0);
    is_saved_as(&other, written);
    relkvanu_close(&other);
    relkvanu_close(&job);
}

/* Each member has to be there. They come in any order, beside others, and the last value of a key counts. */
static void reads_members(void) {
    static const char *const others[] = {"null", "1", "\"\"", "[]", "{}", "", " ", "{}{}", "nul"};
    static const char opened_so[] =
        " { \"version\" : 1, \"shape\" : [ 1 ], \"records\" : [ ], \"remark\" : \"no member of an image\", \"outbox\" : { \"waiting\" : [ "
        "], "
        "\"taken\" : [ ] }, \"opening\" : { \"start\" : 0, \"shape\" : [ 1 ], \"first\" : 1, \"config\" : { \"tolerable\" : 0, \"timeout\" "
        ": 1, "
        "\"retained\" : 1, \"pause\" : 0, \"keep_on_cancel\" : false, \"interval\" : 10, \"at_once\" : 1 } }, \"next\" : 9, \"next\" : 1, "
        "\"mode\" : "
        "\"running\", \"failures\" : 0, \"clock\" : { \"latest\" : 0, \"due\" : 10, \"completed\" : null }, \"base\" : null } ";
    static char text[IMAGE];
    relkvanu job = {NULL};
    size_t members = 0;
    for (const char *at = strstr(written, "\":"); at != NULL; at = strstr(at + 1, "\":"), members++) {
        int len = snprintf(text, sizeof text, "%.*s_%s", (int)(at - written), written, at);
        is_no_image((const uint8_t *)text, (size_t)len);
    }
    CHECK(members == 49);
    for (size_t at = 0; at < sizeof others / sizeof others[0]; at++) {
        is_no_image((const uint8_t *)others[at], strlen(others[at]));
    }
    DONE(open_text(&job, opened_so), RELKVANU_OPENED, 0, 0);
    CHECK(relkvanu_due(&job).a == 10 && relkvanu_tick(&job, 10).b == 1);
    relkvanu_close(&job);
}

static void damaged(void) {
    static char image[IMAGE], row[ROW_TEXT];
    relkvanu job = busy();
    (void)saved(&job, image);
    OPEN_AS(image, kinds_of_damage, false);
    OPEN_AS(image, unreached, true);
    (void)image_text(&image_rows[0], false, row);
    opens_as(row, &(struct damage){"\"mode\":\"running\"", {"\"mode\":\"failed\""}}, true);
    (void)image_text(&(struct image_row){"", "Cs", 1, 1, 0, 1, 2000, 1, 4, true}, false, row);
    opens_as(row, &(struct damage){"\"base\":null", {"\"base\":1"}}, true);
    OPEN_AS(written, no_values, false);
    OPEN_AS(written, limits, true);
    CHECK(wrong_image_rows(false) == 0);
    relkvanu_close(&job);
}

/* Term 1 reserved 5 to 9 and acknowledged with 5 and 6. Term 2 holds 10 and 12, has given up 11, and acknowledged with 13. Then 6 was
 * fetched for deletion, and a record is pending. So 7, 8, 9 and 11 are garbage, and 5 is too once a later record is complete. */
static relkvanu busy_with_names(void) {
    relkvanu job = named(5);
    uint64_t two[] = {5, 6}, given_up = 11, fresh = 13, kept = 5, taken;
    DONE(relkvanu_reserve(&job, 1, 5), RELKVANU_RESERVED, 5, 5);
    DONE(relkvanu_tick(&job, 1000), RELKVANU_TICK_TRIGGERED, 0, 1);
    DONE(relkvanu_ack_in(&job, 1, 1000, 1, 0, 0, two, 2, NULL, 0), RELKVANU_ACK_COMPLETED, 0, 0);
    DONE(relkvanu_restore(&job, 1500, 0, NULL, 0), RELKVANU_RESTORED_CHECKPOINT, 0, 1);
    DONE(relkvanu_reserve(&job, 2, 4), RELKVANU_RESERVED, 10, 4);
    DONE(relkvanu_forfeit(&job, 2, &given_up, 1), RELKVANU_FORFEITED, 0, 0);
    DONE(relkvanu_tick(&job, 2500), RELKVANU_TICK_TRIGGERED, 0, 2);
    DONE(relkvanu_ack_in(&job, 2, 2500, 2, 0, 0, &fresh, 1, &kept, 1), RELKVANU_ACK_COMPLETED, 1, 1);
    DONE(relkvanu_take(&job, &taken, 1), RELKVANU_TAKEN, 1, 0);
    CHECK(taken == 6);
    DONE(relkvanu_tick(&job, 3500), RELKVANU_TICK_TRIGGERED, 0, 3);
    return job;
}

static void expect_garbage(relkvanu *job) {
    uint64_t files[] = {4, 5, 6, 7, 8, 9, 10, 11, 12, 13, 14}, left[11], others[11];
    static const uint64_t garbage[] = {4, 7, 8, 9, 11};
    DONE(relkvanu_garbage(job, files, 11, left, 11, others, 11), RELKVANU_GARBAGE, 5, 1);
    CHECK(memcmp(left, garbage, sizeof garbage) == 0 && others[0] == 14);
}

/* A handle that is opened with the image has the term, the names and the garbage of the saved one, and the same image. */
static void round_trip(void) {
    static char image[IMAGE], again[IMAGE];
    relkvanu job = busy_with_names(), other = {NULL};
    struct seen before = look(&job);
    expect_garbage(&job);
    size_t len = saved(&job, image);
    CHECK(strstr(image, "\"names\":{\"next\":14,\"term\":2,\"unspent\":[[10,11],[12,13]]}") != NULL);
    CHECK(strstr(image, "\"version\":2}") == image + len - strlen("\"version\":2}"));
    struct seen after = look(&job);
    CHECK(same(&before, &after));
    DONE(open_text(&other, image), RELKVANU_OPENED, 0, 0);
    after = look(&other);
    CHECK(same(&before, &after));
    DONE(relkvanu_term(&other), RELKVANU_TERM, 2, 14);
    expect_garbage(&other);
    CHECK(saved(&other, again) == len && memcmp(image, again, len) == 0);
    BAD(open_text(&other, image), RELKVANU_ALREADY_OPEN);
    after = look(&other);
    CHECK(same(&before, &after));
    relkvanu_close(&job);
    relkvanu_close(&other);
}

/* Of the image of `busy_with_names`: a part, and what no image may have in its place. */
static const struct damage kinds_with_names[] = {
    {"\"term\":2", {"\"term\":0", "\"term\":4611686018427387905", "\"term\":\"2\""}},
    {"\"term\":2,", {""}},
    {"\"next\":14,\"term\"", {"\"next\":0,\"term\"", "\"next\":4611686018427387905,\"term\"", "\"term\""}},
    /* 13 is in use, and 12 is held */
    {"\"next\":14,\"term\"", {"\"next\":13,\"term\"", "\"next\":12,\"term\""}},
    /* empty, backwards, overlapping, in another order, beyond the next name */
    {"[10,11]", {"[10,10]", "[11,10]", "[12,13]"}},
    {"[12,13]", {"[10,13]", "[14,15]", "[12,18446744073709551615]"}},
    {"[[10,11],[12,13]]", {"[[12,13],[10,11]]"}},
    /* names of files that are in use, or were fetched */
    {"[12,13]", {"[12,14]"}},
    {"[10,11]", {"[5,6]", "[6,7]"}},
    /* no pairs */
    {"[10,11]", {"[10]", "[10,11,12]", "10", "[10,\"11\"]", "[10,-11]"}},
    {"\"mode\":\"running\"", {"\"mode\":\"run\""}},
    {"\"version\":2", {"\"version\":0"}},
    {"[[10,11],[12,13]]", {"{}"}},
    {",\"unspent\":[[10,11],[12,13]]", {""}},
    {"\"names\":{", {"\"named\":{"}},
    /* a job that was cancelled holds no name */
    {"\"mode\":\"running\"", {"\"mode\":\"cancelled\""}},
    {"\"version\":2", {"\"version\":3"}},
    /* the coordinator's own state */
    {"\"latest\":3500", {"\"latest\":4611686018427387904"}},
};

static void damaged_with_names(void) {
    static char image[IMAGE];
    relkvanu job = busy_with_names();
    is_cut(image, saved(&job, image));
    OPEN_AS(image, kinds_with_names, false);
    CHECK(wrong_image_rows(true) == 0);
    relkvanu_close(&job);
}

/* Ranges may touch. Without the names, and in version 1, the image is one of a handle without names. */
static void sound_with_names(void) {
    static char image[IMAGE];
    relkvanu job = busy_with_names(), other = {NULL};
    (void)saved(&job, image);
    DONE(open_text(&other, with(image, "[[10,11],[12,13]]", "[[10,11],[11,12],[12,13]]")), RELKVANU_OPENED, 0, 0);
    DONE(ack(&other, 2, 3600, 3, 11), RELKVANU_ACK_COMPLETED, 1, 2);
    relkvanu_close(&other);
    static const struct damage most[] = {{"\"term\":2", {"\"term\":4611686018427387904"}},
        {"\"next\":14,\"term\"", {"\"next\":4611686018427387904,\"term\""}}, {"[[10,11],[12,13]]", {"[]"}}};
    OPEN_AS(image, most, true);
    /* a job that holds so many names would have run out of memory, too */
    expect(open_text(&other, with(image, "\"next\":14,\"term\":2,\"unspent\":[[10,11],[12,13]]",
                                 "\"next\":4611686018427387904,\"term\":2,\"unspent\":[[14,4611686018427387904]]")),
        RELKVANU_NO_MEMORY, 0, 0, 0, __LINE__);
    DONE(open_text(&other, with(image, "\"version\":2", "\"version\":1")), RELKVANU_OPENED, 0, 0);
    FENCED(relkvanu_term(&other), RELKVANU_NO_NAMES, 0);
    DONE(relkvanu_ack(&other, 3600, 3, 0, 0, (uint64_t[]){20}, 1, NULL, 0), RELKVANU_ACK_COMPLETED, 1, 2);
    relkvanu_close(&other);
    relkvanu_close(&job);
}

/* Names 5 to 8 and then 9 and 10 were reserved, and checkpoint 1 has file 6. Two ranges touch, as in the texts of earlier builds: written again they are one. */
static void writes_names(void) {
    static const char touching[] =
        "{\"base\":null,\"clock\":{\"completed\":1040,\"due\":2000,\"latest\":1040},\"failures\":0,\"mode\":\"running\",\"name"
        "s\":{\"next\":11,\"term\":1,\"unspent\":[[5,6],[7,9],[9,11]]},\"next\":2,\"opening\":{\"config\":{\"at_once\":1,\"in"
        "terval\":1000,\"keep_on_cancel\":false,\"pause\":0,\"retained\":1,\"timeout\":600000,\"tolerable\":0},\"first\":1"
        ",\"shape\":[1],\"start\":0},\"outbox\":{\"taken\":[],\"waiting\":[]},\"records\":[{\"acks\":[{\"files\":[6],\"index\":"
        "0,\"vertex\":0}],\"id\":1,\"kind\":\"checkpoint\",\"pins\":[],\"shape\":[1],\"started\":1000,\"state\":\"done\"}],\"sha"
        "pe\":[1],\"version\":2}";
    static char wanted[IMAGE];
    relkvanu job = named(5), other = {NULL};
    DONE(relkvanu_reserve(&job, 1, 4), RELKVANU_RESERVED, 5, 4);
    DONE(relkvanu_tick(&job, 1000), RELKVANU_TICK_TRIGGERED, 0, 1);
    DONE(ack(&job, 1, 1040, 1, 6), RELKVANU_ACK_COMPLETED, 0, 0);
    DONE(relkvanu_reserve(&job, 1, 2), RELKVANU_RESERVED, 9, 2);
    strcpy(wanted, with(touching, "[7,9],[9,11]", "[7,11]"));
    is_saved_as(&job, wanted);
    DONE(open_text(&other, touching), RELKVANU_OPENED, 0, 0);
    DONE(relkvanu_term(&other), RELKVANU_TERM, 1, 11);
    is_saved_as(&other, wanted);
    relkvanu_close(&other);
    relkvanu_close(&job);
}

int main(void) {
    cut_and_changed();
    writes();
    reads_members();
    damaged();
    round_trip();
    damaged_with_names();
    sound_with_names();
    writes_names();
    return 0;
}

/* Reads the manifests of a storage folder, and looks whether the files that they name are there. SQLite reads their JSON. */
#include "../files/files.h"
#include "../job/job.h"
#include "../store.h"
#include "known_files.h"
#include "manifest.h"
#include "manifests.h"

#include <errno.h>
#include <fcntl.h>
#include <inttypes.h>
#include <stdio.h>
#include <stdlib.h>
#include <string.h>
#include <unistd.h>
#include <zlib.h>

static const char SUM[] = ",\"sum\":\"", HEAD[] = "{\"relkvanu\":\"manifest\",\"version\":1,";
enum { SUM_LEN = sizeof ",\"sum\":\"" - 1 + 8 + 3, MOST = 1 << 30 }; /* with the digits, and what ends the text; bytes of a manifest */

/* A text that was read, with a zero at its end. */
static int read_text(int folder, uint64_t id, const char *end, struct rks_text *text) {
    char name[RKS_MANIFEST_NAME];
    struct stat found;
    rks_manifest_name(id, end, name);
    text->len = 0;
    int file = openat(folder, name, O_RDONLY | O_NOFOLLOW | O_NONBLOCK | O_CLOEXEC);
    if (file < 0) {
        return errno == ELOOP ? RELKVANU_STORE_DAMAGED : RELKVANU_STORE_FAILED;
    }
    int status = fstat(file, &found) != 0 ? RELKVANU_STORE_FAILED : RELKVANU_STORE_OK;
    status = status == RELKVANU_STORE_OK && (!S_ISREG(found.st_mode) || found.st_size > MOST) ? RELKVANU_STORE_DAMAGED : status;
    status = status == RELKVANU_STORE_OK && !rks_room(text, (size_t)found.st_size + 1) ? RELKVANU_STORE_NO_MEMORY : status;
    ssize_t more = 1;
    while (status == RELKVANU_STORE_OK && more != 0 && text->len < (size_t)found.st_size) {
        more = read(file, text->at + text->len, (size_t)found.st_size - text->len);
        status = more < 0 && errno != EINTR ? RELKVANU_STORE_FAILED : status;
        text->len += more > 0 ? (size_t)more : 0;
    }
    rks_close(file);
    if (status == RELKVANU_STORE_OK) {
        text->at[text->len] = 0;
    }
    return status;
}

/* Whether it is a manifest of this version, and whole. */
static int check_text(const struct rks_text *text) {
    char written[SUM_LEN + 1];
    const char *at = (const char *)text->at;
    if (text->len < sizeof HEAD - 1 + SUM_LEN || strlen(at) != text->len) {
        return RELKVANU_STORE_DAMAGED;
    }
    size_t len = text->len - SUM_LEN;
    snprintf(written, sizeof written, "%s%08" PRIx32 "\"}\n", SUM, (uint32_t)crc32_z(0, text->at, len));
    if (strcmp(at + len, written) != 0) {
        return RELKVANU_STORE_DAMAGED;
    }
    return memcmp(at, HEAD, sizeof HEAD - 1) == 0 ? RELKVANU_STORE_OK : RELKVANU_STORE_NOT_A_STORE;
}

static int read_checked(int folder, uint64_t id, struct rks_text *text) {
    int status = read_text(folder, id, "", text);
    return status == RELKVANU_STORE_OK ? check_text(text) : status;
}

static int status_of(int code) {
    return code == SQLITE_NOMEM ? RELKVANU_STORE_NO_MEMORY : RELKVANU_STORE_DAMAGED;
}

/* What is missing in a row: it is not there, or there was no memory for it. */
static int lacking(sqlite3_stmt *row) {
    return status_of(sqlite3_errcode(sqlite3_db_handle(row)));
}

/* A statement over a text, which stays as it is meanwhile. NULL: *status says why. */
static sqlite3_stmt *asked(sqlite3 *db, const char *sql, const char *text, size_t len, int *status) {
    sqlite3_stmt *it = NULL;
    int code = sqlite3_prepare_v2(db, sql, -1, &it, NULL);
    code = code != SQLITE_OK ? code : sqlite3_bind_text64(it, 1, text, len, SQLITE_STATIC, SQLITE_UTF8);
    if (code == SQLITE_OK) {
        return it;
    }
    *status = status_of(code);
    sqlite3_finalize(it);
    return NULL;
}

/* The members of the first level and of its two objects, in the order in which they are taken over. */
static const char MEMBERS[] =
    "SELECT json_extract(?1,'$.record'),json_extract(?1,'$.epoch'),json_extract(?1,'$.term'),json_extract(?1,'$.place'),"
    "json_extract(?1,'$.written'),json_extract(?1,'$.files'),json_extract(?1,'$.bytes'),json_extract(?1,'$.below.number'),"
    "json_extract(?1,'$.below.term'),json_extract(?1,'$.below.name'),json_extract(?1,'$.settings.interval'),"
    "json_extract(?1,'$.settings.pause'),json_extract(?1,'$.settings.at_once'),json_extract(?1,'$.settings.timeout'),"
    "json_extract(?1,'$.settings.tolerable'),json_extract(?1,'$.settings.retained'),json_extract(?1,'$.settings.keep_on_cancel'),"
    "json_extract(?1,'$.chosen'),json_extract(?1,'$.kind'),json_extract(?1,'$.job'),json_extract(?1,'$.shape'),json_extract(?1,'$.origin'),"
    "json_extract(?1,'$.claimed')";
enum { NUMBERS = 18, KIND = NUMBERS, JOB, SHAPE, ORIGIN, CLAIMED };

/* Copies the shape. Returns a status. */
static int read_shape(sqlite3 *db, sqlite3_stmt *row, struct rks_manifest *m) {
    int code = SQLITE_DONE;
    const char *text = (const char *)sqlite3_column_text(row, SHAPE);
    int status = text == NULL ? lacking(row) : RELKVANU_STORE_OK;
    sqlite3_stmt *it = text == NULL ? NULL : asked(db, "SELECT value FROM json_each(?1)", text, strlen(text), &status);
    while (it != NULL && status == RELKVANU_STORE_OK && (code = sqlite3_step(it)) == SQLITE_ROW) {
        status = m->shape_len < RKS_VERTICES ? RELKVANU_STORE_OK : RELKVANU_STORE_DAMAGED;
        if (status == RELKVANU_STORE_OK) {
            m->shape[m->shape_len++] = (uint64_t)sqlite3_column_int64(it, 0);
        }
    }
    status = status == RELKVANU_STORE_OK && code != SQLITE_DONE ? status_of(code) : status;
    sqlite3_finalize(it);
    return status == RELKVANU_STORE_OK && m->shape_len == 0 ? RELKVANU_STORE_DAMAGED : status;
}

static int take_row(sqlite3 *db, sqlite3_stmt *row, struct rks_manifest *m) {
    uint64_t id = 0, keep = 0, chosen = 0;
    uint64_t *to[NUMBERS] = {&id, &m->epoch, &m->term, &m->place, &m->written, &m->files, &m->bytes, &m->below.number, &m->below.term,
        &m->below.name, &m->settings.interval, &m->settings.pause, &m->settings.at_once, &m->settings.timeout, &m->settings.tolerable,
        &m->settings.retained, &keep, &chosen};
    for (int i = 0; i < NUMBERS; i++) {
        if (sqlite3_column_type(row, i) != SQLITE_INTEGER || sqlite3_column_int64(row, i) < 0) {
            return lacking(row);
        }
        *to[i] = (uint64_t)sqlite3_column_int64(row, i);
    }
    const char *kind = (const char *)sqlite3_column_text(row, KIND), *job = (const char *)sqlite3_column_text(row, JOB);
    if (kind == NULL || job == NULL || id != m->id || strlen(job) != RKS_IDENTITY) {
        return lacking(row);
    }
    m->settings.keep_on_cancel = keep != 0;
    m->is_chosen = chosen != 0;
    m->is_savepoint = strcmp(kind, "savepoint") == 0;
    memcpy(m->job, job, sizeof m->job);
    const char *origin = (const char *)sqlite3_column_text(row, ORIGIN);
    if (origin == NULL && sqlite3_column_type(row, ORIGIN) != SQLITE_NULL) {
        return lacking(row);
    }
    snprintf(m->origin, sizeof m->origin, "%s", origin == NULL ? "" : origin);
    const char *target = (const char *)sqlite3_column_text(row, CLAIMED);
    m->target = target == NULL ? NULL : strdup(target);
    if (m->target == NULL && sqlite3_column_type(row, CLAIMED) != SQLITE_NULL) {
        return RELKVANU_STORE_NO_MEMORY;
    }
    return read_shape(db, row, m);
}

/* What the manifest says beside its files. */
static int read_members(sqlite3 *db, const struct rks_text *text, struct rks_manifest *m) {
    int status = check_text(text);
    sqlite3_stmt *it = status == RELKVANU_STORE_OK ? asked(db, MEMBERS, (const char *)text->at, text->len, &status) : NULL;
    if (it != NULL) {
        int code = sqlite3_step(it);
        status = code == SQLITE_ROW ? take_row(db, it, m) : status_of(code);
    }
    sqlite3_finalize(it);
    return status;
}

/* Whether the text is the number of a file, as it is written. */
static bool is_file(const char *text, uint64_t *file) {
    char written[32];
    errno = 0;
    *file = text == NULL ? 0 : strtoull(text, NULL, 10);
    snprintf(written, sizeof written, "%" PRIu64, *file);
    return errno == 0 && text != NULL && strcmp(text, written) == 0;
}

/* Reads the subtasks of a manifest, and the files and the checksums of one. */
struct reading {
    sqlite3_stmt *subtasks, *files, *sums;
    bool has_sums;
};
enum { VERTEX, INDEX, FILES, PAYLOAD, SUMS, BYTES, MILLIS }; /* of a subtask */

/* Binds what a subtask has. Checksums may be missing. */
static int bind_files(struct reading *r) {
    const char *files = (const char *)sqlite3_column_text(r->subtasks, FILES), *sums = (const char *)sqlite3_column_text(r->subtasks, SUMS);
    r->has_sums = sums != NULL;
    if (files == NULL || (sums == NULL && sqlite3_column_type(r->subtasks, SUMS) != SQLITE_NULL)) {
        return lacking(r->subtasks);
    }
    bool is_bound = sqlite3_bind_text(r->files, 1, files, -1, SQLITE_STATIC) == SQLITE_OK;
    is_bound = is_bound && sqlite3_bind_text(r->sums, 1, r->has_sums ? sums : "[]", -1, SQLITE_STATIC) == SQLITE_OK;
    return is_bound ? RELKVANU_STORE_OK : RELKVANU_STORE_NO_MEMORY;
}

/* The checksum of the next file: eight hexadecimal digits, or null if it is not known. There are as many as files. */
static int next_sum(struct reading *r, struct rks_part *part) {
    char written[16];
    part->has_sum = false;
    int code = r->has_sums ? sqlite3_step(r->sums) : SQLITE_ROW;
    if (code != SQLITE_ROW || !r->has_sums || sqlite3_column_type(r->sums, 0) == SQLITE_NULL) {
        return code == SQLITE_ROW ? RELKVANU_STORE_OK : status_of(code);
    }
    const char *text = (const char *)sqlite3_column_text(r->sums, 0);
    part->has_sum = text != NULL;
    part->sum = text == NULL ? 0 : (uint32_t)strtoul(text, NULL, 16);
    snprintf(written, sizeof written, "%08" PRIx32, part->sum);
    return text != NULL && strcmp(text, written) == 0 ? RELKVANU_STORE_OK : lacking(r->sums);
}

/* The files of a subtask. */
static int each_file(struct reading *r, struct rks_part part, rks_each_part each, void *with) {
    int status = bind_files(r), code = SQLITE_DONE;
    bool has_files = false;
    while (status == RELKVANU_STORE_OK && (code = sqlite3_step(r->files)) == SQLITE_ROW) {
        part.is_file = has_files = true;
        part.has_bytes = sqlite3_column_type(r->files, 1) == SQLITE_INTEGER;
        part.bytes = (uint64_t)sqlite3_column_int64(r->files, 1);
        status = is_file((const char *)sqlite3_column_text(r->files, 0), &part.file) ? next_sum(r, &part) : lacking(r->files);
        status = status == RELKVANU_STORE_OK ? each(with, &part) : status;
    }
    status = status == RELKVANU_STORE_OK && code != SQLITE_DONE ? status_of(code) : status;
    sqlite3_reset(r->files);
    sqlite3_reset(r->sums);
    return status == RELKVANU_STORE_OK && !has_files ? each(with, &part) : status;
}

/* What a task told of its snapshot; 0 if it told nothing. */
static bool is_figure(sqlite3_stmt *subtasks, int column, uint64_t *figure) {
    int type = sqlite3_column_type(subtasks, column);
    *figure = (uint64_t)sqlite3_column_int64(subtasks, column);
    return type == SQLITE_NULL || (type == SQLITE_INTEGER && *figure <= INT64_MAX);
}

static int each_subtask(struct reading *r, rks_each_part each, void *with) {
    sqlite3_int64 vertex = sqlite3_column_int64(r->subtasks, VERTEX), index = sqlite3_column_int64(r->subtasks, INDEX);
    bool is_valid = vertex >= 0 && vertex < RKS_VERTICES && index >= 0 && index <= UINT16_MAX;
    struct rks_part part = {
        .vertex = (uint16_t)vertex, .index = (uint16_t)index, .payload = (const char *)sqlite3_column_text(r->subtasks, PAYLOAD)};
    is_valid = is_valid && (part.payload != NULL || sqlite3_column_type(r->subtasks, PAYLOAD) == SQLITE_NULL);
    is_valid = is_valid && is_figure(r->subtasks, BYTES, &part.told_bytes) && is_figure(r->subtasks, MILLIS, &part.told_millis);
    return is_valid ? each_file(r, part, each, with) : RELKVANU_STORE_DAMAGED;
}

/* The files of all subtasks. */
static int each_part(sqlite3 *db, const struct rks_text *text, rks_each_part each, void *with) {
    static const char SUBTASKS_OF[] = "SELECT json_extract(value,'$.vertex'),json_extract(value,'$.index'),json_extract(value,'$.files'),"
                                      "json_extract(value,'$.payload'),json_extract(value,'$.sums'),"
                                      "json_extract(value,'$.bytes'),json_extract(value,'$.millis')"
                                      " FROM json_each(?1,'$.subtasks')";
    int status = RELKVANU_STORE_OK, code = SQLITE_DONE;
    struct reading r = {.subtasks = asked(db, SUBTASKS_OF, (const char *)text->at, text->len, &status)};
    r.files = r.subtasks == NULL ? NULL : asked(db, "SELECT key,value FROM json_each(?1)", "{}", 2, &status);
    r.sums = r.files == NULL ? NULL : asked(db, "SELECT value FROM json_each(?1)", "[]", 2, &status);
    while (r.sums != NULL && status == RELKVANU_STORE_OK && (code = sqlite3_step(r.subtasks)) == SQLITE_ROW) {
        status = each_subtask(&r, each, with);
    }
    status = status == RELKVANU_STORE_OK && code != SQLITE_DONE ? status_of(code) : status;
    sqlite3_finalize(r.subtasks);
    sqlite3_finalize(r.files);
    sqlite3_finalize(r.sums);
    return status;
}

int rks_manifest_parts(struct rks_manifests *all, int folder, uint64_t id, rks_each_part each, void *with) {
    struct rks_text text = {0};
    int status = read_checked(folder, id, &text);
    status = status == RELKVANU_STORE_OK ? each_part(all->db, &text, each, with) : status;
    free(text.at);
    return status;
}

/* Anew for another job, in which the record is the choice; and as the mark of a record that was claimed, which has no files. */
static const char OF_JOB[] = "SELECT json_set(json_remove(?1,'$.sum'),'$.origin',json_extract(?1,'$.job'),'$.job',?2,'$.epoch',1,"
                             "'$.chosen',json('true'))",
                  OF_MARK[] = "SELECT json_set(json_remove(?1,'$.sum','$.subtasks'),'$.claimed',?2)";

/* Writes the text anew, with a word of its own. */
static int rewrite(sqlite3 *db, const char *sql, const char *word, struct rks_text *text) {
    int status = RELKVANU_STORE_OK;
    sqlite3_stmt *it = asked(db, sql, (const char *)text->at, text->len, &status);
    if (it == NULL || sqlite3_bind_text(it, 2, word, -1, SQLITE_STATIC) != SQLITE_OK) {
        sqlite3_finalize(it);
        return it == NULL ? status : RELKVANU_STORE_NO_MEMORY;
    }
    struct rks_text made = {0};
    int code = sqlite3_step(it);
    const char *found = code == SQLITE_ROW ? (const char *)sqlite3_column_text(it, 0) : NULL;
    size_t len = found == NULL ? 0 : strlen(found) - 1; /* what ends the object comes last again */
    status = found == NULL ? status_of(code == SQLITE_ROW ? SQLITE_NOMEM : code) : RELKVANU_STORE_OK;
    status = status == RELKVANU_STORE_OK && !rks_room(&made, len + SUM_LEN + 1) ? RELKVANU_STORE_NO_MEMORY : status;
    if (status == RELKVANU_STORE_OK) {
        memcpy(made.at, found, len);
        snprintf((char *)made.at + len, SUM_LEN + 1, "%s%08" PRIx32 "\"}\n", SUM, (uint32_t)crc32_z(0, made.at, len));
        made.len = len + SUM_LEN;
        free(text->at);
        *text = made;
    }
    sqlite3_finalize(it);
    return status;
}

int rks_manifest_text(struct rks_manifests *all, int folder, uint64_t id, const char *job, struct rks_text *text) {
    int status = read_checked(folder, id, text);
    return status == RELKVANU_STORE_OK && job != NULL ? rewrite(all->db, OF_JOB, job, text) : status;
}

int rks_mark_text(struct rks_manifests *all, int folder, uint64_t id, const char *target, struct rks_text *text) {
    int status = read_checked(folder, id, text);
    return status == RELKVANU_STORE_OK ? rewrite(all->db, OF_MARK, target, text) : status;
}

uint32_t rks_fault_of(int folder, const struct rks_part *part) {
    struct stat found;
    if (!rks_find_file(folder, part->file, &found) || !S_ISREG(found.st_mode)) {
        return RELKVANU_STORE_FILE_MISSING;
    }
    return part->has_bytes && (uint64_t)found.st_size != part->bytes ? RELKVANU_STORE_FILE_LENGTH : 0;
}

struct looking {
    int folder;
    uint64_t missing, unknown;
};

static int look_for(void *with, const struct rks_part *part) {
    struct looking *looking = with;
    if (part->is_file) {
        looking->missing += rks_fault_of(looking->folder, part) != 0;
        looking->unknown += !part->has_sum;
    }
    return RELKVANU_STORE_OK;
}

struct noting {
    struct rks_sums *sums;
    int folder;
};

static int note_file(void *with, const struct rks_part *part) {
    struct noting *noting = with;
    bool is_noted = !part->is_file || !part->has_bytes || rks_note_length(noting->sums, noting->folder, part->file, part->bytes);
    is_noted = is_noted && (!part->is_file || !part->has_sum || rks_note_sum(noting->sums, noting->folder, part->file, part->sum));
    return is_noted ? RELKVANU_STORE_OK : RELKVANU_STORE_NO_MEMORY;
}

int rks_note_files(struct rks_manifests *all, int folder, const char *job, struct rks_sums *sums) {
    struct noting noting = {.sums = sums, .folder = folder};
    int status = RELKVANU_STORE_OK;
    for (size_t i = 0; i < all->len && status != RELKVANU_STORE_NO_MEMORY; i++) {
        const struct rks_manifest *it = &all->at[i];
        if (it->status == RELKVANU_STORE_OK && strcmp(it->job, job) == 0) {
            status = rks_manifest_parts(all, folder, it->id, note_file, &noting);
        }
    }
    return status == RELKVANU_STORE_NO_MEMORY ? status : RELKVANU_STORE_OK;
}

/* Reads one manifest or mark, and looks for its files. What is wrong with it is noted in it; other statuses are returned. */
static int read_manifest(struct rks_manifests *all, int folder, const char *end, struct rks_text *text, struct rks_manifest *m) {
    struct looking looking = {.folder = folder};
    int status = read_text(folder, m->id, end, text);
    status = status == RELKVANU_STORE_OK ? read_members(all->db, text, m) : status;
    status = status == RELKVANU_STORE_OK ? each_part(all->db, text, look_for, &looking) : status;
    m->missing = looking.missing;
    m->unknown = looking.unknown;
    m->status = status == RELKVANU_STORE_NOT_A_STORE ? status : status != RELKVANU_STORE_OK ? RELKVANU_STORE_DAMAGED : status;
    if (status == RELKVANU_STORE_FAILED && errno == ENOENT) { /* the job has deleted it meanwhile */
        m->status = RELKVANU_STORE_DAMAGED;
        return RELKVANU_STORE_OK;
    }
    return status == RELKVANU_STORE_NO_MEMORY || status == RELKVANU_STORE_FAILED ? status : RELKVANU_STORE_OK;
}

static int note(struct rks_manifest **to, size_t *len, size_t *room, uint64_t id) {
    if (!rks_grow(to, room, *len + 1, sizeof **to)) {
        return RELKVANU_STORE_NO_MEMORY;
    }
    (*to)[(*len)++] = (struct rks_manifest){.id = id};
    return RELKVANU_STORE_OK;
}

/* Notes the manifest, or the mark, of an entry of the folder. */
static int note_entry(void *with, const struct dirent *entry) {
    struct rks_manifests *all = with;
    uint64_t id;
    const char *end = rks_manifest_names(entry->d_name, &id);
    if (end == NULL || strcmp(end, RKS_PART) == 0) {
        return RELKVANU_STORE_OK;
    }
    return end[0] == 0 ? note(&all->at, &all->len, &all->room, id) : note(&all->marks, &all->marks_len, &all->marks_room, id);
}

static int by_number(const void *one, const void *other) {
    uint64_t a = ((const struct rks_manifest *)one)->id, b = ((const struct rks_manifest *)other)->id;
    return (a > b) - (a < b);
}

int rks_list_manifests(int folder, struct rks_manifests *found) {
    struct rks_text text = {0};
    *found = (struct rks_manifests){0};
    int status = sqlite3_open(":memory:", &found->db) == SQLITE_OK ? RELKVANU_STORE_OK : RELKVANU_STORE_NO_MEMORY;
    status = status == RELKVANU_STORE_OK ? rks_each_entry(folder, note_entry, found) : status;
    status = status < 0 ? RELKVANU_STORE_FAILED : status;
    if (found->len != 0) {
        qsort(found->at, found->len, sizeof *found->at, by_number);
    }
    for (size_t at = 0; status == RELKVANU_STORE_OK && at < found->len + found->marks_len; at++) {
        bool is_mark = at >= found->len;
        status = read_manifest(found, folder, is_mark ? RKS_CLAIMED : "", &text, is_mark ? &found->marks[at - found->len] : &found->at[at]);
    }
    int error = errno;
    free(text.at);
    errno = error;
    return status;
}

void rks_free_manifests(struct rks_manifests *found) {
    for (size_t at = 0; at < found->len + found->marks_len; at++) {
        free(at < found->len ? found->at[at].target : found->marks[at - found->len].target);
    }
    int error = errno;
    free(found->at);
    free(found->marks);
    sqlite3_close(found->db);
    *found = (struct rks_manifests){0};
    errno = error;
}

/* Whether the first of two whole ones is what a recovery begins from: the last one that was the choice, or else the last savepoint. */
static bool is_later(const struct rks_manifest *one, const struct rks_manifest *other) {
    if (one->is_chosen != other->is_chosen) {
        return one->is_chosen;
    }
    return one->epoch != other->epoch ? one->epoch > other->epoch : one->place > other->place;
}

/* The last whole one; `wanted`: with this number alone; 0: any. */
static struct rks_manifest *whole_one(struct rks_manifests *all, const char *job, uint64_t wanted) {
    struct rks_manifest *chosen = NULL;
    for (size_t i = 0; i < all->len; i++) {
        struct rks_manifest *it = &all->at[i];
        bool is_whole = it->status == RELKVANU_STORE_OK && it->missing == 0 && (job == NULL || strcmp(it->job, job) == 0);
        if (is_whole && (wanted == 0 || it->id == wanted) && (chosen == NULL || is_later(it, chosen))) {
            chosen = it;
        }
    }
    return chosen;
}

struct rks_manifest *rks_latest_manifest(struct rks_manifests *all, const char *job) {
    return whole_one(all, job, 0);
}

/* The mark of a record that is not earlier than this one, if there is any. One that can't be read may be of each job. */
static const struct rks_manifest *later_mark(const struct rks_manifests *all, const char *job, const struct rks_manifest *than) {
    const struct rks_manifest *found = NULL;
    for (size_t i = 0; i < all->marks_len && found == NULL; i++) {
        const struct rks_manifest *it = &all->marks[i];
        bool is_read = it->status == RELKVANU_STORE_OK, is_of_job = !is_read || job == NULL || strcmp(it->job, job) == 0;
        bool is_earlier = than != NULL && (is_read ? is_later(than, it) : it->id < than->id);
        found = is_of_job && !is_earlier ? it : NULL;
    }
    return found;
}

struct rks_manifest *rks_choose_manifest(struct rks_manifests *all, const char *job, uint64_t wanted) {
    struct rks_manifest *chosen = whole_one(all, job, wanted);
    return wanted == 0 && later_mark(all, job, chosen) != NULL ? NULL : chosen;
}

const struct rks_manifest *rks_mark_of(const struct rks_manifests *all, uint64_t id) {
    const struct rks_manifest *found = NULL;
    for (size_t i = 0; i < all->marks_len && found == NULL; i++) {
        found = all->marks[i].id == id ? &all->marks[i] : NULL;
    }
    return found;
}

void rks_say_claimed(const struct rks_manifest *mark, char *words, size_t len) {
    enum { LONGEST = 80 }; /* of a path, which ends with what tells it from others */
    const char *target = mark->target == NULL ? "another folder" : mark->target;
    size_t cut = strlen(target) > LONGEST ? strlen(target) - LONGEST : 0;
    snprintf(words, len,
        "record %" PRIu64 " was claimed for %s%s: repeat that command or start its job, or give the number of an earlier record", mark->id,
        cut == 0 ? "" : "..", target + cut);
}

/* The job of whole records, and how many, if none is of the one that the marker names. */
static const char *other_job(const struct rks_manifests *all, const char *job, size_t *whole) {
    const char *other = NULL;
    *whole = 0;
    for (size_t i = 0; i < all->len && job != NULL; i++) {
        const struct rks_manifest *it = &all->at[i];
        bool is_others = it->status == RELKVANU_STORE_OK && it->missing == 0 && strcmp(it->job, job) != 0;
        other = is_others ? it->job : other;
        *whole += is_others;
    }
    return other;
}

void rks_say_none(struct rks_manifests *all, const char *job, uint64_t wanted, char *words, size_t len) {
    size_t whole;
    const char *other = other_job(all, job, &whole);
    const struct rks_manifest *mark = wanted == 0 ? later_mark(all, job, whole_one(all, job, 0)) : rks_mark_of(all, wanted);
    if (mark != NULL) {
        rks_say_claimed(mark, words, len);
    } else if (other == NULL) {
        snprintf(words, len, "no record that has a manifest there has all its files");
    } else {
        snprintf(words, len, "%zu whole records there are of another job, %s: the marker, which names %s, is damaged, or not theirs", whole,
            other, job);
    }
}

bool rks_has_missed(const struct rks_manifests *all, int folder, const struct rks_manifest *chosen) {
    bool has_missed = false;
    for (size_t i = 0; i < all->len && !has_missed; i++) {
        const struct rks_manifest *it = &all->at[i];
        char name[RKS_MANIFEST_NAME];
        rks_manifest_name(it->id, "", name);
        if ((it->status != RELKVANU_STORE_OK || it->missing != 0) && (chosen == NULL || it->id > chosen->id)) {
            has_missed = faccessat(folder, name, F_OK, AT_SYMLINK_NOFOLLOW) != 0 && errno == ENOENT;
        }
    }
    return has_missed;
}

int rks_check_choice(
    relkvanu_store *s, const char *folder, struct rks_manifests *all, const char *job, uint64_t wanted, const struct rks_manifest *chosen) {
    char words[200];
    uint64_t last = 0; /* of those that can't be read: one may be of a later record */
    if (chosen == NULL) {
        rks_say_none(all, job, wanted, words, sizeof words);
        return rks_refuse(s, RELKVANU_STORE_ABSENT, "%.300s: %.200s", folder, words);
    }
    for (size_t i = 0; i < all->len && wanted == 0; i++) {
        last = all->at[i].status != RELKVANU_STORE_OK && all->at[i].id > last ? all->at[i].id : last;
    }
    return last <= chosen->id ? RELKVANU_STORE_OK
                              : rks_refuse(s, RELKVANU_STORE_DAMAGED,
                                    "%.300s: record-%" PRIu64
                                    ".manifest is damaged or of another version: give the number of a record to go on from an earlier one",
                                    folder, last);
}

const struct rks_manifest *rks_list_owned(const char *folder, uint64_t wanted, struct rks_manifests *all) {
    relkvanu_store s = {.storage = {.folder = -1}};
    uint64_t marked = 0;
    bool is_owned = rks_open_folder(&s, folder) == RELKVANU_STORE_OK && rks_read_owner(&s, folder, &marked) == RELKVANU_STORE_OK;
    bool is_listed = is_owned && rks_list_manifests(s.storage.folder, all) == RELKVANU_STORE_OK;
    rks_close(s.storage.folder);
    return is_listed ? rks_choose_manifest(all, s.job.identity, wanted) : NULL;
}

uint64_t rks_last_opening(const struct rks_manifests *all, const char *job) {
    uint64_t last = 0;
    for (size_t i = 0; i < all->len; i++) {
        const struct rks_manifest *it = &all->at[i];
        bool is_later = it->status == RELKVANU_STORE_OK && strcmp(it->job, job) == 0 && it->epoch > last;
        last = is_later ? it->epoch : last;
    }
    return last;
}

int rks_pass_manifests(relkvanu_store *s, const char *folder, uint64_t *last) {
    struct rks_manifests all;
    int status = rks_list_manifests(s->storage.folder, &all);
    uint64_t found = status == RELKVANU_STORE_OK ? rks_last_opening(&all, s->job.identity) : 0;
    *last = found > *last ? found : *last;
    status = status == RELKVANU_STORE_OK ? rks_note_files(&all, s->storage.folder, s->job.identity, &s->kept.sums) : status;
    rks_free_manifests(&all);
    return status == RELKVANU_STORE_FAILED ? rks_file_fault(s, folder, errno) : status;
}

void rks_tell_taken(const struct rks_manifest *it, uint64_t below, relkvanu_store_recovered *told) {
    told->record = it->id;
    told->is_savepoint = it->is_savepoint;
    told->files = it->files;
    told->bytes = it->bytes;
    told->next_number = below > it->id ? below : it->id + 1;
}

bool rks_tell_record(const struct rks_manifest *it, const struct rks_telling *telling) {
    relkvanu_store_record record = {.id = it->id, .status = (uint32_t)it->status};
    if (it->status == RELKVANU_STORE_OK) {
        record.is_savepoint = it->is_savepoint;
        record.is_of_job = telling->job == NULL || strcmp(it->job, telling->job) == 0;
        record.is_next = it == telling->next;
        record.written = it->written;
        record.files = it->files;
        record.bytes = it->bytes;
        record.missing = it->missing;
        record.unknown = it->unknown;
        record.changed = it->changed;
    }
    return it->has_ended || telling->each(telling->with, &record);
}

static int tell_records(relkvanu_store *s, const char *folder, struct rks_telling telling) {
    struct rks_manifests all = {0};
    uint64_t marked = 0;
    bool has_marker = false;
    int status = rks_open_folder(s, folder);
    status = status == RELKVANU_STORE_OK ? rks_find_owner(s, folder, &marked, &has_marker) : status;
    if (status != RELKVANU_STORE_OK) {
        return status;
    }
    telling.job = has_marker ? s->job.identity : NULL;
    status = rks_list_manifests(s->storage.folder, &all);
    if (status == RELKVANU_STORE_OK) {
        telling.next = rks_choose_manifest(&all, telling.job, 0);
    } else if (status != RELKVANU_STORE_NO_MEMORY) {
        status = rks_file_fault(s, folder, errno);
    }
    status = status == RELKVANU_STORE_OK ? rks_check_manifests(&all, s->storage.folder, &telling) : status;
    rks_free_manifests(&all);
    return status;
}

static int tell_folder(const char *folder, struct rks_telling telling, char *message, size_t message_len) {
    relkvanu_store *s;
    char words[RKS_MESSAGE];
    int status = rks_new_store(&s, words);
    if (status == RELKVANU_STORE_OK) {
        status = tell_records(s, folder, telling);
        memcpy(words, s->fault, sizeof words);
        rks_release_store(s);
    }
    snprintf(message, message_len, "%s", status == RELKVANU_STORE_OK ? "" : words);
    return status;
}

int relkvanu_store_records(const char *folder, relkvanu_store_each_record each, void *with, char *message, size_t message_len) {
    return tell_folder(folder, (struct rks_telling){.each = each, .with = with}, message, message_len);
}

int relkvanu_store_check_records(const char *folder, relkvanu_store_each_record each, relkvanu_store_each_fault each_fault, void *with,
    char *message, size_t message_len) {
    return tell_folder(folder, (struct rks_telling){.each = each, .each_fault = each_fault, .with = with}, message, message_len);
}

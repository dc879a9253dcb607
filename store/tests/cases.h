/* The cases of the store's tests. Each runs in a process and a folder of its own. */
#ifndef STORE_TESTS_CASES_H
#define STORE_TESTS_CASES_H
#include "common.h"

#include <errno.h>
#include <fcntl.h>
#include <pthread.h>
#include <stdatomic.h>
#include <sys/stat.h>
#include <unistd.h>

/* A case: CASE(name) { .. }. Each is known when the program begins. */
void add_case(const char *name, void (*run)(void));
#define CASE(name)                                              \
    static void name(void);                                     \
    __attribute__((constructor)) static void add_##name(void) { \
        add_case(#name, name);                                  \
    }                                                           \
    static void name(void)

/* A name in the folder of the case; it stays until the thread has asked for four more. */
const char *in(const char *name);

/* Opens FOLDER/x.db, or another file there, with these options, and expects the status. Returns NULL unless it is RELKVANU_STORE_OK. */
relkvanu_store *opens(const relkvanu_store_options *options, int status);
relkvanu_store *opens_at(const char *name, const relkvanu_store_options *options, int status);
relkvanu_store *opens_with(relkvanu_store_options options);
relkvanu_store *opens_as(relkvanu_store_options *options, uint32_t flags, int status); /* with these flags from now on */
void opens_not(const relkvanu_store_options *options, int status, const char *words);  /* the report's message has the words */
void opens_not_at(const char *name, const relkvanu_store_options *options, int status, const char *words);
extern relkvanu_store_report report; /* of the last opening */

relkvanu_store_options storage_options(uint32_t flags, uint64_t image_calls);
relkvanu_store *new_job(void); /* over the folder FOLDER/storage */
relkvanu_store *new_job_with_manifests(void);
relkvanu_store *new_job_alone(uint64_t image_calls);

bool exists(const char *name);     /* in the folder of the case */
void make_empty(const char *name); /* a file, which is not there yet */
void write_text(const char *name, const char *text);

/* The marker of the job that was opened, or of another one; epoch 0: of no opening. */
void write_marker(const char *folder, uint64_t other, uint64_t epoch);

void copy_file(const char *from, const char *to);
size_t files_in(const char *folder); /* how many, beside those whose names begin with a point */
const char *stored(uint64_t file);   /* storage/FILE, as long */
extern const char *const JOB_FILES[4];
void lose_job(void); /* removes x.db and what is beside it: these files */
void lose_job_of(relkvanu_store *store);

/* Waits until so. On no machine that takes five minutes. */
#define AWAIT(condition)                              \
    for (int turns = 300000; !(condition); turns--) { \
        CHECK(turns > 0, "it does not come");         \
        usleep(1000);                                 \
    }

pthread_t starts(void *(*run)(void *with), void *with); /* a thread */

/* A discarder in a thread of its own, with a function or over a storage. A stop ends it. */
struct discarder {
    relkvanu_store *store;
    size_t batch;
    void (*deletes)(void *with, const uint64_t *files, size_t len, uint8_t *is_gone);
    void *with;
    const relkvanu_storage *storage; /* without a function; NULL: the store's own */
    pthread_t thread;
    int status;
};
void *discards(void *discarder); /* in this thread */
void start_discarder(struct discarder *it);
void stop_discarder(struct discarder *it);
relkvanu_storage own_storage(relkvanu_store *store);
void deletes_file(const relkvanu_storage *storage, uint64_t file, int status, uint8_t outcome);
relkvanu *begins_read(relkvanu_store *store); /* up to relkvanu_store_read_end */

/* What a store says of itself: how long a timer waits, when the next checkpoint is due, whether the job has stopped, which term runs, how many files there are,
 * and what it has counted. */
uint64_t wait_of(relkvanu_store *store);
uint64_t due_of(relkvanu_store *store);
relkvanu_store_job_phase phase_of(relkvanu_store *store);
relkvanu_counts counts_of(relkvanu_store *store);
uint64_t unreported(relkvanu_store *store); /* files that were released, and are not reported as deleted */
uint64_t term_of(relkvanu_store *store);
relkvanu_store_counts totals_of(relkvanu_store *store);
relkvanu_store_measures measures_of(relkvanu_store *store);

/* The acknowledgement of subtask 0.index at the moment 0, with one file. */
relkvanu_answer acked_at_0(relkvanu_store *store, uint64_t term, uint64_t id, uint16_t index, uint64_t file);

/* So many names of a term: the first of them. */
uint64_t reserved(relkvanu_store *store, uint64_t term, uint64_t count);

/* A call, with whatever answer. */
relkvanu_store_call made(relkvanu_store *store, relkvanu_call call);

/* A call of one kind with a number, and its answer, which has to be RELKVANU_DONE. */
relkvanu_answer done(relkvanu_store *store, uint32_t kind, uint64_t now, uint64_t number);

/* The number of a record that is triggered now: a checkpoint, or with RELKVANU_CALL_SAVEPOINT a savepoint. */
uint64_t begins(relkvanu_store *store, uint32_t kind);

/* Subtask 0.index puts a file of so many bytes, and acknowledges the record now with it and a file from before, unless that is 0. */
relkvanu_answer takes_part(relkvanu_store *store, uint64_t term, uint64_t id, uint16_t index, uint64_t file, size_t len, uint64_t reused);

/* A record in which each subtask takes part with a new file, of 1 to 8 bytes. Returns its number. *first is the first file. */
uint64_t completes(relkvanu_store *store, uint32_t kind, uint64_t *first);

/* The same. Each file has so many of these bytes, unless that is 0, and the first subtask also acknowledges a file from before, unless that is 0. */
#define CONTENTS "123456789 of a task"
uint64_t completes_with(relkvanu_store *store, uint32_t kind, size_t len, uint64_t reused, uint64_t *first);

/* Triggers a checkpoint and acknowledges it for each subtask, with files from the number on, 2 each, which no one has reserved before: all names up to
 * the last of them are reserved first, mostly in one call. Returns its number. */
uint64_t checkpoint(relkvanu_store *store, uint64_t file);
uint64_t checkpoint_with_files(relkvanu_store *store, uint64_t file); /* the same, with files that are there */
enum { CHECKPOINT_CALLS = 2 + SUBTASKS };

/* The records that a folder of the case has told last. */
enum { MOST_RECORDS = 32 };
extern relkvanu_store_record records[MOST_RECORDS];
extern size_t records_len;
bool note_record(void *with, const relkvanu_store_record *record); /* one of them, with a pointer to them */
size_t list_records(const char *folder);                           /* how many there are */

/* Runs the function in a child, and returns its exit status. */
int in_child(int (*run)(void *with), void *with);

/* A write behind so many bytes of any file fails with EFBIG, and none does after 0. */
void limit_files(size_t bytes);

bool says(const char *words);     /* whether the report's message has the words */
void why_says(const char *words); /* what is told of the last call of this thread that was not made, or was refused */

/* Recoveries, claims, exports and imports by names in the folder of the case, which have to have this status, and leave no part of a file or folder. */
extern relkvanu_store_recovered recovered;
extern relkvanu_store_carried carried;
void recovers(const char *path, const char *storage, uint64_t record, int status);
void claims(const char *from, uint64_t record, const char *path, const char *storage, int status);
void imports(const char *from, uint64_t record, const char *path, const char *storage, int status);
void exports(const char *from, uint64_t record, const char *to, int status);
void backs_up(relkvanu_store *store, const char *name, int status); /* what it says is in message */
extern char message[RELKVANU_STORE_MESSAGE];

void puts_file(relkvanu_store *store, uint64_t file, int status); /* with the bytes "state" */
void is_swept(relkvanu_store *store, int status, size_t left);    /* and so many files are left that can't be deleted */

/* From now on the sync of a file or folder whose path ends so fails with this errno; 0: none fails. */
void fail_syncs(const char *end, int error);

bool is_file(int fd, const char *end); /* whether the path of an open file or folder ends so */

/* From now on an opening of this name in a folder that is open fails with this errno; 0: none does. Or the next one alone. */
void fail_opens(const char *name, int error);
void fail_next_open(const char *name, int error);

/* From now on the sync of a file whose path ends so waits until this is called again; NULL: none waits. And waits until one does. */
void hold_syncs(const char *end);
void await_held_sync(void);

/* What is behind these words in the manifest of a record; NULL: it has none of them. It stays until the next one is asked for. */
const char *manifest_says(uint64_t id, const char *words);

#endif

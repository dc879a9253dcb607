/* A coordinator whose calls are durable: one SQLite file for each job, so that an engine writes no log, lock, sync, replay or recovery.
 * It gives out the names of the files that tasks write, and tells in which term the tasks run.
 *
 * Link librelkvanu-store.a, librelkvanu.a, SQLite (3.37 or later), zlib and threads, or use `pkg-config relkvanu-store`. For Linux.
 * A call is made, its line and its answer are committed and synced, and only then does the function return. Any number of threads may
 * call. While one of them commits, the calls of the others gather, and the first of them commits all of these together.
 *
 * Files: PATH (the log and the images), PATH-wal, PATH-shm and PATH.lock. Never delete any of them, even when the store is closed.
 * While a store is open no other program or connection can read PATH, and nobody may copy it but relkvanu_store_backup. PATH has to be
 * on a local file system, not on NFS. The folder options.storage may be on another one, where a rename is atomic and fsync of a file and of a folder makes both durable. A
 * network file system that promises this will do; none has been tested.
 *
 * Files are safe as follows:
 * - A task is started with the term from the answer to the restore before it (relkvanu_store_call.term), or report.term if the job is new. It never
 *   asks for a term, and no barrier carries one: a task that should be dead would go on with it. Its calls have the term (relkvanu_call.term).
 * - It reserves names (RELKVANU_CALL_RESERVE), makes a file by each (relkvanu_store_put), and acknowledges them. What it does not acknowledge, as after
 *   a failed put, it forfeits (RELKVANU_CALL_FORFEIT). It deletes nothing.
 * - The discarder deletes what it takes (relkvanu_store_discard), and the sweeper deletes garbage (relkvanu_store_sweep). All three may run at any time,
 *   twice, late, or from a process that should be dead: no live file is deleted.
 *
 * Conditions for the caller:
 * - A failed job is restored by the engine: when the mode is failed (relkvanu_store_await_tick tells it, and so do the answers) it ends all tasks,
 *   restores, sweeps, tells the sinks again and starts the tasks. A task that ends while the job runs needs the same: no task starts alone.
 *   It is enough that the old tasks are told to end: what they send later is refused with RELKVANU_OLD_TERM.
 * - A read (relkvanu_store_read) sees committed calls only, whichever thread made them.
 * - Nobody acts on an answer unless the status is RELKVANU_STORE_OK and its code is RELKVANU_DONE: no file is deleted or kept, no barrier
 *   is sent. With any other status each answer is RELKVANU_STORE_NOT_MADE.
 * - A status from RELKVANU_STORE_FAILED to RELKVANU_STORE_OUT_OF_MEMORY closes the store: each later call returns RELKVANU_STORE_CLOSED. Calls that
 *   returned it may or may not be in the log. Close the store and open it again, or end the process, and do what a recovery does.
 * - RELKVANU_STORE_STORAGE of a call closes it too: a manifest was refused, since the marker names another job or a later opening. What the call has completed
 *   is complete for nobody, so no sink publishes it. End the process.
 * - A thread that calls has 256 KiB of stack or more: one that commits also makes the calls of those that wait.
 * - A list or buffer that is passed stays as it is until the function returns, or until the completion of a submit.
 * - A thread that reads (relkvanu_store_read) makes no call before relkvanu_store_read_end, except a submit: it would wait for itself. Such a call is
 *   RELKVANU_STORE_BAD_ARGUMENT, relkvanu_store_why says so, and relkvanu_store_close does nothing then. It discards, sweeps and awaits no tick either.
 * - In a forked child each function returns RELKVANU_STORE_FORKED, and relkvanu_store_close does nothing.
 * - No call is made from a signal handler, and no thread is cancelled inside of one.
 * - relkvanu_store_close comes after the last call of each other thread.
 */
#ifndef RELKVANU_STORE_H
#define RELKVANU_STORE_H
#include "relkvanu.h"
#include "relkvanu_storage.h"

#ifdef __cplusplus
extern "C" {
#endif

/* clang-format off */

typedef struct relkvanu_store relkvanu_store;

/* Status. After the first group nothing was made, and the store is as it was. */
#define RELKVANU_STORE_OK 0           /* it was done */
#define RELKVANU_STORE_BAD_ARGUMENT 1 /* of a call: its kind, shape, number of files or a reserved field; of an opening: its settings or shape, which have limits in relkvanu.h */
#define RELKVANU_STORE_NO_MEMORY 2    /* make the same call again later */
#define RELKVANU_STORE_IN_USE 3       /* open: another process, or this one, has the job open. The message names it */
#define RELKVANU_STORE_ABSENT 4       /* open: there is no job, and the flags do not allow one to be made */
#define RELKVANU_STORE_PRESENT 5      /* open: there is a job, and RELKVANU_STORE_CREATE_ONLY forbids it; put: there is a file of this number, or a part of one; backup: there is a file of this name */
#define RELKVANU_STORE_NOT_A_STORE 6  /* open: another kind of file, or one of another version */
#define RELKVANU_STORE_DIFFERS 7      /* open: a call of the log gets another answer, or is refused. The message says which */
#define RELKVANU_STORE_DAMAGED 8      /* open: an image, a call, a page or the -wal is damaged, or the log lacks calls that were answered. The message says which */
#define RELKVANU_STORE_STORAGE 9      /* the storage is gone, or another's; open: also a new job's has files, or PATH is an older copy or a backup */
#define RELKVANU_STORE_CLOSED 10      /* an earlier commit failed */
#define RELKVANU_STORE_FORKED 11      /* this process is a child of the one that opened the store */
#define RELKVANU_STORE_TIMED_OUT 12   /* await, discard: the time is up */
#define RELKVANU_STORE_NOT_NOW 13     /* discard: another thread discards; backup: another one writes this file; stop_job, begin_job: the phase of the job does not allow it */
#define RELKVANU_STORE_STOPPED 14     /* await, discard: relkvanu_store_stop was called */
#define RELKVANU_STORE_NOT_PUT 15     /* put, backup: the file was not made, and errno says why */
#define RELKVANU_STORE_NOT_RUNNING 21 /* await: the job has failed or was cancelled, so no tick is due */
#define RELKVANU_STORE_NOT_DONE 22    /* sweep: part of it was not done, and errno and relkvanu_store_why say why: the same again later */
#define RELKVANU_STORE_JOB_STOPPED 23 /* await: the job is stopped (relkvanu_store_stop_job), so no tick is due until it begins again */
#define RELKVANU_STORE_NOT_STOPPED 24 /* await: a stop of the job has failed, and relkvanu_store_phase says why: tasks that hold go on */
#define RELKVANU_STORE_FILE_LOST 25   /* load, and a restore to a record by its number: a file of the record is not in the storage. Nothing has changed */
/* What failed at an opening, or in a commit, which closes the store: these five do, and RELKVANU_STORE_STORAGE of a call. */
#define RELKVANU_STORE_FAILED 16        /* a read, write or sync */
#define RELKVANU_STORE_FULL 17          /* the disk is full */
#define RELKVANU_STORE_READ_ONLY 18     /* the file, its folder or the file system is read-only */
#define RELKVANU_STORE_BUSY 19          /* another program keeps a lock of the file */
#define RELKVANU_STORE_OUT_OF_MEMORY 20 /* SQLite has no memory for a commit */

/* The code of an answer beside those of relkvanu.h: the call was not made, or may not be acted upon. */
#define RELKVANU_STORE_NOT_MADE 100u

/* Flags of an opening. */
#define RELKVANU_STORE_RECOVER 0u       /* there has to be a job: a wrong path makes no new one */
#define RELKVANU_STORE_CREATE 1u        /* makes a job if there is none */
#define RELKVANU_STORE_CREATE_ONLY 2u   /* makes a job, and fails if there is one */
#define RELKVANU_STORE_ADOPT 4u         /* makes a job also if the storage folder has files. THE NEXT SWEEP DELETES THEM ALL, if their names are numbers */
#define RELKVANU_STORE_EARLIER_IMAGE 8u /* begins with the image before the last one, which is damaged. The log after it is whole. The pages of the file are not checked */
#define RELKVANU_STORE_BACKUP 32u       /* PATH is a backup: READ relkvanu_store_backup FIRST. Makes no job */
#define RELKVANU_STORE_MANIFESTS 64u    /* the folder of the storage gets a manifest of each complete record, for relkvanu_store_recover. With each opening, or not at all */
#define RELKVANU_STORE_CHECKSUMS 128u   /* with RELKVANU_STORE_MANIFESTS: manifests have a checksum of each file, for which the store reads it once */

/* A moment of a call: that of the store's clock. The clock goes on from the greatest moment of the log, and does not follow the wall clock. A call
 * with a moment ahead of it sets it forward. */
#define RELKVANU_STORE_NOW UINT64_MAX

#define RELKVANU_STORE_NO_IMAGES UINT64_MAX
#define RELKVANU_STORE_MOST_CALLS 4096 /* of a list */
#define RELKVANU_STORE_MESSAGE 512     /* no message is longer, with the zero at its end */
#define RELKVANU_STORE_MOST_PAYLOAD 4096 /* bytes of a subtask's payload */
#define RELKVANU_STORE_MOST_REASON 200   /* bytes of the reason of a decline */
#define RELKVANU_STORE_MOST_ENDED 2200   /* no call ends more records */
#define RELKVANU_STORE_MOST_HISTORY 1000 /* records that have ended or are complete, of which the history tells */
#define RELKVANU_STORE_MOST_VERTICES 256 /* of a shape */

typedef struct {
    uint32_t flags;
    uint32_t patience;          /* ms for which a commit tries again if the disk is full, SQLite has no memory or a lock is held */
    uint64_t image_calls;       /* an image after so many calls; 0: 10000. RELKVANU_STORE_NO_IMAGES: none, and the log is never cut */
    uint64_t most_ahead;        /* a moment may be so many ms ahead of the greatest one, or of what a timer waits for; 0: one day */
    const char *storage;        /* the folder of the state files, which has to exist; NULL: see relkvanu_store_open */
    relkvanu_settings settings; /* of a new job, within the limits of relkvanu.h (interval: 10 or more). A recovered job keeps its own, which relkvanu_store_configure changes; report.settings_differ compares them */
    const uint64_t *shape;
    size_t shape_len;
    uint64_t reserved[4]; /* 0 */
} relkvanu_store_options;

/* What an engine has to do after an opening, in this order. Before START_TASKS and DISCARD it also tells its sinks once more which record
 * is complete (the choice): the last process may have ended between the commit and the message. A sink takes the same message twice. It
 * publishes when a checkpoint completes. When a savepoint completes it publishes nothing: a restart goes back to the checkpoint before it, and
 * would publish the same again. What it prepared for a savepoint is published when a later checkpoint completes, or when a restore begins from
 * that savepoint. What a sink prepared for records after the one that a restore returned is given up. */
#define RELKVANU_STORE_END_TASKS 1u   /* tell the earlier tasks to end, and wait for none */
#define RELKVANU_STORE_RESTORE 2u     /* make a RELKVANU_CALL_RESTORE: its answer says where the job begins again. Load all files of that record, or look that each
    is there, before the sweep: an opening does not. If one is missing, end the process, and sweep nothing */
#define RELKVANU_STORE_SWEEP 3u       /* relkvanu_store_sweep; or delete the files that relkvanu_store_garbage returns */
#define RELKVANU_STORE_START_TASKS 4u /* start tasks, a timer (relkvanu_store_await_tick) and a discarder (relkvanu_store_discard) */
#define RELKVANU_STORE_DISCARD 5u     /* start a discarder alone: the job is cancelled, or stopped (report.phase) */
#define RELKVANU_STORE_MOST_STEPS 8

typedef struct {
    bool is_recovered;    /* false: it is a new job */
    bool settings_differ; /* the job has other settings, or was made with another shape, and keeps them */
    uint32_t steps[RELKVANU_STORE_MOST_STEPS];
    size_t steps_len;
    uint64_t epoch;       /* 1 for a new job, and 1 more at each opening, not at a restore: it fences openings only. See docs/PROTOCOL.md, rule 3 */
    uint64_t job[2];      /* the identity of the job, random. The marker of the storage folder has it */
    uint64_t image_place; /* how many calls the image covers */
    uint64_t replayed;    /* how many calls were made again */
    uint64_t taken;       /* files that were taken and not reported: a discarder begins with them */
    uint64_t moment;      /* the greatest moment so far */
    relkvanu_answer mode, choice;
    char message[RELKVANU_STORE_MESSAGE]; /* what went wrong and where, if the status is not RELKVANU_STORE_OK; otherwise empty */
    uint64_t term;      /* that runs: of a new job, its tasks are started with it */
    uint64_t next_name; /* that will be given out */
    uint32_t phase, stop_failed; /* as in relkvanu_store_job_phase */
    uint64_t savepoint;
} relkvanu_store_report;

/* Makes or recovers the job at path. A recovery opens the last image, makes the calls after it again, and compares each answer. PATH.lock names
 * the last call that was answered, for this one file: after a kill an opening has each answered call, or is RELKVANU_STORE_DAMAGED.
 * *store is NULL unless the status is RELKVANU_STORE_OK. The lock is kept until relkvanu_store_close or the end of the process.
 *
 * A new job gives out names from 1 on, or from above each number of a file that it adopts in options.storage.
 *
 * With options.storage a new job puts its marker, the file .relkvanu-job (.relkvanu-job.new while it is written), into the folder, and a recovery
 * looks for it. So it refuses a folder of another job and one that is not mounted. A symbolic link in the place of the marker is refused too, and
 * not followed. The marker names the last opening, so a copy of
 * PATH from before that opening is refused too: it does not know the files of later calls. (If the disk was full at that opening, the marker
 * names an earlier one.) A manifest of a later call than PATH has proves the same of a copy from the last opening: RELKVANU_STORE_STORAGE, and nothing is written. Without such
 * a manifest: NEVER PUT BACK A COPY OR SNAPSHOT THAT WAS TAKEN SINCE THE
 * LAST OPENING (of the file, its disk or its machine): it can't be told from the file itself, and its sweep deletes the files of all calls
 * that it lacks.
 *
 * With options.storage NULL none of this is there: no marker (a folder that is not mounted is not noticed), no refusal of an older copy, no
 * refusal to begin a new job over old files (RELKVANU_STORE_CREATE after PATH was lost begins at epoch 1 and gives out names from 1 on), and no sync
 * of the folder in relkvanu_store_discard. The engine does each of them itself (docs/DURABLE.md,
 * Storages, which has all but the refusal of an older copy: never put one back). A new job over a storage of the engine's own that has files
 * gives out names above all of these after relkvanu_store_advance, before its tasks start: the next sweep deletes them. */
int relkvanu_store_open(relkvanu_store **store, const char *path, const relkvanu_store_options *options, relkvanu_store_report *report);

/* What the job is: its settings and its shape now. *shape_len is the places of shape, and then how many vertices there are,
 * at most 256. RELKVANU_STORE_BAD_ARGUMENT: there are more than places. Makes an image of the job for it: it is for after an opening
 * (report.settings_differ), and not for each call. */
int relkvanu_store_job(relkvanu_store *store, relkvanu_settings *settings, uint64_t *shape, size_t *shape_len);

/* Waits for the group under way and for each submit, makes an image, so that the next opening replays nothing, and closes. NULL is
 * allowed. The end of a process without it loses nothing. */
void relkvanu_store_close(relkvanu_store *store);

/* The kind of a record. */
#define RELKVANU_STORE_CHECKPOINT 1u
#define RELKVANU_STORE_SAVEPOINT 2u

/* What a call has beside its numbers, and what it tells beside its answer: relkvanu_store_call.more. A field for another kind of call is 0, or the call
 * is RELKVANU_STORE_BAD_ARGUMENT and relkvanu_store_why says which. The fields up to reserved are read; the others are written. All is 0 in them unless the call
 * was made.
 *
 * A payload is the state of a subtask, if it is small: it is committed with its acknowledgement, and is there exactly as long as the record is. So a task
 * of small state writes no file. relkvanu_store_load gives it back. What an acknowledgement has that comes late (RELKVANU_ACK_LATE) is not kept. */
typedef struct {
    const void *payload;     /* ack: at most RELKVANU_STORE_MOST_PAYLOAD bytes */
    size_t payload_len;
    uint64_t bytes, millis;  /* ack: of the subtask's snapshot, as its task counts them; relkvanu_store_load and the history tell them */
    const char *reason;      /* decline: a text for the history, at most RELKVANU_STORE_MOST_REASON bytes, without a zero */
    size_t reason_len;
    uint64_t *ended;         /* a buffer for the numbers of records that the call has ended, or NULL */
    size_t ended_room;
    uint64_t reserved[4];    /* 0 */
    size_t ended_len;        /* how many it has ended, in order of their numbers; there may be more than ended_room */
    uint32_t kind;           /* of the record that was triggered, acknowledged, declined, disposed of or restored; 0: none, or it had ended before */
} relkvanu_store_more;

/* A call of a list. The fields up to reserved are read; the others are written. */
typedef struct {
    relkvanu_call call;     /* call.now may be RELKVANU_STORE_NOW */
    const uint64_t *first;  /* ack: the fresh files; restore: the new shape; forfeit: the names */
    size_t first_len;
    const uint64_t *second; /* ack: the reused files */
    size_t second_len;
    uint64_t *files;        /* take: the buffer; call.number is at most files_len */
    size_t files_len;
    relkvanu_store_more *more; /* or NULL; it stays as the lists do */
    uint64_t reserved[1];      /* 0 */
    relkvanu_answer answer;
    relkvanu_answer choice; /* after a trigger: the record that its barrier names beside it */
    uint64_t place;         /* of the call in the log, from 1; 0 if it changed nothing, and has no line */
    uint64_t term;          /* after a restore, cancel or advance: the term that begins, for whoever starts the tasks; otherwise 0 */
} relkvanu_store_call;

/* Makes 1 to 4096 calls, in this order and with no other in between, and returns once they are committed. A refused call changes
 * nothing, and the next ones are made. After an answer with RELKVANU_NO_MEMORY the later ones are RELKVANU_STORE_NOT_MADE, and the earlier ones
 * stand. RELKVANU_CALL_SHOW and RELKVANU_CALL_COUNT are reads: see relkvanu_store_read. RELKVANU_CALL_FENCE is RELKVANU_STORE_BAD_ARGUMENT: each job
 * has names.
 *
 * A RELKVANU_CALL_RESTORE with the number of a savepoint drops all checkpoints. So the store first looks that the files of the savepoint are in
 * options.storage, before any call of its list is made: RELKVANU_STORE_FILE_LOST, RELKVANU_STORE_NOT_DONE and RELKVANU_STORE_DAMAGED as relkvanu_store_load. Without
 * options.storage the engine looks before it makes the call.
 *
 * An acknowledgement and a decline have the term of their task in call.term: RELKVANU_FENCED otherwise, and nothing has changed. A
 * reservation that was answered is durable, and its names are not given out again, unless an older copy of PATH is put back: then those that no file has may be. */
int relkvanu_store_calls(relkvanu_store *store, relkvanu_store_call *calls, size_t calls_len);

/* One acknowledgement of a task of this term, with flat arguments. */
int relkvanu_store_ack_in(relkvanu_store *store, uint64_t term, uint64_t now, uint64_t id, uint16_t vertex, uint16_t index, const uint64_t *fresh, size_t fresh_len, const uint64_t *reused, size_t reused_len, relkvanu_answer *answer);

/* The same with a payload and figures. The record keeps the files in the order in which they are given here: the fresh ones, and then the reused ones. Without `more` it
 * keeps them in ascending order. */
int relkvanu_store_ack_with(relkvanu_store *store, uint64_t term, uint64_t now, uint64_t id, uint16_t vertex, uint16_t index, const uint64_t *fresh, size_t fresh_len, const uint64_t *reused, size_t reused_len, relkvanu_store_more *more, relkvanu_answer *answer);

/* A decline of a task of this term, with a reason. */
int relkvanu_store_decline_with(relkvanu_store *store, uint64_t term, uint64_t now, uint64_t id, uint16_t vertex, uint16_t index, relkvanu_store_more *more, relkvanu_answer *answer);

/* One reservation of 1 to 65536 names, as relkvanu_reserve: RELKVANU_RESERVED has the first one and how many. */
int relkvanu_store_reserve(relkvanu_store *store, uint64_t term, uint64_t count, relkvanu_answer *answer);

/* Gives up at most 65536 names, as relkvanu_forfeit. A list of more than 4096 is several calls, with no other in between. */
int relkvanu_store_forfeit(relkvanu_store *store, uint64_t term, const uint64_t *names, size_t names_len, relkvanu_answer *answer);

/* For event loops: as relkvanu_store_calls, but returns at once. calls and their lists and buffers stay until relkvanu_store_completed returns
 * the token; then the answers are there. With another status than RELKVANU_STORE_OK nothing was submitted. */
int relkvanu_store_submit(relkvanu_store *store, relkvanu_store_call *calls, size_t calls_len, uint64_t token);

/* The same of relkvanu_store_stop_job and relkvanu_store_begin_job, which are no calls of a list: they write the whole call. The status of the completion is
 * RELKVANU_STORE_NOT_NOW if the phase of the job does not allow it. RELKVANU_CALL_TRIGGER, RELKVANU_CALL_CONFIGURE (call.first: the seven numbers of the
 * settings, in the order of relkvanu_settings) and RELKVANU_CALL_ADVANCE are calls of a list. relkvanu_store_go_back needs a thread. */
int relkvanu_store_submit_stop_job(relkvanu_store *store, relkvanu_store_call *call, uint64_t token);
int relkvanu_store_submit_begin_job(relkvanu_store *store, relkvanu_store_call *call, uint64_t token);

typedef struct {
    uint64_t token;
    int status; /* as that of relkvanu_store_calls */
} relkvanu_store_completion;

/* Writes at most len completions, and returns how many. Never waits. */
size_t relkvanu_store_completed(relkvanu_store *store, relkvanu_store_completion *completions, size_t len);

/* An eventfd that can be read (poll, epoll) while there are completions. Do not read or close it. */
int relkvanu_store_descriptor(const relkvanu_store *store);

/* Between the two the handle has exactly what is committed, and all callers wait. Use the reads of relkvanu.h, relkvanu_show,
 * relkvanu_count, relkvanu_save, relkvanu_term and relkvanu_garbage only. */
int relkvanu_store_read(relkvanu_store *store, relkvanu **handle);

/* Ends a read. If a call was made through its handle, it closes the store: the log does not have that call, and no later opening could make
 * the calls after it. It notices each one that changes a moment, the mode, the choice, a term, a name or a file. Take relkvanu_store_look, by which
 * no call compiles. */
void relkvanu_store_read_end(relkvanu_store *store);

/* A coordinator of which there are reads alone. */
typedef struct relkvanu_reads relkvanu_reads;

/* As relkvanu_store_read, for the functions relkvanu_reads_.. below, and ended by relkvanu_store_read_end. */
int relkvanu_store_look(relkvanu_store *store, relkvanu_reads **reads);

/* The reads of relkvanu.h with these names. */
static inline relkvanu_answer relkvanu_reads_mode(relkvanu_reads *r) { return relkvanu_mode((relkvanu *)r); }
static inline relkvanu_answer relkvanu_reads_moment(relkvanu_reads *r) { return relkvanu_moment((relkvanu *)r); }
static inline relkvanu_answer relkvanu_reads_due(relkvanu_reads *r) { return relkvanu_due((relkvanu *)r); }
static inline relkvanu_answer relkvanu_reads_oldest_expiry(relkvanu_reads *r) { return relkvanu_oldest_expiry((relkvanu *)r); }
static inline relkvanu_answer relkvanu_reads_choice(relkvanu_reads *r) { return relkvanu_choice((relkvanu *)r); }
static inline relkvanu_answer relkvanu_reads_term(relkvanu_reads *r) { return relkvanu_term((relkvanu *)r); }
static inline relkvanu_answer relkvanu_reads_live(relkvanu_reads *r, size_t place) { return relkvanu_live((relkvanu *)r, place); }
static inline relkvanu_answer relkvanu_reads_live_from(relkvanu_reads *r, uint64_t id) { return relkvanu_live_from((relkvanu *)r, id); }
static inline relkvanu_answer relkvanu_reads_standing(relkvanu_reads *r, uint64_t id) { return relkvanu_standing((relkvanu *)r, id); }
static inline relkvanu_answer relkvanu_reads_missing(relkvanu_reads *r, uint64_t id) { return relkvanu_missing((relkvanu *)r, id); }
static inline relkvanu_answer relkvanu_reads_count(relkvanu_reads *r, uint64_t file) { return relkvanu_count((relkvanu *)r, file); }
static inline relkvanu_counts relkvanu_reads_file_counts(relkvanu_reads *r) { return relkvanu_file_counts((relkvanu *)r); }
static inline relkvanu_answer relkvanu_reads_waiting_file(relkvanu_reads *r, size_t place) { return relkvanu_waiting_file((relkvanu *)r, place); }
static inline relkvanu_answer relkvanu_reads_taken_files(relkvanu_reads *r, uint64_t *files, size_t files_len) { return relkvanu_taken_files((relkvanu *)r, files, files_len); }
static inline relkvanu_answer relkvanu_reads_files_of(relkvanu_reads *r, uint64_t id, uint16_t vertex, uint16_t index, uint64_t *files, size_t files_len) { return relkvanu_files_of((relkvanu *)r, id, vertex, index, files, files_len); }
static inline relkvanu_answer relkvanu_reads_pins_of(relkvanu_reads *r, uint64_t id, uint64_t *files, size_t files_len) { return relkvanu_pins_of((relkvanu *)r, id, files, files_len); }
static inline relkvanu_answer relkvanu_reads_show(relkvanu_reads *r, uint64_t id, uint8_t *json, size_t json_len) { return relkvanu_show((relkvanu *)r, id, json, json_len); }
static inline relkvanu_answer relkvanu_reads_save(relkvanu_reads *r, uint8_t *image, size_t image_len) { return relkvanu_save((relkvanu *)r, image, image_len); }
static inline relkvanu_answer relkvanu_reads_garbage(relkvanu_reads *r, const uint64_t *files, size_t files_len, uint64_t *garbage, size_t garbage_len, uint64_t *unissued, size_t unissued_len) { return relkvanu_garbage((relkvanu *)r, files, files_len, garbage, garbage_len, unissued, unissued_len); }

/* The moment of the store's clock. */
uint64_t relkvanu_store_now(const relkvanu_store *store);

/* For a timer of the engine: after how many ms the next tick has to come, unless a call is made before; 0: now; UINT64_MAX: only a
 * call can change it. So a timer never spins: not while the mode is not running, nor while as many checkpoints are pending as may be, nor
 * after a tick without memory. */
int relkvanu_store_next_tick(relkvanu_store *store, uint64_t *wait);

/* A timer, as a loop in a thread of the engine: sleeps until a tick is due, at most longest ms, and makes it. A commit wakes it only if another
 * moment is due, or if there is something to hand over: what relkvanu_store_trigger, _stop_job, _begin_job and _go_back have made comes from here
 * too, once, with its answer, choice and term (see relkvanu_store_trigger).
 * RELKVANU_STORE_TIMED_OUT: no tick was due. RELKVANU_STORE_STOPPED.
 * RELKVANU_STORE_NOT_RUNNING, with the answer RELKVANU_REFUSED, RELKVANU_NOT_RUNNING: the job is not running, so no tick is due. It comes
 * at once when the job has failed or was cancelled, to one caller (the a of the answer is 1), and then after longest. Read the mode: a failed job is restored. A cancelled one is
 * swept, and its discarder runs until no file waits or is taken (relkvanu_file_counts).
 * If a decline fails the job just before the tick, the status is RELKVANU_STORE_OK and the answer RELKVANU_REFUSED, RELKVANU_NOT_RUNNING: call again.
 * RELKVANU_STORE_JOB_STOPPED, with the same answer: the job is stopped. At once to one caller, and then after longest. RELKVANU_STORE_NOT_STOPPED:
 * a stop has failed. At once, to one caller. */
int relkvanu_store_await_tick(relkvanu_store *store, uint64_t longest, relkvanu_store_call *tick);

/* As relkvanu_store_await_tick, and tells what the tick has ended: more, whose fields up to reserved are 0 but for the buffer, or NULL. What is handed over tells nothing
 * there: who made the call was told. */
int relkvanu_store_await_tick_with(relkvanu_store *store, uint64_t longest, relkvanu_store_call *tick, relkvanu_store_more *more);

/* What a subtask has in a record. */
typedef struct {
    uint16_t vertex, index;
    const uint64_t *files; /* in the order in which its acknowledgement gave them (relkvanu_store_ack_with) */
    size_t files_len;
    const void *payload;
    size_t payload_len;
    uint64_t bytes, millis; /* that its acknowledgement told, or 0 */
} relkvanu_store_part;

/* Whether it goes on. */
typedef bool (*relkvanu_store_each_part)(void *with, const relkvanu_store_part *part);

typedef struct {
    uint64_t id;
    uint32_t kind; /* RELKVANU_STORE_CHECKPOINT or RELKVANU_STORE_SAVEPOINT; 0: the job begins fresh */
    uint64_t term; /* that runs; 0: the job has no names. For whoever starts tasks: the answer to its own restore has the term of these */
    uint64_t lost; /* if the status is RELKVANU_STORE_FILE_LOST: the first file that is not there, or has another length than its manifest says */
    size_t shape_len;
    uint64_t shape[RELKVANU_STORE_MOST_VERTICES]; /* that the record has */
} relkvanu_store_loaded;

/* A complete record: the one with this number, or the choice (id 0), which a restart begins from. Looks that all its files are in options.storage, with the lengths that manifests say if the job has manifests, and then calls `each`
 * for each subtask, in their order. What a part points to stays until `each` returns, which makes no call. Without options.storage the engine looks for the files.
 * After a restore, with the number of its answer, it has all that the tasks begin with: call it before the sweep.
 *
 * RELKVANU_STORE_FILE_LOST: a file is not there, or has another length than its manifest says, and relkvanu_store_why says which. `each` was not called: end the process, and sweep nothing. RELKVANU_STORE_ABSENT: no
 * complete record has this number, or it has ended meanwhile. With id 0 in a job that begins fresh: RELKVANU_STORE_OK, and the number is 0.
 * RELKVANU_STORE_DAMAGED: what the record has beside its files is damaged. RELKVANU_STORE_NOT_DONE: the folder can't be read, and errno says why;
 * RELKVANU_STORE_NO_MEMORY, or as relkvanu_store_read. */
int relkvanu_store_load(relkvanu_store *store, uint64_t id, relkvanu_store_loaded *loaded, relkvanu_store_each_part each, void *with);

/* Whether this record was carried from another job, by an import or a claim. Then `job`, which has two places, gets the identity of that job, as in
 * relkvanu_store_report; there the record had the same number. So what a sink's state lists in it was prepared in the target of that job, and not in this one's. */
bool relkvanu_store_origin(const relkvanu_store *store, uint64_t id, uint64_t *job);

/* What became of a record. */
#define RELKVANU_STORE_COMPLETED 1u
#define RELKVANU_STORE_DECLINED 2u /* a subtask has declined it */
#define RELKVANU_STORE_EXPIRED 3u
#define RELKVANU_STORE_DROPPED 4u  /* it was pending at a restore or a cancel, when the job failed, or when a later checkpoint completed */

/* A record of the history. Times are in ms. Those of acknowledgements count from its trigger, by the store's clock; each is 0 if there was none since the opening, or
 * no memory for them. */
typedef struct {
    uint64_t id;
    uint32_t kind, outcome;
    uint64_t triggered, ended;              /* moments; when it was complete, or failed */
    uint64_t acks;                          /* subtasks that have acknowledged since the opening */
    uint64_t first, median, p99, slowest;   /* acknowledgements: the lower median, and the 99th percentile by rank */
    uint64_t bytes, millis;                 /* the sum of those that the tasks told, and the greatest one */
    uint64_t reserved[2];
    char reason[208];                       /* of the decline, with a zero at its end */
} relkvanu_store_past;

/* Writes at most *len records that are complete or have failed, the last one first, and how many it wrote. A record is told of once its commit is. A recovery from
 * manifests begins a new history. RELKVANU_STORE_DAMAGED: a row is damaged; otherwise as relkvanu_store_read. */
int relkvanu_store_history(relkvanu_store *store, relkvanu_store_past *past, size_t *len);

/* What an operator wants of a job that runs. Any thread may call these at any time, also while another one waits for a tick: so an engine passes
 * a command on to them from the handler of a request, and its loop over relkvanu_store_await_tick does the rest (docs/DURABLE.md has
 * one). Each is one commit: after a crash at any moment all of it was done, or nothing. In call is the answer, and in call->term the term that begins. Nobody acts on it unless the status is RELKVANU_STORE_OK and its code is RELKVANU_DONE.
 *
 * THE TIMER HANDS OVER: who waits in relkvanu_store_await_tick gets the same answer there, once, with the status RELKVANU_STORE_OK, and acts on it:
 * - RELKVANU_TICK_TRIGGERED: sends the barrier of the checkpoint, as after a tick.
 * - RELKVANU_SAVEPOINT_TRIGGERED: the job is being stopped. Sends the barrier of this savepoint, and each task holds after its acknowledgement.
 * - RELKVANU_RESTORED_CHECKPOINT, _SAVEPOINT or _FRESH: the job begins here, as after a restore of its own. Ends all tasks, loads the files of that
 *   record, sweeps, tells the sinks and starts the tasks with the term of this answer.
 * A record that has ended meanwhile is not handed over, nor what came before a restore. An engine that does not call relkvanu_store_await_tick
 * acts on call. After a crash nothing is handed over: the steps of the report have it all. A RELKVANU_CALL_TRIGGER of a list is handed over too. */

/* A checkpoint now, whatever the interval and the pause: as relkvanu_trigger. The interval counts from it.
 *
 * RELKVANU_TICK_TRIGGERED. RELKVANU_REFUSED with RELKVANU_NOT_RUNNING (also while the job is being stopped, or is stopped), RELKVANU_IDS_USED_UP
 * or RELKVANU_AT_ONCE. */
int relkvanu_store_trigger(relkvanu_store *store, relkvanu_store_call *call);

/* Other settings, of a job that runs, has failed or is stopped: as relkvanu_configure. They hold from the next tick on, and a timer that waits
 * learns of them at once. Done checkpoints above the new number retained go in the same commit. The job keeps them after a reopening, whatever the
 * options say.
 *
 * RELKVANU_CONFIGURED. RELKVANU_STORE_BAD_ARGUMENT: a value is outside its limits, and relkvanu_store_why says which. RELKVANU_REFUSED with
 * RELKVANU_NOT_RUNNING (cancelled) or RELKVANU_AT_ONCE: more are pending than may be from then on; later. */
int relkvanu_store_configure(relkvanu_store *store, const relkvanu_settings *settings, relkvanu_store_call *call);

/* The phase of a job. relkvanu_store_job_phase.phase. */
#define RELKVANU_STORE_PHASE_RUNNING 0u  /* the job runs, has failed or was cancelled: its mode says which */
#define RELKVANU_STORE_PHASE_STOPPING 1u /* its savepoint is pending */
#define RELKVANU_STORE_PHASE_STOPPED 2u  /* its savepoint is done, and the job goes on from it when it begins */

/* Why the last stop has failed. relkvanu_store_job_phase.stop_failed; 0: it has not. */
#define RELKVANU_STORE_STOP_EXPIRED 1u   /* its savepoint was not done within timeout */
#define RELKVANU_STORE_STOP_DECLINED 2u  /* a task has declined it */
#define RELKVANU_STORE_STOP_RESTORED 3u  /* the job was restored before, as after a crash */
#define RELKVANU_STORE_STOP_CANCELLED 4u /* the job was cancelled, before it was stopped or afterwards */
#define RELKVANU_STORE_STOP_FAILED 5u    /* the job has failed */

typedef struct {
    uint32_t phase, stop_failed; /* the second: in the phase running, until the next stop */
    uint64_t savepoint;          /* of the stop; 0: there was none, or the job has begun since */
    uint64_t term;               /* of a job that is stopped: the one that began when it was, of which no task has been told */
    uint64_t reserved[2];
} relkvanu_store_job_phase;

/* Stops the job with a savepoint: RELKVANU_SAVEPOINT_TRIGGERED. From then on the timer rests: no tick comes but at the expiry of this savepoint, so
 * nothing else expires or fails, and a tick, a trigger and a savepoint of a caller are RELKVANU_REFUSED with RELKVANU_NOT_RUNNING. With the last
 * acknowledgement of the savepoint the store itself makes the restore to it, in the same commit: the job is stopped, its term has ended, and
 * relkvanu_store_await_tick returns RELKVANU_STORE_JOB_STOPPED. Then the engine ends its tasks and tells its sinks that the savepoint is the choice:
 * they publish what they prepared for it. It may end, or wait in relkvanu_store_await_tick. The phase is in the job's file: the next opening reports it.
 *
 * If the savepoint ends otherwise, relkvanu_store_await_tick returns RELKVANU_STORE_NOT_STOPPED: the tasks that hold go on, the timer too, and the
 * phase says why. A stop right after that may come before anybody has heard of it: so what is handed over while tasks hold says the same, and lets them
 * go on first. A process that ends before the job is stopped leaves a job that goes on from its last checkpoint, after the next restore.
 *
 * RELKVANU_STORE_NOT_NOW: the job is being stopped, or is stopped. RELKVANU_REFUSED as relkvanu_savepoint. */
int relkvanu_store_stop_job(relkvanu_store *store, relkvanu_store_call *call);

/* A job that is stopped goes on: a restore to the latest record in the shape that the job has, RELKVANU_RESTORED_SAVEPOINT mostly, and
 * call->term is the term of its tasks. A RELKVANU_CALL_RESTORE (to another savepoint, or in another shape) and relkvanu_store_go_back may come before: the
 * job stays stopped. RELKVANU_STORE_NOT_NOW: the job is not stopped. */
int relkvanu_store_begin_job(relkvanu_store *store, relkvanu_store_call *call);

/* The phase, of what is committed. Never waits for a commit. */
int relkvanu_store_phase(relkvanu_store *store, relkvanu_store_job_phase *phase);

/* Of relkvanu_store_go_back: what sinks have published for records after the checkpoint is not taken back, and the job will publish it again. */
#define RELKVANU_STORE_ACCEPT_PUBLISHED 1u

/* Goes back to a done checkpoint that is retained, in the shape that the job has: a savepoint of the checkpoint's own files, of which no task is
 * told, and the restore to it. All checkpoints are dropped then; the savepoint stays, and is disposed of as others are. To the latest checkpoint it is
 * a restore. A job that is stopped stays so; a failed job runs again. Makes a copy of the coordinator: all callers wait for two images of it.
 *
 * RELKVANU_RESTORED_SAVEPOINT or RELKVANU_RESTORED_CHECKPOINT. RELKVANU_STORE_BAD_ARGUMENT: flags is not RELKVANU_STORE_ACCEPT_PUBLISHED.
 * RELKVANU_STORE_FILE_LOST, RELKVANU_STORE_NOT_DONE, RELKVANU_STORE_DAMAGED: the checkpoint can't be loaded, as relkvanu_store_load says. Without options.storage the
 * engine looks for its files first.
 * RELKVANU_REFUSED with RELKVANU_NO_SUCH_RECORD: no done checkpoint has this number; RELKVANU_BAD_ARGUMENT with RELKVANU_BAD_SHAPE: the job has
 * another shape than the checkpoint had; RELKVANU_REFUSED with RELKVANU_NOT_RUNNING (cancelled), RELKVANU_TOO_MANY_SAVEPOINTS, RELKVANU_FILE_GONE or
 * RELKVANU_IDS_USED_UP. None of these changes anything. */
int relkvanu_store_go_back(relkvanu_store *store, uint64_t checkpoint, uint32_t flags, relkvanu_store_call *call);

/* Begins a job again that lacks its last calls, as one of a backup does, in place of the first restore: as relkvanu_advance. term is the
 * greatest that any task was told, and names are given out from first_name on. call->term is the term of the tasks. It is not handed over. */
int relkvanu_store_advance(relkvanu_store *store, uint64_t term, uint64_t first_name, relkvanu_store_call *call);

/* The term that runs, and the next name: RELKVANU_TERM, of what is committed. Whoever starts tasks takes the term
 * from the answer to its own restore: another restore may have ended that one. A task never asks. */
int relkvanu_store_term(relkvanu_store *store, relkvanu_answer *answer);

/* Those of the files that are garbage, and those whose names were not given out, of what is committed, as relkvanu_garbage. Both buffers have
 * files_len places. RELKVANU_GARBAGE: the engine deletes the first at any time, and the second never. Takes no memory. */
int relkvanu_store_garbage(relkvanu_store *store, const uint64_t *files, size_t files_len, uint64_t *garbage, uint64_t *unissued, relkvanu_answer *answer);

/* The folder options.storage, which stays open: delete by unlinkat in it, so that no deletion reaches a folder that is mounted over it. -1
 * if there is none. */
int relkvanu_store_folder(const relkvanu_store *store);

/* Deletes files, and sets is_gone[i] to 1 for each that does not exist any more, also if it did not exist before. All are 0 at first. With
 * options.storage NULL the function itself first looks whether the storage is there, and syncs the deletions, before it sets any of them. */
typedef void (*relkvanu_store_delete)(void *with, const uint64_t *files, size_t files_len, uint8_t *is_gone);

/* The discarder, as a loop in a thread of the engine: takes up to batch files (1 to 4095; 0: 256), has them deleted, syncs the folder
 * options.storage, reports each, and takes again. It begins with the files that were taken and not reported. A file that is not gone waits
 * again. After a batch of which none is gone it waits longer each time, up to a minute, and never gives up. Without the marker in the
 * folder it deletes nothing, and no file counts as gone. Runs until relkvanu_store_stop, or until the store is closed by a failed commit, or until
 * the marker names a later opening or another job: RELKVANU_STORE_STORAGE. Then another process has the folder: end this one. */
int relkvanu_store_discard(relkvanu_store *store, size_t batch, relkvanu_store_delete delete_files, void *with);

/* As relkvanu_store_delete, and returns whether the discarder goes on. */
typedef bool (*relkvanu_store_delete_some)(void *with, const uint64_t *files, size_t files_len, uint8_t *is_gone);

/* The discarder for at most so many ms: for a thread that looks after something else now and then, and for a function of the engine that may end
 * it. delete_files NULL: those of the folder options.storage are deleted; without one RELKVANU_STORE_BAD_ARGUMENT. Each file that it took is reported before it returns, but after
 * RELKVANU_STORE_STOPPED without memory: then the next discarder begins with it. It knows from the one before it how long it has to wait after a batch
 * of which no file was gone.
 *
 * RELKVANU_STORE_OK: the function has ended it; RELKVANU_STORE_TIMED_OUT: call again; RELKVANU_STORE_NO_MEMORY: call again later; otherwise as
 * relkvanu_store_discard. */
int relkvanu_store_discard_for(relkvanu_store *store, size_t batch, uint64_t longest, relkvanu_store_delete_some delete_files, void *with);

/* State files in the folder options.storage, by their numbers: file 7 has the name 7, and 7.part while it is not whole. A task in another process,
 * which has no store, makes them in the same way (docs/DURABLE.md, Tasks in other processes). An engine may name
 * its files otherwise, and then makes and deletes them itself. Several threads may put, delete and commit at once. Without a folder:
 * RELKVANU_STORE_BAD_ARGUMENT, and no file counts as gone. */

/* Makes a file: writes it beside its name, syncs it, gives it the name, and syncs the folder. After RELKVANU_STORE_OK a loss of power does not
 * take it, and a task may acknowledge it. After any other status the task forfeits the name and declines. The number is not given again: a sweep
 * deletes what is left. The number is one that the task has reserved.
 *
 * RELKVANU_STORE_PRESENT: there is a file of this number, or a part of one; RELKVANU_STORE_STORAGE: the folder lacks its marker, or another opening has it:
 * the sweep after the next restore returns the same, and then the process ends;
 * RELKVANU_STORE_NOT_PUT: errno says why, such as ENOSPC, EMFILE, EIO or EACCES. relkvanu_store_why has the words of each. */
int relkvanu_store_put(relkvanu_store *store, uint64_t file, const void *contents, size_t len);

/* Gives the next bytes of a file, at most room: 1 or more; 0: it ends here; less than 0: it can't, and errno says why. */
typedef int64_t (*relkvanu_store_source)(void *with, void *to, size_t room);

/* As relkvanu_store_put, of what a source gives: for a file that does not fit into memory. The source is called in this thread, and makes no call. */
int relkvanu_store_put_from(relkvanu_store *store, uint64_t file, relkvanu_store_source source, void *with);

/* As relkvanu_store_put, of a file that exists: `name` in the folder whose descriptor is `from` (AT_FDCWD: a path). It is synced, and gets the number
 * as a second name: both are one file, so nobody writes it afterwards. The caller removes the first name when it likes. RELKVANU_STORE_NOT_PUT
 * with errno EXDEV: it is on another file system, so relkvanu_store_put_from copies it; EINVAL: it is no regular file; ELOOP: a symbolic link. */
int relkvanu_store_put_link(relkvanu_store *store, uint64_t file, int from, const char *name);

/* Why the last put, sweep or discarder of this thread returned another status than RELKVANU_STORE_OK, or why the first call of its last list that was refused
 * was: a text with a zero at its end, such as "file 7: Too many open files", or "record 6, subtask 2.0, term 1: fenced OldTerm; term 2 runs". Empty if
 * nothing failed. Returns its length, also if text_len is too short. */
size_t relkvanu_store_why(char *text, size_t text_len);

/* Deletes files of the folder, also what is there in part, and syncs nothing: relkvanu_store_discard_storage(store, 0, NULL) does all that a discarder
 * of the folder does. */
void relkvanu_store_delete_files(void *store, const uint64_t *files, size_t files_len, uint8_t *is_gone);

/* A sweep: deletes the files of the folder that are garbage (relkvanu_store_garbage), also what is there in part, and syncs the folder. Writes how many it
 * could not delete: the next sweep tries them again. It runs at each restore and whenever the engine likes, also beside tasks that
 * run. relkvanu_store_count then tells how many files it left because their names were not given out.
 *
 * RELKVANU_STORE_STORAGE: the folder lacks its marker, or another opening has it. End this
 * process: the next opening says which. RELKVANU_STORE_NOT_DONE: it can't be read or synced now, and errno says why: sweep again later.
 * RELKVANU_STORE_NO_MEMORY: part of it may be swept. */
int relkvanu_store_sweep(relkvanu_store *store, size_t *left);

/* The folder options.storage as a storage (relkvanu_storage.h), which needs no closing, and whose functions may be called until the store is closed. Its
 * put is relkvanu_store_put. RELKVANU_STORE_BAD_ARGUMENT: there is no folder. */
int relkvanu_store_storage(relkvanu_store *store, relkvanu_storage *storage);

/* As relkvanu_store_discard, with deletions in a storage: that of the engine (an object store, say), a folder of relkvanu_storage_open_folder, or
 * the store's own, which NULL stands for too. It has check, delete_files and list; the others may be NULL. RELKVANU_STORE_BAD_ARGUMENT otherwise. If the storage is that of another
 * job, RELKVANU_STORE_STORAGE; while it is not there, no file counts as gone, and it tries again. With options.storage both have to be the job's. */
int relkvanu_store_discard_storage(relkvanu_store *store, size_t batch, const relkvanu_storage *storage);

/* As relkvanu_store_sweep, of such a storage; NULL: relkvanu_store_sweep itself. RELKVANU_STORE_STORAGE: it is not there, or it is another job's; RELKVANU_STORE_NOT_DONE: it was not listed
 * or not swept to its end; RELKVANU_STORE_NO_MEMORY: part of it may be swept. */
int relkvanu_store_sweep_storage(relkvanu_store *store, const relkvanu_storage *storage, size_t *left);

/* Lets relkvanu_store_await_tick, relkvanu_store_discard and relkvanu_store_discard_storage return RELKVANU_STORE_STOPPED, now and later. What was taken is reported first. What waits is
 * left for the next opening: an engine that is to leave no file stops when relkvanu_file_counts in a read has no waiting and no taken ones. */
void relkvanu_store_stop(relkvanu_store *store);

/* Makes a backup of the job in the file path, which may not be there: a copy of PATH with each call that was answered before, and perhaps
 * later ones. Other threads go on with their calls: a part of 1 MiB is copied at a time. The copy is written to path.part, read once more,
 * synced, renamed, and its folder is synced. So there is a whole backup at path after RELKVANU_STORE_OK, whatever happens. After another
 * status there is none, unless the folder could neither be synced nor the file removed from it. A process that ends leaves path.part,
 * path.part-wal and path.part-journal at most, which the next backup of this path begins anew. The file is private. It may be on another
 * file system, and it may not be in the folder options.storage. message is the address of message_len bytes: what went wrong, as a text
 * with a zero at its end; empty after RELKVANU_STORE_OK and RELKVANU_STORE_NO_MEMORY. No status of it closes the store.
 *
 * RELKVANU_STORE_PRESENT: there is such a file, and it stays; RELKVANU_STORE_NOT_NOW: another thread or process writes path.part;
 * RELKVANU_STORE_NOT_PUT: the disk is full, say; RELKVANU_STORE_CLOSED: a commit failed meanwhile.
 *
 * A BACKUP LACKS THE CALLS SINCE IT WAS MADE. The files of its records may have been deleted since, and files of later records are garbage
 * to it. So it is opened with RELKVANU_STORE_BACKUP, once, and without that flag it is refused: RELKVANU_STORE_STORAGE. (With the flag
 * another file is refused: RELKVANU_STORE_BAD_ARGUMENT.) Before it is opened over the storage of the job, each process and task of the job
 * has ended, also on other hosts, since terms and numbers of records are given again. The opening counts as later than all that have used
 * the storage, so another store over this folder puts and deletes nothing more, and the file that was the job before is refused. It gives
 * out each name up to the greatest that options.storage has a file of, and is refused (RELKVANU_STORE_STORAGE) if that is 2^24 or more above
 * the names of the backup; without options.storage the engine reserves so many before its restore. Then the engine restores a record whose
 * files are all there, and sweeps. Read docs/DURABLE-OPERATION.md, Back up, first. relkvanu_store_put_back prepares the file over a folder of its own, so that
 * nothing has changed if no record is whole, and its limit is 2^36. */
int relkvanu_store_backup(relkvanu_store *store, const char *path, char *message, size_t message_len);

/* Manifests. With RELKVANU_STORE_MANIFESTS the folder of the storage gets a file record-ID.manifest once a record is complete: after the commit, and before
 * anybody is told of it. It has what a job needs to go on from that record without PATH: settings, shape, and the files of each subtask with their
 * lengths. The log stays the truth. A manifest is never ahead of it, and those that should be there are written again at an opening. If the folder is
 * full, the calls go on: failed_manifests counts it. Manifests of records that ended are deleted, also by relkvanu_store_sweep, which deletes all of them if
 * this opening has not the flag. docs/manifest.schema.json has their format.
 *
 * A manifest says the length that a file had when its first record was complete. Later manifests and later openings keep it, so that a file which is shorter now is
 * lost, and no opening makes it right.
 *
 * With RELKVANU_STORE_CHECKSUMS too they have a CRC-32 of each file. Who writes a manifest reads the files that no manifest has a checksum of yet, so who completes
 * a record waits until its new files are read. The other files keep the checksum that they had, also across openings. A file that can't be read gets none. */

/* Functions of an engine that keeps manifests in a place of its own, such as a bucket. `with` is the pointer that it gave beside them. Each returns a status of
 * relkvanu_storage.h, and calls no function of the store. check: is the place there, and this opening's? put: makes or replaces an object of this name,
 * whole and durable. remove: one that is not there is removed. list: calls `each` with the names that begin with "record-". */
typedef bool (*relkvanu_store_each_name)(void *with, const char *name);
typedef int (*relkvanu_store_check_place)(void *with);
typedef int (*relkvanu_store_put_named)(void *with, const char *name, const void *contents, size_t contents_len);
typedef int (*relkvanu_store_remove_named)(void *with, const char *name);
typedef int (*relkvanu_store_list_named)(void *with, relkvanu_store_each_name each, void *with_each);

/* Keeps manifests by these functions, in place of RELKVANU_STORE_MANIFESTS: for a job without options.storage, right after each opening and before its other
 * calls. Those of all complete records are put anew, one put for each, and those of other records are removed. They have no lengths of files. While one is
 * put the calls of all threads wait. One that can't be put is counted and tried again, as in a folder. check is called before each put: it should look
 * at a marker that names the job and its opening (report.job, report.epoch), so that an old opening puts nothing.
 *
 * RELKVANU_STORE_STORAGE: a function has failed, and no manifests are kept; RELKVANU_STORE_BAD_ARGUMENT: a function is missing, there is a folder, or they
 * are kept already; RELKVANU_STORE_NO_MEMORY, or as relkvanu_store_read. */
int relkvanu_store_keep_manifests(relkvanu_store *store, relkvanu_store_check_place check, relkvanu_store_put_named put,
    relkvanu_store_remove_named remove, relkvanu_store_list_named list, void *with);

/* A record, as its manifest says it. */
typedef struct {
    uint64_t id;
    uint32_t status;   /* RELKVANU_STORE_OK; RELKVANU_STORE_DAMAGED: the manifest is damaged; RELKVANU_STORE_NOT_A_STORE: another version wrote it. Then all below is 0 */
    bool is_savepoint; /* otherwise it is a checkpoint */
    bool is_of_job;    /* its job is the one that the marker of the folder names, or there is no marker */
    bool is_next;      /* relkvanu_store_recover, or relkvanu_store_import, begins from it */
    uint64_t written;  /* when the manifest was, in ms of the wall clock since 1970 */
    uint64_t files, bytes;
    uint64_t missing; /* files that are not there, or have another length */
    uint64_t unknown; /* files of which the manifest has no checksum */
    uint64_t changed; /* of relkvanu_store_check_records: files that have another checksum, or can't be read */
    uint64_t reserved[2];
} relkvanu_store_record;

/* Whether it goes on. */
typedef bool (*relkvanu_store_each_record)(void *with, const relkvanu_store_record *record);

/* The records of a storage folder that have a manifest, in the order of their numbers. It needs no job, changes nothing, and may run at any time.
 *
 * RELKVANU_STORE_STORAGE: there is no such folder; RELKVANU_STORE_FAILED, RELKVANU_STORE_NO_MEMORY. message gets what went wrong. */
int relkvanu_store_records(const char *folder, relkvanu_store_each_record each, void *with, char *message, size_t message_len);

/* What is wrong with a file of a record. */
#define RELKVANU_STORE_FILE_MISSING 1    /* it is not there */
#define RELKVANU_STORE_FILE_LENGTH 2     /* it has another length than the manifest says */
#define RELKVANU_STORE_FILE_CHANGED 3    /* it has another checksum */
#define RELKVANU_STORE_FILE_UNREADABLE 4 /* it can't be read */

/* Whether it goes on. */
typedef bool (*relkvanu_store_each_fault)(void *with, uint64_t record, uint64_t file, uint32_t fault);

/* The same as relkvanu_store_records, and reads the files: each one that a manifest has a checksum of, once. Tells what is wrong with the files of a record, and then
 * the record. A record that ends meanwhile is left out. */
int relkvanu_store_check_records(const char *folder, relkvanu_store_each_record each, relkvanu_store_each_fault each_fault, void *with,
    char *message, size_t message_len);

typedef struct {
    uint64_t record;     /* the choice, which has the number that it had */
    bool is_savepoint;   /* otherwise it is a checkpoint */
    uint64_t files, bytes;
    uint64_t passed;     /* manifests of the job that are damaged or lack files */
    uint64_t savepoints; /* that live on beside it, under new numbers. A list of relkvanu_store_records after the first opening has them */
    uint64_t term, next_name; /* of the job */
    uint64_t next_number;     /* the least one that a later record gets */
    uint64_t reserved[4];
    char message[RELKVANU_STORE_MESSAGE]; /* what went wrong, if the status is not RELKVANU_STORE_OK */
} relkvanu_store_recovered;

/* Makes the job at path again, whose file was lost, from the manifests in its storage folder: from the last record that was the choice and has all
 * its files, or from the record with this number; 0: any. The files stay where they are. Each task and process of the old job has been told to
 * end. Records, terms and names that the new job gives out are above all that the old one told anybody, and an old file that comes back to path
 * is refused. Savepoints that have all their files live on under new numbers. What the other records have is garbage to the next sweep: so is the
 * state of a record that was complete and has no manifest.
 *
 * A process that was told to end may not have ended, so it is fenced before the record is chosen for good: the marker names a later opening then. That alone
 * takes nothing from a job whose file is lost; but an older file of it is refused from then on, also if the recovery did not come to its end.
 *
 * Killed at any moment it has done nothing, that alone, or all: make the same call again. Then open the job with options.storage as ever: it is one that was
 * recovered, with its steps. Sinks are told of the choice under the number that they know.
 *
 * RELKVANU_STORE_PRESENT: there is a job at path, or PATH-wal without it; RELKVANU_STORE_ABSENT: no record with a manifest has all its files, or it was claimed;
 * RELKVANU_STORE_DAMAGED: a manifest is damaged, or one that is damaged or of another version of the library has a greater number than the record: message
 * names it. Such a one may be of a later record, and says neither which terms nor which names were given out since. With the number of a record the
 * recovery goes on, above the number of that manifest, unless it is 2^20 or more above all others. RELKVANU_STORE_STORAGE: the folder or its marker is not
 * there; RELKVANU_STORE_IN_USE: another process opens or recovers it. Nothing has changed then. RELKVANU_STORE_FAILED and the statuses after it,
 * RELKVANU_STORE_NO_MEMORY: nothing has changed, but that the old job may be fenced. If it is the sync or the marker behind the last step that fails, the job
 * is there: the same call says RELKVANU_STORE_PRESENT, and the first opening writes the marker. */
int relkvanu_store_recover(const char *path, const char *folder, uint64_t record, relkvanu_store_recovered *recovered);

/* The same for a job whose manifests relkvanu_store_keep_manifests has kept, so that no folder is opened with it. `listing` is a folder that stands for the place:
 * it has the marker of a storage folder with the job's identity and its last opening, the manifests, and for each state file that is in the place a file of its
 * number and its length, which may be a hole. Afterwards its marker says from which opening on the place is the new job's: write that into the place. */
int relkvanu_store_recover_listed(const char *path, const char *listing, uint64_t record, relkvanu_store_recovered *recovered);

typedef struct {
    uint64_t record;
    bool is_savepoint; /* otherwise it is a checkpoint */
    uint64_t files, bytes;
    uint64_t reserved[4];
    char message[RELKVANU_STORE_MESSAGE]; /* what went wrong, if the status is not RELKVANU_STORE_OK */
} relkvanu_store_carried;

/* Makes the folder `to` of a record that has a manifest in a storage folder, with its manifest and its files: of the one that relkvanu_store_recover would
 * begin from, or of the record with this number. It needs no job, and may run beside one, whose tasks take no part: it links the files, so that
 * they stay whatever the job deletes, or copies them to another file system. If the record ends meanwhile, it takes the next one. The folder is
 * made beside `to`, as to.part, and gets its name once all is on the disk. So killed at any moment it has done nothing, or all.
 *
 * RELKVANU_STORE_PRESENT: there is something at `to`, and it is no empty folder; RELKVANU_STORE_ABSENT: no record with a manifest has all its files;
 * RELKVANU_STORE_DAMAGED: as there, or a file is not as long as its manifest says, or a copy has another checksum; RELKVANU_STORE_IN_USE: another call makes this
 * folder; otherwise as relkvanu_store_recover. */
int relkvanu_store_export(const char *folder, uint64_t record, const char *to, relkvanu_store_carried *carried);

/* Makes another job, at path over a folder that is made, of a record in `from`: an exported folder, or the storage folder of a job, which may run. It
 * exports the record to the folder, and then does what relkvanu_store_recover does. The job has an identity of its own, and each goes its own way.
 * Killed at any moment it has done nothing, a part that the same call finishes, or all. Statuses as those of the two. */
int relkvanu_store_import(const char *from, uint64_t record, const char *path, const char *folder, relkvanu_store_recovered *recovered);

/* Takes a record over, with its files. A storage folder's old job is fenced first, before the record is chosen: its file is refused from then on, and a process that
 * still has it puts and deletes nothing more. If `folder` is `from`, its files stay in place: a job that has a marker there keeps its identity, as by
 * relkvanu_store_recover; a job over an exported folder gets one of its own. Otherwise it is relkvanu_store_import, after which the files leave `from`, but
 * for those that another record there has, and last of all the manifest. An exported folder that is empty then is removed. Other records of `from` stay
 * there, without a job. If relkvanu_store_import has made the job already, the same record leaves `from` in the same way, and its old job is fenced first too.
 *
 * Before there is the other job `from` gets a mark, record-ID.manifest.claimed, which names its folder. From then on another claim of the record is refused, and
 * without a number no claim, recovery, export or import takes an earlier record for the latest: RELKVANU_STORE_ABSENT. With the number of an earlier one each does.
 *
 * Killed at any moment it has done nothing, a part that the same call finishes, or all. If the old job was fenced and nothing else is done, the same call goes
 * on too. Statuses as those of relkvanu_store_import: RELKVANU_STORE_PRESENT and RELKVANU_STORE_ABSENT come before anything is fenced. */
int relkvanu_store_claim(const char *from, uint64_t record, const char *path, const char *folder, relkvanu_store_recovered *recovered);

/* Puts a backup of relkvanu_store_backup back in the place of a job's file, which may be damaged, lost, or a later one. Each process and task of the job has
 * ended, also on other hosts. The new file begins from the choice of the backup if its files are all in the storage folder, or else from the last
 * savepoint of which they are; above all terms of the backup, and above the name of each file in the folder. What was there is set aside beside it, in
 * a folder aside-XXXXXX with a copy of the marker, whose path message gets. No engine starts while there is no file at path. Killed at any moment it
 * has done nothing, or all, or there is no file at path: make the same call again before an engine starts. What was set aside may then be in two folders.
 * Until an engine opens the job, the files that were set aside go back in its place, and last of all the marker.
 *
 * READ docs/DURABLE-OPERATION.md, Back up, first: sinks are told of numbers of records once more.
 *
 * RELKVANU_STORE_ABSENT: no record of the backup has all its files, or it is of a job that was cancelled; RELKVANU_STORE_STORAGE: it is no backup of the
 * folder's job, or the folder has a file whose number is 2^36 or more above the names of the backup; RELKVANU_STORE_IN_USE: a process has the job.
 * Otherwise as relkvanu_store_open. Nothing has changed then. */
int relkvanu_store_put_back(const char *backup, const char *path, const char *folder, relkvanu_store_recovered *recovered);

/* Counts since the opening. */
typedef struct {
    uint64_t commits, calls, largest; /* of a commit: its calls */
    uint64_t images, failed_images;   /* an image that can't be written is tried again after as many calls */
    uint64_t checkpoints, failed_checkpoints, retries;
    uint64_t swept;    /* files that sweeps have deleted */
    uint64_t unissued; /* files that the last whole sweep left, since their names were not given out: they are another job's, or its log was lost */
    uint64_t reserved[2];
} relkvanu_store_counts;

/* Writes the counts since the opening. */
void relkvanu_store_count(relkvanu_store *store, relkvanu_store_counts *counts);

/* What an operator watches. Later versions have more behind these, and write as many bytes as they are asked for. */
typedef struct {
    uint64_t wal_bytes;        /* of PATH-wal, at the last commit */
    uint64_t log_rows;         /* calls that the next opening may have to make again, and those of the two last images */
    uint64_t last_commit;      /* when it was, in ms of the wall clock since 1970; 0: none since the opening */
    uint64_t failed_deletions; /* files that discarders and sweeps could not delete, each time anew */
    uint64_t manifests;        /* manifests that were written since the opening */
    uint64_t failed_manifests; /* times that one could not be written: until it is, a recovery finds an earlier record, or none */
} relkvanu_store_measures;

/* Writes what is measured. measures_len is sizeof *measures. */
void relkvanu_store_measure(relkvanu_store *store, relkvanu_store_measures *measures, size_t measures_len);

/* What closed the store, as a text with a zero at its end; otherwise empty. Returns its length, also if text_len is too short. */
size_t relkvanu_store_message(relkvanu_store *store, char *text, size_t text_len);

/* clang-format on */

#ifdef __cplusplus
}
#endif
#endif

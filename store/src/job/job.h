/* A job beside its calls: an opening, its phases, its live records and what acknowledgements have beside their files. */
#ifndef RELKVANU_STORE_JOB_H
#define RELKVANU_STORE_JOB_H
#include "../log/log.h"

/* Which of the phases of relkvanu_store.h the job is in, and when its savepoint was triggered. It is a row of the job's file. */
struct rks_phase {
    uint64_t phase, failed, savepoint, started, term;
};

/* What a verb has made, and relkvanu_store_await_tick hands to the engine: a record that is pending, or where the job begins again. */
struct rks_order {
    relkvanu_answer answer, choice;
    uint64_t place, term;
};

/* At most so many are not told: as many checkpoints as may be pending, a savepoint, and a restore. */
enum { RKS_ORDERS = 66 };

struct rks_orders {
    struct rks_order of[RKS_ORDERS];
    size_t len;
};

/* A live record, with the acknowledgements of a pending one. */
struct rks_live {
    uint64_t id, triggered, bytes, millis;
    uint32_t *times; /* of acknowledgements since the trigger, in ms; NULL: no memory, or it is from before the opening */
    size_t times_len, times_room, acks;
    uint32_t kind;
    uint64_t first_part, last_part; /* the places between which its rows are; 0: there are none */
    bool is_done;
};

/* The rows of parts that a record has. */
struct rks_rows {
    uint64_t record, first, last;
};

/* Parts of one record that come one after the other in a group: they are one row, unless they have more than RKS_LONG_RUN bytes. */
struct rks_run {
    uint64_t record, place;
    size_t begins, ends; /* in the text */
};

/* A row of the history that the group writes: its numbers in the order of the columns. */
enum { RKS_PAST_NUMBERS = 12 };
struct rks_past {
    uint64_t numbers[RKS_PAST_NUMBERS];
    const char *reason;
    size_t reason_len;
};

enum rks_extras_statement { RKS_INSERT_PARTS, RKS_DELETE_PARTS, RKS_INSERT_PAST, RKS_EXTRAS_STATEMENTS };

/* What records have beside the log: only of the thread that leads (live_checkpoints.c, ack_extras.c, history.c). All but `live` is of the group. */
struct rks_extras {
    struct rks_live *live; /* in order of their numbers */
    size_t live_len, live_room;
    struct rks_text parts;
    struct rks_run *runs;
    size_t runs_len, runs_room, runs_inserted;
    struct rks_rows *ended; /* of records that have ended */
    size_t ended_len, ended_room;
    struct rks_past *past;
    size_t past_len, past_room;
    uint64_t now;             /* the moment of the list that is made */
    struct rks_rows from;     /* of a checkpoint, whose parts a savepoint gets */
    uint64_t to, to_first;    /* that savepoint, and the place of its first row; 0: none */
    bool has_parts, has_past; /* the tables */
    sqlite3_stmt *statements[RKS_EXTRAS_STATEMENTS];
};

/* What timers and discarders wait for, of what is committed. */
struct rks_view {
    uint64_t tick;              /* the moment of the next one; UINT64_MAX: only a call can bring one */
    uint64_t clock;             /* clock_offset */
    bool is_running, has_files; /* the job; files that wait for deletion */
    uint64_t term;              /* that runs */
    struct rks_phase phase;
};

/* What a new job has of an earlier one: the number of its first record, its opening and its identity. It has a storage folder whose marker is there, or its
 * storage is elsewhere. */
struct rks_birth {
    uint64_t first, epoch;
    bool is_elsewhere;
    char identity[RKS_IDENTITY + 1];
};

/* What a job is beside its calls. Only of the thread that leads, but for the last two. */
struct rks_job {
    relkvanu_settings settings;      /* those that it has, which may be others than those of the options */
    char identity[RKS_IDENTITY + 1]; /* in hexadecimal digits */
    uint64_t epoch;                  /* of this opening */
    struct {
        uint64_t record; /* 0: none */
        char job[RKS_IDENTITY + 1];
    } origin;                      /* the record that the job was made of, and the job from which it was carried */
    const struct rks_birth *birth; /* NULL: a new job is born as usual */
    bool names_last;               /* it is made again of manifests, and gets its names after its records */
    struct rks_phase phase;
    bool writes_phase;             /* the next commit writes it */
    char stop_line[64];            /* of the restore that ends a stop */
    bool is_news, drops_orders;    /* timers have to be told of the phase; the orders before are of no use any more */
    struct rks_orders made_orders; /* by the group under way */
    bool is_held;                  /* the last tick was held because of the checkpoints that are pending */
    bool has_stopped;              /* the job, in the group under way */
    uint32_t last_mode;
    uint64_t latest;         /* the coordinator's moment is this or a greater one */
    uint64_t tick_after;     /* the moment before which no tick is made again after one without memory */
    uint64_t seen[RKS_SEEN]; /* of the coordinator, when a read began */
    struct rks_extras extras;
    _Atomic(const char *) reader;  /* the thread that reads, or NULL */
    _Atomic uint64_t clock_offset; /* the moment minus the system's clock, modulo 2^64 */
};

/* What timers wait for and are told. Guarded by the mutex. All of it is committed. */
struct rks_timers {
    struct rks_view view;
    uint64_t version; /* of the view */
    bool tells_mode;  /* the job has stopped running, and no timer was told yet */
    int tells_phase;  /* the status by which a timer is told that the job is stopped, or that its stop has failed; 0: none */
    struct rks_orders orders;
    bool is_stopped; /* by relkvanu_store_stop */
};

/* open.c: a store that has nothing yet, or why there is none; frees all of one, and keeps errno; starts a thread of one, which gets no signals; an opening, of a job
 * with this birth if it is new. */
int rks_new_store(relkvanu_store **store, char message[RKS_MESSAGE]);
void rks_release_store(relkvanu_store *s);
bool rks_start(pthread_t *thread, void *(*runs)(void *), relkvanu_store *s);
int rks_open(relkvanu_store **store, const char *path, const relkvanu_store_options *options, relkvanu_store_report *report,
    const struct rks_birth *birth);

/* payload.c: whether what a call has more is well-formed: otherwise says which field is not. Forgets what was told. */
bool rks_check_more(const relkvanu_store_call *call);
void rks_clear_more(const relkvanu_store_call *call);

/* live_checkpoints.c: the live records of an opening; room for so many calls, and for what those of a group have; what follows from a call that was made; what is left of a group
 * that is committed. Each returns a status, or whether there was memory. */
int rks_begin_extras(relkvanu_store *s);
bool rks_has_room_for_extras(relkvanu_store *s, size_t calls);
bool rks_has_room_for_parts(relkvanu_store *s, const struct rks_waiter *more);
void rks_note_extras(relkvanu_store *s, const relkvanu_store_call *call);
void rks_forget_extras(relkvanu_store *s);
void rks_free_extras(relkvanu_store *s);
struct rks_live *rks_live_of(relkvanu_store *s, uint64_t id);

/* load.c: looks whether a complete record can be loaded, for the thread that leads: what its acknowledgements had, and its files in the folder. A restore
 * drops later checkpoints, so that each one to a record by its number looks first. RELKVANU_STORE_FILE_LOST, _DAMAGED, _NOT_DONE, _NO_MEMORY, or _ABSENT: there is no such
 * record. Notes the words for relkvanu_store_why. */
int rks_look_for(relkvanu_store *s, uint64_t id, struct rks_lost *lost);
void rks_say_lost(int status, const struct rks_lost *lost);

/* history.c: notes a record that is complete or has failed; writes what was noted, in the transaction under way. */
void rks_note_past(relkvanu_store *s, const struct rks_live *of, uint32_t outcome, const relkvanu_store_more *more);
int rks_write_past(relkvanu_store *s);

/* load.c: calls `each` for each subtask of a complete record, with its files, until that returns another status than RELKVANU_STORE_OK, and returns it. */
typedef int (*rks_each_subtask)(void *with, uint16_t vertex, uint16_t index, const uint64_t *files, size_t len);
int rks_subtasks_of(relkvanu *handle, uint64_t id, rks_each_subtask each, void *with);

/* ack_extras.c: the rows of what acknowledgements have beside their files. */
struct rks_subtask {
    uint16_t vertex, index;
    const uint64_t *files; /* in their order, or NULL: it is ascending */
    size_t files_len;
    const uint8_t *payload;
    size_t payload_len;
    uint64_t bytes, millis;
};

/* The parts of a record, in the order of the subtasks. */
struct rks_parts {
    struct rks_text text; /* to which they point */
    struct rks_subtask *at;
    size_t len;
};

/* A statement of these tables (sqlite.c). NULL: it was not prepared. */
sqlite3_stmt *rks_extras_statement(relkvanu_store *s, enum rks_extras_statement which, const char *sql);

void rks_note_part(relkvanu_store *s, const relkvanu_store_call *call);
int rks_insert_runs(relkvanu_store *s, size_t runs);
int rks_write_parts(relkvanu_store *s);
int rks_begin_parts(relkvanu_store *s);
int rks_read_parts(relkvanu_store *s, uint64_t record, struct rks_parts *parts);
const struct rks_subtask *rks_part_of(const struct rks_parts *parts, uint16_t vertex, uint16_t index);
void rks_free_parts(struct rks_parts *parts);

/* Appends a part to a text, unless it has neither a payload nor an order nor figures. Returns false without memory. */
bool rks_add_part(struct rks_text *text, const struct rks_subtask *part);

/* Writes the parts of a record of a recovery, in a transaction of their own. */
int rks_carry_parts(relkvanu_store *s, uint64_t record, const struct rks_text *parts);

/* limits.c: the words for an opening whose argument the coordinator has refused. RELKVANU_STORE_BAD_ARGUMENT, or _NO_MEMORY. */
int rks_tell_limit(const relkvanu_store_options *o, uint32_t argument, char *words, size_t len);

/* lock.c */
int rks_lock(relkvanu_store *s, const char *path);
void rks_unlock(relkvanu_store *s);
bool rks_is_forked(const relkvanu_store *s);
bool rks_in_place(relkvanu_store *s);
void rks_list(relkvanu_store *s);
void rks_unlist(relkvanu_store *s);

/* errors.c: notes for this thread why a storage did not do what it was to do. Keeps errno. */
void rks_why(const char *what, int storage_status);
void rks_why_file(uint64_t file, int storage_status);
void rks_why_words(const char *words);

/* Why a call was refused, and what it is about, while this term runs. */
void rks_why_refused(const relkvanu_store_call *call, uint64_t term);
void rks_forget_why(void);

/* phase.c */
bool rks_allows(const relkvanu_store *s, enum rks_verb verb);
bool rks_puts_off(relkvanu_store *s, const relkvanu_call *call, uint64_t now);
void rks_follow(relkvanu_store *s, enum rks_verb verb, const relkvanu_store_call *call);
void rks_order(relkvanu_store *s, const relkvanu_store_call *call);
void rks_drop_orders(relkvanu_store *s);
bool rks_has_saved(relkvanu_store *s);
void rks_stopped(relkvanu_store *s, const relkvanu_store_call *restore);
uint64_t rks_stop_expiry(const relkvanu_store *s);
int rks_write_phase(relkvanu_store *s);
int rks_read_phase(relkvanu_store *s);

/* With the mutex; the first only for the thread that leads. Whether a timer is to be told of an order, which is not told again. */
bool rks_show_phase(relkvanu_store *s);
bool rks_next_order(relkvanu_store *s, struct rks_order *order);

/* reads.c: whether this thread reads, so that a call of it would wait for itself; the status of such a call, which is noted for relkvanu_store_why. */
bool rks_is_reading(const relkvanu_store *s);
int rks_check_reader(const relkvanu_store *s);

/* Moves those of the files to the front that are garbage, and counts those whose names were not given out. */
int rks_deletable(relkvanu_store *s, uint64_t *files, size_t *files_len, size_t *unissued);

/* timer.c */
uint64_t rks_clock_ns(void);
uint64_t rks_monotonic_ns(void);            /* the clock of the conditions, */
struct timespec rks_moment_of(uint64_t ns); /* and a moment of it */
uint64_t rks_wall_clock_ms(void);
int rks_await(relkvanu_store *s, uint64_t seen, uint64_t until);

/* The moment of rks_clock_ns in so many ms. */
uint64_t rks_after(uint64_t ms);

/* Shows what timers, discarders and operators look at, and wakes those who wait if it has changed. Only for the thread that leads. */
void rks_show(relkvanu_store *s);

#endif

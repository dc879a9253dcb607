/* The log: calls that wait, the group that one commit has, and what SQLite keeps of them. */
#ifndef RELKVANU_STORE_LOG_H
#define RELKVANU_STORE_LOG_H
#include "../common.h"

/* What calls are beside what their lines say. */
enum rks_verb { RKS_CALLS, RKS_STOPS, RKS_BEGINS };

/* Calls, a read (calls is NULL) or a submit that waits in the queue. */
struct rks_waiter {
    struct rks_waiter *next;
    relkvanu_store_call *calls;
    size_t calls_len;
    uint32_t number;       /* its place among all that came, modulo 2^32 */
    atomic_bool is_called; /* to lead, or because it is answered: then it is its thread's again */
    int status;
    bool is_answered; /* otherwise its turn is to lead */
    bool is_submitted;
    uint64_t token;
    uint64_t now; /* the moment of its calls that have RELKVANU_STORE_NOW */
    enum rks_verb verb;
    int refusal; /* NOT_NOW: the phase of the job does not allow the verb. Other statuses: nothing of it was made */
    struct rks_lost lost;
    size_t first;    /* of its calls, in the receipts of the group */
    uint64_t awaits; /* of who leads: which work of the keeper it awaits; 0: none */
};

/* The line of a call that was made. */
struct rks_line {
    const uint8_t *at;
    size_t len;
};

/* Lines, which do not move. */
struct rks_block {
    struct rks_block *before;
    size_t len, room;
    uint8_t at[];
};

/* A call that was made, for the log. */
struct rks_row {
    struct rks_line line;
    relkvanu_answer answer;
    const uint64_t *files; /* of a take */
    uint64_t place;
    uint32_t chain; /* the checksum of all calls so far */
};

/* The last call that was answered, for a file. */
struct rks_tail {
    char identity[RKS_IDENTITY + 1];
    uint64_t inode, place;
    uint32_t chain;
};

enum rks_statement {
    RKS_BEGIN,
    RKS_COMMIT,
    RKS_ROLLBACK,
    RKS_INSERT,
    RKS_INSERT_MANY,
    RKS_IMAGE,
    RKS_CUT_LOG,
    RKS_DROP_IMAGES,
    RKS_STATEMENTS
};

/* The rows of RKS_INSERT_MANY, and the columns of a row. */
enum { RKS_MANY = 32, RKS_COLUMNS = 7 };

/* The log and its images, in SQLite. Only of the thread that leads. `place` and `chain` are those of the last call, whether it is committed or not: a
 * commit that fails closes the store. */
struct rks_log {
    sqlite3 *db;
    sqlite3_stmt *statements[RKS_STATEMENTS];
    uint64_t place, first, cut_to;                  /* the last call; the one before the first of the log; what may be cut */
    uint64_t image_place, image_before, next_image; /* of the last two images; when the next one is due */
    uint64_t logged;                                /* bytes of lines since the last image of this opening */
    uint32_t chain;
    struct rks_text image;
    int pages;             /* of the -wal */
    int code;              /* SQLite's, of the last failure */
    uint64_t committed_at; /* when the last commit was, in ms of the wall clock; 0: none since the opening */
};

/* The calls of the group under way, which one commit has. Only of the thread that leads. Each row has an answer that waits for the commit, and no answer is
 * told before. */
struct rks_group {
    struct rks_row *rows;
    relkvanu_group answers; /* those that wait for the commit are in it, */
    relkvanu_answer *held;  /* and in these places; */
    uint64_t *receipts;     /* and these are the receipts of the answers, in the order of the group's calls */
    size_t rows_len, receipts_len, rows_room;
    size_t inserted; /* rows, by the transaction that has begun */
    struct rks_block *lines;
    uint64_t took;             /* the sync of the last commit, in ns */
    size_t callers, expected;  /* of the group; those of the last one, and the ones that waited when it ended */
    size_t rests, resting;     /* for how many groups no leader waits for callers who did not come back; how many are left */
    relkvanu_store_counts led; /* counts of the leaders */
};

/* The thread that inserts rows while who leads makes more calls (ahead.c). */
struct rks_ahead {
    pthread_t thread;
    sem_t begins, ended;
    size_t rows, runs, bytes; /* up to which ones it inserts; of the parts so far */
    bool is_there, is_working, is_ending;
};

/* Callers whose numbers come one after the other sleep on one word, each with a bit of its own: one system call wakes as many of them as are to be woken, and
 * nobody else. The rest keeps the words of others out of its line of the cache. */
enum { RKS_BELLS = 64, RKS_BITS = 32 };

struct rks_bell {
    atomic_uint rung;
    char rest[60];
};

/* Who waits. Guarded by the mutex. While is_led one thread leads, and it alone has the log, the group and the job. */
struct rks_queue {
    struct rks_waiter *head, **tail;
    struct rks_waiter *sleepers, **sleepers_tail; /* who are answered, and have to be woken */
    atomic_bool has_sleepers;                     /* it changes with the mutex, and is read without it */
    size_t queued, loners;                        /* how many wait in it; and of these, join no group */
    uint32_t came;                                /* so far */
    struct rks_bell bells[RKS_BELLS];             /* not guarded */
    bool is_led;
    size_t gathers; /* who leads waits until so many do; 0: it does not wait for them */
    pthread_cond_t gathered;
};

/* Calls whose caller does not wait, once they are answered. Guarded by the mutex. */
struct rks_submits {
    struct rks_waiter *completed, **completed_tail;
    int event;
    pthread_t helper; /* leads for them */
    bool has_helper, is_ending;
    sem_t work;
};

/* image.c */
size_t rks_shape_of(const char *image, uint64_t *shape, size_t shape_len);
relkvanu_settings rks_settings(const uint64_t numbers[7]); /* of a line */
bool rks_settings_of(const char *image, size_t len, relkvanu_settings *settings);
char *rks_text_of(relkvanu *handle,
    const uint64_t *id); /* the image, or the metadata of a record, with a zero at its end, to be freed; NULL: no memory */
relkvanu_answer rks_open_image(relkvanu *handle, const void *image, size_t len);

/* wal.c: DAMAGED if answered calls are behind a frame that is damaged. */
int rks_check_wal(relkvanu_store *s);

/* last_commit.c */
void rks_write_tail(relkvanu_store *s);
int rks_check_tail(relkvanu_store *s);
int rks_drop_tail(relkvanu_store *s);

/* sqlite.c */
int rks_fault(relkvanu_store *s, const char *what);
int rks_status_of_read(relkvanu_store *s, const char *what);
int rks_run(relkvanu_store *s, const char *sql);
int rks_step(relkvanu_store *s, enum rks_statement statement, const char *what);

/* Makes one step of a statement, which is NULL if it was not prepared, and whose parameters were bound with this code, and resets it; whether there is a table. */
int rks_do(relkvanu_store *s, sqlite3_stmt *it, int bound, const char *what);
int rks_has_table(relkvanu_store *s, const char *name, bool *is_there);
int rks_ask(relkvanu_store *s, const char *sql, int64_t *number, char *text, size_t text_len);
int rks_open_database(relkvanu_store *s);
int rks_set_format(relkvanu_store *s, int format);
int rks_prepare(relkvanu_store *s);
int rks_checkpoint(relkvanu_store *s, int mode);
void rks_close_database(relkvanu_store *s);

/* commit.c */
uint32_t rks_chain(uint32_t chain, const struct rks_row *row);
uint32_t rks_image_sum(uint64_t place, uint32_t chain, const void *image, size_t len);
int rks_save(relkvanu_store *s);
int rks_write_image(relkvanu_store *s);
void rks_note_image(relkvanu_store *s);
int rks_commit(relkvanu_store *s, bool wants_image);

/* Inserts the rows and the runs of parts up to these that are not there yet, in the transaction that may have begun; gives up the transaction, if there is one. */
int rks_insert_rows(relkvanu_store *s, size_t rows, size_t runs);
int rks_roll_back(relkvanu_store *s);

/* ahead.c: has what was made so far inserted, if there is so much of it; inserts it while there is nothing to make; waits until nothing is inserted; ends the thread. */
void rks_insert_ahead(relkvanu_store *s);
void rks_insert_meanwhile(relkvanu_store *s);
void rks_await_rows(relkvanu_store *s);
void rks_end_ahead(relkvanu_store *s);

/* replay.c */
int rks_replay(relkvanu_store *s, relkvanu_store_report *report);

/* make.c: begins a group; makes more of its calls, and notes what has to be committed. Without memory none of these is made. */
void rks_begin_calls(relkvanu_store *s);
void rks_make(relkvanu_store *s, struct rks_waiter *more);

/* Begins the lines of a group; frees them all. */
void rks_begin_lines(relkvanu_store *s);
void rks_free_lines(relkvanu_store *s);

/* Makes a call in the group, at this moment if it has the store's, and writes its line. The call has the answer that is held, for its row and for what
 * follows from it; its caller gets the one that is told. Returns what relkvanu_group_make does. */
relkvanu_answer rks_make_line(relkvanu_store *s, relkvanu_store_call *call, uint64_t now, struct rks_line *line);

/* Notes all that follows from a call that the coordinator has made, and its row. */
void rks_accept(relkvanu_store *s, enum rks_verb verb, relkvanu_store_call *call, struct rks_line line);

/* group.c: room for so many rows, and answers that wait */
bool rks_has_rows(relkvanu_store *s, size_t len);
void rks_free_rows(relkvanu_store *s);
void rks_begin_group(relkvanu_store *s);

/* The receipt of the next answer of the group; holds back an answer of another function, which is the next one. */
void rks_note_receipt(relkvanu_store *s, relkvanu_answer receipt);
void rks_hold(relkvanu_store *s, relkvanu_answer answer);

/* The rows are committed, with RELKVANU_STORE_OK, or never will be. */
void rks_end_group(relkvanu_store *s, int status);

/* What the group has made is given up, with the coordinator that made it. The next group goes on with the receipts. */
void rks_drop_group(relkvanu_store *s);

/* The nth answer of the group, if it may be told. */
relkvanu_answer rks_told(const relkvanu_store *s, size_t nth);

/* queue.c */
int rks_enter(relkvanu_store *s, struct rks_waiter *w);

/* For a thread that leads alone: takes it out of the queue; commits the rows, shows what is committed, tells the last answer, and hands on. */
void rks_take_alone(relkvanu_store *s);
int rks_commit_alone(relkvanu_store *s, relkvanu_answer *answer);
void rks_lead(relkvanu_store *s, struct rks_waiter *self);
void rks_hand_on(relkvanu_store *s, int dead);

/* Answers those in a list. With the mutex: closes the store for good. Nobody may be told of a failure before. */
void rks_tell_all(relkvanu_store *s, struct rks_waiter *answered);
void rks_bury(relkvanu_store *s, int dead, const char *message);
void rks_drop_answers(relkvanu_store_call *calls, size_t calls_len);

/* submit.c */
void rks_complete(relkvanu_store *s, struct rks_waiter *w);
void rks_end_submits(relkvanu_store *s);

/* calls.c */
int rks_call(relkvanu_store *s, relkvanu_store_call *calls, size_t calls_len, enum rks_verb verb);

/* Whether the calls of a list can be made. Then their answers are empty. */
int rks_check_calls(relkvanu_store *s, relkvanu_store_call *calls, size_t calls_len);

#endif

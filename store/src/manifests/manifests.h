/* The manifests that a store keeps of its complete records, and the thread that writes them. */
#ifndef RELKVANU_STORE_MANIFESTS_H
#define RELKVANU_STORE_MANIFESTS_H
#include "../common.h"
#include "known_files.h"

/* Which manifests there are, and when others are due. Only of the thread that leads, but that who writes one uses the sums. A record whose manifest is not there yet
 * is told to nobody. */
struct rks_kept {
    uint64_t *ids; /* records that have one, in order */
    size_t len, room;
    uint64_t chosen, carrier;           /* the records whose manifest says that it is the choice; that has the numbers below. 0: none */
    uint64_t number, term, name, tries; /* what somebody was told is below these; when a failed one is tried again, by rks_clock_ns */
    bool is_on, is_due, has_failed, is_more; /* is_more: it is due for another reason than a completion */
    bool has_sums;                           /* manifests have checksums of files */
    struct rks_sums sums;                    /* what is known of files; used by who writes a manifest */
    struct rks_writing *beside;              /* what the thread that keeps manifests was given, or NULL */
    struct rks_place {                       /* where they go if it is not the folder: put is NULL otherwise */
        relkvanu_store_check_place check;
        relkvanu_store_put_named put;
        relkvanu_store_remove_named remove;
        relkvanu_store_list_named list;
        void *with;
    } place;
};

/* The thread that keeps manifests while others lead (keeper.c). Guarded by the mutex. */
struct rks_keeper {
    pthread_t thread;
    pthread_cond_t changed;
    struct rks_writing *work;         /* what it has to write, or NULL */
    uint64_t given;                   /* how many it was given */
    struct rks_waiter *holds, **tail; /* who is answered when it has written that */
    int refused;                      /* RELKVANU_STORE_STORAGE: the place was found to be another's */
    bool is_there, is_ending;
};

/* manifest.c: at an opening; notes what was made; after a commit; at the end. A manifest that can't be written is counted, and tried again. others_go_on: it may
 * be given to the keeper. RELKVANU_STORE_STORAGE: the place is another job's or a later opening's, whose recovery knows nothing of the commit. */
int rks_begin_manifests(relkvanu_store *s);
void rks_note_manifest(relkvanu_store *s, relkvanu_answer answer);
int rks_keep_manifests(relkvanu_store *s, bool others_go_on);
void rks_end_manifests(relkvanu_store *s);

/* keeper.c: whether there is such a thread, which is started then; gives it something to write; whether it still has it; waits until it has not; whether a waiter
 * is answered only when it has written what it was given (who leads awaits it itself); waits for what who leads awaits; ends the thread. */
bool rks_has_keeper(relkvanu_store *s);
void rks_keep_beside(relkvanu_store *s, struct rks_writing *work);
bool rks_is_keeping(relkvanu_store *s);
void rks_await_keeper(relkvanu_store *s);
bool rks_is_held(relkvanu_store *s, struct rks_waiter *w, const struct rks_waiter *own);
void rks_await_held(relkvanu_store *s, struct rks_waiter *own);
void rks_end_keeper(relkvanu_store *s);

/* Writes what it was given, by the keeper, and returns what rks_keep_manifests does (manifest.c). */
int rks_write_beside(struct rks_writing *work);

/* What closes a store whose place is another's. */
void rks_say_fenced(char message[RKS_MESSAGE]);

/* origin.c: notes in a file that is being made from which job its record was carried, if there is one; reads that at an opening; and tells it: "" if it is none. */
int rks_write_origin(relkvanu_store *s, uint64_t record, const char *job);
int rks_begin_origin(relkvanu_store *s);
const char *rks_origin_of(const relkvanu_store *s, uint64_t record);

/* Deletes the manifests of records that are not complete and live. Adds to *left how many it could not delete. */
int rks_sweep_manifests(relkvanu_store *s, size_t *left);

#endif

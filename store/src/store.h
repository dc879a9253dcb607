/* A store: what each layer has of it. */
#ifndef RELKVANU_STORE_STORE_H
#define RELKVANU_STORE_STORE_H
#include "files/files.h"
#include "job/job.h"
#include "log/log.h"
#include "manifests/manifests.h"

/* What an operator watches. Guarded by the mutex. */
struct rks_counted {
    relkvanu_store_measures measures;
    relkvanu_store_counts counts;
};

/* A thread leads (queue.c), and it alone makes calls and writes. Others see what is committed, with the mutex or by their turn to lead. */
struct relkvanu_store {
    relkvanu handles[2], *handle;   /* the coordinator is one of the two: of the thread that leads */
    relkvanu_store_options options; /* its pointers are not kept */
    pid_t process;
    char fault[RKS_MESSAGE]; /* the words of the last failure: of the thread that leads */
    struct rks_job_file file;
    struct rks_own_storage storage;
    struct rks_job job;
    struct rks_log log;
    struct rks_group group;
    struct rks_ahead ahead;
    struct rks_kept kept;

    pthread_mutex_t mutex;
    pthread_cond_t changed; /* of what timers and discarders wait for */
    int dead;               /* the status that closed the store. With the mutex */
    char message[RKS_MESSAGE];
    struct rks_queue queue;
    struct rks_submits submits;
    struct rks_timers timers;
    struct rks_discards discards;
    struct rks_keeper keeper;
    struct rks_counted counted;

    relkvanu_store *older; /* in the list of all stores of the process */
};

#endif

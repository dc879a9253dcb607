/* What all layers of the store share. include/relkvanu_store.h has what its users see. */
#ifndef RELKVANU_STORE_COMMON_H
#define RELKVANU_STORE_COMMON_H
#ifndef _GNU_SOURCE
#define _GNU_SOURCE
#endif
#include "../../include/relkvanu_store.h"

#include <dirent.h>
#include <pthread.h>
#include <semaphore.h>
#include <sqlite3.h>
#include <stdatomic.h>
#include <stdbool.h>
#include <sys/stat.h>
#include <sys/types.h>

/* After so many pages the -wal is brought into the file. Tests make it small. */
#ifndef RKS_WAL_PAGES
#define RKS_WAL_PAGES 2000
#endif

/* So many bytes of parts are a row of their own, which may be inserted before the commit. The same. */
#ifndef RKS_LONG_RUN
#define RKS_LONG_RUN (1 << 18)
#endif

enum { RKS_SEEN = 16, RKS_CUT = 1000, RKS_MESSAGE = RELKVANU_STORE_MESSAGE, RKS_IDENTITY = 32 };

/* The format of a file, its user_version. A backup has the format of its job and RKS_BACKUP: it is refused unless a backup is to be opened. */
enum { RKS_FORMAT = 2, RKS_BACKUP = 100 };

/* No name is greater, and no first name either. */
#define RKS_MOST_NAME (UINT64_C(1) << 62)

/* Bytes that grow. */
struct rks_text {
    uint8_t *at;
    size_t len, room;
};

/* Makes room for more bytes. Returns false if there is no memory; the bytes stay. */
bool rks_room(struct rks_text *text, size_t more);

/* Makes room in a list, whose pointer `list` points to, for so many items of this size. The same. */
bool rks_grow(void *list, size_t *room, size_t len, size_t size);

/* The place of the first item with this number or a greater one, in a list whose items begin with their numbers and are in their order. */
size_t rks_place_of(const void *list, size_t len, size_t size, uint64_t number);

/* A set of numbers: a tree of search.h, with the numbers in place of pointers. rks_add: false without memory. */
bool rks_has(void *const *set, uint64_t number);
bool rks_add(void **set, uint64_t number);
void rks_free_set(void *set);

/* The first file of a record that is not as it should be; error: errno of a folder that can't be read. */
struct rks_lost {
    uint64_t record, file, bytes, wanted; /* bytes: that a file which is there has; wanted: that its manifest says */
    bool is_there;
    int error;
};

#endif

/* The arrays of Java as the library wants them. Each is copied: up to 64 places to the stack, otherwise to a block of the library's
 * allocator. So nothing is pinned, and another thread that writes to an array changes nothing in a call. */
#ifndef RELKVANU_ROOM_H
#define RELKVANU_ROOM_H

#include "../../../include/relkvanu.h"
#include "../../../include/relkvanu_alloc.h"

#include <jni.h>
#include <stdbool.h>
#include <stdint.h>

enum { PLACES = 64 };

/* at is null only without memory. */
struct room {
    void *at;
    size_t len;
    uint64_t own[PLACES];
};

/* Makes room for an array. Returns false without memory: then the room has none. */
static inline bool open_room(JNIEnv *env, struct room *it, jarray array, size_t size) {
    it->len = (size_t)(*env)->GetArrayLength(env, array);
    it->at = it->own;
    if (it->len * size > sizeof it->own) {
        relkvanu_block block = rattle_alloc(it->len * size, sizeof(uint64_t));
        it->at = block.is ? block.at : NULL;
    }
    return it->at != NULL;
}

static inline void close_room(struct room *it) {
    if (it->at != NULL && it->at != it->own) {
        rattle_dealloc(it->at);
    }
}

static inline bool longs_room(JNIEnv *env, struct room *it, jlongArray array) {
    return open_room(env, it, array, sizeof(uint64_t));
}

static inline bool bytes_room(JNIEnv *env, struct room *it, jbyteArray array) {
    return open_room(env, it, array, sizeof(uint8_t));
}

static inline bool longs_in(JNIEnv *env, struct room *it, jlongArray array) {
    bool is_open = longs_room(env, it, array);
    if (is_open) {
        (*env)->GetLongArrayRegion(env, array, 0, (jsize)it->len, it->at);
    }
    return is_open;
}

static inline bool bytes_in(JNIEnv *env, struct room *it, jbyteArray array) {
    bool is_open = bytes_room(env, it, array);
    if (is_open) {
        (*env)->GetByteArrayRegion(env, array, 0, (jsize)it->len, it->at);
    }
    return is_open;
}

/* Copies what a call has written to the start of the room. */
static inline void longs_out(JNIEnv *env, const struct room *it, jlongArray array, uint64_t written) {
    if (written <= it->len) {
        (*env)->SetLongArrayRegion(env, array, 0, (jsize)written, it->at);
    }
}

static inline void bytes_out(JNIEnv *env, const struct room *it, jbyteArray array, uint64_t written) {
    if (written <= it->len) {
        (*env)->SetByteArrayRegion(env, array, 0, (jsize)written, it->at);
    }
}

#endif

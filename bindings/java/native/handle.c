/* The memory of a coordinator's handle: a block of the library's allocator. */
#include "../../../include/relkvanu.h"
#include "../../../include/relkvanu_alloc.h"

#include <jni.h>

JNIEXPORT jlong JNICALL Java_relkvanu_Native_create(JNIEnv *env, jclass of);
JNIEXPORT void JNICALL Java_relkvanu_Native_destroy(JNIEnv *env, jclass of, jlong handle);

JNIEXPORT jlong JNICALL Java_relkvanu_Native_create(JNIEnv *env, jclass of) {
    (void)env;
    (void)of;
    relkvanu_block block = rattle_alloc(sizeof(relkvanu), sizeof(void *));
    if (!block.is) {
        return 0;
    }
    *(relkvanu *)block.at = (relkvanu){0};
    return (jlong)(uintptr_t)block.at;
}

JNIEXPORT void JNICALL Java_relkvanu_Native_destroy(JNIEnv *env, jclass of, jlong handle) {
    (void)env;
    (void)of;
    rattle_dealloc((void *)(uintptr_t)handle);
}

/* The heap that refuses, for MemoryTest. */
#include "refusing_heap.h"

#include <jni.h>

JNIEXPORT void JNICALL Java_relkvanu_Heap_refuse(JNIEnv *env, jclass of, jlong nth);
JNIEXPORT jlong JNICALL Java_relkvanu_Heap_requests(JNIEnv *env, jclass of);

JNIEXPORT void JNICALL Java_relkvanu_Heap_refuse(JNIEnv *env, jclass of, jlong nth) {
    (void)env;
    (void)of;
    heap_refuse((uint64_t)nth);
}

JNIEXPORT jlong JNICALL Java_relkvanu_Heap_requests(JNIEnv *env, jclass of) {
    (void)env;
    (void)of;
    return (jlong)heap_requests();
}

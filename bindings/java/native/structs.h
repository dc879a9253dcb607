/* What include/relkvanu.h says, made from it by bindings/generate: change the header, and run that. */
/* clang-format off */
#ifndef RELKVANU_STRUCTS_H
#define RELKVANU_STRUCTS_H

#include "../../../include/relkvanu.h"

#include <jni.h>

/* relkvanu_settings */
enum { SETTINGS_NUMBERS = 7 };

static inline relkvanu_settings settings_of(const jlong *numbers) {
    return (relkvanu_settings){(uint64_t)numbers[0], (uint64_t)numbers[1], (uint64_t)numbers[2], (uint64_t)numbers[3], (uint64_t)numbers[4], (uint64_t)numbers[5], (bool)numbers[6]};
}

static inline relkvanu_settings settings_in(JNIEnv *env, jlongArray array) {
    jlong numbers[SETTINGS_NUMBERS] = {0};
    (*env)->GetLongArrayRegion(env, array, 0, SETTINGS_NUMBERS, numbers);
    return settings_of(numbers);
}

/* relkvanu_answer */
enum { ANSWER_NUMBERS = 4 };

static inline relkvanu_answer answer_of(const jlong *numbers) {
    return (relkvanu_answer){(uint32_t)numbers[0], (uint32_t)numbers[1], (uint64_t)numbers[2], (uint64_t)numbers[3]};
}

static inline relkvanu_answer answer_in(JNIEnv *env, jlongArray array) {
    jlong numbers[ANSWER_NUMBERS] = {0};
    (*env)->GetLongArrayRegion(env, array, 0, ANSWER_NUMBERS, numbers);
    return answer_of(numbers);
}

static inline void answer_to(jlong *numbers, relkvanu_answer it) {
    numbers[0] = (jlong)it.code;
    numbers[1] = (jlong)it.what;
    numbers[2] = (jlong)it.a;
    numbers[3] = (jlong)it.b;
}

static inline void answer_out(JNIEnv *env, jlongArray array, relkvanu_answer it) {
    jlong numbers[ANSWER_NUMBERS];
    answer_to(numbers, it);
    (*env)->SetLongArrayRegion(env, array, 0, ANSWER_NUMBERS, numbers);
}

/* relkvanu_counts */
enum { COUNTS_NUMBERS = 4 };

static inline void counts_to(jlong *numbers, relkvanu_counts it) {
    numbers[0] = (jlong)it.code;
    numbers[1] = (jlong)it.in_use;
    numbers[2] = (jlong)it.waiting;
    numbers[3] = (jlong)it.taken;
}

static inline void counts_out(JNIEnv *env, jlongArray array, relkvanu_counts it) {
    jlong numbers[COUNTS_NUMBERS];
    counts_to(numbers, it);
    (*env)->SetLongArrayRegion(env, array, 0, COUNTS_NUMBERS, numbers);
}

/* relkvanu_call */
enum { CALL_NUMBERS = 6 };

static inline relkvanu_call call_of(const jlong *numbers) {
    return (relkvanu_call){(uint32_t)numbers[0], (uint16_t)numbers[1], (uint16_t)numbers[2], (uint64_t)numbers[3], (uint64_t)numbers[4], (uint64_t)numbers[5]};
}

static inline relkvanu_call call_in(JNIEnv *env, jlongArray array) {
    jlong numbers[CALL_NUMBERS] = {0};
    (*env)->GetLongArrayRegion(env, array, 0, CALL_NUMBERS, numbers);
    return call_of(numbers);
}

static inline void call_to(jlong *numbers, relkvanu_call it) {
    numbers[0] = (jlong)it.kind;
    numbers[1] = (jlong)it.vertex;
    numbers[2] = (jlong)it.index;
    numbers[3] = (jlong)it.now;
    numbers[4] = (jlong)it.number;
    numbers[5] = (jlong)it.term;
}

static inline void call_out(JNIEnv *env, jlongArray array, relkvanu_call it) {
    jlong numbers[CALL_NUMBERS];
    call_to(numbers, it);
    (*env)->SetLongArrayRegion(env, array, 0, CALL_NUMBERS, numbers);
}

#endif

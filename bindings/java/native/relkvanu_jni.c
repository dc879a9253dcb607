/* What include/relkvanu.h says, made from it by bindings/generate: change the header, and run that. */
/* clang-format off */
#include "room.h"
#include "structs.h"

/* How many elements an answer has written to the start of the buffer. */
static uint64_t written(relkvanu_answer told) {
    if (told.code != RELKVANU_DONE) {
        return 0;
    }
    switch (told.what) {
    case RELKVANU_TAKEN:
    case RELKVANU_SHOWN:
    case RELKVANU_LINE_CONFIG:
    case RELKVANU_LINE_JOB:
    case RELKVANU_LINE_START:
    case RELKVANU_LINE_ALL:
    case RELKVANU_WRITTEN:
    case RELKVANU_SAVED:
    case RELKVANU_FILES:
        return told.a;
    default:
        return 0;
    }
}

JNIEXPORT jstring JNICALL Java_relkvanu_Native_version(JNIEnv *env, jclass of) {
    (void)of;
    return (*env)->NewStringUTF(env, relkvanu_version());
}

JNIEXPORT void JNICALL Java_relkvanu_Native_open(JNIEnv *env, jclass of, jlong handle, jlongArray settings, jlongArray shape, jlong now, jlong first, jlong first_word, jlong second_word, jlongArray out) {
    (void)of;
    relkvanu_settings in_settings = settings_in(env, settings);
    struct room of_shape;
    relkvanu_answer told = {RELKVANU_NO_MEMORY, 0, 0, 0};
    if (longs_in(env, &of_shape, shape)) {
        told = relkvanu_open((relkvanu *)(uintptr_t)handle, &in_settings, of_shape.at, of_shape.len, (uint64_t)now, (uint64_t)first, (uint64_t)first_word, (uint64_t)second_word);
    }
    close_room(&of_shape);
    answer_out(env, out, told);
}

JNIEXPORT void JNICALL Java_relkvanu_Native_close(JNIEnv *env, jclass of, jlong handle) {
    (void)env;
    (void)of;
    relkvanu_close((relkvanu *)(uintptr_t)handle);
}

JNIEXPORT void JNICALL Java_relkvanu_Native_tick(JNIEnv *env, jclass of, jlong handle, jlong now, jlongArray out) {
    (void)of;
    answer_out(env, out, relkvanu_tick((relkvanu *)(uintptr_t)handle, (uint64_t)now));
}

JNIEXPORT void JNICALL Java_relkvanu_Native_trigger(JNIEnv *env, jclass of, jlong handle, jlong now, jlongArray out) {
    (void)of;
    answer_out(env, out, relkvanu_trigger((relkvanu *)(uintptr_t)handle, (uint64_t)now));
}

JNIEXPORT void JNICALL Java_relkvanu_Native_savepoint(JNIEnv *env, jclass of, jlong handle, jlong now, jlongArray out) {
    (void)of;
    answer_out(env, out, relkvanu_savepoint((relkvanu *)(uintptr_t)handle, (uint64_t)now));
}

JNIEXPORT void JNICALL Java_relkvanu_Native_ack(JNIEnv *env, jclass of, jlong handle, jlong now, jlong id, jint vertex, jint index, jlongArray fresh, jlongArray reused, jlongArray out) {
    (void)of;
    struct room of_fresh;
    struct room of_reused;
    relkvanu_answer told = {RELKVANU_NO_MEMORY, 0, 0, 0};
    if (longs_in(env, &of_fresh, fresh) & longs_in(env, &of_reused, reused)) {
        told = relkvanu_ack((relkvanu *)(uintptr_t)handle, (uint64_t)now, (uint64_t)id, (uint16_t)vertex, (uint16_t)index, of_fresh.at, of_fresh.len, of_reused.at, of_reused.len);
    }
    close_room(&of_fresh);
    close_room(&of_reused);
    answer_out(env, out, told);
}

JNIEXPORT void JNICALL Java_relkvanu_Native_decline(JNIEnv *env, jclass of, jlong handle, jlong now, jlong id, jint vertex, jint index, jlongArray out) {
    (void)of;
    answer_out(env, out, relkvanu_decline((relkvanu *)(uintptr_t)handle, (uint64_t)now, (uint64_t)id, (uint16_t)vertex, (uint16_t)index));
}

JNIEXPORT void JNICALL Java_relkvanu_Native_dispose(JNIEnv *env, jclass of, jlong handle, jlong id, jlongArray out) {
    (void)of;
    answer_out(env, out, relkvanu_dispose((relkvanu *)(uintptr_t)handle, (uint64_t)id));
}

JNIEXPORT void JNICALL Java_relkvanu_Native_restore(JNIEnv *env, jclass of, jlong handle, jlong now, jlong savepoint, jlongArray shape, jlongArray out) {
    (void)of;
    struct room of_shape;
    relkvanu_answer told = {RELKVANU_NO_MEMORY, 0, 0, 0};
    if (longs_in(env, &of_shape, shape)) {
        told = relkvanu_restore((relkvanu *)(uintptr_t)handle, (uint64_t)now, (uint64_t)savepoint, of_shape.at, of_shape.len);
    }
    close_room(&of_shape);
    answer_out(env, out, told);
}

JNIEXPORT void JNICALL Java_relkvanu_Native_cancel(JNIEnv *env, jclass of, jlong handle, jlong now, jlongArray out) {
    (void)of;
    answer_out(env, out, relkvanu_cancel((relkvanu *)(uintptr_t)handle, (uint64_t)now));
}

JNIEXPORT void JNICALL Java_relkvanu_Native_configure(JNIEnv *env, jclass of, jlong handle, jlong now, jlongArray settings, jlongArray out) {
    (void)of;
    relkvanu_settings in_settings = settings_in(env, settings);
    answer_out(env, out, relkvanu_configure((relkvanu *)(uintptr_t)handle, (uint64_t)now, &in_settings));
}

JNIEXPORT void JNICALL Java_relkvanu_Native_take(JNIEnv *env, jclass of, jlong handle, jlongArray files, jlongArray out) {
    (void)of;
    struct room of_files;
    relkvanu_answer told = {RELKVANU_NO_MEMORY, 0, 0, 0};
    if (longs_room(env, &of_files, files)) {
        told = relkvanu_take((relkvanu *)(uintptr_t)handle, of_files.at, of_files.len);
    }
    longs_out(env, &of_files, files, written(told));
    close_room(&of_files);
    answer_out(env, out, told);
}

JNIEXPORT void JNICALL Java_relkvanu_Native_deleted(JNIEnv *env, jclass of, jlong handle, jlong file, jlongArray out) {
    (void)of;
    answer_out(env, out, relkvanu_deleted((relkvanu *)(uintptr_t)handle, (uint64_t)file));
}

JNIEXPORT void JNICALL Java_relkvanu_Native_undeleted(JNIEnv *env, jclass of, jlong handle, jlong file, jlongArray out) {
    (void)of;
    answer_out(env, out, relkvanu_undeleted((relkvanu *)(uintptr_t)handle, (uint64_t)file));
}

JNIEXPORT void JNICALL Java_relkvanu_Native_show(JNIEnv *env, jclass of, jlong handle, jlong id, jbyteArray json, jlongArray out) {
    (void)of;
    struct room of_json;
    relkvanu_answer told = {RELKVANU_NO_MEMORY, 0, 0, 0};
    if (bytes_room(env, &of_json, json)) {
        told = relkvanu_show((relkvanu *)(uintptr_t)handle, (uint64_t)id, of_json.at, of_json.len);
    }
    bytes_out(env, &of_json, json, written(told));
    close_room(&of_json);
    answer_out(env, out, told);
}

JNIEXPORT void JNICALL Java_relkvanu_Native_count(JNIEnv *env, jclass of, jlong handle, jlong file, jlongArray out) {
    (void)of;
    answer_out(env, out, relkvanu_count((relkvanu *)(uintptr_t)handle, (uint64_t)file));
}

JNIEXPORT void JNICALL Java_relkvanu_Native_mode(JNIEnv *env, jclass of, jlong handle, jlongArray out) {
    (void)of;
    answer_out(env, out, relkvanu_mode((relkvanu *)(uintptr_t)handle));
}

JNIEXPORT void JNICALL Java_relkvanu_Native_moment(JNIEnv *env, jclass of, jlong handle, jlongArray out) {
    (void)of;
    answer_out(env, out, relkvanu_moment((relkvanu *)(uintptr_t)handle));
}

JNIEXPORT void JNICALL Java_relkvanu_Native_due(JNIEnv *env, jclass of, jlong handle, jlongArray out) {
    (void)of;
    answer_out(env, out, relkvanu_due((relkvanu *)(uintptr_t)handle));
}

JNIEXPORT void JNICALL Java_relkvanu_Native_oldestExpiry(JNIEnv *env, jclass of, jlong handle, jlongArray out) {
    (void)of;
    answer_out(env, out, relkvanu_oldest_expiry((relkvanu *)(uintptr_t)handle));
}

JNIEXPORT void JNICALL Java_relkvanu_Native_choice(JNIEnv *env, jclass of, jlong handle, jlongArray out) {
    (void)of;
    answer_out(env, out, relkvanu_choice((relkvanu *)(uintptr_t)handle));
}

JNIEXPORT void JNICALL Java_relkvanu_Native_live(JNIEnv *env, jclass of, jlong handle, jlong place, jlongArray out) {
    (void)of;
    answer_out(env, out, relkvanu_live((relkvanu *)(uintptr_t)handle, (size_t)place));
}

JNIEXPORT void JNICALL Java_relkvanu_Native_missing(JNIEnv *env, jclass of, jlong handle, jlong id, jlongArray out) {
    (void)of;
    answer_out(env, out, relkvanu_missing((relkvanu *)(uintptr_t)handle, (uint64_t)id));
}

JNIEXPORT void JNICALL Java_relkvanu_Native_fileCounts(JNIEnv *env, jclass of, jlong handle, jlongArray out) {
    (void)of;
    counts_out(env, out, relkvanu_file_counts((relkvanu *)(uintptr_t)handle));
}

JNIEXPORT jlong JNICALL Java_relkvanu_Native_refusalText(JNIEnv *env, jclass of, jint what, jbyteArray text) {
    (void)of;
    struct room of_text;
    size_t told = 0;
    if (bytes_room(env, &of_text, text)) {
        told = relkvanu_refusal_text((uint32_t)what, of_text.at, of_text.len);
    }
    bytes_out(env, &of_text, text, told);
    close_room(&of_text);
    return (jlong)told;
}

JNIEXPORT jlong JNICALL Java_relkvanu_Native_answerText(JNIEnv *env, jclass of, jlongArray answer, jbyteArray text) {
    (void)of;
    relkvanu_answer in_answer = answer_in(env, answer);
    struct room of_text;
    size_t told = 0;
    if (bytes_room(env, &of_text, text)) {
        told = relkvanu_answer_text(&in_answer, of_text.at, of_text.len);
    }
    bytes_out(env, &of_text, text, told);
    close_room(&of_text);
    return (jlong)told;
}

JNIEXPORT void JNICALL Java_relkvanu_Native_line(JNIEnv *env, jclass of, jlong handle, jbyteArray line, jlongArray files, jlongArray out) {
    (void)of;
    struct room of_line;
    struct room of_files;
    relkvanu_answer told = {RELKVANU_NO_MEMORY, 0, 0, 0};
    if (bytes_in(env, &of_line, line) & longs_room(env, &of_files, files)) {
        told = relkvanu_line((relkvanu *)(uintptr_t)handle, of_line.at, of_line.len, of_files.at, of_files.len);
    }
    longs_out(env, &of_files, files, written(told));
    close_room(&of_line);
    close_room(&of_files);
    answer_out(env, out, told);
}

JNIEXPORT void JNICALL Java_relkvanu_Native_lineSays(JNIEnv *env, jclass of, jbyteArray line, jlongArray numbers, jlongArray out) {
    (void)of;
    struct room of_line;
    struct room of_numbers;
    relkvanu_answer told = {RELKVANU_NO_MEMORY, 0, 0, 0};
    if (bytes_in(env, &of_line, line) & longs_room(env, &of_numbers, numbers)) {
        told = relkvanu_line_says(of_line.at, of_line.len, of_numbers.at, of_numbers.len);
    }
    longs_out(env, &of_numbers, numbers, written(told));
    close_room(&of_line);
    close_room(&of_numbers);
    answer_out(env, out, told);
}

JNIEXPORT void JNICALL Java_relkvanu_Native_lineCall(JNIEnv *env, jclass of, jbyteArray line, jlongArray call, jlongArray first, jlongArray second, jlongArray out) {
    (void)of;
    struct room of_line;
    relkvanu_call in_call = call_in(env, call);
    struct room of_first;
    struct room of_second;
    relkvanu_answer told = {RELKVANU_NO_MEMORY, 0, 0, 0};
    if (bytes_in(env, &of_line, line) & longs_room(env, &of_first, first) & longs_room(env, &of_second, second)) {
        told = relkvanu_line_call(of_line.at, of_line.len, &in_call, of_first.at, of_first.len, of_second.at, of_second.len);
    }
    longs_out(env, &of_first, first, told.code == RELKVANU_DONE && told.what == RELKVANU_LINE_CALL ? told.a : 0);
    longs_out(env, &of_second, second, told.code == RELKVANU_DONE && told.what == RELKVANU_LINE_CALL ? told.b : 0);
    call_out(env, call, in_call);
    close_room(&of_line);
    close_room(&of_first);
    close_room(&of_second);
    answer_out(env, out, told);
}

JNIEXPORT void JNICALL Java_relkvanu_Native_callLine(JNIEnv *env, jclass of, jlongArray call, jlongArray first, jlongArray second, jbyteArray line, jlongArray out) {
    (void)of;
    relkvanu_call in_call = call_in(env, call);
    struct room of_first;
    struct room of_second;
    struct room of_line;
    relkvanu_answer told = {RELKVANU_NO_MEMORY, 0, 0, 0};
    if (longs_in(env, &of_first, first) & longs_in(env, &of_second, second) & bytes_room(env, &of_line, line)) {
        told = relkvanu_call_line(&in_call, of_first.at, of_first.len, of_second.at, of_second.len, of_line.at, of_line.len);
    }
    bytes_out(env, &of_line, line, written(told));
    close_room(&of_first);
    close_room(&of_second);
    close_room(&of_line);
    answer_out(env, out, told);
}

JNIEXPORT void JNICALL Java_relkvanu_Native_openingLines(JNIEnv *env, jclass of, jlongArray settings, jlongArray shape, jlong now, jbyteArray lines, jlongArray out) {
    (void)of;
    relkvanu_settings in_settings = settings_in(env, settings);
    struct room of_shape;
    struct room of_lines;
    relkvanu_answer told = {RELKVANU_NO_MEMORY, 0, 0, 0};
    if (longs_in(env, &of_shape, shape) & bytes_room(env, &of_lines, lines)) {
        told = relkvanu_opening_lines(&in_settings, of_shape.at, of_shape.len, (uint64_t)now, of_lines.at, of_lines.len);
    }
    bytes_out(env, &of_lines, lines, written(told));
    close_room(&of_shape);
    close_room(&of_lines);
    answer_out(env, out, told);
}

JNIEXPORT void JNICALL Java_relkvanu_Native_save(JNIEnv *env, jclass of, jlong handle, jbyteArray image, jlongArray out) {
    (void)of;
    struct room of_image;
    relkvanu_answer told = {RELKVANU_NO_MEMORY, 0, 0, 0};
    if (bytes_room(env, &of_image, image)) {
        told = relkvanu_save((relkvanu *)(uintptr_t)handle, of_image.at, of_image.len);
    }
    bytes_out(env, &of_image, image, written(told));
    close_room(&of_image);
    answer_out(env, out, told);
}

JNIEXPORT void JNICALL Java_relkvanu_Native_openSaved(JNIEnv *env, jclass of, jlong handle, jbyteArray image, jlong first_word, jlong second_word, jlongArray out) {
    (void)of;
    struct room of_image;
    relkvanu_answer told = {RELKVANU_NO_MEMORY, 0, 0, 0};
    if (bytes_in(env, &of_image, image)) {
        told = relkvanu_open_saved((relkvanu *)(uintptr_t)handle, of_image.at, of_image.len, (uint64_t)first_word, (uint64_t)second_word);
    }
    close_room(&of_image);
    answer_out(env, out, told);
}

JNIEXPORT void JNICALL Java_relkvanu_Native_liveFrom(JNIEnv *env, jclass of, jlong handle, jlong id, jlongArray out) {
    (void)of;
    answer_out(env, out, relkvanu_live_from((relkvanu *)(uintptr_t)handle, (uint64_t)id));
}

JNIEXPORT void JNICALL Java_relkvanu_Native_standing(JNIEnv *env, jclass of, jlong handle, jlong id, jlongArray out) {
    (void)of;
    answer_out(env, out, relkvanu_standing((relkvanu *)(uintptr_t)handle, (uint64_t)id));
}

JNIEXPORT void JNICALL Java_relkvanu_Native_filesOf(JNIEnv *env, jclass of, jlong handle, jlong id, jint vertex, jint index, jlongArray files, jlongArray out) {
    (void)of;
    struct room of_files;
    relkvanu_answer told = {RELKVANU_NO_MEMORY, 0, 0, 0};
    if (longs_room(env, &of_files, files)) {
        told = relkvanu_files_of((relkvanu *)(uintptr_t)handle, (uint64_t)id, (uint16_t)vertex, (uint16_t)index, of_files.at, of_files.len);
    }
    longs_out(env, &of_files, files, written(told));
    close_room(&of_files);
    answer_out(env, out, told);
}

JNIEXPORT void JNICALL Java_relkvanu_Native_pinsOf(JNIEnv *env, jclass of, jlong handle, jlong id, jlongArray files, jlongArray out) {
    (void)of;
    struct room of_files;
    relkvanu_answer told = {RELKVANU_NO_MEMORY, 0, 0, 0};
    if (longs_room(env, &of_files, files)) {
        told = relkvanu_pins_of((relkvanu *)(uintptr_t)handle, (uint64_t)id, of_files.at, of_files.len);
    }
    longs_out(env, &of_files, files, written(told));
    close_room(&of_files);
    answer_out(env, out, told);
}

JNIEXPORT void JNICALL Java_relkvanu_Native_waitingFile(JNIEnv *env, jclass of, jlong handle, jlong place, jlongArray out) {
    (void)of;
    answer_out(env, out, relkvanu_waiting_file((relkvanu *)(uintptr_t)handle, (size_t)place));
}

JNIEXPORT void JNICALL Java_relkvanu_Native_takenFiles(JNIEnv *env, jclass of, jlong handle, jlongArray files, jlongArray out) {
    (void)of;
    struct room of_files;
    relkvanu_answer told = {RELKVANU_NO_MEMORY, 0, 0, 0};
    if (longs_room(env, &of_files, files)) {
        told = relkvanu_taken_files((relkvanu *)(uintptr_t)handle, of_files.at, of_files.len);
    }
    longs_out(env, &of_files, files, written(told));
    close_room(&of_files);
    answer_out(env, out, told);
}

JNIEXPORT void JNICALL Java_relkvanu_Native_openFenced(JNIEnv *env, jclass of, jlong handle, jlongArray settings, jlongArray shape, jlong now, jlong first, jlong first_name, jlong first_word, jlong second_word, jlongArray out) {
    (void)of;
    relkvanu_settings in_settings = settings_in(env, settings);
    struct room of_shape;
    relkvanu_answer told = {RELKVANU_NO_MEMORY, 0, 0, 0};
    if (longs_in(env, &of_shape, shape)) {
        told = relkvanu_open_fenced((relkvanu *)(uintptr_t)handle, &in_settings, of_shape.at, of_shape.len, (uint64_t)now, (uint64_t)first, (uint64_t)first_name, (uint64_t)first_word, (uint64_t)second_word);
    }
    close_room(&of_shape);
    answer_out(env, out, told);
}

JNIEXPORT void JNICALL Java_relkvanu_Native_fence(JNIEnv *env, jclass of, jlong handle, jlong first_name, jlongArray out) {
    (void)of;
    answer_out(env, out, relkvanu_fence((relkvanu *)(uintptr_t)handle, (uint64_t)first_name));
}

JNIEXPORT void JNICALL Java_relkvanu_Native_term(JNIEnv *env, jclass of, jlong handle, jlongArray out) {
    (void)of;
    answer_out(env, out, relkvanu_term((relkvanu *)(uintptr_t)handle));
}

JNIEXPORT void JNICALL Java_relkvanu_Native_reserve(JNIEnv *env, jclass of, jlong handle, jlong term, jlong count, jlongArray out) {
    (void)of;
    answer_out(env, out, relkvanu_reserve((relkvanu *)(uintptr_t)handle, (uint64_t)term, (uint64_t)count));
}

JNIEXPORT void JNICALL Java_relkvanu_Native_forfeit(JNIEnv *env, jclass of, jlong handle, jlong term, jlongArray names, jlongArray out) {
    (void)of;
    struct room of_names;
    relkvanu_answer told = {RELKVANU_NO_MEMORY, 0, 0, 0};
    if (longs_in(env, &of_names, names)) {
        told = relkvanu_forfeit((relkvanu *)(uintptr_t)handle, (uint64_t)term, of_names.at, of_names.len);
    }
    close_room(&of_names);
    answer_out(env, out, told);
}

JNIEXPORT void JNICALL Java_relkvanu_Native_advance(JNIEnv *env, jclass of, jlong handle, jlong now, jlong term, jlong first_name, jlongArray out) {
    (void)of;
    answer_out(env, out, relkvanu_advance((relkvanu *)(uintptr_t)handle, (uint64_t)now, (uint64_t)term, (uint64_t)first_name));
}

JNIEXPORT void JNICALL Java_relkvanu_Native_ackIn(JNIEnv *env, jclass of, jlong handle, jlong term, jlong now, jlong id, jint vertex, jint index, jlongArray fresh, jlongArray reused, jlongArray out) {
    (void)of;
    struct room of_fresh;
    struct room of_reused;
    relkvanu_answer told = {RELKVANU_NO_MEMORY, 0, 0, 0};
    if (longs_in(env, &of_fresh, fresh) & longs_in(env, &of_reused, reused)) {
        told = relkvanu_ack_in((relkvanu *)(uintptr_t)handle, (uint64_t)term, (uint64_t)now, (uint64_t)id, (uint16_t)vertex, (uint16_t)index, of_fresh.at, of_fresh.len, of_reused.at, of_reused.len);
    }
    close_room(&of_fresh);
    close_room(&of_reused);
    answer_out(env, out, told);
}

JNIEXPORT void JNICALL Java_relkvanu_Native_declineIn(JNIEnv *env, jclass of, jlong handle, jlong term, jlong now, jlong id, jint vertex, jint index, jlongArray out) {
    (void)of;
    answer_out(env, out, relkvanu_decline_in((relkvanu *)(uintptr_t)handle, (uint64_t)term, (uint64_t)now, (uint64_t)id, (uint16_t)vertex, (uint16_t)index));
}

JNIEXPORT void JNICALL Java_relkvanu_Native_garbage(JNIEnv *env, jclass of, jlong handle, jlongArray files, jlongArray garbage, jlongArray unissued, jlongArray out) {
    (void)of;
    struct room of_files;
    struct room of_garbage;
    struct room of_unissued;
    relkvanu_answer told = {RELKVANU_NO_MEMORY, 0, 0, 0};
    if (longs_in(env, &of_files, files) & longs_room(env, &of_garbage, garbage) & longs_room(env, &of_unissued, unissued)) {
        told = relkvanu_garbage((relkvanu *)(uintptr_t)handle, of_files.at, of_files.len, of_garbage.at, of_garbage.len, of_unissued.at, of_unissued.len);
    }
    longs_out(env, &of_garbage, garbage, told.code == RELKVANU_DONE && told.what == RELKVANU_GARBAGE ? told.a : 0);
    longs_out(env, &of_unissued, unissued, told.code == RELKVANU_DONE && told.what == RELKVANU_GARBAGE ? told.b : 0);
    close_room(&of_files);
    close_room(&of_garbage);
    close_room(&of_unissued);
    answer_out(env, out, told);
}

JNIEXPORT jlong JNICALL Java_relkvanu_Native_fencedText(JNIEnv *env, jclass of, jint what, jbyteArray text) {
    (void)of;
    struct room of_text;
    size_t told = 0;
    if (bytes_room(env, &of_text, text)) {
        told = relkvanu_fenced_text((uint32_t)what, of_text.at, of_text.len);
    }
    bytes_out(env, &of_text, text, told);
    close_room(&of_text);
    return (jlong)told;
}

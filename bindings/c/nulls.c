/* The functions of the library whose lists may be null with length 0, and relkvanu_close, which may be given NULL. Each passes a list that
 * is empty as one element, which nobody reads or writes, because the proved functions take no null pointer. bindings/build_archive gives those
 * the names proved_relkvanu_.., which no shared library shows. Not proved: bindings/c/tests/empty.c tests it.
 * Made from include/relkvanu.h by bindings/generate: change the header, and run that. */
/* clang-format off */
#include "../../include/relkvanu.h"

/* The proved function of this name. A sanitizer sees a null that it is given. */
#define PROVED(function) __attribute__((visibility("hidden"), nonnull)) __typeof__(function) proved_##function

static const uint64_t element;

#define LIST(list) list##_len != 0 ? list : (void *)&element, list##_len

PROVED(relkvanu_close);

void relkvanu_close(relkvanu *handle) {
    if (handle != NULL) {
        proved_relkvanu_close(handle);
    }
}

PROVED(relkvanu_open);

relkvanu_answer relkvanu_open(relkvanu *handle, const relkvanu_settings *settings, const uint64_t *shape, size_t shape_len, uint64_t now, uint64_t first, uint64_t first_word, uint64_t second_word) {
    return proved_relkvanu_open(handle, settings, LIST(shape), now, first, first_word, second_word);
}

PROVED(relkvanu_ack);

relkvanu_answer relkvanu_ack(relkvanu *handle, uint64_t now, uint64_t id, uint16_t vertex, uint16_t index, const uint64_t *fresh, size_t fresh_len, const uint64_t *reused, size_t reused_len) {
    return proved_relkvanu_ack(handle, now, id, vertex, index, LIST(fresh), LIST(reused));
}

PROVED(relkvanu_restore);

relkvanu_answer relkvanu_restore(relkvanu *handle, uint64_t now, uint64_t savepoint, const uint64_t *shape, size_t shape_len) {
    return proved_relkvanu_restore(handle, now, savepoint, LIST(shape));
}

PROVED(relkvanu_take);

relkvanu_answer relkvanu_take(relkvanu *handle, uint64_t *files, size_t files_len) {
    return proved_relkvanu_take(handle, LIST(files));
}

PROVED(relkvanu_show);

relkvanu_answer relkvanu_show(relkvanu *handle, uint64_t id, uint8_t *json, size_t json_len) {
    return proved_relkvanu_show(handle, id, LIST(json));
}

PROVED(relkvanu_refusal_text);

size_t relkvanu_refusal_text(uint32_t what, uint8_t *text, size_t text_len) {
    return proved_relkvanu_refusal_text(what, LIST(text));
}

PROVED(relkvanu_line);

relkvanu_answer relkvanu_line(relkvanu *handle, const uint8_t *line, size_t line_len, uint64_t *files, size_t files_len) {
    return proved_relkvanu_line(handle, LIST(line), LIST(files));
}

PROVED(relkvanu_line_says);

relkvanu_answer relkvanu_line_says(const uint8_t *line, size_t line_len, uint64_t *numbers, size_t numbers_len) {
    return proved_relkvanu_line_says(LIST(line), LIST(numbers));
}

PROVED(relkvanu_line_call);

relkvanu_answer relkvanu_line_call(const uint8_t *line, size_t line_len, relkvanu_call *call, uint64_t *first, size_t first_len, uint64_t *second, size_t second_len) {
    return proved_relkvanu_line_call(LIST(line), call, LIST(first), LIST(second));
}

PROVED(relkvanu_call_line);

relkvanu_answer relkvanu_call_line(const relkvanu_call *call, const uint64_t *first, size_t first_len, const uint64_t *second, size_t second_len, uint8_t *line, size_t line_len) {
    return proved_relkvanu_call_line(call, LIST(first), LIST(second), LIST(line));
}

PROVED(relkvanu_make);

relkvanu_answer relkvanu_make(relkvanu *handle, const relkvanu_call *call, const uint64_t *first, size_t first_len, const uint64_t *second, size_t second_len, uint64_t *files, size_t files_len, uint8_t *line, size_t line_len, relkvanu_made *made) {
    return proved_relkvanu_make(handle, call, LIST(first), LIST(second), LIST(files), LIST(line), made);
}

PROVED(relkvanu_opening_lines);

relkvanu_answer relkvanu_opening_lines(const relkvanu_settings *settings, const uint64_t *shape, size_t shape_len, uint64_t now, uint8_t *lines, size_t lines_len) {
    return proved_relkvanu_opening_lines(settings, LIST(shape), now, LIST(lines));
}

PROVED(relkvanu_group_make);

relkvanu_answer relkvanu_group_make(relkvanu *handle, relkvanu_group *group, relkvanu_answer *held, size_t held_len, const relkvanu_call *call, const uint64_t *first, size_t first_len, const uint64_t *second, size_t second_len, uint64_t *files, size_t files_len, uint8_t *line, size_t line_len, relkvanu_made *made) {
    return proved_relkvanu_group_make(handle, group, LIST(held), call, LIST(first), LIST(second), LIST(files), LIST(line), made);
}

PROVED(relkvanu_group_hold);

relkvanu_answer relkvanu_group_hold(relkvanu_group *group, relkvanu_answer *held, size_t held_len, const relkvanu_answer *answer) {
    return proved_relkvanu_group_hold(group, LIST(held), answer);
}

PROVED(relkvanu_group_answer);

relkvanu_answer relkvanu_group_answer(const relkvanu_group *group, const relkvanu_answer *held, size_t held_len, uint64_t receipt) {
    return proved_relkvanu_group_answer(group, LIST(held), receipt);
}

PROVED(relkvanu_save);

relkvanu_answer relkvanu_save(relkvanu *handle, uint8_t *image, size_t image_len) {
    return proved_relkvanu_save(handle, LIST(image));
}

PROVED(relkvanu_open_saved);

relkvanu_answer relkvanu_open_saved(relkvanu *handle, const uint8_t *image, size_t image_len, uint64_t first_word, uint64_t second_word) {
    return proved_relkvanu_open_saved(handle, LIST(image), first_word, second_word);
}

PROVED(relkvanu_files_of);

relkvanu_answer relkvanu_files_of(relkvanu *handle, uint64_t id, uint16_t vertex, uint16_t index, uint64_t *files, size_t files_len) {
    return proved_relkvanu_files_of(handle, id, vertex, index, LIST(files));
}

PROVED(relkvanu_pins_of);

relkvanu_answer relkvanu_pins_of(relkvanu *handle, uint64_t id, uint64_t *files, size_t files_len) {
    return proved_relkvanu_pins_of(handle, id, LIST(files));
}

PROVED(relkvanu_taken_files);

relkvanu_answer relkvanu_taken_files(relkvanu *handle, uint64_t *files, size_t files_len) {
    return proved_relkvanu_taken_files(handle, LIST(files));
}

PROVED(relkvanu_open_fenced);

relkvanu_answer relkvanu_open_fenced(relkvanu *handle, const relkvanu_settings *settings, const uint64_t *shape, size_t shape_len, uint64_t now, uint64_t first, uint64_t first_name, uint64_t first_word, uint64_t second_word) {
    return proved_relkvanu_open_fenced(handle, settings, LIST(shape), now, first, first_name, first_word, second_word);
}

PROVED(relkvanu_forfeit);

relkvanu_answer relkvanu_forfeit(relkvanu *handle, uint64_t term, const uint64_t *names, size_t names_len) {
    return proved_relkvanu_forfeit(handle, term, LIST(names));
}

PROVED(relkvanu_ack_in);

relkvanu_answer relkvanu_ack_in(relkvanu *handle, uint64_t term, uint64_t now, uint64_t id, uint16_t vertex, uint16_t index, const uint64_t *fresh, size_t fresh_len, const uint64_t *reused, size_t reused_len) {
    return proved_relkvanu_ack_in(handle, term, now, id, vertex, index, LIST(fresh), LIST(reused));
}

PROVED(relkvanu_garbage);

relkvanu_answer relkvanu_garbage(relkvanu *handle, const uint64_t *files, size_t files_len, uint64_t *garbage, size_t garbage_len, uint64_t *unissued, size_t unissued_len) {
    return proved_relkvanu_garbage(handle, LIST(files), LIST(garbage), LIST(unissued));
}

PROVED(relkvanu_fenced_text);

size_t relkvanu_fenced_text(uint32_t what, uint8_t *text, size_t text_len) {
    return proved_relkvanu_fenced_text(what, LIST(text));
}

PROVED(relkvanu_align_open);

relkvanu_step relkvanu_align_open(relkvanu_aligner *aligner, uint8_t *inputs, size_t inputs_len) {
    return proved_relkvanu_align_open(aligner, LIST(inputs));
}

PROVED(relkvanu_align_element);

relkvanu_step relkvanu_align_element(const relkvanu_aligner *aligner, const uint8_t *inputs, size_t inputs_len, uint32_t input) {
    return proved_relkvanu_align_element(aligner, LIST(inputs), input);
}

PROVED(relkvanu_align_barrier);

relkvanu_step relkvanu_align_barrier(relkvanu_aligner *aligner, uint8_t *inputs, size_t inputs_len, uint32_t input, uint64_t id) {
    return proved_relkvanu_align_barrier(aligner, LIST(inputs), input, id);
}

PROVED(relkvanu_align_end);

relkvanu_step relkvanu_align_end(relkvanu_aligner *aligner, uint8_t *inputs, size_t inputs_len, uint32_t input) {
    return proved_relkvanu_align_end(aligner, LIST(inputs), input);
}

PROVED(relkvanu_align_give_up);

relkvanu_step relkvanu_align_give_up(relkvanu_aligner *aligner, uint8_t *inputs, size_t inputs_len, uint64_t id) {
    return proved_relkvanu_align_give_up(aligner, LIST(inputs), id);
}

PROVED(relkvanu_unaligned_open);

relkvanu_step relkvanu_unaligned_open(relkvanu_recorder *recorder, uint8_t *inputs, size_t inputs_len) {
    return proved_relkvanu_unaligned_open(recorder, LIST(inputs));
}

PROVED(relkvanu_unaligned_element);

relkvanu_step relkvanu_unaligned_element(const relkvanu_recorder *recorder, const uint8_t *inputs, size_t inputs_len, uint32_t input) {
    return proved_relkvanu_unaligned_element(recorder, LIST(inputs), input);
}

PROVED(relkvanu_unaligned_barrier);

relkvanu_step relkvanu_unaligned_barrier(relkvanu_recorder *recorder, uint8_t *inputs, size_t inputs_len, uint32_t input, uint64_t id) {
    return proved_relkvanu_unaligned_barrier(recorder, LIST(inputs), input, id);
}

PROVED(relkvanu_unaligned_end);

relkvanu_step relkvanu_unaligned_end(relkvanu_recorder *recorder, uint8_t *inputs, size_t inputs_len, uint32_t input) {
    return proved_relkvanu_unaligned_end(recorder, LIST(inputs), input);
}

PROVED(relkvanu_unaligned_give_up);

relkvanu_step relkvanu_unaligned_give_up(relkvanu_recorder *recorder, uint8_t *inputs, size_t inputs_len, uint64_t id) {
    return proved_relkvanu_unaligned_give_up(recorder, LIST(inputs), id);
}

PROVED(relkvanu_unaligned_overtake);

relkvanu_step relkvanu_unaligned_overtake(relkvanu_recorder *recorder, const uint8_t *inputs, size_t inputs_len, uint64_t id) {
    return proved_relkvanu_unaligned_overtake(recorder, LIST(inputs), id);
}

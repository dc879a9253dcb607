/* unknown.c: a part of a library that gives answers which no header has, as a later version may (bindings/build_odd_libraries), and one that says that
 * memory ran out. A package has to say so, and neither end the program nor take the answer for another. */
#include "../../../include/relkvanu.h"

enum { NUMBER = 999 };

/* A function whose answer is this one, whatever it is given. */
#pragma GCC diagnostic ignored "-Wunused-parameter"
#define GIVES(name, code, what, ...)                \
    relkvanu_answer relkvanu_##name(__VA_ARGS__) {  \
        return (relkvanu_answer){code, what, 1, 2}; \
    }

/* clang-format off */
GIVES(tick, RELKVANU_DONE, NUMBER, relkvanu *handle, uint64_t now)
GIVES(ack, RELKVANU_REFUSED, NUMBER, relkvanu *handle, uint64_t now, uint64_t id, uint16_t vertex, uint16_t index, const uint64_t *fresh,
    size_t fresh_len, const uint64_t *reused, size_t reused_len)
GIVES(decline, NUMBER, 7, relkvanu *handle, uint64_t now, uint64_t id, uint16_t vertex, uint16_t index)
GIVES(restore, RELKVANU_BAD_ARGUMENT, NUMBER, relkvanu *handle, uint64_t now, uint64_t savepoint, const uint64_t *shape, size_t shape_len)
GIVES(savepoint, RELKVANU_DONE, NUMBER, relkvanu *handle, uint64_t now)
GIVES(dispose, RELKVANU_DONE, NUMBER, relkvanu *handle, uint64_t id)
GIVES(cancel, RELKVANU_DONE, NUMBER, relkvanu *handle, uint64_t now)
GIVES(take, RELKVANU_DONE, NUMBER, relkvanu *handle, uint64_t *files, size_t files_len)
GIVES(deleted, RELKVANU_DONE, NUMBER, relkvanu *handle, uint64_t file)
GIVES(undeleted, RELKVANU_DONE, NUMBER, relkvanu *handle, uint64_t file)
GIVES(count, RELKVANU_DONE, NUMBER, relkvanu *handle, uint64_t file)
GIVES(line_says, RELKVANU_DONE, NUMBER, const uint8_t *line, size_t line_len, uint64_t *numbers, size_t numbers_len)
GIVES(mode, RELKVANU_DONE, NUMBER, relkvanu *handle)
GIVES(choice, RELKVANU_DONE, NUMBER, relkvanu *handle)
GIVES(live, RELKVANU_DONE, NUMBER, relkvanu *handle, size_t place)
GIVES(standing, RELKVANU_DONE, NUMBER, relkvanu *handle, uint64_t id)
GIVES(term, RELKVANU_FENCED, NUMBER, relkvanu *handle)
GIVES(reserve, RELKVANU_DONE, NUMBER, relkvanu *handle, uint64_t term, uint64_t count)
GIVES(save, RELKVANU_NO_MEMORY, 0, relkvanu *handle, uint8_t *image, size_t image_len)
/* clang-format on */

relkvanu_answer relkvanu_line(relkvanu *handle, const uint8_t *line, size_t line_len, uint64_t *files, size_t files_len) {
    return (relkvanu_answer){line_len == 0 ? RELKVANU_DONE : RELKVANU_BAD_LINE, NUMBER, 1, 2};
}

relkvanu_step relkvanu_align_element(const relkvanu_aligner *aligner, const uint8_t *inputs, size_t inputs_len, uint32_t input) {
    return (relkvanu_step){NUMBER, 1};
}

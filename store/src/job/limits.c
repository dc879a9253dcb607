/* Which of the settings, or what of the shape, of a new job is outside its limits. The coordinator decides; here are the words. */
#include "job.h"

#include <inttypes.h>
#include <stddef.h>
#include <stdio.h>

enum { LINES = 512, MOST_VERTICES = 256 };

/* A setting, and its limits as relkvanu.h has them. */
struct field {
    const char *name, *limits;
    size_t at;
};

static const struct field fields[] = {
    {"interval", "10 to 2^40 ms", offsetof(relkvanu_settings, interval)},
    {"pause", "0 to 2^40 ms", offsetof(relkvanu_settings, pause)},
    {"at_once", "1 to 64", offsetof(relkvanu_settings, at_once)},
    {"timeout", "1 to 2^40 ms", offsetof(relkvanu_settings, timeout)},
    {"tolerable", "0 to 1000", offsetof(relkvanu_settings, tolerable)},
    {"retained", "1 to 1000", offsetof(relkvanu_settings, retained)},
};

static uint64_t *value_of(relkvanu_settings *settings, const struct field *field) {
    return (uint64_t *)((char *)settings + field->at);
}

/* Asks the coordinator, so that no limit of a setting stands here a second time. */
static relkvanu_answer opening(const relkvanu_settings *settings) {
    static const uint64_t one[] = {1};
    uint8_t lines[LINES];
    return relkvanu_opening_lines(settings, one, 1, 0, lines, sizeof lines);
}

/* The first setting that is refused among others that are not. */
static int tell_setting(const relkvanu_settings *given, char *words, size_t len) {
    static const relkvanu_settings good = {.interval = 1000, .at_once = 1, .timeout = 1000, .retained = 1};
    for (size_t i = 0; i < sizeof fields / sizeof *fields; i++) {
        relkvanu_settings settings = good, other = *given;
        uint64_t value = *value_of(&other, &fields[i]);
        *value_of(&settings, &fields[i]) = value;
        relkvanu_answer answer = opening(&settings);
        if (answer.code == RELKVANU_NO_MEMORY) {
            return RELKVANU_STORE_NO_MEMORY;
        }
        if (answer.code != RELKVANU_DONE) {
            snprintf(words, len, "settings.%s is %" PRIu64 ", and has to be %s", fields[i].name, value, fields[i].limits);
            return RELKVANU_STORE_BAD_ARGUMENT;
        }
    }
    snprintf(words, len, "the settings are outside their limits");
    return RELKVANU_STORE_BAD_ARGUMENT;
}

static void tell_shape(const uint64_t *shape, size_t shape_len, char *words, size_t len) {
    uint64_t subtasks = 0;
    size_t empty = 0;
    while (empty < shape_len && shape[empty] != 0) {
        bool is_more = __builtin_add_overflow(subtasks, shape[empty], &subtasks);
        subtasks = is_more ? UINT64_MAX : subtasks;
        empty++;
    }
    if (shape_len == 0 || shape_len > MOST_VERTICES) {
        snprintf(words, len, "the shape has %zu vertices, and has to have 1 to %d", shape_len, MOST_VERTICES);
    } else if (empty < shape_len) {
        snprintf(words, len, "the shape has 0 subtasks in vertex %zu, and has to have at least 1 in each", empty);
    } else {
        snprintf(words, len, "the shape has %" PRIu64 " subtasks, and has to have at most 4096", subtasks);
    }
}

int rks_tell_limit(const relkvanu_store_options *o, uint32_t argument, char *words, size_t len) {
    if (argument == RELKVANU_BAD_CONFIG) {
        return tell_setting(&o->settings, words, len);
    }
    tell_shape(o->shape, o->shape_len, words, len);
    return RELKVANU_STORE_BAD_ARGUMENT;
}

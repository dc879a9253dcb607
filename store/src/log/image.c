/* What the store makes of the image of a coordinator (docs/LOGS.md), and reads in its text. */
#include "log.h"

#include <stdio.h>
#include <stdlib.h>
#include <string.h>
#include <sys/random.h>

/* An image has its members in the order of the alphabet, so the last shape is that of the coordinator. The text has a zero at its end. */
size_t rks_shape_of(const char *image, uint64_t *shape, size_t shape_len) {
    static const char KEY[] = "\"shape\":[";
    const char *at = NULL;
    size_t found = 0;
    for (const char *next = strstr(image, KEY); next != NULL; next = strstr(at, KEY)) {
        at = next + sizeof KEY - 1;
    }
    for (char *end; at != NULL && *at >= '0' && *at <= '9'; at = *end == ',' ? end + 1 : end) {
        uint64_t vertex = strtoull(at, &end, 10);
        if (found < shape_len) {
            shape[found] = vertex;
        }
        found++;
    }
    return found;
}

/* The settings of a line config or configure. */
relkvanu_settings rks_settings(const uint64_t numbers[7]) {
    return (relkvanu_settings){numbers[0], numbers[1], numbers[2], numbers[3], numbers[4], numbers[5], numbers[6] != 0};
}

/* The settings of the coordinator, in the member "config". */
bool rks_settings_of(const char *image, size_t len, relkvanu_settings *settings) {
    static const char KEY[] = "\"config\":{";
    char config[400] = "", keeps[6] = "";
    const char *at = memmem(image, len, KEY, sizeof KEY - 1);
    if (at == NULL) {
        return false;
    }
    size_t left = len - (size_t)(at - image);
    memcpy(config, at, left < sizeof config ? left : sizeof config - 1);
    unsigned long long n[6];
    int found = sscanf(config,
        "\"config\":{\"at_once\":%llu,\"interval\":%llu,\"keep_on_cancel\":%5[a-z],\"pause\":%llu,\"retained\":%llu,\"timeout\":%llu,"
        "\"tolerable\":%llu",
        &n[0], &n[1], keeps, &n[2], &n[3], &n[4], &n[5]);
    *settings = (relkvanu_settings){.interval = n[1], .pause = n[2], .at_once = n[0], .timeout = n[4], .tolerable = n[5], .retained = n[3]};
    settings->keep_on_cancel = strcmp(keeps, "true") == 0;
    return found == 7;
}

static relkvanu_answer write_text(relkvanu *handle, const uint64_t *id, uint8_t *text, size_t len) {
    return id == NULL ? relkvanu_save(handle, text, len) : relkvanu_show(handle, *id, text, len);
}

char *rks_text_of(relkvanu *handle, const uint64_t *id) {
    size_t len = write_text(handle, id, NULL, 0).a;
    char *text = malloc(len + 1);
    relkvanu_answer answer = {.code = RELKVANU_NO_MEMORY};
    if (text != NULL) {
        answer = write_text(handle, id, (uint8_t *)text, len);
    }
    if (answer.code != RELKVANU_DONE) {
        free(text);
        return NULL;
    }
    text[answer.a] = 0;
    return text;
}

/* Opens a coordinator with an image. RELKVANU_CLOSED: there are no random numbers. */
relkvanu_answer rks_open_image(relkvanu *handle, const void *image, size_t len) {
    uint64_t words[2];
    if (getentropy(words, sizeof words) != 0) {
        return (relkvanu_answer){.code = RELKVANU_CLOSED};
    }
    return relkvanu_open_saved(handle, image, len, words[0], words[1]);
}
